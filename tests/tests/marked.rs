//! The reference on the requirement's marked examples M1 to M10.

use checker_tests::bodies::Bodies;
use checker_tests::examples::submission;
use checker_tests::generate::padded;
use checker_tests::reference::{check, run, verdict, Refusal};
use checker_tests::tables::{Body, Reason};

const M1: [u8; 35] = [
    0x54, 0x03, 0x00, 0x10, 0x4B, 0x02, 0x00, 0x19, 0x44, 0x01, 0x00, 0x1B, 0x56, 0x01, 0x00, 0x1F,
    0x01, 0x00, 0x01, 0x01, 0x00, 0x02, 0x05, 0x00, 0x01, 0x00, 0x02, 0x04, 0x02, 0x01, 0x00, 0x01,
    0x00, 0x62, 0x00,
];
const M1_PAGE: [u8; 7] = [0x01, 0x04, 0x01, 0x02, 0x3D, 0x03, 0x00];

#[test]
fn each_has_its_verdict() {
    let verdicts = [
        ("M1", "accepted 1"),
        ("M2", "refused 9 0"),
        ("M3", "accepted 3"),
        ("M4", "refused 9 1"),
        ("M5", "refused 8 1"),
        ("M6", "accepted 3"),
        ("M7", "refused 10 0"),
        ("M8", "accepted 1"),
        ("M9", "refused 8 0"),
        ("M10", "refused 5 0"),
    ];
    for (name, expected) in verdicts {
        assert_eq!(verdict(&submission(name)).lines().next(), Some(expected), "{name}");
    }
}

#[test]
fn m1_has_its_bytes_and_text() {
    assert_eq!(submission("M1"), M1);
    assert_eq!(verdict(&M1), "accepted 1\nr3 = dec r1 r2\nsignal r3 = r0\n");
}

#[test]
fn m1_writes_its_page_and_nothing_after_it() {
    let mut page = [0xAA; 9];
    assert_eq!(check(&M1, &mut page), Ok(1));
    assert_eq!(page, [0x01, 0x04, 0x01, 0x02, 0x3D, 0x03, 0x00, 0xAA, 0xAA]);
}

#[test]
fn a_short_page_keeps_its_bytes() {
    let mut page = [0xAA; 6];
    assert_eq!(check(&M1, &mut page), Err(Refusal { reason: Reason::Page, place: 7 }));
    assert_eq!(page, [0xAA; 6]);
}

#[test]
fn m1_signals_the_right_name_only() {
    assert_eq!(run(&M1, 2, &M1_PAGE), Ok(true));
    assert_eq!(run(&M1, 3, &M1_PAGE), Ok(false));
}

#[test]
fn m1_is_accepted_up_to_the_limits() {
    let m1 = Bodies::read(&M1).unwrap();
    let first_line =
        |bodies: Bodies| verdict(&bodies.submission()).lines().next().map(String::from);
    let limits = [Body::Terms, Body::Knowledge, Body::Derivation].map(Body::most);
    assert_eq!(limits, [250, 64, 128]);
    let [terms, knowledge, steps] = limits;
    let at_the_limits = first_line(padded(&m1, terms, knowledge, steps));
    assert_eq!(at_the_limits, Some(format!("accepted {steps}")));
    for place in 0..limits.len() {
        let mut counts = limits;
        counts[place] += 1;
        let [terms, knowledge, steps] = counts;
        let over = first_line(padded(&m1, terms, knowledge, steps));
        assert_eq!(over, Some(format!("refused 2 {place}")));
    }
}
