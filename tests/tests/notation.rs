//! The notation: texts with a fault, and submissions and programs of all kinds there and back.

use checker_tests::bodies::Bodies;
use checker_tests::examples::submission;
use checker_tests::generate::Source;
use checker_tests::notation::{
    assemble, assemble_program, show, show_deduction, show_program, term_number,
};
use checker_tests::reference::{program, verdict, Deductions, Refusal};
use checker_tests::tables::{unclaimed, Body, Reason, SHORTEST_SHEET};

/// M1 with other words for its parts.
const TEXT: &str = "\
# a comment

terms
  n
  plain 2
  message = enc(n, plain 2)
knowledge
  n
  message
derivation
  0: n = dec(message, plain 2)
claim
  guess plain 2
  step 0
  way b
";

#[test]
fn labels_and_comments_are_free() {
    let canonical = TEXT.replace("message", "t2").replace("# a comment\n\n", "");
    let assembled = assemble(TEXT).unwrap();
    assert_eq!(show(&assembled), Ok(canonical.clone()));
    assert_eq!(assemble(&canonical), Ok(assembled));
}

#[test]
fn a_fault_names_its_line() {
    let faults = [
        ("terms", "term", 3, "the section `terms` is expected"),
        ("  n\n  plain 2", "  n\n  n", 5, "`n` is listed already"),
        ("  n\n  plain 2", "  nonce\n  plain 2", 4, "`nonce` is no name"),
        ("  n\n  plain 2", "  xor n\n  plain 2", 4, "`xor` is none of plain, public, private"),
        ("= enc(n, plain 2)", "= xor(n, plain 2)", 6, "`xor` is none of pair, enc, enca, hash"),
        ("= enc(n, plain 2)", "= enc(n)", 6, "two terms are expected"),
        ("= enc(n, plain 2)", "= hash(n, n, n)", 6, "one term is expected"),
        ("= enc(n, plain 2)", "= hash()", 6, "no term `` is listed"),
        ("= enc(n, plain 2)", "= hash(plain 3)", 6, "no term `plain 3` is listed"),
        ("= enc(n, plain 2)", "= hash n", 6, "`(` is expected"),
        ("= enc(n, plain 2)", "= enc(n, plain 3)", 6, "no term `plain 3` is listed"),
        ("= enc(n, plain 2)", "= enc n, plain 2", 6, "`(` is expected"),
        ("= enc(n, plain 2)", "= record 9 9", 6, "a record has three bytes"),
        ("  message =", "  a message =", 6, "`a message` is no label"),
        ("knowledge", "", 10, "the section `knowledge` is expected"),
        ("0: n = dec", "1: n = dec", 11, "step 0 is expected"),
        ("0: n = dec", "0: n = xor", 11, "`xor` is no rule"),
        ("0: n = dec", "0: x = dec", 11, "no term `x` is listed"),
        ("dec(message, plain 2)", "dec(message)", 11, "two terms are expected"),
        ("dec(message, plain 2)", "hash(n, n, n)", 11, "one term is expected"),
        ("dec(message, plain 2)", "rule9(n)", 11, "two terms are expected"),
        ("guess plain 2", "step 0", 13, "`guess` is expected"),
        ("step 0", "step 256", 14, "`256` is no number below 256, nor `knowledge`"),
        ("step 0", "step known", 14, "`known` is no number below 256, nor `knowledge`"),
        ("way b", "way z", 15, "`z` is no number below 256"),
        ("way b", "way a", 15, "`companion` is missing"),
        ("  way b", "  way b\n  companion 0\n  companion 0", 17, "the claim has no further line"),
        ("  way b\n", "", 14, "`way` is missing"),
    ];
    for (before, after, line, message) in faults {
        let text = TEXT.replacen(before, after, 1);
        let fault = assemble(&text).expect_err(after);
        assert_eq!(fault.line, line, "{after}: {fault}");
        assert!(fault.message.contains(message), "{after}: {fault}");
    }
}

#[test]
fn a_hash_has_one_term() {
    let text = TEXT
        .replace("enc(n, plain 2)", "hash(n)")
        .replace("message", "t2")
        .replace("n = dec(t2, plain 2)", "t2 = hash(n)")
        .replace("# a comment\n\n", "");
    let submission = assemble(&text).unwrap();
    let bodies = Bodies::read(&submission).unwrap();
    assert_eq!((bodies.terms[2], bodies.derivation[0]), ([7, 0, 0], [7, 0, 0, 2]));
    assert_eq!(show(&submission), Ok(text));
}

#[test]
fn an_entry_takes_the_place_of_a_step() {
    for (way, word, shown) in [
        ("j", "knowledge", "knowledge"),
        ("k", "knowledge", "knowledge"),
        ("k", "255", "knowledge"),
        ("b", "knowledge", "255"),
        ("9", "knowledge", "255"),
        ("k", "254", "254"),
    ] {
        let claim = |step| format!("step {step}\n  way {way}\n");
        let text = TEXT.replace("step 0\n  way b\n", &claim(word));
        let submission = assemble(&text).unwrap();
        let text = show(&submission).unwrap();
        assert!(text.ends_with(&claim(shown)), "{text}");
        assert_eq!(assemble(&text), Ok(submission));
    }
}

/// What the checker refuses is written down all the same: a second term.
#[test]
fn a_second_term_of_a_hash_is_shown() {
    let mut bodies = Bodies::read(&submission("M1")).unwrap();
    bodies.terms.push([7, 0, 1]);
    bodies.derivation.push([7, 0, 2, 3]);
    let text = show(&bodies.submission()).unwrap();
    for line in ["t3 = hash(plain 1, plain 2)", "1: t3 = hash(plain 1, t2)"] {
        assert!(text.lines().any(|shown| shown.trim() == line), "{line}\n{text}");
    }
    assert_eq!(assemble(&text), Ok(bodies.submission()));
}

#[test]
fn what_has_no_words_is_shown_in_numbers() {
    let [kind, rule, way] = [unclaimed::KINDS, unclaimed::RULES, unclaimed::WAYS].map(|bad| bad[0]);
    let mut bodies = Bodies::read(&submission("M1")).unwrap();
    bodies.terms.extend([[kind, 0, 1], [1, 0, 1], [4, 5, 200]]);
    bodies.knowledge.push(77);
    bodies.derivation.extend([[1, 3, 2, 0], [rule, 0, 99, 1]]);
    bodies.claim = [88, 9, way, 3];
    let text = show(&bodies.submission()).unwrap();
    for line in [
        &format!("t3 = record {kind} 0 1"),
        "t4 = record 1 0 1",
        "t5 = pair(@5, @200)",
        "@77",
        "1: plain 1 = fst(t3, t2)",
        &format!("2: plain 2 = rule{rule}(plain 1, @99)"),
        "guess @88",
        &format!("way {way}"),
        "companion 3",
    ] {
        assert!(text.lines().any(|shown| shown.trim() == line), "{line}\n{text}");
    }
    assert_eq!(assemble(&text), Ok(bodies.submission()));
}

#[test]
fn every_submission_that_can_be_shown_assembles_again() {
    let mut source = Source::new(7);
    let mut shown = 0;
    for _ in 0..3000 {
        let submission = source.next_input().submission;
        if let Ok(text) = show(&submission) {
            assert_eq!(assemble(&text), Ok(submission), "{text}");
            shown += 1;
        }
    }
    assert!(shown > 2000);
}

/// M1's, as `verdict` prints it.
const PROGRAM: &str = "\
accepted 1
r3 = dec r1 r2
signal r3 = r0
";

const FIRST: usize = 3;

#[test]
fn a_program_is_written_as_verdict_prints_it() {
    let bytes = vec![1, 4, 1, 2, b'=', 3, 0];
    let lines = "r3 = dec r1 r2\nsignal r3 = r0\n";
    assert_eq!(assemble_program(PROGRAM, FIRST), Ok(bytes.clone()));
    assert_eq!(assemble_program(lines, FIRST), Ok(bytes.clone()));
    let commented = "\n# cut\n  r3  =  dec r1  r2\n\n# from a paper\nsignal r3 = r0";
    assert_eq!(assemble_program(commented, FIRST), Ok(bytes.clone()));
    assert_eq!(show_program(&bytes, FIRST).as_deref(), Some(lines));
    let lines = "r9 = hash r1\nr10 = fst r9\nsignal r10 hasinv r0\n";
    let bytes = vec![2, 7, 1, 0, 1, 9, 0, b'i', 10, 0];
    assert_eq!(assemble_program(lines, 9), Ok(bytes.clone()));
    assert_eq!(show_program(&bytes, 9).as_deref(), Some(lines));
    assert_eq!(assemble_program("accepted 0\nsignal r1 = r0", 9), Ok(vec![0, b'=', 1, 0]));
}

#[test]
fn a_fault_of_a_program_names_its_line() {
    let faults = [
        ("accepted 1", "accepted 2", 1, "`accepted 1` is expected"),
        ("accepted 1", "accepted", 1, "`accepted 1` is expected"),
        ("accepted 1", "refused 1 0", 1, "an instruction is `REGISTER = RULE REGISTERS`"),
        ("r3 = dec", "r2 = dec", 2, "r3 is expected before `=`"),
        ("r3 = dec", "3 = dec", 2, "r3 is expected before `=`"),
        ("dec r1 r2", "xor r1 r2", 2, "`xor` is no rule"),
        ("dec r1 r2", "dec(r1, r2)", 2, "`dec(r1,` is no rule"),
        ("dec r1 r2", "dec r1", 2, "two registers are expected"),
        ("dec r1 r2", "dec r1 r2 r0", 2, "two registers are expected"),
        ("dec r1 r2", "fst", 2, "one register is expected"),
        ("dec r1 r2", "rule9 r1", 2, "two registers are expected"),
        ("dec r1 r2", "dec r1 2", 2, "`2` is no register"),
        ("dec r1 r2", "dec r1 r256", 2, "`256` is no number below 256"),
        ("signal r3 = r0\n", "", 2, "the line `signal` is expected at the end"),
        ("signal r3 = r0", "signal r3 = r0\nr4 = fst r3", 4, "no line is expected after `signal`"),
        ("signal r3 = r0", "signal r3 = r0\nsignal r3 = r0", 4, "no line is expected"),
        ("signal r3 = r0", "signal r3 eq r0", 3, "`eq` is no test"),
        ("signal r3 = r0", "signal r3 =", 3, "two registers are expected"),
        ("signal r3 = r0", "signal", 3, "`` is no test"),
    ];
    for (before, after, line, message) in faults {
        let text = PROGRAM.replacen(before, after, 1);
        let fault = assemble_program(&text, FIRST).expect_err(after);
        assert_eq!(fault.line, line, "{after}: {fault}");
        assert!(fault.message.contains(message), "{after}: {fault}");
    }
    let fault = assemble_program("", FIRST).unwrap_err();
    assert_eq!((fault.line, fault.message.contains("`signal` is expected")), (0, true));
}

#[test]
fn what_a_program_has_no_words_for_is_shown_in_numbers() {
    let (rule, test) = (unclaimed::RULES[0], unclaimed::TESTS[0]);
    let bytes = vec![3, rule, 200, 0, 1, 1, 7, 7, 1, 0, test, 0, 255];
    let lines = format!(
        "r3 = rule{rule} r200 r0\nr4 = fst r1 r7\nr5 = hash r1\nsignal r0 test{test} r255\n"
    );
    assert_eq!(show_program(&bytes, FIRST), Some(lines.clone()));
    assert_eq!(assemble_program(&lines, FIRST), Ok(bytes.clone()));
    for length in [0, 1, 4, 12] {
        assert_eq!(show_program(&bytes[..length], FIRST), None, "{length}");
    }
    assert_eq!(show_program(&[&bytes[..], &[0]].concat(), FIRST), None);
}

#[test]
fn every_program_that_can_be_shown_assembles_again() {
    let mut source = Source::new(6);
    let [mut shown, mut accepted] = [0; 2];
    while accepted < 500 {
        let input = source.next_input();
        let Ok(bodies) = Bodies::read(&input.submission) else { continue };
        let first_written = bodies.first_written();
        for sent in &input.sent {
            if let Some(text) = show_program(&sent.program, first_written) {
                let assembled = assemble_program(&text, first_written);
                assert_eq!(assembled.as_ref(), Ok(&sent.program), "{text}");
                shown += 1;
            }
        }
        if let Ok(own) = program(&input.submission) {
            let lines = verdict(&input.submission);
            assert_eq!(assemble_program(&lines, first_written), Ok(own), "{lines}");
            accepted += 1;
        }
    }
    assert!(shown > 2000);
}

/// Those to x in M6.
const DEDUCTION: &str = "  0: t7 = fst(t8)\n  1: t5 = fst(t7)\n  2: x = snd(t5)\n";

#[test]
fn a_deduction_is_written_as_the_lines_of_a_derivation() {
    let submission = submission("M6");
    let steps = [[1, 8, 0, 7], [1, 7, 0, 5], [2, 5, 0, 1]];
    assert_eq!(show_deduction(&submission, &steps).as_deref(), Ok(DEDUCTION));
    assert_eq!(show_deduction(&submission, &[]).as_deref(), Ok(""));
    let contents = Refusal { reason: Reason::Contents, place: 0 };
    assert_eq!(show_deduction(&submission[1..], &steps), Err(contents));
}

#[test]
fn what_a_step_has_no_words_for_is_shown_in_numbers() {
    let rule = unclaimed::RULES[0];
    let shown = show_deduction(&submission("M6"), &[[rule, 8, 99, 200], [1, 8, 1, 7]]);
    assert_eq!(shown, Ok(format!("  0: @200 = rule{rule}(t8, @99)\n  1: t7 = fst(t8, x)\n")));
}

#[test]
fn a_term_is_named_as_it_is_shown() {
    let submission = submission("M8");
    for (text, number) in [
        ("g", Some(0)),
        ("public k", Some(1)),
        ("private k", Some(2)),
        ("t3", Some(3)),
        ("@3", Some(3)),
        ("@200", Some(200)),
        ("@256", None),
        ("k", None),
        ("t4", None),
        ("3", None),
        ("", None),
    ] {
        assert_eq!(term_number(&submission, text), Ok(number), "{text}");
    }
    assert!(term_number(&submission[1..], "g").is_err());
}

/// The steps to a term, in the place of the lines of the submission's own derivation.
#[test]
fn every_deduction_assembles_again() {
    let mut source = Source::new(8);
    let mut shown = 0;
    while shown < 1000 {
        let input = source.next_input();
        let Ok(deductions) = Deductions::of(&input.submission) else { continue };
        let bodies = Bodies::read(&input.submission).unwrap();
        for &term in &input.asked {
            let Ok(Some(steps)) = deductions.steps(term, SHORTEST_SHEET) else { continue };
            let none = Bodies { derivation: vec![], ..bodies.clone() };
            let text = show(&none.submission()).unwrap();
            let heading = format!("{}\n", Body::Derivation.word());
            let lines = show_deduction(&input.submission, &steps).unwrap();
            let text = text.replace(&heading, &format!("{heading}{lines}"));
            let expected = Bodies { derivation: steps, ..bodies.clone() };
            assert_eq!(assemble(&text), Ok(expected.submission()), "{text}");
            shown += 1;
        }
    }
}
