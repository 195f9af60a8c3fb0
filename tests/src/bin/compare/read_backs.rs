//! Reading programs back, and checking again what was read back.

use checker_tests::bodies::Bodies;
use checker_tests::generate::{Input, Sent};
use checker_tests::reference::{self, code, Checked, Refusal};
use checker_tests::tables::{Call, Claimed, Deducible, Kind, Reason, Way, LONGEST_PROGRAM};

use crate::answers::{Again, ReadBack, PAINT};
use crate::tally::Tally;
use crate::{difference, same, same_bytes, Hex};

/// Each program that was sent. That of an accepted submission is the first.
pub fn compare_read_backs(
    input: &Input,
    found: &[ReadBack],
    tally: &mut Tally,
) -> Result<(), String> {
    let own = reference::program(&input.submission).ok();
    if let Some(own) = &own {
        assert_eq!(&input.sent[0].program, own, "the submission's own program comes first");
    }
    for (number, (sent, found)) in input.sent.iter().zip(found).enumerate() {
        let is_own = own.is_some() && number == 0;
        compare_read_back(input, sent, is_own, found, tally)
            .map_err(|difference| format!("{difference}\nprogram {}", Hex(&sent.program)))?;
    }
    Ok(())
}

/// The answer and the whole page; and where the program is accepted, what becomes of its bodies in the
/// place of the submission's own.
fn compare_read_back(
    input: &Input,
    sent: &Sent,
    is_own: bool,
    found: &ReadBack,
    tally: &mut Tally,
) -> Result<(), String> {
    let mut expected_page = sent.page.clone();
    let expected = reference::read_back(&input.submission, &sent.program, &mut expected_page);
    let call = format!("read_back with a page of {} bytes", sent.page.len());
    same(input, &call, code(expected), found.answer)?;
    same_bytes(input, &call, &expected_page, &found.page)?;
    tally.count(Call::ReadBack, expected.map(|_| true));
    match expected {
        Ok(length) => {
            let read_back = &expected_page[..usize::from(length)];
            let Some(again) = &found.again else {
                return Err(difference(input, "write of what was read back", "nothing is written"));
            };
            let check = compare_again(input, read_back, again)?;
            if is_own {
                compare_own(input, sent, read_back, again)?;
                tally.programs.own += 1;
            }
            tally.programs.count_accepted(input, sent, read_back, check, &again.page);
        }
        Err(refusal) => tally.programs.count_refused(input, sent, refusal),
    }
    Ok(())
}

/// The program of an accepted submission gives the submission's own derivation and claim, and these the
/// program again.
fn compare_own(input: &Input, sent: &Sent, read_back: &[u8], again: &Again) -> Result<(), String> {
    let own = Bodies::read(&input.submission).expect("the submission is accepted");
    let [.., derivation, claim] = own.bytes();
    same_bytes(input, "read_back of the own page", &[derivation, claim].concat(), read_back)?;
    let page = &again.page[..sent.program.len()];
    same_bytes(input, "check of what the own page is read back to", &sent.program, page)
}

/// What check answers to the bodies that were read back. Their steps have the shapes of their rules; and
/// where they are accepted, their page is read back to themselves.
fn compare_again(input: &Input, read_back: &[u8], found: &Again) -> Result<Checked<u8>, String> {
    let own = Bodies::read(&input.submission).expect("checks 1 to 5 are passed");
    let bodies = own.with(read_back);
    let call = "write of what was read back";
    same_bytes(input, call, &bodies.submission(), &found.submission)?;
    let mut expected_page = vec![PAINT; LONGEST_PROGRAM];
    let expected = reference::check(&found.submission, &mut expected_page);
    let call = "check of what was read back";
    same(input, call, code(expected), found.check)?;
    same_bytes(input, call, &expected_page, &found.page)?;
    match expected {
        Ok(_) => {
            let again = found.read_back.as_deref().unwrap_or(&[]);
            same_bytes(input, "read_back of what was read back", read_back, again)?;
        }
        Err(Refusal { reason, .. }) if !may_be_refused(&bodies, reason) => {
            return Err(difference(input, call, &format!("refused {}", reason.number())));
        }
        Err(_) => (),
    }
    Ok(expected)
}

/// Whether bodies that were read back may be refused for this.
fn may_be_refused(bodies: &Bodies, reason: Reason) -> bool {
    let [guess, _, way, _] = bodies.claim;
    let kind = Kind::from_number(bodies.terms[usize::from(guess)][0]);
    let is_key = kind.is_some_and(|kind| kind.inverse().is_some());
    let way = Way::from_letter(way).expect("the test is that of a way");
    match way.claimed() {
        Claimed::Deducible(Deducible::Inverse) if !is_key => reason == Reason::Claim,
        Claimed::Deducible(_) => matches!(reason, Reason::Unfounded | Reason::NotShown),
        Claimed::Verifier(_) => {
            matches!(reason, Reason::Reachable | Reason::NoSecondWay | Reason::Undone)
        }
    }
}
