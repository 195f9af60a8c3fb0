//! Running programs with the guess's own name, with stale names and with fresh ones.

use checker_tests::generate::Input;
use checker_tests::reference::{code, Guesses, REFUSAL};
use checker_tests::tables::{Call, Reason};

use crate::tally::Tally;
use crate::{same, Hex};

pub fn compare_runs(input: &Input, found: &[u32], tally: &mut Tally) -> Result<(), String> {
    let mut guesses = Guesses::of(&input.submission);
    let mut answers = Vec::new();
    for ((name, program), &found) in input.runs.iter().zip(found) {
        let expected = match &mut guesses {
            Ok(guesses) => guesses.run(*name, program),
            Err(refusal) => Err(*refusal),
        };
        same(input, format_args!("run {name} {}", Hex(program)), code(expected), found)?;
        tally.count(Call::Run, expected);
        if expected.is_ok() {
            tally.rows.count_run(program);
        }
        answers.push((*name, expected));
    }
    if let Ok(guesses) = &guesses {
        tally.names.count_runs(guesses, &answers);
    }
    Ok(())
}

/// The program on an accepted submission's page signals 1 with the guess's own name, which is the
/// first. Every other name is that of a wrong guess, which signals 0, or is refused as stale.
pub fn compare_page_runs(input: &Input, found: &[u32], tally: &mut Tally) -> Result<(), String> {
    let guesses = Guesses::of(&input.submission).expect("the submission is accepted");
    assert_eq!(input.names[0], guesses.own(), "the guess's own name comes first");
    tally.count_accepted(&input.submission, guesses.kind());
    for (&name, &found) in input.names.iter().zip(found) {
        let expected = if name == guesses.own() {
            1
        } else if guesses.is_wrong(name) {
            0
        } else {
            Reason::Stale.number() * REFUSAL
        };
        same(input, format_args!("run {name} with the page"), expected, found)?;
        tally.names.count_page_run(&guesses, name);
    }
    Ok(())
}
