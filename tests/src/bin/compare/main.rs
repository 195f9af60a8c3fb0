//! Compares the checker with the reference on the deepest inputs, on the published examples and on
//! many random inputs, and stops at the first difference. The checker is called on a thread with a
//! small stack.
//!
//! `compare [--seed SEED] [--count COUNT]`

mod answers;
mod deductions;
mod forms;
mod inverses;
mod joins;
mod keys;
mod names;
mod pools;
mod programs;
mod read_backs;
mod rows;
mod runs;
mod shown;
mod tally;
mod ways;

use std::fmt::{self, Display};
use std::process::ExitCode;
use std::time::Instant;

use answers::{answers, Answers, STACK};
use checker_tests::arguments::seed_and_count;
use checker_tests::bodies::Bodies;
use checker_tests::examples;
use checker_tests::generate::{claimed_term, deepest, Input, Source};
use checker_tests::reference::{self, code, REFUSAL};
use checker_tests::tables::Call;
use deductions::compare_deductions;
use forms::compare_form;
use inverses::compare_inverses;
use joins::compare_joins;
use read_backs::compare_read_backs;
use runs::{compare_page_runs, compare_runs};
use tally::Tally;

const DEFAULT_COUNT: u64 = 200_000;

/// How many random inputs one thread calls the checker on.
const BATCH: u64 = 500;

fn main() -> ExitCode {
    let result = seed_and_count("compare", DEFAULT_COUNT).and_then(|(seed, count)| {
        compare(seed, count).map_err(|message| format!("seed {seed}, {message}"))
    });
    match result {
        Ok(()) => ExitCode::SUCCESS,
        Err(message) => {
            eprintln!("{message}");
            ExitCode::FAILURE
        }
    }
}

fn compare(seed: u64, count: u64) -> Result<(), String> {
    let start = Instant::now();
    let mut tally = Tally::default();
    eprintln!("deepest inputs on a stack of {} KB", STACK / 1024);
    for titled in deepest() {
        let thread_name = titled.0.clone();
        compare_inputs(&thread_name, &[titled], &mut tally)?;
    }
    let mut source = Source::new(seed);
    let programs = examples::programs();
    let submissions: Vec<_> =
        examples::names().iter().map(|name| examples::submission(name)).collect();
    let examples: Vec<_> = examples::names()
        .into_iter()
        .zip(&submissions)
        .map(|(name, submission)| {
            let over_it = programs.iter().filter(|program| program.over == name);
            let sent = over_it.map(|program| program.bytes.clone()).collect();
            let input = source.example(submission.clone(), sent, &submissions);
            (format!("example {name}"), input)
        })
        .collect();
    each_is_told_apart(&examples)?;
    compare_inputs("examples", &examples, &mut tally)?;
    for first in (0..count).step_by(BATCH as usize) {
        let numbers = first..count.min(first + BATCH);
        let thread_name = format!("inputs {} to {}", numbers.start, numbers.end - 1);
        let inputs: Vec<_> =
            numbers.map(|number| (format!("input {number}"), source.next_input())).collect();
        compare_inputs(&thread_name, &inputs, &mut tally)?;
    }
    tally.print();
    println!(
        "deepest inputs, examples and {count} inputs from seed {seed} alike in {:.1} s",
        start.elapsed().as_secs_f64()
    );
    tally.complete()
}

/// Fails where one of the inputs would be accepted and its program is not run with a wrong guess.
fn each_is_told_apart(inputs: &[(String, Input)]) -> Result<(), String> {
    for (title, input) in inputs {
        let Ok(program) = reference::program(&input.submission) else { continue };
        let is_wrong = |&name: &u16| reference::is_wrong_guess(&input.submission, name) == Ok(true);
        if input.page.len() < program.len() || !input.names.iter().any(is_wrong) {
            return Err(format!("{title}: its program is run with no wrong guess"));
        }
    }
    Ok(())
}

/// Every call on every input, each of which has a title, on both sides.
fn compare_inputs(
    thread_name: &str,
    inputs: &[(String, Input)],
    tally: &mut Tally,
) -> Result<(), String> {
    let found = answers(thread_name, inputs.iter().map(|(_, input)| input));
    for ((title, input), found) in inputs.iter().zip(&found) {
        compare_input(input, found, tally)
            .map_err(|difference| format!("{title}: {difference}"))?;
    }
    Ok(())
}

fn compare_input(input: &Input, found: &Answers, tally: &mut Tally) -> Result<(), String> {
    compare_check(input, found, tally)?;
    for (&term, &found) in input.asked.iter().zip(&found.deducible) {
        let expected = reference::deducible(&input.submission, term);
        same(input, format_args!("deducible {term}"), code(expected), found)?;
        tally.count(Call::Deducible, expected);
        if expected == Ok(true) {
            let needed = reference::needed_keys(&input.submission, term);
            tally.rows.count_needed(&needed.expect("the term is deducible"));
        }
    }
    compare_runs(input, &found.runs, tally)?;
    for (form, found) in input.forms.iter().zip(&found.writes) {
        compare_form(input, form, found, tally)?;
    }
    compare_inverses(input, &found.inverses, tally)?;
    compare_read_backs(input, &found.read_backs, tally)?;
    compare_deductions(input, &found.deductions, tally)?;
    compare_joins(input, &found.joins, tally)
}

/// The verdict and the whole page; and where the submission is accepted, what the page signals, and
/// that the term claimed is deducible.
fn compare_check(input: &Input, found: &Answers, tally: &mut Tally) -> Result<(), String> {
    let mut expected_page = input.page.clone();
    let expected = reference::check(&input.submission, &mut expected_page);
    let call = format!("check with a page of {} bytes", input.page.len());
    same(input, &call, code(expected), found.check)?;
    same_bytes(input, &call, &expected_page, &found.page)?;
    tally.count(Call::Check, expected.map(|_| true));
    let Ok(bodies) = Bodies::read(&input.submission) else {
        return Ok(());
    };
    tally.ways.count(&bodies, input.page.len(), expected);
    match expected {
        Ok(_) => {
            compare_page_runs(input, &found.page_runs, tally)?;
            compare_claimed(input, &bodies, &found.deducible)
        }
        Err(refusal) => {
            tally.rows.count_refused(&bodies, refusal);
            Ok(())
        }
    }
}

/// The term that an accepted claim says is deducible, where it says so, is deducible.
fn compare_claimed(input: &Input, bodies: &Bodies, found: &[u32]) -> Result<(), String> {
    let Some(term) = claimed_term(bodies) else {
        return Ok(());
    };
    let asked = input.asked.iter().position(|&asked| asked == term);
    let asked = asked.expect("the term claimed is asked for");
    same(input, format_args!("deducible {term}, which is claimed"), 1, found[asked])
}

fn same(input: &Input, call: impl Display, expected: u32, found: u32) -> Result<(), String> {
    if expected == found {
        return Ok(());
    }
    Err(difference(input, call, &format!("{} and {}", answer(expected), answer(found))))
}

fn same_bytes(
    input: &Input,
    call: impl Display,
    expected: &[u8],
    found: &[u8],
) -> Result<(), String> {
    if expected == found {
        return Ok(());
    }
    Err(difference(input, call, &format!("{} and {}", Hex(expected), Hex(found))))
}

/// The two sides, the reference's first, and the input to try again.
fn difference(input: &Input, call: impl Display, sides: &str) -> String {
    format!("{call}: {sides}\nsubmission {}", Hex(&input.submission))
}

/// An answer of the C boundary in words.
fn answer(code: u32) -> String {
    match (code / REFUSAL, code % REFUSAL) {
        (0, value) => value.to_string(),
        (number, place) => format!("refused {number} {place}"),
    }
}

/// Bytes to show as hexadecimal numbers.
struct Hex<'a>(&'a [u8]);

impl Display for Hex<'_> {
    fn fmt(&self, f: &mut fmt::Formatter) -> fmt::Result {
        for (at, byte) in self.0.iter().enumerate() {
            write!(f, "{}{byte:02X}", if at == 0 { "" } else { " " })?;
        }
        Ok(())
    }
}
