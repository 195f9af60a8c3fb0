//! `deduction SUBMISSION TERM`: asks the checker whether a term is deducible, and prints the steps that
//! it shows as the lines of a derivation. The first line is a comment with the answer. TERM is named as
//! `notation show` names it, or by `@` and its number. A refusal is an answer too, and ends with 0.

use std::process::ExitCode;
use std::{env, fs};

use checker::{deduction, SHORTEST_SHEET};
use checker_tests::notation::{show_deduction, term_number};
use checker_tests::output;
use checker_tests::reference::records;

fn main() -> ExitCode {
    let arguments: Vec<String> = env::args().skip(1).collect();
    let result = match &arguments[..] {
        [submission, term] => shown(submission, term),
        _ => Err("usage: deduction SUBMISSION TERM".to_string()),
    };
    match result.and_then(|text| {
        output::write(text.as_bytes()).map_err(|error| format!("not written: {error}"))
    }) {
        Ok(()) => ExitCode::SUCCESS,
        Err(message) => {
            eprintln!("{message}");
            ExitCode::FAILURE
        }
    }
}

fn shown(file: &str, term: &str) -> Result<String, String> {
    let submission = fs::read(file).map_err(|error| format!("{file}: {error}"))?;
    // A submission that has no four bodies is refused whatever the number.
    let number = term_number(&submission, term).unwrap_or(Some(0));
    let number = number.ok_or_else(|| format!("no term `{term}` is listed"))?;
    let steps = match deduction(&submission, number, &mut [0; SHORTEST_SHEET]) {
        Ok(Some(steps)) => records(steps).collect::<Vec<[u8; 4]>>(),
        Ok(None) => return Ok(format!("# {term} is not deducible\n")),
        Err(refusal) => return Ok(format!("# {refusal}\n")),
    };
    let lines = show_deduction(&submission, &steps).expect("it has its bodies");
    let count =
        if steps.len() == 1 { "1 step".to_string() } else { format!("{} steps", steps.len()) };
    Ok(format!("# {term} is deducible: {count}\n{lines}"))
}
