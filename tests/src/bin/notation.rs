//! `notation assemble FILE` writes the submission that a text describes; `notation show FILE`
//! writes the text of a submission. `notation assemble-program SUBMISSION FILE` writes the register
//! program that a text describes, and `notation show-program SUBMISSION FILE` the text of a program,
//! over the registers of a submission. `notation show-deduction SUBMISSION FILE` writes steps, such as a
//! deduction has, as the lines of a derivation.

use std::process::ExitCode;
use std::{env, fs};

use checker_tests::bodies::Bodies;
use checker_tests::notation::{assemble, assemble_program, show, show_deduction, show_program};
use checker_tests::output;
use checker_tests::reference::{records, Refusal};
use checker_tests::tables::Body;

const USAGE: &str = "usage: notation assemble FILE | notation show FILE | \
                     notation assemble-program SUBMISSION FILE | \
                     notation show-program SUBMISSION FILE | \
                     notation show-deduction SUBMISSION FILE";

fn main() -> ExitCode {
    let arguments: Vec<String> = env::args().skip(1).collect();
    let result = match arguments.iter().map(String::as_str).collect::<Vec<_>>()[..] {
        ["assemble", file] => assembled(file),
        ["show", file] => shown(file),
        ["assemble-program", submission, file] => assembled_program(submission, file),
        ["show-program", submission, file] => shown_program(submission, file),
        ["show-deduction", submission, file] => shown_deduction(submission, file),
        _ => Err(USAGE.to_string()),
    };
    match result.and_then(|bytes| output::write(&bytes).map_err(|e| format!("not written: {e}"))) {
        Ok(()) => ExitCode::SUCCESS,
        Err(message) => {
            eprintln!("{message}");
            ExitCode::FAILURE
        }
    }
}

fn assembled(file: &str) -> Result<Vec<u8>, String> {
    assemble(&text(file)?).map_err(|fault| format!("{file}: {fault}"))
}

fn shown(file: &str) -> Result<Vec<u8>, String> {
    match show(&bytes(file)?) {
        Ok(text) => Ok(text.into_bytes()),
        Err(refusal) => Err(no_bodies(file, refusal)),
    }
}

fn assembled_program(submission: &str, file: &str) -> Result<Vec<u8>, String> {
    let first_written = first_written(submission)?;
    assemble_program(&text(file)?, first_written).map_err(|fault| format!("{file}: {fault}"))
}

fn shown_program(submission: &str, file: &str) -> Result<Vec<u8>, String> {
    let first_written = first_written(submission)?;
    match show_program(&bytes(file)?, first_written) {
        Some(text) => Ok(text.into_bytes()),
        None => Err(format!("{file}: it has another length than its first byte says")),
    }
}

fn shown_deduction(submission: &str, file: &str) -> Result<Vec<u8>, String> {
    let steps = bytes(file)?;
    if steps.len() % Body::Derivation.record() != 0 {
        return Err(format!("{file}: it ends within a step"));
    }
    let steps: Vec<[u8; 4]> = records(&steps).collect();
    match show_deduction(&bytes(submission)?, &steps) {
        Ok(text) => Ok(text.into_bytes()),
        Err(refusal) => Err(no_bodies(submission, refusal)),
    }
}

/// The first register that a program over this submission writes.
fn first_written(submission: &str) -> Result<usize, String> {
    match Bodies::read(&bytes(submission)?) {
        Ok(bodies) => Ok(bodies.first_written()),
        Err(refusal) => Err(no_bodies(submission, refusal)),
    }
}

fn no_bodies(file: &str, Refusal { reason, place }: Refusal) -> String {
    let (number, word) = (reason.number(), reason.word());
    format!("{file}: it has no four bodies: refused {number} {place} ({word})")
}

fn text(file: &str) -> Result<String, String> {
    fs::read_to_string(file).map_err(|e| format!("{file}: {e}"))
}

fn bytes(file: &str) -> Result<Vec<u8>, String> {
    fs::read(file).map_err(|e| format!("{file}: {e}"))
}
