//! `confirm FILE`: takes the four bodies out of the submission in a file, as an intake form would
//! hold them, writes the submission from these, and tries the other calls on what was written. A
//! line is a call, what it was asked, and its answer; a refusal is `refused`, its number and its
//! place. Where the contents don't fit the file, or the bodies are refused, the other calls get the
//! file as it is.
//!
//! A refused submission ends with 0: it is an answer. The status is 1 where the file is not read or
//! the output not written; an output that is closed goes unnoticed, since Rust's library opens
//! /dev/null in its place.

use std::env;
use std::fs;
use std::io::{self, Write};
use std::process::ExitCode;

use checker::{check, deducible, deduction, inverses, join, read_back, run, write};
use checker::{ReadBack, Refusal};
use checker::{LONGEST_PROGRAM, LONGEST_READ_BACK, LONGEST_SUBMISSION, MOST_TERMS, SHORTEST_SHEET};

fn main() -> ExitCode {
    match confirm() {
        Ok(()) => ExitCode::SUCCESS,
        Err(error) => {
            eprintln!("confirm: {error}");
            ExitCode::FAILURE
        }
    }
}

fn confirm() -> Result<(), String> {
    let arguments: Vec<_> = env::args_os().skip(1).collect();
    let [path] = &arguments[..] else {
        return Err("usage: confirm FILE".to_string());
    };
    let submission = fs::read(path).map_err(|error| format!("{}: {error}", path.display()))?;
    let mut out = io::stdout().lock();
    show_all(&submission, &mut out)
        .and_then(|()| out.flush())
        .map_err(|error| format!("output not written: {error}"))
}

fn show_all(submission: &[u8], out: &mut impl Write) -> io::Result<()> {
    let mut page = [0; LONGEST_SUBMISSION];
    let Some([terms, knowledge, derivation, claim]) = bodies(submission) else {
        return show_calls(submission, out);
    };
    match write(terms, knowledge, derivation, claim, &mut page) {
        Ok(written) => {
            writeln!(out, "write {}", written.len())?;
            show_calls(written, out)
        }
        Err(refusal) => {
            writeln!(out, "write {refusal}")?;
            show_calls(submission, out)
        }
    }
}

fn show_calls(submission: &[u8], out: &mut impl Write) -> io::Result<()> {
    let mut page = [0; LONGEST_PROGRAM];
    let checked = check(submission, &mut page);
    match checked {
        Ok(program) => writeln!(out, "check accepted {}", program[0])?,
        Err(refusal) => writeln!(out, "check {refusal}")?,
    }
    show_deducible(submission, out)?;
    show_deductions(submission, out)?;
    show_inverses(submission, out)?;
    show_join(submission, out)?;
    match checked {
        Ok(program) => {
            show_signals(submission, program, out)?;
            show_read_back(submission, program, out)
        }
        Err(_) => Ok(()),
    }
}

/// Asks for each term, up to the first number that is refused.
fn show_deducible(submission: &[u8], out: &mut impl Write) -> io::Result<()> {
    for term in 0..=u8::MAX {
        let answer = deducible(submission, term);
        writeln!(out, "deducible {term} {}", shown(answer))?;
        if answer.is_err() {
            break;
        }
    }
    Ok(())
}

/// Prints the steps to each term, or no, up to the first number that is refused.
fn show_deductions(submission: &[u8], out: &mut impl Write) -> io::Result<()> {
    for term in 0..=u8::MAX {
        match deduction(submission, term, &mut [0; SHORTEST_SHEET]) {
            Ok(Some([])) => writeln!(out, "deduction {term} yes")?,
            Ok(Some(steps)) => writeln!(out, "deduction {term} yes {}", spaced(steps))?,
            Ok(None) => writeln!(out, "deduction {term} no")?,
            Err(refusal) => return writeln!(out, "deduction {term} {refusal}"),
        }
    }
    Ok(())
}

/// Prints the number of each term's inverse, 255 where none is listed.
fn show_inverses(submission: &[u8], out: &mut impl Write) -> io::Result<()> {
    match inverses(submission, &mut [0; MOST_TERMS]) {
        Ok(numbers) => writeln!(out, "inverses {}", spaced(numbers)),
        Err(refusal) => writeln!(out, "inverses {refusal}"),
    }
}

/// Joins the submission with itself, as two listeners do who have heard the same: the pool is the
/// submission again.
fn show_join(submission: &[u8], out: &mut impl Write) -> io::Result<()> {
    match join(submission, submission, &mut [0; LONGEST_SUBMISSION]) {
        Ok(pool) if pool == submission => writeln!(out, "join {}", pool.len()),
        Ok(pool) => writeln!(out, "join another {}", pool.len()),
        Err(refusal) => writeln!(out, "join {refusal}"),
    }
}

/// Prints the derivation and the claim that a program is read back to: those of the submission, where
/// the program is that of an acceptance.
fn show_read_back(submission: &[u8], program: &[u8], out: &mut impl Write) -> io::Result<()> {
    match read_back(submission, program, &mut [0; LONGEST_READ_BACK]) {
        Ok(ReadBack { derivation, claim }) => {
            writeln!(out, "read_back {}", spaced(&[derivation, claim].concat()))
        }
        Err(refusal) => writeln!(out, "read_back {refusal}"),
    }
}

fn spaced(bytes: &[u8]) -> String {
    bytes.iter().map(u8::to_string).collect::<Vec<_>>().join(" ")
}

/// Runs the program of an accepted submission with its own guess, and with a wrong one.
fn show_signals(submission: &[u8], program: &[u8], out: &mut impl Write) -> io::Result<()> {
    let right = guess(submission);
    for name in [right, wrong_guess(submission, right)] {
        writeln!(out, "run {name} {}", shown(run(submission, name, program)))?;
    }
    Ok(())
}

fn shown(answer: Result<bool, Refusal>) -> String {
    match answer {
        Ok(yes) => u8::from(yes).to_string(),
        Err(refusal) => refusal.to_string(),
    }
}

/// Where the terms start in every submission.
const TERMS: usize = 16;

/// The letters of the bodies, and the bytes of their records.
const BODIES: [(u8, usize); 4] = [(b'T', 3), (b'K', 1), (b'D', 4), (b'V', 4)];

/// The bodies of a submission; none where its contents don't fit it.
fn bodies(submission: &[u8]) -> Option<[&[u8]; 4]> {
    let mut bodies = [&submission[..0]; 4];
    let mut end = TERMS;
    for (number, (letter, record)) in BODIES.into_iter().enumerate() {
        let entry = submission.get(4 * number..4 * number + 4)?;
        let start = usize::from(u16::from_be_bytes([entry[2], entry[3]]));
        if entry[0] != letter || start != end {
            return None;
        }
        end = start + record * usize::from(entry[1]);
        bodies[number] = submission.get(start..end)?;
    }
    (end == submission.len()).then_some(bodies)
}

/// The name of an accepted submission's guess: the claim starts where the contents' last entry
/// says, with the guess's term number.
fn guess(submission: &[u8]) -> u16 {
    let claim = usize::from(u16::from_be_bytes([submission[14], submission[15]]));
    let record = TERMS + 3 * usize::from(submission[claim]);
    u16::from_be_bytes([submission[record + 1], submission[record + 2]])
}

/// The first name after the right one that no listed atom has. Its atom and the inverse of it are
/// then part of no message, so it is that of a wrong guess.
fn wrong_guess(submission: &[u8], right: u16) -> u16 {
    let terms = &submission[TERMS..TERMS + 3 * usize::from(submission[1])];
    let is_listed = |name: u16| {
        terms.chunks_exact(3).any(|term| term[0] <= 3 && term[1..] == name.to_be_bytes())
    };
    let mut name = right;
    while is_listed(name) {
        name = name.wrapping_add(1);
    }
    name
}
