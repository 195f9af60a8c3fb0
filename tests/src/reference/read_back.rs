//! From a program back to its derivation and its claim.

use std::cmp::Ordering;

use super::machine::executed;
use super::program::{byte, Instruction, Program};
use super::refusal::{refuse, Checked};
use super::submission::{Claim, Submission};
use super::term::Term;
use crate::tables::{padded, Reason, Test, Way, IN_KNOWLEDGE};

/// The derivation, then the claim, that the program is read back to. Of the submission's own claim
/// only the guess counts.
pub fn bodies(submission: &mut Submission, own: &Claim, program: &[u8]) -> Checked<Vec<u8>> {
    let mut registers = submission.knowledge.clone();
    let guess = registers.len();
    registers.push(own.guess.clone());
    let program = Program::read(program, registers.len())?;
    let held = executed(&mut submission.store, registers, &program);
    let numbers = numbered(&submission.terms, &held)?;
    let results = &numbers[guess + 1..];
    let steps = program.instructions.iter().zip(results);
    let derivation = steps.flat_map(|(instruction, &result)| step(&numbers, instruction, result));
    match claim(&numbers, guess, &program) {
        Some(claim) => Ok(derivation.chain(claim).collect()),
        None => refuse(Reason::NoClaim, 0),
    }
}

/// Check 17: the numbers of the terms that the registers hold.
fn numbered(terms: &[Term], held: &[Term]) -> Checked<Vec<u8>> {
    let number = |(register, term)| match terms.iter().position(|listed| listed == term) {
        Some(number) => Ok(byte(number)),
        None => refuse(Reason::OffTheTable, register),
    };
    held.iter().enumerate().map(number).collect()
}

fn step(numbers: &[u8], instruction: &Instruction, result: u8) -> [u8; 4] {
    let operands = instruction.operands().iter();
    let premises: Vec<u8> = operands.map(|&register| numbers[usize::from(register)]).collect();
    let [p, q] = padded(&premises);
    [instruction.rule.number(), p, q, result]
}

/// What a register belongs to.
enum Owner {
    Entry,
    Guess,
    Step(u8),
}

impl Owner {
    fn of(register: u8, guess: usize) -> Owner {
        let register = usize::from(register);
        match register.cmp(&guess) {
            Ordering::Less => Owner::Entry,
            Ordering::Equal => Owner::Guess,
            Ordering::Greater => Owner::Step(byte(register - guess - 1)),
        }
    }
}

/// The claim for which the layout writes this test, if there is one. What a second register holds
/// counts in way c only.
fn claim(numbers: &[u8], guess: usize, program: &Program) -> Option<[u8; 4]> {
    let [first, second] = program.tested.map(|register| Owner::of(register, guess));
    let (step, way, companion) = match (first, program.test, second) {
        (Owner::Entry, ..) | (Owner::Guess, _, Owner::Guess) => return None,
        (Owner::Guess, test, second) => {
            let way = match test {
                Test::Equal => Way::DeducibleGuess,
                Test::HasInverse => Way::DeducibleInverse,
            };
            let step = if let Owner::Step(step) = second { step } else { IN_KNOWLEDGE };
            (step, way, 0)
        }
        (Owner::Step(step), Test::HasInverse, _) => {
            let [_, inverse] = program.tested;
            (step, Way::Inverse, numbers[usize::from(inverse)])
        }
        (Owner::Step(step), Test::Equal, Owner::Step(other)) => (step, Way::AnotherStep, other),
        (Owner::Step(step), Test::Equal, _) => (step, Way::KnownBefore, 0),
    };
    Some([numbers[guess], step, way.letter(), companion])
}
