//! The register program: its writing, its reading (check 13) and its text.

use std::fmt;

use super::derivation::Step;
use super::refusal::{refuse, Checked};
use super::submission::{records, Claim, Named, Submission};
use super::term::Term;
use crate::tables::{
    program_length, used, Claimed, Reason, Rule, SecondWay, Test, INSTRUCTION_SIZE,
    MOST_INSTRUCTIONS,
};

/// A rule over registers; one that it does not use is 0.
pub struct Instruction {
    pub rule: Rule,
    registers: [u8; 2],
}

impl Instruction {
    /// The registers that the rule uses.
    pub fn operands(&self) -> &[u8] {
        &self.registers[..self.rule.operands()]
    }
}

/// Instructions that write the registers from `first_written` on, and a final test.
pub struct Program {
    first_written: usize,
    pub instructions: Vec<Instruction>,
    pub test: Test,
    pub tested: [u8; 2],
}

impl Program {
    /// The program of an accepted claim.
    pub fn of(submission: &Submission, claim: &Claim, steps: &[Step]) -> Program {
        let registers = Registers::holding(&submission.knowledge, claim, steps);
        Program {
            first_written: registers.of_step(0),
            instructions: steps.iter().map(|step| registers.instruction(step)).collect(),
            test: claim.way.test(),
            tested: tested(&registers, submission, claim, steps).map(byte),
        }
    }

    pub fn bytes(&self) -> Vec<u8> {
        let mut bytes = vec![byte(self.instructions.len())];
        for Instruction { rule, registers: [first, second] } in &self.instructions {
            bytes.extend([rule.number(), *first, *second]);
        }
        bytes.push(self.test.letter());
        bytes.extend(self.tested);
        bytes
    }

    /// A program whose instructions write the registers from `first_written` on.
    pub fn read(bytes: &[u8], first_written: usize) -> Checked<Program> {
        read(bytes, first_written).map_or_else(|| refuse(Reason::Program, 0), Ok)
    }
}

/// The registers that the test names: the verifying step's and that of the second way; or the
/// guess's and that of what gives the term claimed.
fn tested(
    registers: &Registers,
    submission: &Submission,
    claim: &Claim,
    steps: &[Step],
) -> [usize; 2] {
    match claim.way.claimed() {
        Claimed::Verifier(second) => {
            let verifying = claim.verifying();
            let other = match second {
                SecondWay::AnotherStep => registers.of_step(claim.companion),
                SecondWay::KnownBefore => registers.lowest(&steps[verifying].conclusion),
                SecondWay::Inverse => registers.lowest(&submission.terms[claim.companion]),
            };
            [registers.of_step(verifying), other]
        }
        Claimed::Deducible(deducible) => {
            let giving = match claim.named {
                Named::Step(step) => registers.of_step(step),
                Named::Entry => {
                    claim.entry(deducible, &submission.knowledge).expect("check 16 leaves an entry")
                }
            };
            [registers.of_guess(), giving]
        }
    }
}

fn read(bytes: &[u8], first_written: usize) -> Option<Program> {
    let (&count, rest) = bytes.split_first()?;
    let count = usize::from(count);
    if count > MOST_INSTRUCTIONS || bytes.len() != program_length(count) {
        return None;
    }
    let (body, test) = rest.split_at(INSTRUCTION_SIZE * count);
    let instructions = records(body)
        .enumerate()
        .map(|(number, record)| read_instruction(record, first_written + number))
        .collect::<Option<_>>()?;
    let (test, tested) = (Test::from_letter(test[0])?, [test[1], test[2]]);
    are_written(test.registers(), &tested, first_written + count).then_some(Program {
        first_written,
        instructions,
        test,
        tested,
    })
}

/// An instruction that may name the registers below `written`.
fn read_instruction([rule, first, second]: [u8; 3], written: usize) -> Option<Instruction> {
    let (rule, registers) = (Rule::from_number(rule)?, [first, second]);
    are_written(rule.operands(), &registers, written).then_some(Instruction { rule, registers })
}

/// Whether the registers in use, `count` of them, are below `written`, and the others 0.
fn are_written(count: usize, registers: &[u8; 2], written: usize) -> bool {
    used(count, registers)
        .is_some_and(|used| used.iter().all(|&register| usize::from(register) < written))
}

/// The lines after `accepted`: one a step, and the test.
impl fmt::Display for Program {
    fn fmt(&self, f: &mut fmt::Formatter) -> fmt::Result {
        for (number, instruction) in self.instructions.iter().enumerate() {
            write!(f, "r{} = {}", self.first_written + number, instruction.rule.word())?;
            end_line(f, instruction.operands())?;
        }
        let (first, others) = self.tested[..self.test.registers()].split_at(1);
        write!(f, "signal r{} {}", first[0], self.test.word())?;
        end_line(f, others)
    }
}

fn end_line(f: &mut fmt::Formatter, registers: &[u8]) -> fmt::Result {
    for register in registers {
        write!(f, " r{register}")?;
    }
    writeln!(f)
}

/// The term that each register holds with the right guess: the knowledge, the guess, the
/// conclusions. That of the guess has none here where it serves no premise.
struct Registers<'a> {
    terms: Vec<Option<&'a Term>>,
    first_written: usize,
}

impl<'a> Registers<'a> {
    fn holding(knowledge: &'a [Term], claim: &'a Claim, steps: &'a [Step]) -> Registers<'a> {
        let terms = knowledge
            .iter()
            .map(Some)
            .chain([claim.known_guess()])
            .chain(steps.iter().map(|step| Some(&step.conclusion)))
            .collect();
        Registers { terms, first_written: knowledge.len() + 1 }
    }

    fn of_guess(&self) -> usize {
        self.first_written - 1
    }

    fn of_step(&self, step: usize) -> usize {
        self.first_written + step
    }

    fn lowest(&self, term: &Term) -> usize {
        self.terms.iter().position(|&held| held == Some(term)).expect("the term is known")
    }

    fn instruction(&self, step: &Step) -> Instruction {
        let mut registers = [0; 2];
        for (register, premise) in registers.iter_mut().zip(step.premises.iter()) {
            *register = byte(self.lowest(premise));
        }
        Instruction { rule: step.rule, registers }
    }
}

pub fn byte(number: usize) -> u8 {
    u8::try_from(number).expect("registers, counts and terms are below 256")
}
