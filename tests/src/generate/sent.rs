//! Programs to read back, as authors send them, each with a page: the submission's own; its steps in
//! another order, over any registers that hold their premises, with superfluous ones among them; other
//! programs over listed terms; and such as leave the table or make no claim.

use super::program::{assembled, damaged, instruction, tested, valid, Registers};
use super::random::Random;
use super::steps::{possible, premises, TermSet};
use super::table::Table;
use crate::bodies::Bodies;
use crate::reference::{self, records};
use crate::tables::{
    padded, read_back_length, Claimed, Rule, SecondWay, Test, Way, INSTRUCTION_SIZE,
    LONGEST_READ_BACK, MOST_INSTRUCTIONS,
};

pub struct Sent {
    pub program: Vec<u8>,
    /// The page before the program is read back.
    pub page: Vec<u8>,
}

impl Sent {
    /// The program, and a page of random bytes that is long enough.
    pub fn with_room(random: &mut Random, program: Vec<u8>) -> Sent {
        let needed = needed(&program);
        let length = random.pick(&[needed, needed + 1, LONGEST_READ_BACK]);
        Sent { program, page: random.bytes(length) }
    }

    /// The program, and a page of random bytes and of any length.
    fn new(random: &mut Random, program: Vec<u8>) -> Sent {
        let length = page_length(random, needed(&program));
        Sent { program, page: random.bytes(length) }
    }
}

/// The bytes that the program is read back to.
fn needed(program: &[u8]) -> usize {
    program.first().map_or(0, |&count| read_back_length(count.into()))
}

/// The length of a page for so many bytes: none, too short, exact, longer, or one that is too short in
/// its low byte or in its low two bytes.
fn page_length(random: &mut Random, needed: usize) -> usize {
    match random.weighted(&[4, 8, 4, 38, 24, 16, 5, 1]) {
        0 => 0,
        1 => needed.saturating_sub(1),
        2 => random.below(needed + 1),
        3 => needed,
        4 => needed + random.between(1, 20),
        5 => LONGEST_READ_BACK,
        6 => 256 + random.below(needed + 1),
        _ => 65_536 + random.below(needed + 1),
    }
}

/// Programs over a submission: first its own where it is accepted, which is handed over, on a page that
/// is long enough.
pub fn sent(random: &mut Random, submission: &[u8], own: Option<&[u8]>) -> Vec<Sent> {
    let bodies = Bodies::read(submission).unwrap_or_default();
    let registers = Registers::of(&bodies);
    let valid = valid(random, &registers);
    let mut programs = vec![damaged(random, &valid), valid];
    if reference::guess(submission).is_ok() {
        let table = Table::of(&bodies.terms);
        let mut listed = vec![listed(random, &bodies, &table)];
        if own.is_some() {
            listed.push(reordered(random, &bodies, &table));
        }
        for program in listed {
            programs.push(changed(random, &program, registers.count));
            programs.push(program);
        }
    }
    let own = own.map(|own| Sent::with_room(random, own.to_vec()));
    let others: Vec<Sent> =
        programs.into_iter().map(|program| Sent::new(random, program)).collect();
    own.into_iter().chain(others).collect()
}

/// The program with an encryption of the guess under itself, which no shape lists, in the place of its
/// last instruction.
pub fn astray(program: &[u8], guess: u8) -> Vec<u8> {
    let (mut instructions, test) = parts(program);
    if let Some(last) = instructions.last_mut() {
        *last = instruction(Rule::Enca, [guess, guess]);
    }
    assembled(&instructions, test)
}

/// The program with an instruction that most often leaves the table, or with a test that may make no
/// claim: with its registers turned round, or any; or with both.
fn changed(random: &mut Random, program: &[u8], first_written: usize) -> Vec<u8> {
    match random.weighted(&[55, 15, 20, 10]) {
        0 => strayed(random, program, first_written),
        1 => turned(program),
        2 => turned(&strayed(random, program, first_written)),
        _ => {
            let (instructions, _) = parts(program);
            let registers = any_two(random, first_written + instructions.len());
            assembled(&instructions, tested(random.pick(&Test::ALL), registers))
        }
    }
}

fn turned(program: &[u8]) -> Vec<u8> {
    let (instructions, [letter, first, second]) = parts(program);
    assembled(&instructions, [letter, second, first])
}

/// The instructions, and the test.
fn parts(program: &[u8]) -> (Vec<[u8; INSTRUCTION_SIZE]>, [u8; INSTRUCTION_SIZE]) {
    let mut instructions: Vec<_> = records(&program[1..]).collect();
    let test = instructions.pop().expect("a test ends the program");
    (instructions, test)
}

/// Two registers below this one.
fn any_two(random: &mut Random, written: usize) -> [u8; 2] {
    [(); 2].map(|()| random.below(written) as u8)
}

/// The program with any instruction more: first, last or between; or in the place of one.
fn strayed(random: &mut Random, program: &[u8], first_written: usize) -> Vec<u8> {
    let (mut instructions, mut test) = parts(program);
    let count = instructions.len();
    let is_more = count == 0 || count < MOST_INSTRUCTIONS && random.chance(70);
    let last = if is_more { count } else { count - 1 };
    let at = [0, last, random.between(0, last)][random.below(3)];
    let written = first_written + at;
    let stray = instruction(random.pick(&Rule::ALL), any_two(random, written));
    if is_more {
        for [rule, registers @ ..] in &mut instructions[at..] {
            let rule = Rule::from_number(*rule).expect("the program has rules");
            make_room(&mut registers[..rule.operands()], written);
        }
        make_room(&mut test[1..], written);
        instructions.insert(at, stray);
    } else {
        instructions[at] = stray;
    }
    assembled(&instructions, test)
}

/// Counts the registers from this one on by one more.
fn make_room(registers: &mut [u8], from: usize) {
    for register in registers {
        *register += u8::from(usize::from(*register) >= from);
    }
}

/// Steps that can be made, taken at random, and any test.
fn listed(random: &mut Random, bodies: &Bodies, table: &Table) -> Vec<u8> {
    let count = match random.weighted(&[10, 60, 28, 2]) {
        0 => 0,
        1 => random.between(1, 4),
        2 => random.between(5, 12),
        _ => MOST_INSTRUCTIONS,
    };
    let uses_guess = random.chance(75);
    let mut author = Author::new(random, bodies, table, uses_guess);
    for _ in 0..count {
        author.write_any();
    }
    let test = author.any_test();
    assembled(&author.instructions, test)
}

/// The steps of an accepted submission in an order in which they can be made, with superfluous ones
/// among them, and the test of its claim.
fn reordered(random: &mut Random, bodies: &Bodies, table: &Table) -> Vec<u8> {
    let way = Way::from_letter(bodies.claim[2]).expect("the claim is accepted");
    let superfluous = random.pick(&[0, 0, 20, 60]);
    let uses_guess = way.knows_guess() || random.chance(15);
    let mut author = Author::new(random, bodies, table, uses_guess);
    let mut waiting: Vec<usize> = (0..bodies.derivation.len()).collect();
    let mut results = vec![0; waiting.len()];
    while !waiting.is_empty() {
        let is_room = author.instructions.len() + waiting.len() < MOST_INSTRUCTIONS;
        if is_room && author.random.chance(superfluous) {
            author.write_any();
        }
        let known = author.known();
        let is_ready = |&place: &usize| {
            premises(&bodies.derivation[waiting[place]]).iter().all(|&premise| known.has(premise))
        };
        let ready: Vec<usize> = (0..waiting.len()).filter(is_ready).collect();
        let step = waiting.remove(author.random.pick(&ready));
        results[step] = author.write(bodies.derivation[step]);
    }
    let test = author.own_test(bodies, way, &results);
    assembled(&author.instructions, test)
}

/// Writes a program over listed terms.
struct Author<'a> {
    random: &'a mut Random,
    table: &'a Table,
    /// The numbers of the terms that the registers hold.
    held: Vec<u8>,
    /// The guess's register, and whether it serves premises.
    guess: usize,
    uses_guess: bool,
    instructions: Vec<[u8; INSTRUCTION_SIZE]>,
}

impl Author<'_> {
    fn new<'a>(
        random: &'a mut Random,
        bodies: &Bodies,
        table: &'a Table,
        uses_guess: bool,
    ) -> Author<'a> {
        let held = bodies.knowledge.iter().copied().chain([bodies.claim[0]]).collect();
        let guess = bodies.knowledge.len();
        Author { random, table, held, guess, uses_guess, instructions: Vec::new() }
    }

    /// The registers that serve premises.
    fn serving(&self) -> impl Iterator<Item = usize> + '_ {
        (0..self.held.len()).filter(|&register| self.uses_guess || register != self.guess)
    }

    /// The terms that they hold.
    fn known(&self) -> TermSet {
        TermSet::new(self.table, self.serving().map(|register| self.held[register]))
    }

    /// Writes the step, with any of the registers for each premise. Answers the result's register.
    fn write(&mut self, step: [u8; 4]) -> u8 {
        let serving: Vec<usize> = self.serving().collect();
        let registers: Vec<u8> =
            premises(&step).iter().map(|&premise| self.holding(&serving, premise)).collect();
        let [first, second] = padded(&registers);
        let [rule, .., conclusion] = step;
        self.instructions.push([rule, first, second]);
        self.held.push(conclusion);
        (self.held.len() - 1) as u8
    }

    /// One of these registers that holds the term.
    fn holding(&mut self, registers: &[usize], term: u8) -> u8 {
        let holds = |register: &usize| self.held[*register] == term;
        let holding: Vec<usize> = registers.iter().copied().filter(holds).collect();
        self.random.pick(&holding) as u8
    }

    /// Writes any step that can be made, if there is one.
    fn write_any(&mut self) {
        let steps = possible(self.table, &self.known());
        if !steps.is_empty() {
            let step = self.random.pick(&steps);
            self.write(step);
        }
    }

    /// The test of an accepted claim. The results are the registers of its steps.
    fn own_test(&mut self, bodies: &Bodies, way: Way, results: &[u8]) -> [u8; INSTRUCTION_SIZE] {
        let [guess, step, _, companion] = bodies.claim;
        let step = usize::from(step);
        let registers: Vec<usize> = (0..self.held.len()).collect();
        let tested_registers = match way.claimed() {
            Claimed::Verifier(second) => {
                let other = match second {
                    SecondWay::AnotherStep => results[usize::from(companion)],
                    SecondWay::KnownBefore => {
                        self.holding(&registers[..=self.guess], bodies.derivation[step][3])
                    }
                    SecondWay::Inverse => self.holding(&registers, companion),
                };
                [results[step], other]
            }
            Claimed::Deducible(_) => {
                let claimed = self.table.claimed(guess, way).expect("it is listed");
                let giving = match results.get(step) {
                    Some(&result) => result,
                    None => self.holding(&registers[..self.guess], claimed),
                };
                [self.guess as u8, giving]
            }
        };
        tested(way.test(), tested_registers)
    }

    /// Any test, often one that signals 1.
    fn any_test(&mut self) -> [u8; INSTRUCTION_SIZE] {
        let test = self.random.pick(&Test::ALL);
        let [first, mut second] = [self.any_register(), self.any_register()];
        let fitting = match test {
            Test::Equal => Some(self.held[first]),
            Test::HasInverse => self.table.inverse(self.held[first]),
        };
        let fits = |&register: &usize| register != first && Some(self.held[register]) == fitting;
        let seconds: Vec<usize> = (0..self.held.len()).filter(fits).collect();
        if !seconds.is_empty() && self.random.chance(60) {
            second = self.random.pick(&seconds);
        }
        tested(test, [first as u8, second as u8])
    }

    /// A step's register, the guess's or an entry's.
    fn any_register(&mut self) -> usize {
        let (guess, count) = (self.guess, self.held.len());
        match self.random.weighted(&[50, 30, 20]) {
            0 if count > guess + 1 => self.random.between(guess + 1, count - 1),
            1 if guess > 0 => self.random.below(guess),
            _ => guess,
        }
    }
}
