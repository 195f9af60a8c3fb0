//! Programs for the machine.

use super::damage::{change_byte, fill_unused};
use super::random::Random;
use super::table::Table;
use crate::bodies::Bodies;
use crate::tables::{
    padded, program_length, unclaimed, Rule, Taking, Test, INSTRUCTION_SIZE, MOST_INSTRUCTIONS,
};

/// The first registers of a submission: how many, and which hold keys that are inverse.
pub struct Registers {
    pub count: usize,
    inverse: Vec<[u8; 2]>,
}

impl Registers {
    pub fn of(bodies: &Bodies) -> Registers {
        let table = Table::of(&bodies.terms);
        let held: Vec<u8> = bodies.knowledge.iter().copied().chain([bodies.claim[0]]).collect();
        let mut inverse = Vec::new();
        for (register, &term) in held.iter().enumerate() {
            let other = held.iter().position(|&other| table.inverse(term) == Some(other));
            inverse.extend(other.map(|other| [register as u8, other as u8]));
        }
        Registers { count: held.len(), inverse }
    }

    /// The register of the guess, which is the last of them.
    fn guess(&self) -> u8 {
        (self.count - 1) as u8
    }
}

/// A program that run takes: each rule occurs, often two that cancel or one twice, and often the
/// test looks at what they leave.
pub fn valid(random: &mut Random, registers: &Registers) -> Vec<u8> {
    let most = if random.chance(3) { MOST_INSTRUCTIONS } else { 15 };
    let count = random.between(0, most);
    let mut writer = Writer { random, registers, instructions: Vec::new(), compared: [0, 0] };
    while writer.instructions.len() + LONGEST_MOTIF <= count {
        writer.motif();
    }
    while writer.instructions.len() < count {
        writer.single();
    }
    let test = writer.test();
    assembled(&writer.instructions, test)
}

/// A program without instructions that tests the guess's register beside any.
pub fn short(random: &mut Random, registers: &Registers) -> Vec<u8> {
    let other = random.below(registers.count) as u8;
    shortest(random.pick(&Test::ALL), [registers.guess(), other])
}

/// No instructions, and the test.
pub fn shortest(test: Test, registers: [u8; 2]) -> Vec<u8> {
    assembled(&[], tested(test, registers))
}

/// The instructions, with their count before them and the test behind them.
pub fn assembled(instructions: &[[u8; INSTRUCTION_SIZE]], test: [u8; INSTRUCTION_SIZE]) -> Vec<u8> {
    [&[instructions.len() as u8], instructions.as_flattened(), &test].concat()
}

/// The rule over as many of the registers as it uses.
pub fn instruction(rule: Rule, registers: [u8; 2]) -> [u8; INSTRUCTION_SIZE] {
    let [first, second] = padded(&registers[..rule.operands()]);
    [rule.number(), first, second]
}

/// The test of as many of the registers as it names.
pub fn tested(test: Test, registers: [u8; 2]) -> [u8; INSTRUCTION_SIZE] {
    let [first, second] = padded(&registers[..test.registers()]);
    [test.letter(), first, second]
}

/// The longest program, in which a rule goes over its own last result, from the guess's register on.
/// `second` gives the second operand, where the rule has one, by the first. The test compares the
/// last two results.
pub fn repeated(rule: Rule, guess: u8, second: impl Fn(u8) -> u8) -> Vec<u8> {
    let last = guess + MOST_INSTRUCTIONS as u8;
    let instructions: Vec<_> =
        (guess..last).map(|register| instruction(rule, [register, second(register)])).collect();
    assembled(&instructions, tested(Test::Equal, [last, last - 1]))
}

/// A program with something changed, or plain bytes.
pub fn damaged(random: &mut Random, program: &[u8]) -> Vec<u8> {
    let mut changed = program.to_vec();
    match random.weighted(&[45, 10, 10, 10, 10, 5, 10]) {
        0 => change_byte(random, &mut changed),
        1 => misname(random, &mut changed),
        2 => fill_unused(
            random,
            changed[1..].as_chunks_mut::<INSTRUCTION_SIZE>().0,
            Rule::from_number,
        ),
        3 => changed.truncate(random.below(program.len())),
        4 => changed.push(random.byte()),
        5 => changed = too_long(random),
        _ => {
            let length = random.below(14);
            changed = random.bytes(length);
        }
    }
    changed
}

/// Puts a number that is no rule, or a letter that is no test, in the place of one.
fn misname(random: &mut Random, program: &mut [u8]) {
    let count = usize::from(program[0]);
    let at = random.below(count + 1);
    let names = if at < count { unclaimed::RULES } else { unclaimed::TESTS };
    program[1 + INSTRUCTION_SIZE * at] = random.pick(&names);
}

/// More instructions than a program may have.
fn too_long(random: &mut Random) -> Vec<u8> {
    let count = random.between(MOST_INSTRUCTIONS + 1, usize::from(u8::MAX));
    let mut program = vec![0; program_length(count)];
    program[0] = count as u8;
    program[1 + INSTRUCTION_SIZE * count] = Test::Equal.letter();
    program
}

/// How many instructions a motif has at most: three, and two for its keys.
const LONGEST_MOTIF: usize = 5;

struct Writer<'a> {
    random: &'a mut Random,
    registers: &'a Registers,
    instructions: Vec<[u8; INSTRUCTION_SIZE]>,
    /// The last result, and the register that it may equal.
    compared: [u8; 2],
}

impl Writer<'_> {
    /// Instructions of which the last may cancel the others, two that are alike, or a single one.
    fn motif(&mut self) {
        let mut term = self.register();
        let takings: Vec<_> = Rule::takings().collect();
        let (taker, taking) = self.random.pick(&takings);
        match self.random.below(8) {
            0..3 => self.build_and_take(term, taker, taking),
            3..6 => self.take_and_build(term, taking.from),
            6 => {
                let rule = self.random.pick(&Rule::ALL);
                [term, _] = self.twice(rule);
            }
            _ => self.single(),
        }
        self.compared = [self.written() - 1, term];
    }

    /// Builds something with the term, and takes it out again with a key that may fit.
    fn build_and_take(&mut self, term: u8, taker: Rule, taking: Taking) {
        let [beside, opener] = self.keys();
        let mut operands = [beside; 2];
        operands[taking.part] = term;
        let whole = self.emit(taking.from, operands);
        self.emit(taker, [whole, opener]);
    }

    /// Takes parts out of the term, now and then of another, and builds with them.
    fn take_and_build(&mut self, term: u8, builder: Rule) {
        let [opener, beside] = self.keys();
        let mut operands = [beside; 2];
        for (taker, taking) in builder.takers() {
            let of = if self.random.chance(85) { term } else { self.register() };
            operands[taking.part] = self.emit(taker, [of, opener]);
        }
        self.emit(builder, operands);
    }

    /// Inverse keys, one register twice, two hashes of one, or any two.
    fn keys(&mut self) -> [u8; 2] {
        let key = self.register();
        match self.random.below(6) {
            0 | 1 if !self.registers.inverse.is_empty() => {
                self.random.pick(&self.registers.inverse)
            }
            2 | 3 => [key, key],
            4 => self.twice(Rule::Hash),
            _ => [key, self.register()],
        }
    }

    /// The rule twice over the same registers. Answers the registers of the two results.
    fn twice(&mut self, rule: Rule) -> [u8; 2] {
        let operands = [self.register(), self.register()];
        [self.emit(rule, operands), self.emit(rule, operands)]
    }

    fn single(&mut self) {
        let rule = self.random.pick(&Rule::ALL);
        let operands = [self.register(), self.register()];
        self.emit(rule, operands);
    }

    fn test(&mut self) -> [u8; INSTRUCTION_SIZE] {
        let registers = match self.random.below(10) {
            0..5 => self.compared,
            5 if !self.registers.inverse.is_empty() => self.random.pick(&self.registers.inverse),
            _ => [self.register(), self.register()],
        };
        tested(self.random.pick(&Test::ALL), registers)
    }

    /// Writes the rule over as many of the registers as it uses. Answers the result's register.
    fn emit(&mut self, rule: Rule, registers: [u8; 2]) -> u8 {
        let result = self.written();
        self.instructions.push(instruction(rule, registers));
        result
    }

    /// The next register to be written.
    fn written(&self) -> u8 {
        (self.registers.count + self.instructions.len()) as u8
    }

    /// One of the registers in use, often one of the last.
    fn register(&mut self) -> u8 {
        let written = usize::from(self.written());
        let span = if self.random.chance(40) { written.min(4) } else { written };
        (written - 1 - self.random.below(span)) as u8
    }
}
