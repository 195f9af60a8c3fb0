//! The register program: its layout on the page, and its tests.

use super::Body;

table! {
    /// The tests that end a program.
    Test: TestRow {
        letter: u8,
        /// What `verdict` prints.
        word: &'static str,
        /// How many registers the test names.
        registers: usize,
    }
    Equal      { letter: b'=', word: "=",      registers: 2 }
    HasInverse { letter: b'i', word: "hasinv", registers: 2 }
}

impl Test {
    pub fn from_letter(letter: u8) -> Option<Test> {
        Test::ALL.into_iter().find(|test| test.letter() == letter)
    }
}

/// The most instructions of a program: one for each step of the longest derivation.
pub const MOST_INSTRUCTIONS: usize = Body::Derivation.most();

/// The bytes of an instruction, and of the test: a rule or a letter, and two registers.
pub const INSTRUCTION_SIZE: usize = 3;

/// The bytes of a program: the count of its instructions, the instructions, and the test.
pub const fn program_length(instructions: usize) -> usize {
    1 + INSTRUCTION_SIZE * (instructions + 1)
}

/// A page of this length is long enough for every program.
pub const LONGEST_PROGRAM: usize = program_length(MOST_INSTRUCTIONS);

/// The bytes that a program of so many instructions is read back to: a step for each, and the claim.
pub const fn read_back_length(instructions: usize) -> usize {
    Body::Derivation.record() * instructions + Body::Claim.record()
}

/// A page of this length is long enough for every program that is read back.
pub const LONGEST_READ_BACK: usize = read_back_length(MOST_INSTRUCTIONS);
