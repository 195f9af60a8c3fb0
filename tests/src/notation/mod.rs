//! A readable text for submissions, for deductions over them, and for register programs.
//!
//! # Submissions
//!
//! Four sections in this order: `terms`, `knowledge`, `derivation`, `claim`. Blank lines, and
//! lines that start with `#`, are passed over.
//!
//! - Terms, one a line and numbered from 0: an atom is `nb`, `plain 7`, `public ka` or
//!   `private ka`; a compound is `LABEL = pair(X, Y)`, `enc(X, Y)`, `enca(X, Y)` or `hash(X)`.
//!   Further lines name an atom as it is listed, and a compound by its label.
//! - Knowledge: one term a line.
//! - Derivation: `NUMBER: CONCLUSION = RULE(PREMISE, PREMISE)`, numbered from 0.
//! - Claim: the lines `guess TERM`, `step NUMBER`, `way LETTER`, and `companion` with a step number
//!   (way a) or a term (way c). `step knowledge` is for number 255, an entry of the knowledge in the
//!   place of a step.
//!
//! The notation judges nothing, so that a text with a fault can be handed to the checker. What the
//! words above can't say has plain numbers: `@9` is the term number 9, `LABEL = record 9 0 1` a
//! term record, `rule9(X, Y)` a rule, and `way 9` a way.
//!
//! `show` writes the canonical layout: labels are `t` and the term's number, and no comments.
//!
//! # Deductions
//!
//! The steps that show that a term is deducible are written as the lines of a derivation, with the names
//! that `show` gives the terms of the submission. So they can stand in its text under `derivation`.
//!
//! # Programs
//!
//! The lines that `verdict` prints, in which blank lines and comments are passed over too:
//! `rR = RULE rR rR`, with one register where the rule uses one, and at the end `signal rR = rR` or
//! `signal rR hasinv rR`. A first line `accepted N` may stand there, with the count of the instructions.
//! The bytes don't have the registers that are written: they follow one another, and the first is the
//! one after the guess's. So what goes with a program is the submission, or how many entries its
//! knowledge has.
//!
//! Here too nothing else is judged: any register below 256 may be read, `rule9` is a rule, and `test9`
//! a test, and a second register that is not used is shown where it is not 0.

mod assemble;
mod name;
mod program;
mod show;

pub use assemble::{assemble, Fault};
pub use program::{assemble_program, show_program};
pub use show::{show, show_deduction, term_number};

use crate::tables::{Body, Kind};

/// The kind of an atom that is written without the word of its kind.
const WORDLESS: Kind = Kind::Plain;

/// What stands for the number of a step where an entry of the knowledge takes its place.
const ENTRY: &str = Body::Knowledge.word();

/// An atom as the canonical layout writes it.
fn atom_text(kind: Kind, name: u16) -> String {
    match name::word(name) {
        Some(word) if kind == WORDLESS => word,
        Some(word) => format!("{} {word}", kind.word()),
        None => format!("{} {name}", kind.word()),
    }
}
