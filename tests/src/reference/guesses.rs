//! Guesses by name, in the place of the submission's own: the right one, stale ones and wrong ones.

use std::cell::OnceCell;

use super::machine;
use super::parts::{Atoms, Met};
use super::program::Program;
use super::refusal::{refuse, Checked};
use super::submission::Submission;
use crate::tables::{Kind, Reason};

/// A submission that passes checks 1 to 5, to try many names on.
pub struct Guesses {
    submission: Submission,
    kind: Kind,
    own: u16,
    /// The atoms that are part of known messages. They are looked for when they are needed.
    atoms: OnceCell<Atoms>,
}

impl Guesses {
    pub fn of(submission: &[u8]) -> Checked<Guesses> {
        let submission = Submission::read(submission)?;
        let (kind, own) = submission.claim()?.atom();
        Ok(Guesses { submission, kind, own, atoms: OnceCell::new() })
    }

    /// The kind of every guess.
    pub fn kind(&self) -> Kind {
        self.kind
    }

    /// The name of the submission's own guess, which is the right one.
    pub fn own(&self) -> u16 {
        self.own
    }

    /// The atoms that are part of known messages.
    pub fn atoms(&self) -> &Atoms {
        self.atoms.get_or_init(|| Atoms::part_of(&self.submission.knowledge))
    }

    /// The same, as if nothing were met in this way.
    pub fn atoms_without(&self, unmet: Met) -> Atoms {
        Atoms::part_without(&self.submission.knowledge, Some(unmet))
    }

    pub fn lists(&self, kind: Kind, name: u16) -> bool {
        self.submission.terms.iter().any(|term| term.atom() == Some((kind, name)))
    }

    pub fn is_stale(&self, name: u16) -> bool {
        self.atoms().make_stale(self.kind, name)
    }

    /// Whether the name is that of a wrong guess: another than the guess's own, and not stale.
    pub fn is_wrong(&self, name: u16) -> bool {
        name != self.own && !self.is_stale(name)
    }

    /// The signal of the program when the guess has this name. Its own is taken even where it is
    /// stale.
    pub fn run(&mut self, name: u16, program: &[u8]) -> Checked<bool> {
        let mut registers = self.submission.knowledge.clone();
        registers.push(self.submission.store.atom(self.kind, name));
        let program = Program::read(program, registers.len())?;
        if name != self.own && self.is_stale(name) {
            return refuse(Reason::Stale, 0);
        }
        Ok(machine::signal(&mut self.submission.store, registers, &program))
    }
}
