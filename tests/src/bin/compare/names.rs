//! Counts of the names with which programs were run, by the kind of the guess.

use std::collections::HashSet;

use checker_tests::reference::{Checked, Guesses, Met, Refusal};
use checker_tests::tables::{Kind, Reason, Rule};

use crate::tally::cells;

/// What a run may show of its name.
#[derive(Clone, Copy, PartialEq, Eq)]
enum Row {
    /// It is the guess's own, which is taken even where it is stale.
    OwnFresh,
    OwnStale,
    /// Another is taken: that of a listed atom of the guess's kind, one that would be stale for a
    /// guess of another kind, or any.
    Listed,
    OtherKind,
    Unlisted,
    /// It is refused for the atom, or for the atom's inverse alone.
    StaleAtom,
    StaleInverse,
    /// It is refused only because the search looks at what is met in this way.
    StaleOnly(Met),
    /// It is stale, and the program is refused.
    StaleProgram,
    /// The program is that of an accepted page: a wrong guess signals 0, a stale one is refused.
    PageWrong,
    PageStale,
}

impl Row {
    fn all() -> Vec<Row> {
        let own = [Row::OwnFresh, Row::OwnStale];
        let taken = [Row::Listed, Row::OtherKind, Row::Unlisted];
        let refused = [Row::StaleAtom, Row::StaleInverse];
        let only: Vec<Row> = Met::all().into_iter().map(Row::StaleOnly).collect();
        let others = [Row::StaleProgram, Row::PageWrong, Row::PageStale];
        [&own[..], &taken, &refused, &only, &others].concat()
    }

    fn title(self) -> String {
        let title = match self {
            Row::OwnFresh => "own, fresh",
            Row::OwnStale => "own, stale",
            Row::Listed => "fresh, listed",
            Row::OtherKind => "fresh, other kind",
            Row::Unlisted => "fresh, unlisted",
            Row::StaleAtom => "stale, atom",
            Row::StaleInverse => "stale, inverse",
            Row::StaleOnly(Met::Whole) => "stale, only whole",
            Row::StaleOnly(Met::Operand(rule, at)) if is_key(rule, at) => {
                return format!("stale, only {} key", rule.word());
            }
            Row::StaleOnly(Met::Operand(rule, at)) => {
                return format!("stale, only {} {}", rule.word(), at + 1);
            }
            Row::StaleOnly(Met::Deep) => "stale, only deep",
            Row::StaleProgram => "stale, program bad",
            Row::PageWrong => "page, wrong",
            Row::PageStale => "page, stale",
        };
        title.to_string()
    }

    /// The kinds of guess for which the row has to be reached.
    fn kinds(self) -> Vec<Kind> {
        let mut kinds = Kind::atoms();
        kinds.retain(|&kind| match self {
            Row::StaleInverse => kind.inverse().is_some(),
            Row::StaleOnly(Met::Operand(rule, at)) => may_have(rule, at, kind),
            _ => true,
        });
        kinds
    }

    /// The row of a name for which the program is not refused.
    fn of(guesses: &Guesses, name: u16) -> Row {
        let is_part = |kind| guesses.atoms().has(kind, name);
        match (name == guesses.own(), guesses.is_stale(name)) {
            (true, false) => Row::OwnFresh,
            (true, true) => Row::OwnStale,
            (false, true) if is_part(guesses.kind()) => Row::StaleAtom,
            (false, true) => Row::StaleInverse,
            (false, false) if Kind::atoms().into_iter().any(is_part) => Row::OtherKind,
            (false, false) if guesses.lists(guesses.kind(), name) => Row::Listed,
            (false, false) => Row::Unlisted,
        }
    }
}

/// Whether an atom of this kind may be that operand of what the rule builds, or a part of it. A key
/// that is no atom may have any part.
fn may_have(rule: Rule, operand: usize, kind: Kind) -> bool {
    let fits = |key: &Kind| *key == kind || !key.is_atom();
    !is_key(rule, operand) || keys(rule).iter().any(fits)
}

fn is_key(rule: Rule, operand: usize) -> bool {
    operand == 1 && !keys(rule).is_empty()
}

/// The kinds of key of what the rule builds.
fn keys(rule: Rule) -> &'static [Kind] {
    Kind::built_by(rule).map_or(&[], Kind::keys)
}

pub struct Names(Vec<(Row, [u64; Kind::ALL.len()])>);

impl Default for Names {
    fn default() -> Names {
        Names(Row::all().into_iter().map(|row| (row, [0; Kind::ALL.len()])).collect())
    }
}

impl Names {
    /// Counts the runs of one submission by their names and answers.
    pub fn count_runs(&mut self, guesses: &Guesses, answers: &[(u16, Checked<bool>)]) {
        let mut stale = HashSet::new();
        for &(name, answer) in answers {
            let row = Row::of(guesses, name);
            let is_stale = matches!(row, Row::StaleAtom | Row::StaleInverse);
            match answer {
                Err(Refusal { reason: Reason::Program, .. }) if is_stale => {
                    self.add(guesses, Row::StaleProgram, 1);
                }
                Err(Refusal { reason: Reason::Program, .. }) => (),
                Err(_) => {
                    stale.insert(name);
                    self.add(guesses, row, 1);
                }
                Ok(_) => self.add(guesses, row, 1),
            }
        }
        self.count_ways(guesses, &stale);
    }

    /// Counts how these stale names are met.
    fn count_ways(&mut self, guesses: &Guesses, stale: &HashSet<u16>) {
        if stale.is_empty() {
            return;
        }
        for way in Met::all() {
            let atoms = guesses.atoms_without(way);
            let is_unmet = |name: &&u16| !atoms.make_stale(guesses.kind(), **name);
            self.add(guesses, Row::StaleOnly(way), stale.iter().filter(is_unmet).count());
        }
    }

    /// Counts a run of the program on an accepted page.
    pub fn count_page_run(&mut self, guesses: &Guesses, name: u16) {
        if name != guesses.own() {
            let row = if guesses.is_stale(name) { Row::PageStale } else { Row::PageWrong };
            self.add(guesses, row, 1);
        }
    }

    fn add(&mut self, guesses: &Guesses, row: Row, count: usize) {
        let found = self.0.iter_mut().find(|(other, _)| *other == row);
        let (_, counts) = found.expect("all rows are there");
        counts[guesses.kind() as usize] += count as u64;
    }

    pub fn print(&self) {
        println!("{}", cells("name, guess", Kind::atoms(), Kind::word));
        for (row, counts) in &self.0 {
            println!("{}", cells(&row.title(), Kind::atoms(), |kind| counts[kind as usize]));
        }
    }

    /// What should have been reached and was not.
    pub fn missing(&self) -> Vec<String> {
        let mut missing = Vec::new();
        for (row, counts) in &self.0 {
            let never = row.kinds().into_iter().filter(|&kind| counts[kind as usize] == 0);
            missing.extend(never.map(|kind| format!("name {}: {}", row.title(), kind.word())));
        }
        missing
    }
}
