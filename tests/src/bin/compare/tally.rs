//! Counts of what the inputs reached.

use std::fmt::Display;

use checker_tests::bodies::Bodies;
use checker_tests::reference::{Checked, Refusal};
use checker_tests::tables::{Body, Call, Kind, Reason, Way};

use crate::keys::Keys;
use crate::names::Names;
use crate::pools::Pools;
use crate::programs::Programs;
use crate::rows::Rows;
use crate::shown::Deductions;
use crate::ways::Ways;

/// The answers of one call: accepted, yes or 1; no or 0; the refusals by number; and those for a
/// count by their place, which is that of the body.
#[derive(Default)]
struct Answers {
    yes: u64,
    no: u64,
    refused: [u64; Reason::ALL.len()],
    counts: [u64; Body::ALL.len()],
}

#[derive(Default)]
pub struct Tally {
    answers: [Answers; Call::ALL.len()],
    /// The lowest and highest place of each refusal.
    places: [Option<(usize, usize)>; Reason::ALL.len()],
    /// Accepted submissions by way and by kind of guess.
    accepted: [[u64; Kind::ALL.len()]; Way::ALL.len()],
    pub ways: Ways,
    pub rows: Rows,
    pub names: Names,
    pub keys: Keys,
    pub programs: Programs,
    pub deductions: Deductions,
    pub pools: Pools,
    /// Submissions written again from their own bodies.
    pub rewritten: u64,
}

impl Tally {
    pub fn count(&mut self, call: Call, answer: Checked<bool>) {
        let answers = &mut self.answers[call as usize];
        match answer {
            Ok(true) => answers.yes += 1,
            Ok(false) => answers.no += 1,
            Err(Refusal { reason, place }) => {
                answers.refused[reason as usize] += 1;
                if reason == Reason::Count {
                    answers.counts[place] += 1;
                }
                let places = &mut self.places[reason as usize];
                let (low, high) = places.unwrap_or((place, place));
                *places = Some((low.min(place), high.max(place)));
            }
        }
    }

    /// Counts an accepted submission with a guess of this kind.
    pub fn count_accepted(&mut self, submission: &[u8], guess: Kind) {
        let bodies = Bodies::read(submission).expect("the submission is accepted");
        let way = Way::from_letter(bodies.claim[2]).expect("the claim is accepted");
        self.accepted[way as usize][guess as usize] += 1;
        self.rows.count_accepted(&bodies);
    }

    pub fn print(&self) {
        println!("{}  places", cells("answer", Call::ALL, Call::word));
        self.print_row("accepted, yes, 1", |answers| answers.yes, String::new());
        self.print_row("no, 0", |answers| answers.no, String::new());
        for reason in Reason::ALL {
            let title = format!("{:>2} {}", reason.number(), reason.word());
            let places = match self.places[reason as usize] {
                Some((low, high)) => format!("{low} to {high}"),
                None => String::new(),
            };
            self.print_row(&title, |answers| answers.refused[reason as usize], places);
        }
        println!();
        println!("{}", cells("accepted, guess", Kind::atoms(), Kind::word));
        for way in Way::ALL {
            let counts = &self.accepted[way as usize];
            let counts = cells(&way_title(way), Kind::atoms(), |kind| counts[kind as usize]);
            println!("{counts}");
        }
        println!();
        self.ways.print();
        println!();
        self.rows.print();
        println!();
        self.names.print();
        println!();
        self.keys.print();
        println!();
        self.programs.print();
        println!();
        self.deductions.print();
        println!();
        self.pools.print();
        println!();
        println!("submissions written again from their bodies: {}", self.rewritten);
    }

    /// A row with one cell for each call.
    fn print_row(&self, title: &str, cell: impl Fn(&Answers) -> u64, places: String) {
        let counts = cells(title, Call::ALL, |call| cell(&self.answers[call as usize]));
        println!("{counts}  {places}");
    }

    /// Fails where one of a call's refusals, a count at one of the places, an acceptance, a kind of
    /// guess in a way that may have it, a row of claims, of the tables of kinds and rules, of names, of
    /// inverses, of programs, of deductions or of pools was never reached, or where no submission was
    /// written again.
    pub fn complete(&self) -> Result<(), String> {
        let mut missing: Vec<String> = Call::ALL
            .into_iter()
            .flat_map(|call| self.answers[call as usize].missing(call))
            .collect();
        for way in Way::ALL {
            let counts = &self.accepted[way as usize];
            let never = way.guesses().iter().filter(|&&kind| counts[kind as usize] == 0);
            missing.extend(never.map(|kind| format!("{}: {} guess", way_title(way), kind.word())));
        }
        missing.extend(self.ways.missing());
        missing.extend(self.rows.missing());
        missing.extend(self.names.missing());
        missing.extend(self.keys.missing());
        missing.extend(self.programs.missing());
        missing.extend(self.deductions.missing());
        missing.extend(self.pools.missing());
        if self.rewritten == 0 {
            missing.push("a submission written again".to_string());
        }
        if missing.is_empty() {
            Ok(())
        } else {
            Err(format!("never reached: {}", missing.join(", ")))
        }
    }
}

impl Answers {
    /// What the call should have answered and did not.
    fn missing(&self, call: Call) -> Vec<String> {
        let mut missing = Vec::new();
        if self.yes == 0 {
            missing.push("accepted, yes or 1".to_string());
        }
        for &reason in call.refusals() {
            if self.refused[reason as usize] == 0 {
                missing.push(format!("refused {}", reason.number()));
            }
            if reason == Reason::Count {
                let never = (0..self.counts.len()).filter(|&place| self.counts[place] == 0);
                missing.extend(never.map(|place| format!("refused {} {place}", reason.number())));
            }
        }
        missing.into_iter().map(|answer| format!("{} {answer}", call.word())).collect()
    }
}

pub fn way_title(way: Way) -> String {
    format!("way {}", char::from(way.letter()))
}

/// A title, and one cell for each column.
pub fn cells<T, C: Display>(
    title: &str,
    columns: impl IntoIterator<Item = T>,
    cell: impl Fn(T) -> C,
) -> String {
    let cells: String = columns.into_iter().map(|column| format!("{:>10}", cell(column))).collect();
    format!("{title:<20}{cells}")
}
