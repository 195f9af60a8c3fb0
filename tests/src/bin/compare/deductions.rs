//! Asking for deductions, and checking them again as derivations.

use std::fmt::{self, Display};

use checker_tests::bodies::Bodies;
use checker_tests::generate::{around, premises, Input, Sheet, Table};
use checker_tests::reference::{code, records, Checked, Deductions, Refusal, REFUSAL};
use checker_tests::tables::{Call, Reason};

use crate::answers::{Claimed, Deduced};
use crate::shown::Shown;
use crate::tally::Tally;
use crate::{answer, difference, same, same_bytes, Hex};

#[cfg(test)]
mod tests;

/// Each term that is asked for, on its page. Deducible says yes and no as the reference does, and
/// refuses what the deduction refuses, but for the page.
pub fn compare_deductions(
    input: &Input,
    found: &[Deduced],
    tally: &mut Tally,
) -> Result<(), String> {
    let mut deductions = Deductions::of(&input.submission);
    let bodies = Bodies::read(&input.submission).unwrap_or_default();
    for (sheet, found) in input.sheets.iter().zip(found) {
        let expected = asked(&deductions, |deductions| deductions.deducible(sheet.term));
        same(input, format_args!("deducible {}", sheet.term), code(expected), found.deducible)?;
        let length = sheet.page.len();
        let expected = asked(&deductions, |deductions| deductions.deducible_on(sheet.term, length));
        tally.count(Call::Deduction, expected);
        tally.deductions.count_page(length, expected);
        if let (Ok(true), Ok(deductions)) = (expected, &mut deductions) {
            compare_steps(input, sheet, deductions, &bodies, found, tally)?;
            continue;
        }
        same(input, Asked(sheet), code(expected), found.answer)?;
        same_bytes(input, Asked(sheet), &sheet.page, &found.page)?;
        if let (Ok(false), Ok(deductions)) = (expected, &mut deductions) {
            let with_guess = deductions.deducible_with_guess(sheet.term);
            tally.deductions.count_no(&bodies, sheet.term, with_guess);
        }
    }
    Ok(())
}

/// What is asked of a submission that may be refused.
fn asked(
    deductions: &Checked<Deductions>,
    ask: impl Fn(&Deductions) -> Checked<bool>,
) -> Checked<bool> {
    match deductions {
        Ok(deductions) => ask(deductions),
        Err(refusal) => Err::<bool, Refusal>(*refusal),
    }
}

/// The call in words.
struct Asked<'a>(&'a Sheet);

impl Display for Asked<'_> {
    fn fmt(&self, f: &mut fmt::Formatter) -> fmt::Result {
        let Sheet { term, page } = self.0;
        write!(f, "deduction {term} with a page of {} bytes", page.len())
    }
}

/// All that has to hold of the steps to a term that is deducible, whichever they are. Only their bytes
/// are written.
fn compare_steps(
    input: &Input,
    sheet: &Sheet,
    deductions: &mut Deductions,
    bodies: &Bodies,
    found: &Deduced,
    tally: &mut Tally,
) -> Result<(), String> {
    let call = Asked(sheet);
    let Some(bytes) = found.steps() else {
        return Err(difference(input, call, &format!("yes and {}", answer(found.answer))));
    };
    let steps: Vec<[u8; 4]> = records(bytes).collect();
    if let Err(fault) = deductions.verify(sheet.term, &steps) {
        return Err(difference(input, call, &format!("{fault:?} in {}", Hex(bytes))));
    }
    same_bytes(input, &call, &sheet.page[bytes.len()..], &found.page[bytes.len()..])?;
    for (claimed, found) in &found.again {
        let (way, guess) = (char::from(claimed.way.letter()), claimed.guess);
        let again = format_args!("{call}, {}, checked in way {way} of {guess}", Hex(bytes));
        same(input, again, expected_again(claimed, &steps), *found)?;
    }
    tally.deductions.count_yes(&Shown {
        bodies,
        term: sheet.term,
        steps: &steps,
        taken: deductions.taken(),
        ways: ways(deductions, bodies, sheet.term),
    });
    tally.deductions.count_again(bodies, sheet.term, steps.len(), &found.again);
    Ok(())
}

/// How many steps over listed terms conclude the term from what is deducible.
fn ways(deductions: &Deductions, bodies: &Bodies, term: u8) -> usize {
    let table = Table::of(&bodies.terms);
    let steps = table.numbers().flat_map(|number| around(&table, number));
    let is_given = |&premise: &u8| deductions.deducible(premise) == Ok(true);
    steps.filter(|step| step[3] == term).filter(|step| premises(step).iter().all(is_given)).count()
}

/// As a derivation the steps pass checks 6 and 7: a true claim of their last conclusion, or of an entry
/// of the knowledge, is accepted, and another is refused with 16, which comes after these.
fn expected_again(claimed: &Claimed, steps: &[[u8; 4]]) -> u32 {
    if claimed.is_true {
        steps.len() as u32
    } else {
        Reason::NotShown.number() * REFUSAL
    }
}
