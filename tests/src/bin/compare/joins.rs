//! Joining two submissions, and what is promised of their pool.

use checker_tests::bodies::Bodies;
use checker_tests::generate::{Input, Pair};
use checker_tests::reference::{
    self, code, numbers_in_pool, Checked, Deductions, Joint, Refusal, REFUSAL,
};
use checker_tests::tables::{Call, Claimed, Reason, Way};

use crate::answers::{Joined, Pooled};
use crate::pools::{Given, Pool};
use crate::tally::Tally;
use crate::{difference, same, same_bytes, Hex};

#[cfg(test)]
mod tests;

pub fn compare_joins(input: &Input, found: &[Joined], tally: &mut Tally) -> Result<(), String> {
    for (pair, found) in input.pairs.iter().zip(found) {
        let Pair { first, second, .. } = pair;
        compare_join(input, pair, found, tally).map_err(|difference| {
            format!("{difference}\nfirst {}\nsecond {}", Hex(first), Hex(second))
        })?;
    }
    Ok(())
}

/// The answer and the whole page; and where there is a pool, what holds of it.
fn compare_join(
    input: &Input,
    pair: &Pair,
    found: &Joined,
    tally: &mut Tally,
) -> Result<(), String> {
    let joint = Joint::of(&pair.first, &pair.second);
    let mut expected_page = pair.page.clone();
    let expected = match &joint {
        Ok(joint) => joint.write(&mut expected_page),
        Err(refusal) => Err(*refusal),
    };
    let call = format!("join with a page of {} bytes", pair.page.len());
    same(input, &call, code(expected), found.answer)?;
    same_bytes(input, &call, &expected_page, &found.page)?;
    tally.count(Call::Join, expected.map(|_| true));
    tally.pools.count_answer(pair, joint.as_ref().ok().map(Joint::counts), expected);
    let (Ok(joint), Ok(length)) = (joint, expected) else {
        return Ok(());
    };
    let pool = &found.page[..usize::from(length)];
    let Some(pooled) = &found.pooled else {
        return Err(difference(input, call, "nothing is asked of the pool"));
    };
    compare_pool(input, pair, &joint.numbers(), pool, pooled, tally)
}

/// The pool is given again where it is joined with either, as the first is where it is joined with itself;
/// and what else is promised of it.
fn compare_pool(
    input: &Input,
    pair: &Pair,
    numbers: &[u8],
    pool: &[u8],
    found: &Pooled,
    tally: &mut Tally,
) -> Result<(), String> {
    for ((what, expected), found) in [
        ("the first, joined with itself", &pair.first[..]),
        ("the pool, joined with the first", pool),
        ("the pool, joined with the second", pool),
    ]
    .into_iter()
    .zip(&found.again)
    {
        same_bytes(input, what, expected, found.as_deref().unwrap_or(&[]))?;
    }
    let [first, second, bodies] = [&pair.first, &pair.second, pool]
        .map(|bytes| Bodies::read(bytes).expect("check 2 is passed"));
    let pooled = Pool { first, second, pool: bodies, numbers };
    tally.pools.count_pool(&pooled);
    compare_verdicts(input, pair, pool, &pooled, found, tally)?;
    match &found.deducible {
        Some(deducible) => {
            compare_numbers(input, pair, pool, numbers)?;
            compare_deducible(input, pair, pool, &pooled, deducible, tally)
        }
        None => Ok(()),
    }
}

/// The pool has the terms and the knowledge of both, with each of the first's terms under its number.
fn compare_numbers(input: &Input, pair: &Pair, pool: &[u8], numbers: &[u8]) -> Result<(), String> {
    match numbers_in_pool(&pair.first, &pair.second, pool) {
        Ok(found) => same_bytes(input, "the numbers in the pool", numbers, &found),
        Err(fault) => Err(difference(input, "the pool", &format!("{fault:?}"))),
    }
}

/// What check answers to the first and to the pool. A first submission that is accepted stays accepted, or,
/// in a way that has a verifying step, it is refused with 8 at that step.
fn compare_verdicts(
    input: &Input,
    pair: &Pair,
    pool: &[u8],
    pooled: &Pool,
    found: &Pooled,
    tally: &mut Tally,
) -> Result<(), String> {
    let [first, verdict] = [&pair.first, pool].map(steps);
    let [found_first, found_pool] = found.checks;
    same(input, "check of the first", code(first), found_first)?;
    same(input, "check of the pool", code(verdict), found_pool)?;
    let [_, verifying, letter, _] = pooled.first.claim;
    let way = Way::from_letter(letter).expect("check 5 is passed");
    if let Ok(steps) = first {
        let reachable = Reason::Reachable.number() * REFUSAL + u32::from(verifying);
        let is_verifier = matches!(way.claimed(), Claimed::Verifier(_));
        if found_pool != u32::from(steps) && !(is_verifier && found_pool == reachable) {
            let sides =
                format!("{steps} of the first, and of the pool {}", crate::answer(found_pool));
            return Err(difference(input, "check", &sides));
        }
    }
    if let Err(Refusal { reason, .. }) = verdict {
        if Reason::Claim.number() >= reason.number() {
            return Err(difference(input, "check of the pool", "it is no submission"));
        }
    }
    tally.pools.count_verdicts(way, first, verdict, pooled);
    Ok(())
}

/// How many steps the program of an accepted submission has.
fn steps(submission: &[u8]) -> Checked<u8> {
    Ok(reference::program(submission)?[0])
}

/// What is deducible from each of the three. What is so from the first or from the second is so from the
/// pool, under its number there.
fn compare_deducible(
    input: &Input,
    pair: &Pair,
    pool: &[u8],
    pooled: &Pool,
    found: &[Vec<u32>; 3],
    tally: &mut Tally,
) -> Result<(), String> {
    let submissions = [("first", &pair.first[..]), ("second", &pair.second), ("pool", pool)];
    for ((what, submission), found) in submissions.into_iter().zip(found) {
        compare_each(input, what, submission, found)?;
    }
    let [in_first, in_second, in_pool] = found;
    for (number, &found) in in_pool.iter().enumerate() {
        let of_first = in_first.get(number).copied();
        let of_second = pooled.number_in_second(number).map(|number| in_second[number]);
        let by = [of_first, of_second].map(|answer| answer == Some(1));
        if by.contains(&true) {
            let call = format!("deducible {number} in the pool, and so from one of the two");
            same(input, call, 1, found)?;
        }
        tally.pools.count_given(pooled, number, &Given { by, by_pool: found == 1 });
    }
    Ok(())
}

/// What deducible answers for each term.
fn compare_each(input: &Input, what: &str, submission: &[u8], found: &[u32]) -> Result<(), String> {
    let deductions = Deductions::of(submission).expect("checks 1 to 4 are passed");
    for (number, &found) in found.iter().enumerate() {
        let expected = code(deductions.deducible(number as u8));
        same(input, format_args!("deducible {number} in the {what}"), expected, found)?;
    }
    Ok(())
}
