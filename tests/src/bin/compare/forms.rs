//! Writing the submissions of forms, and reading what was written.

use checker_tests::generate::{Form, Input};
use checker_tests::reference::{self, code, contents, Refusal};
use checker_tests::tables::{Body, Call, Reason, LONGEST_PROGRAM};

use crate::answers::Written;
use crate::tally::Tally;
use crate::{difference, same, same_bytes, Hex};

/// The answer and the whole page; and where the form is accepted, what was written.
pub fn compare_form(
    input: &Input,
    form: &Form,
    found: &Written,
    tally: &mut Tally,
) -> Result<(), String> {
    compare_write(input, form, found, tally)
        .map_err(|difference| format!("{difference}\n{}", shown(form)))
}

fn compare_write(
    input: &Input,
    form: &Form,
    found: &Written,
    tally: &mut Tally,
) -> Result<(), String> {
    let mut expected_page = form.page.clone();
    let expected = reference::write(form.bodies(), &mut expected_page);
    same(input, "write", code(expected), found.answer)?;
    same_bytes(input, "the page after write", &expected_page, &found.page)?;
    tally.count(Call::Write, expected.map(|_| true));
    let Ok(length) = expected else {
        return Ok(());
    };
    compare_written(input, form, &found.page[..usize::from(length)], found.check, tally)
}

/// What was written has the form's bodies. It is the input's submission, whose check is compared
/// anyway, where this has the same bodies; else check answers as the reference does, and never with
/// 1 or 2.
fn compare_written(
    input: &Input,
    form: &Form,
    written: &[u8],
    check: Option<u32>,
    tally: &mut Tally,
) -> Result<(), String> {
    if contents::bodies(written) != Ok(form.bodies()) {
        return Err(difference(input, "write", "other bodies are read"));
    }
    if contents::bodies(&input.submission) == Ok(form.bodies()) {
        same_bytes(input, "write", &input.submission, written)?;
        tally.rewritten += 1;
        return Ok(());
    }
    let expected = reference::check(written, &mut [0; LONGEST_PROGRAM]);
    let check = check.expect("an answer for each acceptance");
    same(input, "check of what was written", code(expected), check)?;
    match expected {
        Err(Refusal { reason: Reason::Contents | Reason::Count, .. }) => {
            Err(difference(input, "check of what was written", "it is no submission"))
        }
        _ => Ok(()),
    }
}

/// The form to try again; of a long body only how long it is.
fn shown(form: &Form) -> String {
    let mut lines = vec![format!("form with a page of {} bytes", form.page.len())];
    for (body, bytes) in Body::ALL.into_iter().zip(form.bodies()) {
        let most = body.record() * (body.most() + 1);
        let records = if bytes.len() > most { "..".to_string() } else { Hex(bytes).to_string() };
        lines.push(format!("{}, {} bytes: {records}", body.word(), bytes.len()));
    }
    lines.join("\n")
}
