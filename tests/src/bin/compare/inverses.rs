//! Finding the inverses, on pages of several lengths.

use checker_tests::bodies::Bodies;
use checker_tests::generate::Input;
use checker_tests::reference::{self, code, Refusal};
use checker_tests::tables::{Call, Reason};

use crate::answers::Inverses;
use crate::tally::Tally;
use crate::{same, same_bytes};

/// The answer and the whole page, for each of the input's pages.
pub fn compare_inverses(
    input: &Input,
    found: &[Inverses],
    tally: &mut Tally,
) -> Result<(), String> {
    for (page, found) in input.inverse_pages.iter().zip(found) {
        let mut expected_page = page.clone();
        let expected = reference::inverses(&input.submission, &mut expected_page);
        let call = format!("inverses with a page of {} bytes", page.len());
        same(input, &call, code(expected), found.answer)?;
        same_bytes(input, &call, &expected_page, &found.page)?;
        tally.count(Call::Inverses, expected.map(|_| true));
        if matches!(expected, Ok(_) | Err(Refusal { reason: Reason::Page, .. })) {
            count(input, &expected_page, tally);
        }
    }
    Ok(())
}

/// Counts a page after the call, of a submission that passes checks 1 to 4; and what was written on it
/// where it is exact, which is the same on every longer one.
fn count(input: &Input, page: &[u8], tally: &mut Tally) {
    let terms = Bodies::read(&input.submission).expect("checks 1 to 4 are passed").terms;
    tally.keys.count_page(terms.len(), page.len());
    if page.len() == terms.len() {
        tally.keys.count_written(&terms, page);
    }
}
