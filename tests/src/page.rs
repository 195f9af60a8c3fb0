//! Pages for calls of the reference, painted, so that each byte that a call leaves is seen.

use crate::reference::{code, Checked};

pub const PAINT: u8 = 0xAA;

/// What the call answers on a page of this length, and the page's first bytes: as many as `count` says of its
/// answer, or none where it refuses. All the others are as before.
pub fn called<T: Into<u32> + Copy>(
    page: usize,
    count: impl Fn(T) -> usize,
    call: impl FnOnce(&mut [u8]) -> Checked<T>,
) -> (u32, Vec<u8>) {
    let mut page = vec![PAINT; page];
    let answer = call(&mut page);
    let kept = page.split_off(answer.map_or(0, count));
    assert!(kept.iter().all(|&byte| byte == PAINT));
    (code(answer), page)
}
