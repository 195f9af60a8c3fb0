//! Numbers, letters and words that stand in no table, for samples that are refused.
//!
//! Requests that are known already will give a meaning to kind 8, the way d and the test s. A sample
//! with one of these would be accepted one day, or refused for another reason; those here stay what
//! they are.

pub const KINDS: [u8; 3] = [0, 9, 255];
pub const RULES: [u8; 3] = [8, 9, 255];
pub const WAYS: [u8; 3] = [b'A', b'e', 0];
pub const TESTS: [u8; 3] = [b'I', b'e', 0];
