//! The calls with their answer as one number: a refusal is its number times [`REFUSAL`] plus its
//! place, and every other answer is below [`REFUSAL`].

/// What the number of a refusal is multiplied with before its place is added.
pub const REFUSAL: u32 = 65_536;

// include/checker.h
extern "C" {
    fn checker_check(sub: *const u8, sub_len: usize, page: *mut u8, page_len: usize) -> u32;
    fn checker_deducible(sub: *const u8, sub_len: usize, term: u8) -> u32;
    fn checker_run(
        sub: *const u8,
        sub_len: usize,
        name: u16,
        program: *const u8,
        program_len: usize,
    ) -> u32;
    fn checker_write(
        terms: *const u8,
        terms_len: usize,
        knowledge: *const u8,
        knowledge_len: usize,
        derivation: *const u8,
        derivation_len: usize,
        claim: *const u8,
        claim_len: usize,
        page: *mut u8,
        page_len: usize,
    ) -> u32;
    fn checker_inverses(sub: *const u8, sub_len: usize, page: *mut u8, page_len: usize) -> u32;
    fn checker_read_back(
        sub: *const u8,
        sub_len: usize,
        program: *const u8,
        program_len: usize,
        page: *mut u8,
        page_len: usize,
    ) -> u32;
    fn checker_deduction(
        sub: *const u8,
        sub_len: usize,
        term: u8,
        page: *mut u8,
        page_len: usize,
    ) -> u32;
    fn checker_join(
        first: *const u8,
        first_len: usize,
        second: *const u8,
        second_len: usize,
        page: *mut u8,
        page_len: usize,
    ) -> u32;
}

/// Checks a submission: the count N of its steps, or a refusal, 1 to 11 or 16.
pub fn check(submission: &[u8], page: &mut [u8]) -> u32 {
    // SAFETY: each buffer is passed with its own length, and only the page, which nothing else
    // refers to, is written.
    unsafe { checker_check(submission.as_ptr(), submission.len(), page.as_mut_ptr(), page.len()) }
}

/// Whether the term of this number is deducible: 1 or 0, or a refusal, 1 to 4 or 12.
pub fn deducible(submission: &[u8], term: u8) -> u32 {
    // SAFETY: the submission is passed with its own length and only read.
    unsafe { checker_deducible(submission.as_ptr(), submission.len(), term) }
}

/// The signal of a program with this name for the guess: 1 or 0, or a refusal, 1 to 5, 13 or 15.
pub fn run(submission: &[u8], name: u16, program: &[u8]) -> u32 {
    // SAFETY: each buffer is passed with its own length and only read.
    unsafe {
        checker_run(submission.as_ptr(), submission.len(), name, program.as_ptr(), program.len())
    }
}

/// Writes the submission of four bodies to the page: the count of bytes written, or a refusal, 14, 2
/// or 11.
pub fn write(
    terms: &[u8],
    knowledge: &[u8],
    derivation: &[u8],
    claim: &[u8],
    page: &mut [u8],
) -> u32 {
    // SAFETY: each buffer is passed with its own length, and only the page, which nothing else
    // refers to, is written.
    unsafe {
        checker_write(
            terms.as_ptr(),
            terms.len(),
            knowledge.as_ptr(),
            knowledge.len(),
            derivation.as_ptr(),
            derivation.len(),
            claim.as_ptr(),
            claim.len(),
            page.as_mut_ptr(),
            page.len(),
        )
    }
}

/// Writes the number of each term's inverse to the page: the count T of terms, or a refusal, 1 to 4
/// or 11.
pub fn inverses(submission: &[u8], page: &mut [u8]) -> u32 {
    // SAFETY: each buffer is passed with its own length, and only the page, which nothing else
    // refers to, is written.
    unsafe {
        checker_inverses(submission.as_ptr(), submission.len(), page.as_mut_ptr(), page.len())
    }
}

/// Reads a program back to a derivation and a claim, and writes these to the page: the count 4n+4 of
/// bytes written, n the program's count of steps, or a refusal, 1 to 5, 13, 17, 18 or 11.
pub fn read_back(submission: &[u8], program: &[u8], page: &mut [u8]) -> u32 {
    // SAFETY: each buffer is passed with its own length, and only the page, which nothing else
    // refers to, is written.
    unsafe {
        checker_read_back(
            submission.as_ptr(),
            submission.len(),
            program.as_ptr(),
            program.len(),
            page.as_mut_ptr(),
            page.len(),
        )
    }
}

/// Shows the deduction of the term of this number, and writes its steps to the page: 0 for no, 1 + n
/// for yes with n steps, or a refusal, 1 to 4, 12 or 19.
pub fn deduction(submission: &[u8], term: u8, page: &mut [u8]) -> u32 {
    // SAFETY: each buffer is passed with its own length, and only the page, which nothing else
    // refers to, is written.
    unsafe {
        checker_deduction(
            submission.as_ptr(),
            submission.len(),
            term,
            page.as_mut_ptr(),
            page.len(),
        )
    }
}

/// Joins two submissions and writes their pool to the page: the count of bytes written, or a refusal, 1 to
/// 5, 20 or 11.
pub fn join(first: &[u8], second: &[u8], page: &mut [u8]) -> u32 {
    // SAFETY: each buffer is passed with its own length, and only the page, which nothing else
    // refers to, is written.
    unsafe {
        checker_join(
            first.as_ptr(),
            first.len(),
            second.as_ptr(),
            second.len(),
            page.as_mut_ptr(),
            page.len(),
        )
    }
}
