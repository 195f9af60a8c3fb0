//! The calls, and how each may refuse.

use super::Reason;

table! {
    /// The calls.
    Call: CallRow {
        word: &'static str,
        /// What it may refuse with.
        refusals: &'static [Reason],
    }
    Check     { word: "check",     refusals: &[
        Reason::Contents, Reason::Count, Reason::Term, Reason::Knowledge, Reason::Claim, Reason::Step,
        Reason::Unfounded, Reason::Reachable, Reason::NoSecondWay, Reason::Undone, Reason::NotShown,
        Reason::Page,
    ] }
    Deducible { word: "deducible", refusals: &[
        Reason::Contents, Reason::Count, Reason::Term, Reason::Knowledge, Reason::NoSuchTerm,
    ] }
    Run       { word: "run",       refusals: &[
        Reason::Contents, Reason::Count, Reason::Term, Reason::Knowledge, Reason::Claim, Reason::Program,
        Reason::Stale,
    ] }
    Write     { word: "write",     refusals: &[Reason::Ragged, Reason::Count, Reason::Page] }
    Inverses  { word: "inverses",  refusals: &[
        Reason::Contents, Reason::Count, Reason::Term, Reason::Knowledge, Reason::Page,
    ] }
    ReadBack  { word: "read_back", refusals: &[
        Reason::Contents, Reason::Count, Reason::Term, Reason::Knowledge, Reason::Claim, Reason::Program,
        Reason::OffTheTable, Reason::NoClaim, Reason::Page,
    ] }
    Deduction { word: "deduction", refusals: &[
        Reason::Contents, Reason::Count, Reason::Term, Reason::Knowledge, Reason::NoSuchTerm,
        Reason::ShortSheet,
    ] }
    Join      { word: "join",      refusals: &[
        Reason::Contents, Reason::Count, Reason::Term, Reason::Knowledge, Reason::Claim, Reason::Overfull,
        Reason::Page,
    ] }
}
