//! The reasons of refusal.

table! {
    /// The refusals.
    Reason: ReasonRow {
        number: u32,
        word: &'static str,
    }
    Contents    { number: 1,  word: "contents" }
    Count       { number: 2,  word: "count" }
    Term        { number: 3,  word: "term" }
    Knowledge   { number: 4,  word: "knowledge" }
    Claim       { number: 5,  word: "claim" }
    Step        { number: 6,  word: "step" }
    Unfounded   { number: 7,  word: "unfounded" }
    Reachable   { number: 8,  word: "reachable" }
    NoSecondWay { number: 9,  word: "no second way" }
    Undone      { number: 10, word: "undone" }
    Page        { number: 11, word: "page" }
    NoSuchTerm  { number: 12, word: "no such term" }
    Program     { number: 13, word: "program" }
    Ragged      { number: 14, word: "ragged" }
    Stale       { number: 15, word: "stale" }
    NotShown    { number: 16, word: "not shown" }
    OffTheTable { number: 17, word: "off the table" }
    NoClaim     { number: 18, word: "no claim" }
    ShortSheet  { number: 19, word: "short sheet" }
    Overfull    { number: 20, word: "overfull" }
}
