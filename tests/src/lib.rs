//! Tests of the checker from outside: an independent reference, a generator of submissions and
//! programs, and a readable notation for submissions, all of them over the same tables.

pub mod arguments;
pub mod bodies;
pub mod examples;
pub mod generate;
pub mod notation;
pub mod output;
pub mod page;
pub mod reference;
pub mod tables;
