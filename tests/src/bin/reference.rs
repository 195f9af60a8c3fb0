//! Reads a submission from standard input and prints the reference's verdict, as the program
//! `verdict` prints the checker's. A closed standard input reads as an empty one: Rust's library opens
//! /dev/null in its place.

use std::io::{self, Read};

use checker_tests::output;
use checker_tests::reference::verdict;

fn main() -> io::Result<()> {
    let mut submission = Vec::new();
    io::stdin().read_to_end(&mut submission)?;
    output::write(verdict(&submission).as_bytes())
}
