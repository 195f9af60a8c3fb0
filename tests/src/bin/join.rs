//! `join FIRST SECOND`: asks the checker to join the submissions in two files, and writes the bytes of their
//! pool to standard output. A refusal goes to standard error, as `refused`, number and place, and ends with
//! 1, since there is no pool then.

use std::process::ExitCode;
use std::{env, fs};

use checker::{join, LONGEST_SUBMISSION};
use checker_tests::output;

fn main() -> ExitCode {
    let arguments: Vec<String> = env::args().skip(1).collect();
    let result = match &arguments[..] {
        [first, second] => pool(first, second),
        _ => Err("usage: join FIRST SECOND".to_string()),
    };
    match result
        .and_then(|pool| output::write(&pool).map_err(|error| format!("not written: {error}")))
    {
        Ok(()) => ExitCode::SUCCESS,
        Err(message) => {
            eprintln!("{message}");
            ExitCode::FAILURE
        }
    }
}

fn pool(first: &str, second: &str) -> Result<Vec<u8>, String> {
    let [first, second] = [read(first)?, read(second)?];
    match join(&first, &second, &mut [0; LONGEST_SUBMISSION]) {
        Ok(pool) => Ok(pool.to_vec()),
        Err(refusal) => Err(refusal.to_string()),
    }
}

fn read(file: &str) -> Result<Vec<u8>, String> {
    fs::read(file).map_err(|error| format!("{file}: {error}"))
}
