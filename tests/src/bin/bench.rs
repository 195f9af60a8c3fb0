//! `bench MEASURE VERDICT [MEASURE VERDICT]`: the benchmark of a build of the checker, or of two. A
//! build is the program `measure` with its library, and its program `verdict`. Takes the rounds of
//! the builds in turn, and prints a Markdown table of medians and ranges over the rounds; `-` where a
//! build has no such call.

use std::env;
use std::process::Command;

/// How many rounds; an odd number, so that one of them is in the middle.
const ROUNDS: usize = 11;

/// What a line has in the place of a time that there is none of.
const NO_TIME: &str = "-";

/// A line of one round: what was measured, and the nanoseconds of the checker, if it has the call, and
/// of the reference.
struct Row {
    title: String,
    checker: Option<f64>,
    reference: f64,
}

fn main() {
    let arguments: Vec<String> = env::args().skip(1).collect();
    let builds: Vec<&[String]> = arguments.chunks(2).collect();
    assert!(matches!(arguments.len(), 2 | 4), "usage: bench MEASURE VERDICT [MEASURE VERDICT]");
    // By round, build and line.
    let rounds: Vec<Vec<Vec<Row>>> =
        (0..ROUNDS).map(|_| builds.iter().map(|build| measured(build)).collect()).collect();
    let other = if builds.len() == 2 { " other checker, ns | checker / other |" } else { "" };
    println!("| call | input | bytes | checker, ns | reference, ns | reference / checker |{other}");
    println!("|{}", "---|".repeat(4 + 2 * builds.len()));
    for number in 0..rounds[0][0].len() {
        let row: Vec<Vec<&Row>> =
            rounds.iter().map(|round| round.iter().map(|rows| &rows[number]).collect()).collect();
        println!("{}", line(&row));
    }
}

/// One round of a build.
fn measured(build: &[String]) -> Vec<Row> {
    let output = Command::new(&build[0]).arg(&build[1]).output().expect("the program starts");
    assert!(output.status.success(), "{build:?}: {}", String::from_utf8_lossy(&output.stderr));
    let text = String::from_utf8(output.stdout).expect("a text");
    text.lines().map(|line| parsed(line).expect("a line of five fields")).collect()
}

fn parsed(line: &str) -> Option<Row> {
    let (rest, reference) = line.rsplit_once('\t')?;
    let (title, checker) = rest.rsplit_once('\t')?;
    Some(Row {
        title: title.replace('\t', " | "),
        checker: if checker == NO_TIME { None } else { Some(checker.parse().ok()?) },
        reference: reference.parse().ok()?,
    })
}

/// The line of the table for what the rounds gave, by build.
fn line(rounds: &[Vec<&Row>]) -> String {
    let over_rounds = |digits: usize, value: fn(&[&Row]) -> Option<f64>| {
        let values: Option<Vec<f64>> = rounds.iter().map(|rows| value(rows)).collect();
        values.map_or(NO_TIME.to_string(), |values| spread(values).text(digits))
    };
    let mut cells = vec![
        rounds[0][0].title.clone(),
        over_rounds(0, |rows| rows[0].checker),
        over_rounds(0, |rows| Some(rows[0].reference)),
        over_rounds(2, |rows| Some(rows[0].reference / rows[0].checker?)),
    ];
    if rounds[0].len() == 2 {
        cells.push(over_rounds(0, |rows| rows[1].checker));
        cells.push(over_rounds(2, |rows| Some(rows[0].checker? / rows[1].checker?)));
    }
    format!("| {} |", cells.join(" | "))
}

struct Spread {
    median: f64,
    least: f64,
    most: f64,
}

fn spread(mut sorted: Vec<f64>) -> Spread {
    sorted.sort_by(f64::total_cmp);
    Spread { median: sorted[ROUNDS / 2], least: sorted[0], most: sorted[ROUNDS - 1] }
}

impl Spread {
    fn text(&self, digits: usize) -> String {
        let Spread { median, least, most } = self;
        format!("{median:.digits$} ({least:.digits$} to {most:.digits$})")
    }
}
