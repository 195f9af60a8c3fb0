//! The published examples: text, bytes and verdict belong together, and programs and what they are read
//! back to.

use std::collections::BTreeSet;

use checker_tests::bodies::Bodies;
use checker_tests::examples::{file, names, programs, submission, text, Program};
use checker_tests::generate::{premises, Table, UNLISTED};
use checker_tests::notation::{assemble, show, show_program, term_number};
use checker_tests::reference::{
    contents, derivation_and_claim, is_wrong_guess, program, verdict, write, Deductions, Joint,
    Refusal,
};
use checker_tests::tables::{Body, Kind, Rule, LONGEST_SUBMISSION};

#[test]
fn each_text_assembles_to_its_submission() {
    for name in names() {
        assert_eq!(assemble(&text(&name, "txt")), Ok(submission(&name)), "{name}");
    }
}

/// The notation has a writer of its own.
#[test]
fn each_text_assembles_to_what_is_written_from_its_bodies() {
    for name in names() {
        let assembled = assemble(&text(&name, "txt")).expect("a text without a fault");
        let bodies = contents::bodies(&assembled).expect("four bodies");
        let mut page = [0; LONGEST_SUBMISSION];
        let length = write(bodies, &mut page).expect("room for every submission");
        assert_eq!(page[..usize::from(length)], assembled, "{name}");
    }
}

#[test]
fn each_submission_shows_its_text_without_the_comment() {
    for name in names() {
        let canonical = without_comment(&text(&name, "txt"));
        assert_eq!(show(&submission(&name)), Ok(canonical), "{name}");
    }
}

fn without_comment(text: &str) -> String {
    let lines = text.lines().skip_while(|line| line.starts_with('#'));
    lines.map(|line| format!("{line}\n")).collect()
}

#[test]
fn each_program_shows_its_text_without_the_comment() {
    for Program { name, over, bytes } in programs() {
        let bodies = Bodies::read(&submission(&over)).expect("it has its bodies");
        let canonical = without_comment(&text(&name, "program"));
        assert_eq!(show_program(&bytes, bodies.first_written()), Some(canonical), "{name}");
    }
}

/// The program's refusal; or its derivation and claim, and the verdict on these in the place of the
/// submission's own.
fn read_back(program: &Program) -> String {
    let submission = submission(&program.over);
    match derivation_and_claim(&submission, &program.bytes) {
        Ok(bodies) => {
            let own = Bodies::read(&submission).expect("it has its bodies");
            let again = own.with(&bodies).submission();
            let text = show(&again).expect("it has its bodies");
            let at = text.find(Body::Derivation.word()).expect("the section");
            let verdict = verdict(&again).lines().next().map(String::from).expect("a line");
            format!("{}verdict\n  {verdict}\n", &text[at..])
        }
        Err(Refusal { reason, place }) => format!("refused {} {place}\n", reason.number()),
    }
}

#[test]
fn each_program_is_read_back() {
    assert!(programs().len() >= 20);
    for program in programs() {
        assert_eq!(read_back(&program), text(&program.name, "back"), "{}", program.name);
    }
}

#[test]
fn each_has_its_verdict() {
    assert!(names().len() >= 30);
    for name in names() {
        assert_eq!(verdict(&submission(&name)), text(&name, "out"), "{name}");
    }
}

/// The verdict in an example's row of the documentation.
fn documented(table: &str, name: &str) -> Option<String> {
    let row = table.lines().find(|line| line.starts_with(&format!("| {name} |")))?;
    row.split('|').nth(5).map(|cell| cell.trim().to_string())
}

#[test]
fn each_is_in_the_documentation_with_its_verdict() {
    let table = include_str!("../../docs/EXAMPLES.md");
    for name in names() {
        let first_line = text(&name, "out").lines().next().map(String::from);
        assert_eq!(documented(table, &name), first_line, "{name}");
    }
}

/// The rows of a section's table in the documentation, without its head.
fn documented_rows(section: &str) -> Vec<Vec<String>> {
    let (_, section) = include_str!("../../docs/EXAMPLES.md")
        .split_once(&format!("\n## {section}\n"))
        .expect("it is there");
    let (section, _) = section.split_once("\n## ").expect("another comes after it");
    let rows = section.lines().filter_map(|line| line.strip_prefix("| ")?.strip_suffix(" |"));
    rows.skip(1).map(|row| row.split(" | ").map(String::from).collect()).collect()
}

/// The rows of deductions in the documentation: the example, the term, what it is, and the steps, each as a
/// line of a derivation.
fn documented_deductions() -> Vec<[String; 4]> {
    let rows = documented_rows("Deductions").into_iter();
    rows.map(|cells| {
        let steps = cells[3].split('`').skip(1).step_by(2);
        let lines: String =
            steps.enumerate().map(|(at, step)| format!("  {at}: {step}\n")).collect();
        assert!(cells[3] == "none" || !lines.is_empty(), "{cells:?}");
        [cells[0].clone(), cells[1].clone(), cells[2].clone(), lines]
    })
    .collect()
}

/// Those of the premises of each verifying step that is refused with 8, of the guess and of its inverse,
/// where these are deducible; each with steps that have all that has to hold of a deduction.
#[test]
fn each_deduction_in_the_documentation_holds() {
    let rows = documented_deductions();
    let mut found = BTreeSet::new();
    for [name, term, what, lines] in &rows {
        let submission = submission(name);
        let number = term_number(&submission, term).unwrap().expect("a listed term");
        let text = text(name, "txt");
        let (before, after) = text.split_once("derivation\n").expect("the section");
        let (_, after) = after.split_once("claim\n").expect("the section");
        let text = format!("{before}derivation\n{lines}claim\n{after}");
        let steps =
            Bodies::read(&assemble(&text).expect("a text without a fault")).unwrap().derivation;
        let holds = Deductions::of(&submission).unwrap().verify(number, &steps);
        assert_eq!(holds, Ok(()), "{name}, {term}");
        found.insert((name.clone(), number, what.clone()));
    }
    assert_eq!(found.len(), rows.len());
    let refused = names().into_iter().filter(|name| text(name, "out").starts_with("refused 8 "));
    assert_eq!(found, refused.flat_map(|name| explained(&name)).collect());
}

/// The terms of an example that is refused with 8 which a deduction is told of, with what they are.
fn explained(name: &str) -> Vec<(String, u8, String)> {
    let submission = submission(name);
    let bodies = Bodies::read(&submission).unwrap();
    let [guess, verifying, ..] = bodies.claim;
    let premises = premises(&bodies.derivation[usize::from(verifying)]);
    let mut terms: Vec<(u8, String)> = Vec::new();
    for &premise in premises {
        let what = if premises.len() == 1 { "the premise" } else { "a premise" };
        let and_guess = if premise == guess { ", the guess" } else { "" };
        terms.push((premise, format!("{what}{and_guess}")));
    }
    let deductions = Deductions::of(&submission).unwrap();
    let inverse = Table::of(&bodies.terms).inverse(guess).map(|inverse| (inverse, "the inverse"));
    for (term, what) in [(guess, "the guess")].into_iter().chain(inverse) {
        if !premises.contains(&term) && deductions.deducible(term) == Ok(true) {
            terms.push((term, what.to_string()));
        }
    }
    terms.into_iter().map(|(term, what)| (name.to_string(), term, what)).collect()
}

/// What becomes of the verdict on the first of two, with the letter of its way.
type Change = (String, bool, bool);

/// Each pool in the documentation has its counts, and the two verdicts; where the checker is linked, it joins
/// the two to the same. Both verdicts may be had in each way that allows it.
#[test]
fn each_pool_in_the_documentation_holds() {
    let mut changes: BTreeSet<Change> = BTreeSet::new();
    for row in documented_rows("Pools") {
        let [first, second, way, terms, entries, alone, joined, _] = &row[..] else {
            panic!("{row:?}");
        };
        let [first, second] = [first, second].map(|name| submission(name));
        let joint = Joint::of(&first, &second).expect("both pass checks 1 to 5");
        let pool = joint.submission().expect("the pool is within the limits");
        let bodies = Bodies::read(&pool).expect("it has its bodies");
        let found = [
            char::from(bodies.claim[2]).to_string(),
            bodies.terms.len().to_string(),
            bodies.knowledge.len().to_string(),
            first_line(&first),
            first_line(&pool),
        ];
        assert_eq!([way, terms, entries, alone, joined].map(String::clone), found, "{row:?}");
        #[cfg(feature = "linked")]
        assert_eq!(checker::join(&first, &second, &mut [0; LONGEST_SUBMISSION]), Ok(&pool[..]));
        let [is_accepted, stays] = [alone, joined].map(|verdict| verdict.starts_with("accepted"));
        changes.insert((way.clone(), is_accepted, stays));
    }
    let [kab, other] = ["003-needham-schroeder-kab", "003-yahalom-paulson-kab"].map(submission);
    let taken_for_one = Joint::of(&kab, &other).and_then(|joint| joint.submission());
    assert!(first_line(&taken_for_one.expect("a pool")).starts_with("refused 8 "));
    for way in ["a", "b", "c", "j", "k"] {
        assert!(changes.contains(&(way.to_string(), true, true)), "{way} stays accepted");
    }
    for way in ["a", "b", "c"] {
        assert!(changes.contains(&(way.to_string(), true, false)), "{way} is refused with 8");
    }
    assert!(changes.contains(&("b".to_string(), false, true)), "it becomes accepted");
}

fn first_line(submission: &[u8]) -> String {
    verdict(submission).lines().next().map(String::from).expect("a line")
}

/// The public constants of documents 000 to 003, as the texts write them.
const PUBLIC: [&str; 14] = [
    "a",
    "b",
    "c",
    "s",
    "a0",
    "b0",
    "plain 1",
    "plain 2",
    "plain 3",
    "plain 4",
    "req",
    "rep",
    "m1",
    "public ka",
];

/// The names of our own examples and of those from documents 000 to 003: there the knowledge goes
/// by the rule of docs/EXAMPLES.md.
fn by_rule() -> impl Iterator<Item = String> {
    names()
        .into_iter()
        .filter(|name| ("000".."004").contains(&name.as_str()) || name.starts_with("own-"))
}

/// The lines under a title of a text in the notation.
fn section(text: &str, title: &str) -> Vec<String> {
    let lines = text.lines().skip_while(|line| *line != title).skip(1);
    lines.map_while(|line| line.strip_prefix("  ")).map(String::from).collect()
}

/// The guess doesn't count as a constant, and may stand anywhere.
#[test]
fn public_constants_are_known_and_come_first() {
    for name in by_rule() {
        let text = text(&name, "txt");
        let guess = section(&text, "claim")[0].replace("guess ", "");
        let mut constants = section(&text, "terms");
        constants.retain(|term| PUBLIC.contains(&term.as_str()) && *term != guess);
        let mut known = section(&text, "knowledge");
        known.retain(|term| *term != guess);
        assert!(known.starts_with(&constants), "{name}: {constants:?}, known are {known:?}");
    }
}

/// By knowledge, derivation or claim, or as a part of a term that is needed.
#[test]
fn each_listed_term_is_needed() {
    for name in by_rule() {
        let bodies = Bodies::read(&submission(&name)).expect("it has its bodies");
        let mut needed = vec![false; 256];
        let mut need =
            |terms: &[u8]| terms.iter().for_each(|&term| needed[usize::from(term)] = true);
        need(&bodies.knowledge);
        for [rule, premises @ .., conclusion] in &bodies.derivation {
            need(operands(Rule::from_number(*rule), premises));
            need(&[*conclusion]);
        }
        need(&bodies.claim[..1]);
        for (number, [kind, parts @ ..]) in bodies.terms.iter().enumerate().rev() {
            assert!(needed[number], "{name}: term {number}");
            let parts = operands(Kind::from_number(*kind).and_then(Kind::rule), parts);
            parts.iter().for_each(|&part| needed[usize::from(part)] = true);
        }
    }
}

/// Those of the two bytes that number operands of the rule, if there is one.
fn operands(rule: Option<Rule>, bytes: &[u8; 2]) -> &[u8] {
    &bytes[..rule.map_or(0, Rule::operands)]
}

#[test]
fn the_unlisted_name_is_a_wrong_guess_of_each() {
    for name in names() {
        let submission = submission(&name);
        if program(&submission).is_ok() {
            assert_eq!(is_wrong_guess(&submission, UNLISTED), Ok(true), "{name}");
        }
    }
}

/// What stands beside the program `published`, which the gate runs: all examples, each after its
/// length, and all their verdicts.
#[test]
fn the_gate_tries_each() {
    let (mut bundle, mut verdicts) = (Vec::new(), Vec::new());
    for name in names() {
        let submission = submission(&name);
        let length = u16::try_from(submission.len()).expect("a submission is short");
        bundle.extend(length.to_be_bytes());
        bundle.extend(submission);
        verdicts.extend(file(&name, "out"));
    }
    assert!(bundle == include_bytes!("../../crates/published/stdin"));
    assert!(verdicts == include_bytes!("../../crates/published/stdout"));
}
