//! `measure VERDICT`: one round of the benchmark. Times the checker over its C boundary, and its
//! program VERDICT from start to end, beside the reference and on the same inputs. Prints a line
//! for each input: call, input, bytes, and the nanoseconds of the checker and of the reference. A `-`
//! is for a call that the library has no more than by name. Pages are not cleared between calls.

use std::env;
use std::ffi::OsStr;
use std::fs::File;
use std::hint::black_box;
use std::process::{Command, Stdio};
use std::time::{Duration, Instant};

use checker::raw;
use checker_tests::bodies::{self, Bodies};
use checker_tests::examples;
use checker_tests::generate::shapes::{self, Naming, Nesting, Order, Secrets};
use checker_tests::generate::{
    astray, farthest, joinable, padded, repeated, shortest, turned, Form, UNLISTED,
};
use checker_tests::reference::{self, code, Guesses};
use checker_tests::tables::{
    Body, Kind, Rule, Test, Way, LONGEST_PROGRAM, LONGEST_READ_BACK, LONGEST_SUBMISSION,
    SHORTEST_SHEET,
};

/// The shortest time to measure, and how many measurements the fastest is taken of. Short ones end
/// before another process gets the processor.
const SHORTEST: Duration = Duration::from_millis(1);
const MEASUREMENTS: usize = 25;

/// The answer of a call that the library has only so that this program links. `bench/run` adds such
/// calls to another library that lacks them.
const NO_CALL: u32 = u32::MAX;

/// The counts of terms for which a shape's cost is compared.
const GROWING: [usize; 5] = [25, 50, 100, 200, 250];

/// The kinds of keys that have an inverse.
const KEYS: [Kind; 2] = [Kind::Public, Kind::Private];
const ATOMS: [Kind; 3] = [Kind::Plain, Kind::Public, Kind::Private];

/// An example of about twenty terms.
const TYPICAL: &str = "003-needham-schroeder-kas";

/// An atom that no shape lists.
const UNLISTED_ATOM: [u8; 3] = [Kind::Plain.number(), u8::MAX, u8::MAX];

fn main() {
    let verdict = env::args_os().nth(1).expect("usage: measure VERDICT");
    for (title, submission) in submissions().into_iter().chain(known_guesses()) {
        measure_check(&title, &submission);
    }
    for (title, submission) in submissions().into_iter().chain(growing()) {
        measure_deducible(&title, &submission);
    }
    measure_own_page("M1", &examples::submission("M1"));
    measure_own_page("typical", &examples::submission(TYPICAL));
    measure_own_page("largest accepted", &shapes::largest().submission());
    measure_own_page("249 hashes, 128 steps", &hash_chain(Body::Derivation.most()));
    let doubling = shapes::doubling_known(Body::Terms.most());
    measure_repeated("128 times pair r r, 250 terms", Rule::Pair, &doubling);
    measure_repeated("128 times hash r, 250 terms", Rule::Hash, &doubling);
    measure_other_names("M1", &examples::submission("M1"));
    measure_other_names("typical", &examples::submission(TYPICAL));
    measure_other_names("largest accepted", &shapes::largest().submission());
    measure_search();
    measure_written();
    measure_deductions();
    for name in ["M1", TYPICAL] {
        measure_program(name, &verdict);
    }
}

/// What writes something else than a program: a submission, the inverses, a derivation, a pool.
fn measure_written() {
    measure_write_again("M1", &examples::submission("M1"));
    measure_write_again("typical", &examples::submission(TYPICAL));
    measure_write_again("largest", &shapes::largest().submission());
    measure_write("70,000 records in each body, refused", &Form::zeros(70_000));
    for (title, submission) in key_tables() {
        measure_inverses(title, &submission);
    }
    for (title, submission, program) in sent_programs() {
        measure_read_back(&title, &submission, &program);
    }
    for (title, first, second) in pairs() {
        measure_join(&title, &first, &second);
    }
}

fn measure_deductions() {
    for (title, submission) in submissions() {
        if let Some(term) = farthest(&submission) {
            measure_deduction(&title, &submission, term);
        }
    }
    for (title, submission) in growing() {
        let last = last(&submission);
        if usize::from(last) + 1 == Body::Terms.most() {
            measure_deduction(&format!("{title}, no"), &submission, last);
        }
    }
}

fn submissions() -> Vec<(String, Vec<u8>)> {
    let terms = Body::Terms.most();
    let submissions = vec![
        ("M1".to_string(), examples::submission("M1")),
        ("typical (Needham-Schroeder)".to_string(), examples::submission(TYPICAL)),
        ("largest accepted".to_string(), shapes::largest().submission()),
        ("doubling pairs known".to_string(), shapes::doubling_known(terms).submission()),
        ("doubling pairs asked".to_string(), shapes::doubling_asked(terms).submission()),
        ("nested pairs, 100 locked".to_string(), shapes::nested_pairs(143, 40, 60).submission()),
        ("249 hashes, 1 step".to_string(), hash_chain(1)),
        ("249 hashes, 128 steps".to_string(), hash_chain(Body::Derivation.most())),
        (
            "49 nested keys, hashes of hashes".to_string(),
            shapes::nested_hash_keys(49, 2).submission(),
        ),
        (
            "250 atoms with one low byte".to_string(),
            shapes::atoms(&[Kind::Plain], Naming::OneLowByte).submission(),
        ),
        (
            "250 atoms with the longest lookup".to_string(),
            shapes::atoms(&ATOMS, Naming::LongestLookup).submission(),
        ),
        (
            "247 keys with one low byte, no pair".to_string(),
            shapes::keys_beside(&KEYS, Naming::OneLowByte).submission(),
        ),
    ];
    [submissions, chains()].concat()
}

/// Submissions in the ways in which the guess or its inverse is deducible.
fn known_guesses() -> Vec<(String, Vec<u8>)> {
    let largest = |way, is_entry| shapes::largest_deducible(way, is_entry).submission();
    [
        ("typical, way k", typical_known()),
        ("largest accepted, way k, last step", largest(Way::DeducibleGuess, false)),
        ("largest accepted, way k, last entry", largest(Way::DeducibleGuess, true)),
        ("largest accepted, way j, last step", largest(Way::DeducibleInverse, false)),
        ("largest accepted, way j, last entry", largest(Way::DeducibleInverse, true)),
    ]
    .map(|(title, submission)| (title.to_string(), submission))
    .to_vec()
}

/// The typical example with its nonce as the guess, which its last two steps take out of a message.
fn typical_known() -> Vec<u8> {
    let mut bodies = bodies(&examples::submission(TYPICAL));
    bodies.derivation.drain(..bodies.derivation.len() - 2);
    let [.., nonce] = bodies.derivation[1];
    bodies.claim = [nonce, 1, Way::DeducibleGuess.letter(), 0];
    bodies.submission()
}

/// Messages of which each opened one gives the key of the next.
fn chains() -> Vec<(String, Vec<u8>)> {
    let mut chains = Vec::new();
    for (word, order) in Order::ALL {
        chains.push((
            format!("76 private keys, {word}"),
            shapes::inverse_key_chain(Kind::Private, 76, order).submission(),
        ));
        chains.push((
            format!("52 plain keys, 75 locked, {word}"),
            shapes::plain_key_chain(52, 75, order).submission(),
        ));
        chains.push((
            format!("61 keys, hashes of hashes, {word}"),
            shapes::hash_key_chain(Secrets::Atoms, 61, 2, order).submission(),
        ));
        chains.push((
            format!("102 keys down one chain of hashes, {word}"),
            shapes::hash_key_chain(Secrets::Hashes, 102, 0, order).submission(),
        ));
    }
    chains
}

/// Shapes of the submissions above with fewer terms and with as many, of which the last is an atom
/// that nobody knows. The parts of a shape have the same proportions.
fn growing() -> Vec<(String, Vec<u8>)> {
    let shapes: [(&str, fn(usize) -> Bodies); 4] = [
        ("private keys", |links| shapes::inverse_key_chain(Kind::Private, links, Order::Rising)),
        ("plain keys, locked", |links| {
            shapes::plain_key_chain(links, links * 75 / 52, Order::Rising)
        }),
        ("nested pairs", |levels| {
            shapes::nested_pairs(levels, levels * 40 / 143, levels * 60 / 143)
        }),
        ("keys down one chain of hashes", |links| {
            shapes::hash_key_chain(Secrets::Hashes, links, 0, Order::Rising)
        }),
    ];
    let mut growing = Vec::new();
    for (title, shape) in shapes {
        for terms in GROWING {
            let submission = shapes::filled(terms, shape).submission();
            growing.push((format!("{title}, T = {terms}"), submission));
        }
    }
    growing
}

/// Submissions to find the inverses of.
fn key_tables() -> Vec<(&'static str, Vec<u8>)> {
    let atoms = |kinds: &[Kind], naming| shapes::atoms(kinds, naming).submission();
    vec![
        ("M1", examples::submission("M1")),
        ("typical (Needham-Schroeder)", examples::submission(TYPICAL)),
        ("largest accepted", shapes::largest().submission()),
        ("125 pairs of keys", atoms(&KEYS, Naming::BothBytes)),
        ("125 pairs of keys with one low byte", atoms(&KEYS, Naming::OneLowByte)),
        ("250 public keys with one low byte", atoms(&[Kind::Public], Naming::OneLowByte)),
        ("125 pairs of keys with the longest lookup", atoms(&KEYS, Naming::LongestLookup)),
        (
            "247 keys with one low byte, no pair",
            shapes::keys_beside(&KEYS, Naming::OneLowByte).submission(),
        ),
    ]
}

/// Programs to read back, each with its title and its submission: own pages, long ones over terms that
/// are listed last, and the same with a last term that is not listed.
fn sent_programs() -> Vec<(String, Vec<u8>, Vec<u8>)> {
    let own = [
        ("M1", examples::submission("M1")),
        ("typical (Needham-Schroeder)", examples::submission(TYPICAL)),
        ("largest accepted", shapes::largest().submission()),
        ("249 hashes, 128 steps", hash_chain(Body::Derivation.most())),
    ];
    let mut sent = Vec::new();
    for (title, submission) in own {
        let program = own_page(&submission);
        sent.push((format!("{title}, its own page"), submission, program));
    }
    for (title, rule, nesting) in [
        ("128 times pair r r, listed last", Rule::Pair, Nesting::DoublingPairs),
        ("128 times hash r, listed last", Rule::Hash, Nesting::Hashes),
    ] {
        let bodies = shapes::listed_last(nesting);
        let guess = bodies.knowledge.len() as u8;
        let program = repeated(rule, guess, |register| register);
        let strayed = astray(&program, guess);
        sent.push((title.to_string(), bodies.submission(), program));
        sent.push((format!("{title}, but for the last"), bodies.submission(), strayed));
    }
    sent
}

/// Submissions to join. In those with one low byte the names of atoms differ in the high byte only, and the
/// records of hashes in the number of the part.
fn pairs() -> Vec<(String, Vec<u8>, Vec<u8>)> {
    let most = Body::Terms.most();
    let examples = [
        ("M1 with itself", "M1", "M1"),
        ("typical (Needham-Schroeder), the same run", TYPICAL, "003-needham-schroeder-kab"),
        ("two runs (Denning Sacco)", "003-denning-sacco-kas", "003-denning-sacco-kac-shown"),
    ];
    let submissions = |(title, first, second): (&str, &str, &str)| {
        (title.to_string(), examples::submission(first), examples::submission(second))
    };
    let mut pairs = examples.map(submissions).to_vec();
    let mut add = |title: String, first: &Bodies, second: &Bodies| {
        pairs.push((title, first.submission(), second.submission()));
    };
    for (word, kinds, naming) in [
        ("atoms", &[Kind::Plain][..], Naming::BothBytes),
        ("atoms with one low byte", &[Kind::Plain], Naming::OneLowByte),
        ("atoms with the longest lookup", &ATOMS, Naming::LongestLookup),
    ] {
        let atoms = joinable(&shapes::atoms(kinds, naming));
        let [front, back] = [&atoms.terms[..most / 2], &atoms.terms[most / 2..]]
            .map(|terms| Bodies { terms: terms.to_vec(), ..atoms.clone() });
        let hashed = joinable(&shapes::hashed(naming));
        let more =
            Bodies { terms: [&atoms.terms[1..], &[UNLISTED_ATOM]].concat(), ..atoms.clone() };
        add(format!("125 {word} with 125 others"), &front, &back);
        add(format!("250 {word} with the same from the last on"), &atoms, &turned(&atoms));
        add(format!("125 {word} and their hashes, the same"), &hashed, &turned(&hashed));
        add(format!("250 {word}, the last is one too many"), &atoms, &more);
    }
    for (word, nesting) in
        [("hashes, one of", Nesting::Hashes), ("pairs, each in", Nesting::LeftPairs)]
    {
        let tower = joinable(&shapes::tower(nesting, most));
        add(format!("249 {word} the other, with the same"), &tower, &tower);
    }
    let [first, second] = full_of_entries();
    add("250 terms, the last entry is one too many".to_string(), &first, &second);
    pairs
}

/// Two of the most terms, all in both, and the most entries, of which the second's last is not the first's.
fn full_of_entries() -> [Bodies; 2] {
    let (most, entries) = (Body::Terms.most() as u8, Body::Knowledge.most() as u8);
    let mut first = joinable(&shapes::atoms(&[Kind::Plain], Naming::OneLowByte));
    first.knowledge = (most - entries..most).collect();
    let mut second = first.clone();
    second.knowledge.reverse();
    second.knowledge[usize::from(entries) - 1] = 0;
    [first, second]
}

/// A chain of hashes of the guess up to the limit on terms, of which so many are steps.
fn hash_chain(steps: usize) -> Vec<u8> {
    shapes::built(Nesting::Hashes, Body::Terms.most(), steps).submission()
}

fn measure_check(title: &str, submission: &[u8]) {
    let mut page = [0; LONGEST_PROGRAM];
    let checker = answered(|| raw::check(black_box(submission), &mut page));
    let reference = nanoseconds(|| code(reference::check(black_box(submission), &mut page)));
    print_row("check", title, submission.len(), checker, reference);
}

/// The number of the last term.
fn last(submission: &[u8]) -> u8 {
    (bodies(submission).terms.len() - 1) as u8
}

/// Asks for the last term.
fn measure_deducible(title: &str, submission: &[u8]) {
    let last = last(submission);
    let checker = answered(|| raw::deducible(black_box(submission), last));
    let reference = nanoseconds(|| code(reference::deducible(black_box(submission), last)));
    print_row("deducible", title, submission.len(), checker, reference);
}

/// Runs the program with the right guess.
fn measure_run(title: &str, submission: &[u8], program: &[u8]) {
    let (_, name) = reference::guess(submission).expect("a submission that can be run");
    measure_name(title, submission, name, program);
}

fn measure_name(title: &str, submission: &[u8], name: u16, program: &[u8]) {
    let checker = answered(|| raw::run(black_box(submission), name, program));
    let reference = nanoseconds(|| code(reference::run(black_box(submission), name, program)));
    print_row("run", title, submission.len() + program.len(), checker, reference);
}

/// Runs the longest program of one rule over its own last result, twice where it has two operands.
fn measure_repeated(title: &str, rule: Rule, bodies: &Bodies) {
    let program = repeated(rule, bodies.knowledge.len() as u8, |register| register);
    measure_run(title, &bodies.submission(), &program);
}

/// What the check writes on the page.
fn own_page(submission: &[u8]) -> Vec<u8> {
    reference::program(submission).expect("an accepted submission")
}

/// Runs what the check writes on the page.
fn measure_own_page(title: &str, submission: &[u8]) {
    measure_run(&format!("{title}, its own page"), submission, &own_page(submission));
}

/// Runs it with a wrong guess that is not listed, and with a stale name.
fn measure_other_names(title: &str, submission: &[u8]) {
    let program = own_page(submission);
    for (word, name) in [("fresh", UNLISTED), ("stale", stale_name(submission))] {
        let title = format!("{title}, its own page, {word} name");
        measure_name(&title, submission, name, &program);
    }
}

/// The first stale name of a listed atom.
fn stale_name(submission: &[u8]) -> u16 {
    let guesses = Guesses::of(submission).expect("a submission that can be run");
    let mut names = bodies(submission).terms.into_iter().map(bodies::name);
    names.find(|&name| name != guesses.own() && guesses.is_stale(name)).expect("a stale name")
}

/// Looks for names in a known pair that holds the same pair twice, and so on down to an atom: one
/// that is not listed, those of the first and of the last listed atom, which are part of nothing, and
/// that of the atom.
fn measure_search() {
    let most = Body::Terms.most();
    let bodies = padded(&shapes::doubling_known_beside(most - 1), most, 0, 0);
    let guess = bodies.knowledge.len() as u8;
    let program = shortest(Test::Equal, [guess, guess]);
    let names = [
        ("unlisted name", UNLISTED),
        ("name listed first", shapes::FRESH + 1),
        ("name listed last", bodies::name(bodies.terms[most - 1])),
        ("stale name", shapes::FRESH),
    ];
    for (word, name) in names {
        let title = format!("doubling pairs known, short program, {word}");
        measure_name(&title, &bodies.submission(), name, &program);
    }
}

fn measure_write(title: &str, form: &Form) {
    let [terms, knowledge, derivation, claim] = form.bodies();
    let mut page = form.page.clone();
    let checker =
        answered(|| raw::write(black_box(terms), knowledge, derivation, claim, &mut page));
    let reference = nanoseconds(|| code(reference::write(black_box(form.bodies()), &mut page)));
    print_row("write", title, form.bodies().concat().len(), checker, reference);
}

/// Writes the submission from its own bodies.
fn measure_write_again(title: &str, submission: &[u8]) {
    let form = Form::new(bodies(submission).bytes(), LONGEST_SUBMISSION);
    measure_write(&format!("{title}, its own bodies"), &form);
}

fn measure_inverses(title: &str, submission: &[u8]) {
    let mut page = [0; Body::Terms.most()];
    let checker = answered(|| raw::inverses(black_box(submission), &mut page));
    let reference = nanoseconds(|| code(reference::inverses(black_box(submission), &mut page)));
    print_row("inverses", title, submission.len(), checker, reference);
}

fn measure_join(title: &str, first: &[u8], second: &[u8]) {
    let mut page = [0; LONGEST_SUBMISSION];
    let checker = answered(|| raw::join(black_box(first), black_box(second), &mut page));
    let reference =
        nanoseconds(|| code(reference::join(black_box(first), black_box(second), &mut page)));
    print_row("join", title, first.len() + second.len(), checker, reference);
}

fn measure_read_back(title: &str, submission: &[u8], program: &[u8]) {
    let mut page = [0; LONGEST_READ_BACK];
    let checker = answered(|| raw::read_back(black_box(submission), program, &mut page));
    let reference =
        nanoseconds(|| code(reference::read_back(black_box(submission), program, &mut page)));
    print_row("read_back", title, submission.len() + program.len(), checker, reference);
}

/// Asks for this term: the one that the most steps lead to, or one that nobody knows.
fn measure_deduction(title: &str, submission: &[u8], term: u8) {
    let mut page = [0; SHORTEST_SHEET];
    let checker = answered(|| raw::deduction(black_box(submission), term, &mut page));
    let reference =
        nanoseconds(|| code(reference::deduction(black_box(submission), term, &mut page)));
    print_row("deduction", title, submission.len(), checker, reference);
}

/// Starts the program on an example, and the reference's program, which is built beside this one.
fn measure_program(name: &str, verdict: &OsStr) {
    let this = env::current_exe().expect("the path of this program");
    let reference = this.with_file_name("reference");
    let checker = Some(nanoseconds(|| started(verdict, name)));
    let reference = nanoseconds(|| started(reference.as_os_str(), name));
    print_row("verdict", name, examples::submission(name).len(), checker, reference);
}

fn started(program: &OsStr, name: &str) {
    let input = File::open(examples::path(name, "sub")).expect("an example");
    let status = Command::new(program).stdin(input).stdout(Stdio::null()).status();
    assert!(status.expect("the program starts").success());
}

fn bodies(submission: &[u8]) -> Bodies {
    Bodies::read(submission).expect("a submission with four bodies")
}

/// The time of a call of the library, where that has it.
fn answered(mut call: impl FnMut() -> u32) -> Option<f64> {
    (call() != NO_CALL).then(|| nanoseconds(call))
}

/// The time of a call, by the fastest measurement.
fn nanoseconds<T>(mut call: impl FnMut() -> T) -> f64 {
    let mut calls: u32 = 1;
    while timed(&mut call, calls) < SHORTEST {
        calls *= 2;
    }
    (0..MEASUREMENTS)
        .map(|_| timed(&mut call, calls).as_nanos() as f64 / f64::from(calls))
        .fold(f64::INFINITY, f64::min)
}

fn timed<T>(call: &mut impl FnMut() -> T, calls: u32) -> Duration {
    let start = Instant::now();
    for _ in 0..calls {
        black_box(call());
    }
    start.elapsed()
}

fn print_row(call: &str, title: &str, bytes: usize, checker: Option<f64>, reference: f64) {
    let checker = checker.map_or("-".to_string(), |nanoseconds| nanoseconds.to_string());
    println!("{call}\t{title}\t{bytes}\t{checker}\t{reference}");
}
