//! Submissions over the terms of another, as a second listener may have of the same messages.

use super::keys::compound;
use super::random::Random;
use super::table::Table;
use crate::bodies::{self, Bodies};
use crate::tables::{Body, Kind, Way, IN_KNOWLEDGE};

/// The same, with a claim that passes check 5 whatever the terms: the first of them is an atom.
pub fn joinable(own: &Bodies) -> Bodies {
    let claim = [0, IN_KNOWLEDGE, Way::DeducibleGuess.letter(), 0];
    Bodies { claim, ..own.clone() }
}

/// The same terms, listed from the last on, each after its parts, and the same knowledge; with such a claim.
pub fn turned(own: &Bodies) -> Bodies {
    let mut listing = Listing::of(own);
    for number in listing.own.numbers().rev() {
        listing.list(number);
    }
    let knowledge = own.knowledge.iter().filter_map(|&entry| listing.known(entry)).collect();
    joinable(&Bodies { terms: listing.table.records, knowledge, ..Bodies::default() })
}

/// A submission over some of these terms, listed in another order and with others among them; some of
/// what is known here and other terms are known. It passes checks 1 to 5.
pub fn relative(random: &mut Random, own: &Bodies) -> Bodies {
    let mut listing = Listing::of(own);
    let share = random.pick(&[0, 25, 60, 100, 100]);
    let strangers = random.pick(&[0, 0, 10, 40]);
    let mut order: Vec<u8> = listing.own.numbers().filter(|_| random.chance(share)).collect();
    random.shuffle(&mut order);
    let mut room = Body::Terms.most() - own.terms.len();
    for number in order {
        if room > 0 && random.chance(strangers) {
            stranger(random, &mut listing.table);
            room -= 1;
        }
        listing.list(number);
    }
    if listing.table.records.is_empty() {
        listing.table.atom(random.pick(&Kind::atoms()), random.number() as u16);
    }
    let knowledge = knowledge(random, own, &listing);
    let derivation: Vec<[u8; 4]> =
        (0..random.pick(&[0, 1, 2, 5])).map(|_| [(); 4].map(|()| random.byte())).collect();
    let claim = claim(random, &listing.table, derivation.len());
    Bodies { terms: listing.table.records, knowledge, derivation, claim }
}

/// The terms of a table, listed anew in another.
struct Listing {
    own: Table,
    table: Table,
    /// The new number of each term that is listed.
    numbers: Vec<Option<u8>>,
}

impl Listing {
    fn of(bodies: &Bodies) -> Listing {
        let numbers = vec![None; bodies.terms.len()];
        Listing { own: Table::of(&bodies.terms), table: Table::default(), numbers }
    }

    /// Lists the term with this number after its parts. Answers its new number.
    fn list(&mut self, number: u8) -> u8 {
        if let Some(listed) = self.numbers[usize::from(number)] {
            return listed;
        }
        let listed = match self.own.as_atom(number) {
            Some((kind, name)) => self.table.atom(kind, name),
            None => {
                let kind = self.own.kind(number).expect("check 3 leaves kinds");
                let (_, operands) = self.own.as_compound(number).expect("no atom");
                let mut operands = operands.to_vec();
                for operand in &mut operands {
                    *operand = self.list(*operand);
                }
                self.table.compound(kind, &operands)
            }
        };
        self.numbers[usize::from(number)] = Some(listed);
        listed
    }

    fn known(&self, entry: u8) -> Option<u8> {
        self.numbers[usize::from(entry)]
    }
}

/// Lists a term of another kind or name than those there, most often; or a compound of these.
fn stranger(random: &mut Random, table: &mut Table) {
    let kind = random.pick(&Kind::atoms());
    match random.below(3) {
        0 if !table.records.is_empty() => compound(random, table),
        1 if !table.records.is_empty() => {
            let near = bodies::name(random.pick(&table.records)) ^ random.pick(&[0, 1, 0x100]);
            table.atom(kind, near);
        }
        _ => drop(table.atom(kind, random.number() as u16)),
    }
}

/// Some of the own entries and some other terms, in any order.
fn knowledge(random: &mut Random, own: &Bodies, listing: &Listing) -> Vec<u8> {
    let [heard, besides] = [random.pick(&[0, 50, 100]), random.pick(&[0, 5, 15, 40])];
    let entries: Vec<u8> = own.knowledge.iter().filter_map(|&entry| listing.known(entry)).collect();
    let is_heard =
        |number: &u8| random.chance(if entries.contains(number) { heard } else { besides });
    let mut knowledge: Vec<u8> = listing.table.numbers().filter(is_heard).collect();
    random.shuffle(&mut knowledge);
    knowledge.truncate(Body::Knowledge.most());
    knowledge
}

/// A claim that passes check 5, with so many steps.
fn claim(random: &mut Random, table: &Table, steps: usize) -> [u8; 4] {
    let guess = random.pick(&table.of_kinds(&Kind::atoms()));
    let kind = table.kind(guess).expect("a listed term");
    if steps == 0 {
        return [guess, IN_KNOWLEDGE, Way::DeducibleGuess.letter(), 0];
    }
    let ways: Vec<Way> = Way::ALL.into_iter().filter(|way| way.guesses().contains(&kind)).collect();
    let way = random.pick(&ways);
    let companion = random.below(way.companion().values(steps, table.records.len()));
    [guess, random.below(steps) as u8, way.letter(), companion as u8]
}
