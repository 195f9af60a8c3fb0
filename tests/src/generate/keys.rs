//! Tables of keys, with their inverses and without, among terms that are easily taken for these.

use super::random::Random;
use super::table::Table;
use crate::bodies::{self, Bodies};
use crate::tables::{Body, Kind};

/// The bytes that names are made of. Where there are few, many names differ in one byte only.
struct Names {
    high: Vec<u8>,
    low: Vec<u8>,
}

impl Names {
    fn new(random: &mut Random) -> Names {
        let [high, low] = [(); 2].map(|()| {
            let count = random.pick(&[1, 2, 3, 16, 250]);
            random.bytes(count)
        });
        Names { high, low }
    }

    fn one(&self, random: &mut Random) -> u16 {
        u16::from_be_bytes([random.pick(&self.high), random.pick(&self.low)])
    }
}

/// A table of some size, and some of its terms known. No step, so check 5 refuses it.
pub fn keys(random: &mut Random) -> Bodies {
    let size = match random.weighted(&[10, 50, 20, 20]) {
        0 => Body::Terms.least(),
        1 => random.between(2, 12),
        2 => random.between(13, 60),
        _ => Body::Terms.most(),
    };
    let table = table(random, size);
    let mut knowledge: Vec<u8> = table.numbers().collect();
    random.shuffle(&mut knowledge);
    knowledge.truncate(random.between(Body::Knowledge.least(), Body::Knowledge.most()));
    Bodies { terms: table.records, knowledge, ..Bodies::default() }
}

fn table(random: &mut Random, size: usize) -> Table {
    let names = Names::new(random);
    let mut table = Table::default();
    table.atom(random.pick(&Kind::atoms()), names.one(random));
    while table.records.len() < size {
        match random.weighted(&[70, 10, 20]) {
            0 => {
                let (key, _) = random.pick(&Kind::inverses());
                table.atom(key, name(random, &names, &table));
            }
            1 => drop(table.atom(Kind::Plain, name(random, &names, &table))),
            _ => compound(random, &mut table),
        }
    }
    table
}

/// One of the names, or what a listed term has for a name, or would have if it were an atom.
fn name(random: &mut Random, names: &Names, table: &Table) -> u16 {
    if random.chance(30) {
        bodies::name(random.pick(&table.records))
    } else {
        names.one(random)
    }
}

/// Lists a compound of listed terms, where there is a key for it.
pub fn compound(random: &mut Random, table: &mut Table) {
    let (kind, rule) = random.pick(&Kind::compounds());
    let terms: Vec<u8> = table.numbers().collect();
    let seconds = if kind.keys().is_empty() { terms.clone() } else { table.of_kinds(kind.keys()) };
    if !seconds.is_empty() {
        let operands = [random.pick(&terms), random.pick(&seconds)];
        table.compound(kind, &operands[..rule.operands()]);
    }
}
