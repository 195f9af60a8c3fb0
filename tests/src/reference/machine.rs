//! The machine that runs a register program.

use super::program::Program;
use super::rule::{put_together, taken_apart};
use super::term::{Operands, Store, Term};
use crate::tables::{Rule, Test};

/// The signal of the program over these first registers.
pub fn signal(store: &mut Store, registers: Vec<Term>, program: &Program) -> bool {
    let registers = executed(store, registers, program);
    let [first, second] = program.tested.map(|r| &registers[usize::from(r)]);
    match program.test {
        Test::Equal => first == second,
        Test::HasInverse => first.is_inverse_of(second),
    }
}

/// What all registers hold after the last instruction.
pub fn executed(store: &mut Store, mut registers: Vec<Term>, program: &Program) -> Vec<Term> {
    for instruction in &program.instructions {
        let operands = Operands::numbered(&registers, instruction.operands());
        let operands = operands.expect("check 13 leaves written registers");
        registers.push(result(store, instruction.rule, operands));
    }
    registers
}

/// The term that the rule forms, reduced at its top.
fn result(store: &mut Store, rule: Rule, operands: Operands) -> Term {
    taken_apart(rule, &operands)
        .or_else(|| put_together(rule, &operands))
        .unwrap_or_else(|| store.headed(rule, operands))
}
