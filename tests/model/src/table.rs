//! Checks a term table and gives what is known of each term: word counts and size in cells.
//! Refuses 1 to 9, each with its place. docs/READING.md: "Term tables", "Cells", "Refusal numbers".

use crate::words::{is_width, largest};
use crate::Refusal;

/// The most numbers in a table: 256 terms of four.
pub const MOST_NUMBERS: usize = 1024;

/// The most cells in a circuit.
pub const MOST_CELLS: u128 = 4096;

/// What is known of every term, reached from the main one or not.
pub struct Facts {
    /// Input words of each term.
    pub inputs: Vec<u32>,
    /// Output words of each term.
    pub outputs: Vec<u32>,
    /// Cells of each term's block. Sums that leave u128 stay at its top, far above the limit.
    pub sizes: Vec<u128>,
}

impl Facts {
    /// Gives the number of the main term.
    pub fn main(&self) -> usize {
        self.inputs.len() - 1
    }

    /// Gives the cells of the whole circuit: the main block and what stands in front of it.
    pub fn cells(&self) -> u128 {
        let front = 6 + u128::from(self.inputs[self.main()]);
        front.saturating_add(self.sizes[self.main()])
    }
}

/// What a number of a term stands for.
enum Role {
    Unused,
    Operand,
    /// The m of Const and Field.
    Count,
    /// The k of Field, which has to be below m.
    Index,
    /// The v of Const.
    Value,
}

/// Gives the roles of a, b and c, or nothing for an unknown kind.
fn roles(kind: u32) -> Option<[Role; 3]> {
    use Role::*;
    match kind {
        1 | 2 => Some([Operand, Operand, Unused]),
        3 | 4 => Some([Operand, Operand, Operand]),
        9 => Some([Count, Value, Unused]),
        12 => Some([Count, Index, Unused]),
        13..=22 => Some([Unused, Unused, Unused]),
        _ => None,
    }
}

/// Checks a table by numbers 1 to 9, in the order that is fixed.
pub fn check(width: u32, table: &[u32]) -> Result<Facts, Refusal> {
    let facts = facts(width, table)?;
    if facts.cells() > MOST_CELLS {
        return Err((9, 0));
    }
    Ok(facts)
}

/// Checks a table by numbers 1 to 8 and gives its facts, whatever the size.
pub fn facts(width: u32, table: &[u32]) -> Result<Facts, Refusal> {
    if !is_width(width) {
        return Err((1, 0));
    }
    if table.is_empty() || table.len() % 4 != 0 || table.len() > MOST_NUMBERS {
        return Err((2, 0));
    }
    let mut facts = Facts { inputs: vec![], outputs: vec![], sizes: vec![] };
    for (place, term) in table.chunks(4).enumerate() {
        check_term(width, &mut facts, term).map_err(|number| (number, place as u32))?;
    }
    Ok(facts)
}

/// Checks the next term by numbers 3 to 8 and adds its facts.
fn check_term(width: u32, facts: &mut Facts, term: &[u32]) -> Result<(), u32> {
    let Some(roles) = roles(term[0]) else {
        return Err(3);
    };
    let numbers = &term[1..];
    let any = |bad: &dyn Fn(&Role, u32) -> bool| roles.iter().zip(numbers).any(|(r, &n)| bad(r, n));
    if any(&|role, n| matches!(role, Role::Unused) && n != 0) {
        return Err(4);
    }
    let out_of_range = |role: &Role, n: u32| match role {
        Role::Count => !(1..=16).contains(&n),
        Role::Index => n >= numbers[0],
        Role::Value => n > largest(width),
        _ => false,
    };
    if any(&out_of_range) {
        return Err(5);
    }
    let own = facts.inputs.len();
    if any(&|role, n| matches!(role, Role::Operand) && n as usize >= own) {
        return Err(6);
    }
    let (inputs, outputs) = counts(facts, term).ok_or(7u32)?;
    if outputs > 16 {
        return Err(8);
    }
    let size = size(facts, term, inputs, outputs);
    facts.inputs.push(inputs);
    facts.outputs.push(outputs);
    facts.sizes.push(size);
    Ok(())
}

/// Gives the word counts of a term whose operands are known, or nothing where they don't fit.
fn counts(facts: &Facts, term: &[u32]) -> Option<(u32, u32)> {
    let i = |operand: u32| facts.inputs[operand as usize];
    let o = |operand: u32| facts.outputs[operand as usize];
    let [kind, a, b, c] = [term[0], term[1], term[2], term[3]];
    match kind {
        1 => (o(a) == i(b)).then(|| (i(a), o(b))),
        2 => (i(a) == i(b)).then(|| (i(a), o(a) + o(b))),
        3 => (i(a) == i(b) && i(a) == i(c) && o(a) == 1 && o(b) == o(c)).then(|| (i(a), o(b))),
        4 => (i(a) == i(b) && i(a) == i(c) && o(a) == 1 && o(c) == i(c)).then(|| (i(a), o(b))),
        9 | 12 => Some((a, 1)),
        13..=19 => Some((2, 1)),
        _ => Some((1, 1)),
    }
}

/// Gives the cells of a term's block from those of its operands, by the sums of "Cells".
fn size(facts: &Facts, term: &[u32], inputs: u32, outputs: u32) -> u128 {
    let own = match term[0] {
        1 => 4,
        2 => 1,
        3 => 2 * inputs + 9 + outputs,
        4 => 4 * inputs + 16,
        _ => return 4,
    };
    let operands = if term[0] <= 2 { &term[1..3] } else { &term[1..4] };
    let sizes = operands.iter().map(|&operand| facts.sizes[operand as usize]);
    sizes.fold(u128::from(own), u128::saturating_add)
}
