//! Makes random netlists that pass the cell checks and that no compiler made: every kind,
//! registers that read forward, backward and themselves, wires that nobody reads.

use super::Random;
use crate::cells::{is_bit, is_register, is_word};
use crate::toolchain::{Model, Toolchain};
use crate::MOST_WORDS;

/// A netlist with the ports that the writer needs.
#[derive(Debug)]
pub struct Ported {
    /// Four numbers a cell.
    pub netlist: Vec<u32>,
    /// Input words.
    pub i: u32,
    /// Output words.
    pub o: u32,
    /// The done wire.
    pub done: u32,
    /// The output wires, 0 past o.
    pub outs: [u32; MOST_WORDS],
}

/// Gives the netlist and the ports that the model's compiler makes of an accepted table.
pub fn compiled(width: u32, table: &[u32]) -> Ported {
    compiled_by(&Model, width, table)
}

/// Gives the netlist and the ports that a toolchain's compiler makes of an accepted table.
pub fn compiled_by(toolchain: &dyn Toolchain, width: u32, table: &[u32]) -> Ported {
    let mut netlist = vec![0; 16384];
    let answer = toolchain.compile(width, table, &mut netlist);
    assert_eq!(answer[0], 0, "the table is accepted");
    netlist.truncate(4 * answer[2] as usize);
    let outs = answer[6..].try_into().expect("the last 16 of 22 numbers");
    Ported { netlist, i: answer[3], o: answer[4], done: answer[5], outs }
}

/// Makes a netlist of so many cells, two or more, that reads at most so many input words.
pub fn foreign(random: &mut Random, width: u32, cells: usize, i: u32) -> Ported {
    let kinds = kinds(random, cells);
    let mut netlist = vec![];
    for own in 0..cells {
        netlist.extend(cell(random, width, &kinds, own, i));
    }
    let o = random.between(1, MOST_WORDS as u32);
    let mut outs = [0; MOST_WORDS];
    for out in &mut outs[..o as usize] {
        *out = wire(random, &kinds, is_word);
    }
    Ported { netlist, i, o, done: wire(random, &kinds, is_bit), outs }
}

/// Picks the kinds; the first two read no lower wire and give a bit and a word to all others.
fn kinds(random: &mut Random, cells: usize) -> Vec<u32> {
    let mut kinds = vec![random.pick(&[0, 4, 5]), random.pick(&[8, 9, 10])];
    if random.chance(50) {
        kinds.swap(0, 1);
    }
    let any: Vec<u32> = (0..=22).filter(|&kind| kind != 7).collect();
    while kinds.len() < cells {
        let kind = match random.below(4) {
            0 => random.pick(&[4, 5, 10, 11]),
            _ => random.pick(&any),
        };
        kinds.push(kind);
    }
    kinds
}

/// Picks a wire of a class; late wires as readily as early ones.
fn wire(random: &mut Random, kinds: &[u32], class: fn(u32) -> bool) -> u32 {
    loop {
        let wire = random.below(kinds.len() as u32);
        if class(kinds[wire as usize]) {
            return wire;
        }
    }
}

/// Makes one cell of the kind that is picked for it.
fn cell(random: &mut Random, width: u32, kinds: &[u32], own: usize, i: u32) -> [u32; 4] {
    let kind = kinds[own];
    let seen = if is_register(kind) { kinds } else { &kinds[..own] };
    let bit = |random: &mut Random| wire(random, seen, is_bit);
    let word = |random: &mut Random| wire(random, seen, is_word);
    match kind {
        0 => [0, 0, 0, 0],
        1 | 4 | 5 => [kind, bit(random), 0, 0],
        2 | 3 => [kind, bit(random), bit(random), 0],
        8 => [8, random.below(i), 0, 0],
        9 => [9, random.word(width), 0, 0],
        11 => [11, bit(random), word(random), word(random)],
        13..=19 => [kind, word(random), word(random), 0],
        _ => [kind, word(random), 0, 0],
    }
}
