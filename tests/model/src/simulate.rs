//! Gives the wires of a netlist, one cycle a call.
//! Refuses 1, 12 to 16, 17, 18 (not at power-up) and 11, in this order, and then writes nothing.
//! docs/READING.md: "The simulator".

use crate::cells::{check, is_bit};
use crate::words::{apply, largest};
use crate::{Refusal, MOST_WORDS};

/// Writes the wires of cycle 0, in which registers hold their starting values; answers number,
/// place.
pub fn power_up(
    width: u32,
    netlist: &[u32],
    load: bool,
    words: &[u32],
    wires: &mut [u32],
) -> [u32; 2] {
    let judge = || {
        check(width, netlist)?;
        check_length(netlist, wires)?;
        check_words(width, netlist, words)
    };
    if let Err((number, place)) = judge() {
        return [number, place];
    }
    settle(width, netlist, load, words, wires, &|kind, _| u32::from(kind == 5));
    [0, 0]
}

/// Writes the wires of the cycle after `before`, read as it stands; answers number, place.
pub fn step(
    width: u32,
    netlist: &[u32],
    before: &[u32],
    load: bool,
    words: &[u32],
    after: &mut [u32],
) -> [u32; 2] {
    let judge = || {
        check(width, netlist)?;
        check_length(netlist, before)?;
        check_length(netlist, after)?;
        check_wires(width, netlist, before)?;
        check_words(width, netlist, words)
    };
    if let Err((number, place)) = judge() {
        return [number, place];
    }
    settle(width, netlist, load, words, after, &|_, x| before[x]);
    [0, 0]
}

/// Refuses 17 for a wire buffer that hasn't one number a cell.
fn check_length(netlist: &[u32], wires: &[u32]) -> Result<(), Refusal> {
    if wires.len() == netlist.len() / 4 {
        Ok(())
    } else {
        Err((17, 0))
    }
}

/// Refuses 18 at the lowest wire whose number its cell can't drive.
fn check_wires(width: u32, netlist: &[u32], wires: &[u32]) -> Result<(), Refusal> {
    let top = |kind| if is_bit(kind) { 1 } else { largest(width) };
    match netlist.chunks(4).zip(wires).position(|(cell, &wire)| wire > top(cell[0])) {
        Some(place) => Err((18, place as u32)),
        None => Ok(()),
    }
}

/// Refuses 11 for too many words, for a word that is named and not given, and for one too large.
fn check_words(width: u32, netlist: &[u32], words: &[u32]) -> Result<(), Refusal> {
    let missing = netlist.chunks(4).any(|cell| cell[0] == 8 && cell[1] as usize >= words.len());
    let large = words.iter().any(|&word| word > largest(width));
    if words.len() > MOST_WORDS || missing || large {
        return Err((11, 0));
    }
    Ok(())
}

/// Writes all wires, lowest first; `held` gives a register's number from its kind and its x.
fn settle(
    width: u32,
    netlist: &[u32],
    load: bool,
    words: &[u32],
    wires: &mut [u32],
    held: &dyn Fn(u32, usize) -> u32,
) {
    for (n, cell) in netlist.chunks(4).enumerate() {
        let [x, y, z] = [1, 2, 3].map(|number| cell[number] as usize);
        wires[n] = match cell[0] {
            0 => u32::from(load),
            1 => 1 - wires[x],
            2 => wires[x] & wires[y],
            3 => wires[x] | wires[y],
            kind @ (4 | 5 | 10) => held(kind, x),
            6 => u32::from(wires[x] != 0),
            8 => words[x],
            9 => cell[1],
            11 => wires[if wires[x] == 1 { y } else { z }],
            12 => wires[x],
            kind @ 13..=19 => apply(width, kind, wires[x], wires[y]),
            kind => apply(width, kind, wires[x], 0),
        };
    }
}
