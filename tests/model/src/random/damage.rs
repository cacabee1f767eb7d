//! Makes tables and netlists with a fault or two, so that every refusal comes up, alone and
//! against others. A fault may miss, so that what comes out is at times accepted.

use super::netlists::{compiled, foreign};
use super::tables::accepted;
use super::Random;
use crate::words::largest;

/// Makes a width and a table, one fault or two away from an accepted one.
pub fn table(random: &mut Random) -> (u32, Vec<u32>) {
    let mut width = random.width();
    let terms = random.pick(&[8, 30, 80]) as usize;
    let mut table = accepted(random, width, terms, 2000);
    for _ in 0..random.between(1, 2) {
        match random.below(12) {
            0 => width = random.pick(&[0, 33, 64, u32::MAX]),
            1 => length(random, &mut table, 1028),
            2 => double(&mut table, 2),
            3 => double(&mut table, 1),
            4 | 5 => repoint(random, &mut table),
            _ => number(random, width, &mut table),
        }
    }
    (width, table)
}

/// Makes a width and a netlist, one fault or two away from one that passes.
pub fn netlist(random: &mut Random) -> (u32, Vec<u32>) {
    let mut width = random.width();
    let mut netlist = if random.chance(50) {
        let cells = random.between(2, 40) as usize;
        let i = random.between(1, 16);
        foreign(random, width, cells, i).netlist
    } else {
        let table = accepted(random, width, 8, 300);
        compiled(width, &table).netlist
    };
    for _ in 0..random.between(1, 2) {
        match random.below(16) {
            0 => width = random.pick(&[0, 33, 64, u32::MAX]),
            1 => length(random, &mut netlist, 16388),
            2..=4 => repoint(random, &mut netlist),
            _ => number(random, width, &mut netlist),
        }
    }
    (width, netlist)
}

/// Makes the length wrong: none, no multiple of four, or over the limit by copies of the front.
pub(super) fn length(random: &mut Random, numbers: &mut Vec<u32>, over: usize) {
    match random.below(4) {
        0 => numbers.clear(),
        1 => numbers.truncate(numbers.len().saturating_sub(1)),
        2 => numbers.extend(&[0, 0, 0][..random.between(1, 3) as usize]),
        _ if numbers.is_empty() => {}
        _ => *numbers = numbers.iter().copied().cycle().take(over).collect(),
    }
}

/// Adds a chain in which every term uses the one before twice: by Seq (1) it passes the cell
/// limit, by Par (2) it passes 16 words.
pub(super) fn double(table: &mut Vec<u32>, kind: u32) {
    let first = (table.len() / 4) as u32;
    table.extend([20, 0, 0, 0]);
    for last in first..first + 11 {
        table.extend([kind, last, last, 0]);
    }
}

/// Lets one number, mostly an operand, name some other term or cell.
fn repoint(random: &mut Random, numbers: &mut [u32]) {
    let count = (numbers.len() / 4) as u32;
    if count == 0 {
        return;
    }
    let own = random.below(count);
    let place = 4 * own + random.between(1, 3);
    numbers[place as usize] = match random.below(4) {
        0 => own,
        1 => own + 1,
        2 => count,
        _ => random.below(count),
    };
}

/// Puts a number that is interesting somewhere in the place of any number.
fn number(random: &mut Random, width: u32, numbers: &mut [u32]) {
    if numbers.is_empty() {
        return;
    }
    let place = random.below(numbers.len() as u32);
    let limit = largest(width.clamp(1, 32));
    let small = random.between(0, 24);
    let choices = [small, small, small, limit, limit.wrapping_add(1), u32::MAX, 16, 17];
    let kinds = [0, 5, 6, 7, 8, 10, 11, 23, 9, 12, 4, 3, 2, 1];
    numbers[place as usize] = if random.chance(40) && place % 4 == 0 {
        random.pick(&kinds)
    } else {
        random.pick(&choices)
    };
}
