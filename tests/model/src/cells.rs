//! Checks a netlist of cells, made by the compiler or not.
//! Refuses 1 and 12 to 16, each with its place. docs/READING.md: "Cells", "Refusal numbers".

use crate::words::{is_width, largest};
use crate::Refusal;

/// The most numbers in a netlist: 4,096 cells of four.
pub const MOST_NUMBERS: usize = 16384;

/// What a number of a cell stands for.
#[derive(Clone, Copy)]
enum Role {
    Unused,
    Bit,
    Word,
    /// The number of an input word.
    Input,
    Constant,
}

/// Gives the roles of x, y and z, or nothing for an unknown kind.
fn roles(kind: u32) -> Option<[Role; 3]> {
    use Role::*;
    match kind {
        0 => Some([Unused, Unused, Unused]),
        1 | 4 | 5 => Some([Bit, Unused, Unused]),
        2 | 3 => Some([Bit, Bit, Unused]),
        6 | 10 | 12 | 20..=22 => Some([Word, Unused, Unused]),
        8 => Some([Input, Unused, Unused]),
        9 => Some([Constant, Unused, Unused]),
        11 => Some([Bit, Word, Word]),
        13..=19 => Some([Word, Word, Unused]),
        _ => None,
    }
}

/// Says whether a cell of this kind drives a bit.
pub fn is_bit(kind: u32) -> bool {
    kind <= 6
}

/// Says whether a cell of this kind drives a word.
pub fn is_word(kind: u32) -> bool {
    (8..=22).contains(&kind)
}

/// Says whether a cell of this kind is a register, and so reads any wire.
pub fn is_register(kind: u32) -> bool {
    matches!(kind, 4 | 5 | 10)
}

/// Checks width and netlist by numbers 1 and 12 to 16, in the order that is fixed.
pub fn check(width: u32, netlist: &[u32]) -> Result<(), Refusal> {
    if !is_width(width) {
        return Err((1, 0));
    }
    if netlist.is_empty() || netlist.len() % 4 != 0 || netlist.len() > MOST_NUMBERS {
        return Err((12, 0));
    }
    for place in 0..netlist.len() / 4 {
        check_cell(width, netlist, place).map_err(|number| (number, place as u32))?;
    }
    Ok(())
}

/// Checks one cell by numbers 13 to 16.
fn check_cell(width: u32, netlist: &[u32], own: usize) -> Result<(), u32> {
    let kind = netlist[4 * own];
    let Some(roles) = roles(kind) else {
        return Err(13);
    };
    let numbers = &netlist[4 * own + 1..4 * own + 4];
    let any = |bad: &dyn Fn(Role, u32) -> bool| roles.iter().zip(numbers).any(|(&r, &n)| bad(r, n));
    let out_of_range = |role, n| match role {
        Role::Unused => n != 0,
        Role::Constant => n > largest(width),
        Role::Input => n > 15,
        Role::Bit | Role::Word => false,
    };
    if any(&out_of_range) {
        return Err(14);
    }
    let end = if is_register(kind) { netlist.len() / 4 } else { own };
    if any(&|role, n| matches!(role, Role::Bit | Role::Word) && n as usize >= end) {
        return Err(15);
    }
    // A register may read a later cell of unknown kind: that cell is refused 13 when its turn
    // comes.
    let mixed = |role, n: u32| match role {
        Role::Bit => is_word(netlist[4 * n as usize]),
        Role::Word => is_bit(netlist[4 * n as usize]),
        _ => false,
    };
    if any(&mixed) {
        return Err(16);
    }
    Ok(())
}
