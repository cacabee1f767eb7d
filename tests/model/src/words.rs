//! Words of W bits: which numbers are words, and what the ten operations make of them.
//! docs/READING.md: "Term tables", kinds 13 to 22. Callers judge the width first.

/// Says whether a table or a netlist may have this width.
pub fn is_width(width: u32) -> bool {
    (1..=32).contains(&width)
}

/// Gives the largest word of a width from 1 to 32.
#[inline(always)]
pub fn largest(width: u32) -> u32 {
    u32::MAX >> (32 - width)
}

/// Gives what an operation of kind 13 to 22 makes of its words; kinds 20 to 22 ignore the second.
#[inline(always)]
pub fn apply(width: u32, kind: u32, x: u32, y: u32) -> u32 {
    let result = match kind {
        13 => x.wrapping_add(y),
        14 => x.wrapping_sub(y),
        15 => x & y,
        16 => x | y,
        17 => x ^ y,
        18 => u32::from(x == y),
        19 => u32::from(x < y),
        20 => !x,
        21 => x << 1,
        22 => x >> 1,
        _ => unreachable!("kind {kind} is no operation"),
    };
    result & largest(width)
}
