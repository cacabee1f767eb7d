//! Says what the program prints for the bytes of its standard input: the Verilog text, a refusal,
//! or that the bytes are no list of numbers. docs/READING.md: "The Verilog text".

use crate::compile::compile;
use crate::verilog::write;

/// The numbers that the program lends for cells.
pub const CELL_NUMBERS: usize = 2400;

/// The bytes that the program lends for text.
pub const TEXT_BYTES: usize = 65536;

/// The most bytes that the program reads.
pub const MOST_BYTES: usize = 16384;

/// The most numbers that the program reads: a width and a table.
pub const MOST_NUMBERS: usize = 1025;

/// Gives what the program prints.
pub fn respond(input: &[u8]) -> Vec<u8> {
    let Some(numbers) = numbers(input) else {
        return b"not a number list\n".to_vec();
    };
    let (width, table) = (numbers[0], &numbers[1..]);
    let mut netlist = [0; CELL_NUMBERS];
    let compiled = compile(width, table, &mut netlist);
    if compiled[0] != 0 {
        return refusal(compiled[0], compiled[1]);
    }
    let [_, _, cells, i, o, done] = [0, 1, 2, 3, 4, 5].map(|n| compiled[n]);
    let outs = compiled[6..].try_into().expect("the last 16 of 22 numbers");
    let mut text = vec![0; TEXT_BYTES];
    let written = write(width, &netlist[..4 * cells as usize], i, o, done, outs, &mut text);
    if written[0] != 0 {
        return refusal(written[0], written[1]);
    }
    text.truncate(written[2] as usize);
    text
}

/// Gives the line that names a refusal.
fn refusal(number: u32, place: u32) -> Vec<u8> {
    format!("refused {number} at {place}\n").into_bytes()
}

/// Reads the numbers, or nothing where the bytes are no list within the limits.
pub fn numbers(input: &[u8]) -> Option<Vec<u32>> {
    if input.len() > MOST_BYTES {
        return None;
    }
    let pieces =
        input.split(|&byte| byte == b' ' || byte == b'\n').filter(|piece| !piece.is_empty());
    let numbers = pieces.map(number).collect::<Option<Vec<u32>>>()?;
    (1..=MOST_NUMBERS).contains(&numbers.len()).then_some(numbers)
}

/// Reads one decimal number of any length that is below 2^32.
fn number(digits: &[u8]) -> Option<u32> {
    digits.iter().try_fold(0u32, |value, &digit| {
        let digit = digit.is_ascii_digit().then(|| u32::from(digit - b'0'))?;
        value.checked_mul(10)?.checked_add(digit)
    })
}
