//! Makes bytes for the program's standard input: lists of numbers that are accepted or refused,
//! lists with wrong bytes, lists at the limits, and bytes that are no list at all.

use super::tables::accepted;
use super::{damage, Random};
use crate::program::{MOST_BYTES, MOST_NUMBERS};

/// Makes one input.
pub fn input(random: &mut Random) -> Vec<u8> {
    match random.below(16) {
        0..=4 => {
            let numbers = table(random);
            list(random, &numbers)
        }
        5..=8 => {
            let (width, table) = damage::table(random);
            list(random, &[vec![width], table].concat())
        }
        9 | 10 => wrong_bytes(random),
        11 => limits(random),
        12 => bytes(random, b"0123456789 \n", 200),
        13 => bytes(random, &(0..=255).collect::<Vec<u8>>(), 300),
        14 => bytes(random, b" \n", 40),
        _ => at_lengths(random),
    }
}

/// Makes a width and an accepted table; most circuits fit into what the program lends.
fn table(random: &mut Random) -> Vec<u32> {
    let (width, cells) = (random.width(), random.pick(&[100, 600, 600, 4096]));
    let terms = random.pick(&[8, 30, 100, 256]) as usize;
    let table = accepted(random, width, terms, cells);
    [vec![width], table].concat()
}

/// Prints numbers with any separators and at times with leading zeros, front and end included.
fn list(random: &mut Random, numbers: &[u32]) -> Vec<u8> {
    let plain = random.chance(60);
    let mut text = String::new();
    for number in numbers {
        let zeros = if !plain && random.chance(5) { random.below(12) as usize } else { 0 };
        text += &"0".repeat(zeros);
        text += &number.to_string();
        text += if plain || random.chance(80) { " " } else { "\n \n" };
    }
    if random.chance(50) {
        text.pop();
    }
    text.into_bytes()
}

/// Puts, changes or takes away a few bytes of a list.
fn wrong_bytes(random: &mut Random) -> Vec<u8> {
    let numbers = table(random);
    let mut text = list(random, &numbers);
    for _ in 0..random.between(1, 3) {
        let place = random.below(text.len() as u32) as usize;
        let byte = random.pick(&[9, 10, 11, 13, 32, 43, 45, 47, 48, 57, 58, 44, 0, 97, 160, 255]);
        match random.below(3) {
            0 => text.insert(place, byte as u8),
            1 => text[place] = byte as u8,
            _ if text.len() > 1 => drop(text.remove(place)),
            _ => {}
        }
    }
    text
}

/// Makes a list with a number or a count of numbers at its limit.
fn limits(random: &mut Random) -> Vec<u8> {
    if random.chance(50) {
        let large =
            ["4294967295", "4294967296", "4294967299", "9999999999", "18446744073709551616"];
        let zeros = "0".repeat(random.below(40) as usize);
        let number = large[random.below(5) as usize];
        return format!("8 20 0 0 0 {zeros}{number} 0 0 0").into_bytes();
    }
    let count = MOST_NUMBERS - 2 + random.below(4) as usize;
    let terms = [20, 0, 0, 0].iter().cycle().take(count - 1);
    list(random, &[&[8], &terms.copied().collect::<Vec<u32>>()[..]].concat())
}

/// Makes bytes of some alphabet.
fn bytes(random: &mut Random, alphabet: &[u8], most: u32) -> Vec<u8> {
    let count = random.below(most + 1);
    (0..count).map(|_| alphabet[random.below(alphabet.len() as u32) as usize]).collect()
}

/// Makes a sound list that spaces, newlines or zeros bring to a length near the limit or far over.
fn at_lengths(random: &mut Random) -> Vec<u8> {
    let filler = random.pick(&[32, 10, 48]) as u8;
    let near = MOST_BYTES as u32 - 1 + random.below(3);
    let length = random.pick(&[near, near, near, 20_000, 65_536, 65_537, 300_000]) as usize;
    let text = b"8 20 0 0 0\n";
    let mut text = if random.chance(50) { text.to_vec() } else { vec![] };
    let front = vec![filler; length - text.len()];
    text.splice(0..0, front);
    text
}
