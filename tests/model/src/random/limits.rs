//! Makes tables at the limits: as many terms as there may be, as many cells as there
//! may be or one more, and terms in terms as deep as both allow.

use super::Random;
use crate::table::check;

/// Puts terms that nobody names in front of a table, up to 256 in all.
pub fn filled(table: &[u32]) -> Vec<u32> {
    let front = 256 - table.len() / 4;
    let mut filled = [20, 0, 0, 0].repeat(front);
    for term in table.chunks(4) {
        let operands = match term[0] {
            1 | 2 => 2,
            3 | 4 => 3,
            _ => 0,
        };
        let moved = |(n, &number): (usize, &u32)| {
            number + if (1..=operands).contains(&n) { front as u32 } else { 0 }
        };
        filled.extend(term.iter().enumerate().map(moved));
    }
    filled
}

/// Makes a table whose circuit has exactly 4,096 cells, or 4,097 where one more is asked for.
///
/// Chains of Seq over one word have 8m-4 cells for m leaves. A Par of two chains with 512 leaves in
/// all has 4,089 cells, and 7 stand in front. A Par of a Par and an Ite over five chains with as
/// many leaves has one more.
pub fn cells(random: &mut Random, one_more: bool) -> Vec<u32> {
    let mut table = [20, 0, 0, 0].to_vec();
    (0..9).for_each(|last| table.extend([1, last, last, 0]));
    let leaves = parts(random, 512, if one_more { 5 } else { 2 });
    let chains: Vec<u32> = leaves.iter().map(|&count| chain(&mut table, count)).collect();
    let pair = add(&mut table, [2, chains[0], chains[1], 0]);
    if let [_, _, e, f, g] = chains[..] {
        let choice = add(&mut table, [3, e, f, g]);
        add(&mut table, [2, pair, choice, 0]);
    }
    table
}

/// Makes a table over one word in which each term is a part of the next, until no more terms or
/// cells fit. The parts are such that a run goes all the way down.
pub fn deep(random: &mut Random, width: u32) -> Vec<u32> {
    let (leaf, one, zero) = (0, 1, 2);
    let mut table = vec![20, 0, 0, 0, 9, 1, 1, 0, 9, 1, 0, 0];
    let mut last = leaf;
    // Seq gives the deepest tables, as it has the fewest cells.
    let seqs = random.pick(&[0, 50, 95]);
    while table.len() < 1024 {
        let choices = [[3, one, last, leaf], [3, zero, leaf, last], [4, one, last, leaf]];
        let term = match random.chance(seqs) {
            true => [[1, last, leaf, 0], [1, leaf, last, 0]][random.below(2) as usize],
            false => choices[random.below(3) as usize],
        };
        last = add(&mut table, term);
        if check(width, &table).is_err() {
            table.truncate(table.len() - 4);
            break;
        }
    }
    table
}

/// Makes a table that takes the compiler the most stack: an Ite nests the deepest, so there are as
/// many as cells allow where Par and Seq, which have fewer cells, are the rest of the 256 terms.
pub fn deepest() -> Vec<u32> {
    let (leaf, one, field, words) = (0, 1, 2, 11);
    let mut table = vec![20, 0, 0, 0, 9, 1, 1, 0, 12, words, 0, 0];
    let mut last = leaf;
    for _ in 0..6 {
        let row = (1..words).fold(last, |row, _| add(&mut table, [2, row, leaf, 0]));
        last = add(&mut table, [1, row, field, 0]);
    }
    last = add(&mut table, [1, last, leaf, 0]);
    while table.len() < 1024 {
        last = add(&mut table, [3, one, last, leaf]);
    }
    table
}

/// Adds a term and gives its number.
fn add(table: &mut Vec<u32>, term: [u32; 4]) -> u32 {
    table.extend(term);
    (table.len() / 4 - 1) as u32
}

/// Adds a chain of so many leaves, from chains of 1, 2, 4 and so on, which are terms 0 to 9.
fn chain(table: &mut Vec<u32>, leaves: u32) -> u32 {
    let powers: Vec<u32> = (0..10).filter(|power| leaves >> power & 1 == 1).collect();
    powers[1..].iter().fold(powers[0], |last, &power| add(table, [1, last, power, 0]))
}

/// Splits a number into so many numbers above 0.
fn parts(random: &mut Random, whole: u32, count: u32) -> Vec<u32> {
    let mut left = whole;
    let mut parts = vec![];
    for more in (1..count).rev() {
        parts.push(random.between(1, left - more));
        left -= parts[parts.len() - 1];
    }
    parts.push(left);
    parts
}
