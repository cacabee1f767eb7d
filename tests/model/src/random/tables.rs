//! Makes random term tables that are accepted: all kinds, shared terms, loops in loops, loops that
//! count down and end, loops that may end, and loops that never do.

use super::Random;
use crate::table::check;

/// A table that grows operands first, with the word counts of its terms.
struct Growth<'a> {
    random: &'a mut Random,
    width: u32,
    wished: usize,
    table: Vec<u32>,
    counts: Vec<(u32, u32)>,
}

/// Makes an accepted table with at most so many terms and cells; the smallest circuit has 11 cells.
pub fn accepted(random: &mut Random, width: u32, terms: usize, cells: u32) -> Vec<u32> {
    loop {
        let table = attempt(random, width, terms);
        let fits = |table: &[u32]| check(width, table).is_ok_and(|f| f.cells() <= cells.into());
        if table.len() <= 4 * terms && fits(&table) {
            return table;
        }
    }
}

/// Makes a table that may be too large.
fn attempt(random: &mut Random, width: u32, terms: usize) -> Vec<u32> {
    let most = if random.chance(10) { 16 } else { 4 };
    let (inputs, outputs) = (random.between(1, most), random.between(1, most));
    let (depth, wished) = (random.between(1, 6), 1 + random.below(terms as u32) as usize);
    let mut growth = Growth { random, width, wished, table: vec![], counts: vec![] };
    if growth.random.chance(15) {
        growth.stray();
    }
    growth.term(inputs, outputs, depth);
    growth.table
}

impl Growth<'_> {
    /// Adds a term and gives its number.
    fn push(&mut self, term: [u32; 4], counts: (u32, u32)) -> u32 {
        self.table.extend(term);
        self.counts.push(counts);
        self.counts.len() as u32 - 1
    }

    /// Adds terms that the main one needn't reach, among them one far over the cell limit.
    fn stray(&mut self) {
        let mut last = self.push([20, 0, 0, 0], (1, 1));
        for _ in 0..self.random.below(14) {
            last = self.push([1, last, last, 0], (1, 1));
        }
    }

    /// Adds a new term from i to o words; its operands may be old ones.
    fn term(&mut self, i: u32, o: u32, depth: u32) -> u32 {
        if depth == 0 || self.counts.len() >= self.wished {
            return self.plain(i, o);
        }
        match self.random.below(10) {
            0 | 1 => {
                let middle = self.random.between(1, 3);
                let f = self.operand(i, middle, depth);
                let g = self.operand(middle, o, depth);
                self.push([1, f, g, 0], (i, o))
            }
            2 | 3 => {
                let [e, f, g] = [1, o, o].map(|count| self.operand(i, count, depth));
                self.push([3, e, f, g], (i, o))
            }
            4 | 5 => self.repeat(i, o, depth),
            _ if o > 1 => {
                let first = self.random.between(1, o - 1);
                let [f, g] = [first, o - first].map(|count| self.operand(i, count, depth));
                self.push([2, f, g, 0], (i, o))
            }
            _ => self.operation(i, depth),
        }
    }

    /// Gives a term from i to o words that others may use too.
    fn operand(&mut self, i: u32, o: u32, depth: u32) -> u32 {
        let old: Vec<u32> =
            (0..).zip(&self.counts).filter(|(_, &c)| c == (i, o)).map(|(n, _)| n).collect();
        if !old.is_empty() && self.random.chance(30) {
            return self.random.pick(&old);
        }
        self.term(i, o, depth - 1)
    }

    /// Adds a term without choice or loop.
    fn plain(&mut self, i: u32, o: u32) -> u32 {
        if o > 1 {
            let (f, g) = (self.plain(i, o - 1), self.plain(i, 1));
            return self.push([2, f, g, 0], (i, o));
        }
        let kind = match (i, self.random.below(4)) {
            (1, 0 | 1) => self.random.between(20, 22),
            (2, 0 | 1) => self.random.between(13, 19),
            (_, 2) => 9,
            _ => 12,
        };
        let term = match kind {
            9 => [9, i, self.random.word(self.width), 0],
            12 => [12, i, self.random.below(i), 0],
            _ => [kind, 0, 0, 0],
        };
        self.push(term, (i, 1))
    }

    /// Adds an operation on one or two computed words.
    fn operation(&mut self, i: u32, depth: u32) -> u32 {
        if self.random.chance(30) {
            let x = self.operand(i, 1, depth);
            let kind = self.random.between(20, 22);
            return self.after(x, kind, i);
        }
        let [x, y] = [1, 1].map(|count| self.operand(i, count, depth));
        let kind = self.random.between(13, 19);
        self.joined(x, y, kind, i)
    }

    /// Adds an operation of one word behind a term.
    fn after(&mut self, x: u32, kind: u32, i: u32) -> u32 {
        let operation = self.push([kind, 0, 0, 0], (1, 1));
        self.push([1, x, operation, 0], (i, 1))
    }

    /// Adds an operation of two words behind a pair of terms.
    fn joined(&mut self, x: u32, y: u32, kind: u32, i: u32) -> u32 {
        let pair = self.push([2, x, y, 0], (i, 2));
        let operation = self.push([kind, 0, 0, 0], (2, 1));
        self.push([1, pair, operation, 0], (i, 1))
    }

    /// Adds a loop: most count a word down, some run as they like, a few never end.
    fn repeat(&mut self, i: u32, o: u32, depth: u32) -> u32 {
        let f = self.operand(i, o, depth);
        let (e, g) = match self.random.below(10) {
            0 => (self.push([9, i, 0, 0], (i, 1)), self.operand(i, i, depth)),
            1..=3 => (self.operand(i, 1, depth), self.operand(i, i, depth)),
            _ => self.countdown(i, depth),
        };
        self.push([4, e, f, g], (i, o))
    }

    /// Adds a test and a body that bring one word to zero, by ones or by halves.
    fn countdown(&mut self, i: u32, depth: u32) -> (u32, u32) {
        let counted = self.random.below(i);
        let word = self.push([12, i, counted, 0], (i, 1));
        let zero = self.push([9, i, 0, 0], (i, 1));
        let e = self.joined(word, zero, 18, i);
        let less = if self.random.chance(50) {
            let one = self.push([9, i, 1, 0], (i, 1));
            self.joined(word, one, 14, i)
        } else {
            self.after(word, 22, i)
        };
        let mut body = if counted == 0 { less } else { self.operand(i, 1, depth) };
        for n in 1..i {
            let next = if counted == n { less } else { self.operand(i, 1, depth) };
            body = self.push([2, body, next, 0], (i, n + 1));
        }
        (e, body)
    }
}
