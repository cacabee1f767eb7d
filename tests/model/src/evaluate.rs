//! Evaluates a table on given words: the words it gives and the cycles it takes.
//! Refuses 1 to 9 and 11. docs/READING.md: "Term tables", "Cycles".
//!
//! Rounds of a loop are turns of a Rust loop and not calls, so that long runs need no stack. A
//! loop whose words come back to what they were never ends, whatever the budget: that is noticed,
//! and answered as unfinished at once. A loop that has gone round often goes on as straight-line
//! code.

use crate::straight::{body, Body};
use crate::table::{check, Facts};
use crate::words::{apply, largest};
use crate::MOST_WORDS;
use std::cell::{Cell, OnceCell};

type Words = [u32; MOST_WORDS];

/// The rounds of a loop, all its runs taken together, after which it is worth straight-line code.
pub const PATIENCE: u32 = 100;

/// A checked table with what its terms are evaluated against.
struct Machine<'a> {
    width: u32,
    table: &'a [u32],
    facts: &'a Facts,
    patience: u32,
    /// For each term that is a loop: how many rounds it has made, and its code once it is made.
    loops: Vec<(Cell<u32>, OnceCell<Option<Body>>)>,
}

/// Answers refusal number, place, 1 if ended, cycles, o and 16 words.
pub fn evaluate(width: u32, table: &[u32], words: &[u32], budget: u32) -> [u32; 21] {
    evaluate_with(width, table, words, budget, PATIENCE)
}

/// Does the same with another patience, which changes the time and nothing else.
pub fn evaluate_with(
    width: u32,
    table: &[u32],
    words: &[u32],
    budget: u32,
    patience: u32,
) -> [u32; 21] {
    let mut answer = [0; 21];
    let facts = match check(width, table) {
        Ok(facts) => facts,
        Err((number, place)) => {
            (answer[0], answer[1]) = (number, place);
            return answer;
        }
    };
    let main = facts.main();
    let unfit = words.len() != facts.inputs[main] as usize;
    if unfit || words.iter().any(|&word| word > largest(width)) {
        answer[0] = 11;
        return answer;
    }
    let mut input = [0; MOST_WORDS];
    input[..words.len()].copy_from_slice(words);
    let loops = table.chunks(4).map(|_| (Cell::new(0), OnceCell::new())).collect();
    let machine = Machine { width, table, facts: &facts, patience, loops };
    if let Some((output, cycles)) = machine.term(main, &input, budget) {
        answer[2..5].copy_from_slice(&[1, cycles, facts.outputs[main]]);
        answer[5..].copy_from_slice(&output);
    }
    answer
}

impl Machine<'_> {
    /// Gives a term's words and cycles, or nothing where the cycles are over the budget.
    fn term(&self, term: usize, input: &Words, budget: u32) -> Option<(Words, u32)> {
        let numbers = &self.table[4 * term..4 * term + 4];
        let [a, b, c] = [1, 2, 3].map(|n| numbers[n] as usize);
        match numbers[0] {
            1 => {
                let (middle, first) = self.term(a, input, budget)?;
                let (output, second) = self.term(b, &middle, budget - first)?;
                Some((output, first + second))
            }
            2 => self.pair(a, b, input, budget),
            3 => {
                let (test, first) = self.term(a, input, budget)?;
                let branch = if test[0] != 0 { b } else { c };
                let (output, second) = self.term(branch, input, budget - first)?;
                Some((output, first + second))
            }
            4 => {
                let (state, left) = match self.code(term) {
                    Some(code) => code.run(*input, budget)?,
                    None => self.rounds(term, input, budget)?,
                };
                let (output, cycles) = self.term(b, &state, left)?;
                Some((output, budget - left + cycles))
            }
            _ if budget == 0 => None,
            kind => Some((self.leaf(kind, numbers, input), 1)),
        }
    }

    /// Gives the words of f and then of g; each side has the whole budget, as they run side by
    /// side.
    fn pair(&self, f: usize, g: usize, input: &Words, budget: u32) -> Option<(Words, u32)> {
        let (mut output, first) = self.term(f, input, budget)?;
        let (second_output, second) = self.term(g, input, budget)?;
        let (start, count) = (self.facts.outputs[f] as usize, self.facts.outputs[g] as usize);
        output[start..start + count].copy_from_slice(&second_output[..count]);
        Some((output, first.max(second)))
    }

    /// Runs a loop round by round until its test holds; gives the words and the budget left then.
    /// The remembered words move on at rounds 1, 2, 4, 8 and so on, which meets every cycle of
    /// words within a few times its length.
    fn rounds(&self, term: usize, input: &Words, budget: u32) -> Option<(Words, u32)> {
        let [e, g] = [1, 3].map(|n| self.table[4 * term + n] as usize);
        let (mut state, mut left) = (*input, budget);
        let (mut remembered, mut round, mut mark) = (state, 0u64, 1u64);
        loop {
            let (test, cycles) = self.term(e, &state, left)?;
            if test[0] != 0 {
                return Some((state, left - cycles));
            }
            left -= cycles;
            let (next, cycles) = self.term(g, &state, left)?;
            left = (left - cycles).checked_sub(1)?;
            state = next;
            round += 1;
            if state == remembered {
                return None;
            }
            if round == mark {
                (remembered, mark) = (state, 2 * mark);
            }
            let count = &self.loops[term].0;
            count.set(count.get().saturating_add(1));
            if let Some(code) = self.code(term) {
                return code.run(state, left);
            }
        }
    }

    /// Gives a loop's straight-line code if the loop has been round often and can have it.
    fn code(&self, term: usize) -> Option<&Body> {
        let (count, code) = &self.loops[term];
        if count.get() < self.patience {
            return None;
        }
        let [e, g] = [1, 3].map(|n| self.table[4 * term + n] as usize);
        let words = self.facts.inputs[term] as usize;
        code.get_or_init(|| body(self.width, self.table, e, g, words)).as_ref()
    }

    /// Gives the one word of a term of kind 9 or more.
    fn leaf(&self, kind: u32, numbers: &[u32], input: &Words) -> Words {
        let mut output = [0; MOST_WORDS];
        output[0] = match kind {
            9 => numbers[2],
            12 => input[numbers[2] as usize],
            _ => apply(self.width, kind, input[0], input[1]),
        };
        output
    }
}
