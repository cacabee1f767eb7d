//! Turns the test and the body of a loop into straight-line code, where neither holds a loop
//! itself, so that long loops take nanoseconds a round and not a walk over terms.
//!
//! Cycles are values as any other: a sum behind Seq, the larger behind Par, a choice behind Ite.
//! Both branches of a choice are computed, which is harmless as they end. Equal values share a
//! slot.

use crate::words::apply;
use crate::MOST_WORDS;
use std::collections::HashMap;

/// Slots of a loop. A block of 4,096 cells has fewer values, and a power of two needs no bound
/// checks.
const SLOTS: usize = 8192;

/// Kinds of steps besides the operations 13 to 22: x if it isn't 0 gives y, else z; x plus y; the
/// larger of x and y.
const CHOOSE: u8 = 0;
const SUM: u8 = 1;
const LARGER: u8 = 2;

/// How a value comes from the values of other slots.
#[derive(Clone, Copy, PartialEq, Eq, Hash)]
struct Step {
    kind: u8,
    x: u16,
    y: u16,
    z: u16,
}

/// The code of a loop's test and body; slots 0 to 15 hold the loop's words.
pub struct Body {
    width: u32,
    /// What the slots hold at first: constants, and 0 where a step writes.
    slots: Vec<u32>,
    test_steps: Vec<(u16, Step)>,
    next_steps: Vec<(u16, Step)>,
    /// The slots of the test's word and cycles.
    test: (u16, u16),
    /// The slots of the body's words and cycles.
    next: (Vec<u16>, u16),
}

/// Code under construction.
struct Draft<'a> {
    table: &'a [u32],
    slots: Vec<u32>,
    constants: HashMap<u32, u16>,
    known: HashMap<Step, u16>,
    steps: Vec<(u16, Step)>,
}

/// Gives the code of a loop with test e and body g on so many words, or nothing if either loops.
pub fn body(width: u32, table: &[u32], e: usize, g: usize, words: usize) -> Option<Body> {
    let slots = vec![0; MOST_WORDS];
    let (constants, known) = (HashMap::new(), HashMap::new());
    let mut draft = Draft { table, slots, constants, known, steps: vec![] };
    let inputs: Vec<u16> = (0..words as u16).collect();
    let (test, cycles) = draft.term(e, &inputs)?;
    let test_steps = std::mem::take(&mut draft.steps);
    let next = draft.term(g, &inputs)?;
    let Draft { slots, steps: next_steps, .. } = draft;
    Some(Body { width, slots, test_steps, next_steps, test: (test[0], cycles), next })
}

impl Draft<'_> {
    /// Adds a slot that holds a number at first.
    fn slot(&mut self, number: u32) -> u16 {
        assert!(self.slots.len() < SLOTS, "a circuit of 4,096 cells has fewer values");
        self.slots.push(number);
        self.slots.len() as u16 - 1
    }

    /// Gives the slot of a constant.
    fn constant(&mut self, number: u32) -> u16 {
        if let Some(&slot) = self.constants.get(&number) {
            return slot;
        }
        let slot = self.slot(number);
        self.constants.insert(number, slot);
        slot
    }

    /// Gives the slot of a step's value, a new one if the value is new.
    fn step(&mut self, kind: u8, x: u16, y: u16, z: u16) -> u16 {
        let step = Step { kind, x, y, z };
        if let Some(&slot) = self.known.get(&step) {
            return slot;
        }
        let slot = self.slot(0);
        self.known.insert(step, slot);
        self.steps.push((slot, step));
        slot
    }

    /// Joins two counts of cycles; where both are constants, as most are, the answer is one.
    fn cycles(&mut self, kind: u8, x: u16, y: u16) -> u16 {
        let fixed = |slot: u16| {
            let number = self.slots[slot as usize];
            (self.constants.get(&number) == Some(&slot)).then_some(number)
        };
        match (fixed(x), fixed(y)) {
            (Some(x), Some(y)) => self.constant(if kind == SUM { x + y } else { x.max(y) }),
            _ => self.step(kind, x, y, 0),
        }
    }

    /// Adds the steps of a term; gives the slots of its words and of its cycles.
    fn term(&mut self, term: usize, inputs: &[u16]) -> Option<(Vec<u16>, u16)> {
        let numbers = &self.table[4 * term..4 * term + 4];
        let [a, b, c] = [1, 2, 3].map(|n| numbers[n] as usize);
        match numbers[0] {
            1 => {
                let (middle, first) = self.term(a, inputs)?;
                let (output, second) = self.term(b, &middle)?;
                Some((output, self.cycles(SUM, first, second)))
            }
            2 => {
                let (mut output, first) = self.term(a, inputs)?;
                let (more, second) = self.term(b, inputs)?;
                output.extend(more);
                Some((output, self.cycles(LARGER, first, second)))
            }
            3 => self.choice([a, b, c], inputs),
            4 => None,
            kind => {
                let slot = match kind {
                    9 => self.constant(numbers[2]),
                    12 => inputs[b],
                    13..=19 => self.step(kind as u8, inputs[0], inputs[1], 0),
                    _ => self.step(kind as u8, inputs[0], 0, 0),
                };
                Some((vec![slot], self.constant(1)))
            }
        }
    }

    /// Adds the steps of test and branches, and a choice for each word and for the cycles.
    fn choice(&mut self, [e, f, g]: [usize; 3], inputs: &[u16]) -> Option<(Vec<u16>, u16)> {
        let (test, first) = self.term(e, inputs)?;
        let (holds, second) = self.term(f, inputs)?;
        let (fails, third) = self.term(g, inputs)?;
        let mut choose = |x, y| if x == y { x } else { self.step(CHOOSE, test[0], x, y) };
        let output = holds.iter().zip(&fails).map(|(&x, &y)| choose(x, y)).collect();
        let branch = choose(second, third);
        Some((output, self.cycles(SUM, first, branch)))
    }
}

impl Body {
    /// Runs rounds until the test holds; gives the words and the budget that is left then, or
    /// nothing where the budget is used up or the words come back to what they were.
    pub fn run(&self, words: [u32; MOST_WORDS], budget: u32) -> Option<([u32; MOST_WORDS], u32)> {
        let mut slots = [0; SLOTS];
        slots[..self.slots.len()].copy_from_slice(&self.slots);
        slots[..MOST_WORDS].copy_from_slice(&words);
        let (mut state, mut left) = (words, budget);
        let (mut remembered, mut round, mut mark) = (words, 0u64, 1u64);
        loop {
            self.follow(&self.test_steps, &mut slots);
            left = left.checked_sub(slots[self.test.1 as usize])?;
            if slots[self.test.0 as usize] != 0 {
                return Some((state, left));
            }
            self.follow(&self.next_steps, &mut slots);
            left = left.checked_sub(slots[self.next.1 as usize])?.checked_sub(1)?;
            // All words are read before any moves, as the body may swap them.
            for (word, &slot) in state.iter_mut().zip(&self.next.0) {
                *word = slots[slot as usize % SLOTS];
            }
            let mut changes = 0;
            for k in 0..self.next.0.len() {
                slots[k % MOST_WORDS] = state[k % MOST_WORDS];
                changes |= state[k % MOST_WORDS] ^ remembered[k % MOST_WORDS];
            }
            if changes == 0 {
                return None;
            }
            round += 1;
            if round == mark {
                (remembered, mark) = (state, 2 * mark);
            }
        }
    }

    /// Follows steps in order.
    fn follow(&self, steps: &[(u16, Step)], slots: &mut [u32; SLOTS]) {
        for &(target, Step { kind, x, y, z }) in steps {
            let [x, y, z] = [x, y, z].map(|slot| slots[slot as usize % SLOTS]);
            slots[target as usize % SLOTS] = match kind {
                CHOOSE => [z, y][usize::from(x != 0)],
                SUM => x + y,
                LARGER => x.max(y),
                _ => apply(self.width, kind.into(), x, y),
            };
        }
    }
}
