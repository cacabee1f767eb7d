//! The cases that are compared. A case is made from the seed and its number alone, so that one
//! that differs can be made again without the others.

use crate::proved::Proved;
use model::differ::compare;
use model::promise;
use model::random::calls::{call, Call};
use model::random::{faults, Random};
use model::toolchain::Model;
use std::any::Any;
use std::panic::{catch_unwind, AssertUnwindSafe};

/// The largest refusal number.
pub const LARGEST_NUMBER: usize = 20;

/// What the cases so far have met.
#[derive(Clone, Default)]
pub struct Tally {
    /// Cases that agree.
    pub passed: u64,
    /// Cases that differ.
    pub failed: u64,
    /// How often each refusal number was given, and 0 for calls that were not refused.
    pub numbers: [u64; LARGEST_NUMBER + 1],
    /// The runs of circuits under random load and words.
    pub promise: promise::Tally,
}

impl Tally {
    /// Adds what others have met.
    pub fn add(&mut self, other: &Tally) {
        self.passed += other.passed;
        self.failed += other.failed;
        for (number, often) in self.numbers.iter_mut().zip(other.numbers) {
            *number += often;
        }
        self.promise.ended += other.promise.ended;
        self.promise.endless += other.promise.endless;
        self.promise.ignored += other.promise.ignored;
        self.promise.longest = self.promise.longest.max(other.promise.longest);
    }
}

/// Runs a case and adds it to the tally; says what differs.
pub fn case(seed: u64, number: u64, tally: &mut Tally) -> Result<(), String> {
    let mut random = Random::new(seed);
    let mut random = Random::new(random.bits() ^ number);
    let outcome = catch_unwind(AssertUnwindSafe(|| sorted(&mut random, number, tally)))
        .unwrap_or_else(|payload| Err(message(&*payload)));
    match outcome {
        Ok(()) => tally.passed += 1,
        Err(_) => tally.failed += 1,
    }
    outcome
}

/// Gives the words with which a test was stopped.
fn message(payload: &(dyn Any + Send)) -> String {
    let text = payload.downcast_ref::<&str>().map(|text| text.to_string());
    text.or_else(|| payload.downcast_ref().cloned()).unwrap_or("stopped without words".to_string())
}

/// Of twenty cases one tries the handshake, four are calls with chosen faults, in turn, and the rest
/// are calls of any sort.
fn sorted(random: &mut Random, number: u64, tally: &mut Tally) -> Result<(), String> {
    let turn = number / 20;
    match number % 20 {
        0 => promise::attempt(&Proved, random, &mut tally.promise),
        sort @ 1..=4 => {
            let pairs = faults::pairs();
            let (part, numbers) = pairs[((4 * turn + sort) % pairs.len() as u64) as usize];
            agree(&faults::call(random, part, numbers), tally)
        }
        _ => agree(&call(random), tally),
    }
}

/// Makes a call of the proved library and of the model; their answers and all lent memory agree.
fn agree(call: &Call, tally: &mut Tally) -> Result<(), String> {
    let number = compare(&Proved, &Model, call)
        .map_err(|difference| format!("{difference}, proved and model, for {call:?}"))?;
    tally.numbers[number as usize] += 1;
    Ok(())
}
