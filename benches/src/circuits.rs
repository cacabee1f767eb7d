//! The circuits that every contender runs, and what is done to them.
//!
//! A run takes a circuit from one rise of load to the next. Load is low in cycle 0. It is high in
//! cycles 1 to PERIOD-2, so that a run begins in cycle 1, and low in the two after these; cycle
//! PERIOD is cycle 0 of the next run. The input words are the same in every cycle. At the end of a
//! run done is high and the words are the evaluator's, or the contender is wrong.

use differential::direct::Direct;
use model::icarus::text;
use model::program::numbers;
use model::random::netlists::{compiled_by, Ported};
use model::toolchain::{Model, Toolchain};
use std::path::Path;

/// A table with the words that it is run on.
pub struct Circuit {
    /// What the tables call it.
    pub name: &'static str,
    /// The width of its words.
    pub width: u32,
    /// Its terms.
    pub table: Vec<u32>,
    /// The words that it is run on.
    pub words: Vec<u32>,
    /// Its cells and ports.
    pub ported: Ported,
    /// Its Verilog text.
    pub text: String,
    /// The cycles that a run takes.
    pub cycles: u32,
    /// The words that a run gives.
    pub expected: Vec<u32>,
}

/// The name of a circuit, its file, its width and the words that it is run on.
pub type Source = (&'static str, &'static str, u32, &'static [u32]);

/// The circuits whose cycles are timed, smallest first.
pub const CYCLES: [Source; 3] = [("countdown_2000", COUNTDOWN, 32, &[2000]), MAZE, COPRIME];

/// The circuits whose first answers are timed: the countdown is the one of `examples/HOST.md`.
pub const ANSWERS: [Source; 3] = [("countdown_200", COUNTDOWN, 32, &[200]), MAZE, COPRIME];

const COUNTDOWN: &str = "examples/countdown.txt";
const MAZE: Source = ("maze", "examples/maze.txt", 32, &[1, 0, 0]);
const COPRIME: Source = ("coprime_16", "benches/coprime.txt", 32, &[1, 16, 0]);

impl Circuit {
    /// Gives the count of cells.
    pub fn cells(&self) -> usize {
        self.ported.netlist.len() / 4
    }

    /// Gives the cycles from one run to the next, which are even and leave done high before load
    /// rises again.
    pub fn period(&self) -> u32 {
        (self.cycles + 3) & !1
    }

    /// Gives its name and its size, for a table.
    pub fn title(&self) -> String {
        format!("{}, {} cells", self.name, self.cells())
    }

    /// Says whether done is high and the right words stand in the wires of a cycle.
    pub fn right(&self, wires: &[u32]) -> bool {
        let outs = self.ported.outs.iter().zip(&self.expected);
        wires[self.ported.done as usize] == 1
            && outs.into_iter().all(|(&wire, &word)| wires[wire as usize] == word)
    }

    /// Says whether an evaluator's answer has the right cycles and words.
    pub fn answers(&self, answer: &[u32; 21]) -> bool {
        answer[..4] == [0, 0, 1, self.cycles] && answer[5..].starts_with(&self.expected)
    }
}

/// Reads the table of a source below the repository's folder, and compiles and evaluates it. The
/// model says what is right.
pub fn circuit(root: &Path, (name, file, width, words): Source) -> Circuit {
    let bytes = std::fs::read(root.join(file)).expect("the table's file is there");
    let table = numbers(&bytes).expect("the file is a list of numbers")[1..].to_vec();
    let answer = Model.evaluate(width, &table, words, u32::MAX);
    assert_eq!(answer[..3], [0, 0, 1], "{name} ends");
    let ported = compiled_by(&Direct, width, &table);
    let text = text(&Direct, width, &ported);
    let (cycles, expected) = (answer[3], answer[5..5 + answer[4] as usize].to_vec());
    Circuit { name, width, table, words: words.to_vec(), ported, text, cycles, expected }
}

/// Makes a table of about so many cells for the writers' times: a complement, then each term Seq of
/// the one before with itself, 1,027 cells in 8 terms; 9 terms and a Par on top have 4,096.
pub fn doubled(terms: u32, par: bool) -> Vec<u32> {
    let mut table = vec![20, 0, 0, 0];
    (0..terms - 1).for_each(|last| table.extend([1, last, last, 0]));
    if par {
        table.extend([2, terms - 1, terms - 1, 0]);
    }
    table
}
