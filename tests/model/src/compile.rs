//! Compiles a table to a netlist of cells, four numbers a cell.
//! Refuses 1 to 10; a refused call leaves the buffer as it was. docs/READING.md: "Cells".
//!
//! Cells are pushed in the order that is fixed. A register that reads a wire not yet known is
//! pushed with a 0 and mended once the wire is there; sizes play no part in the wiring.

use crate::table::{check, Facts};

/// A netlist under construction, with the table it comes from.
struct Emission<'a> {
    table: &'a [u32],
    facts: &'a Facts,
    cells: Vec<[u32; 4]>,
}

/// What a finished block offers to those who use it.
struct Block {
    done: u32,
    outputs: Vec<u32>,
}

/// The wires of the choice between two branches, the same in Ite and Rec.
struct Choice {
    holds: u32,
    start_f: u32,
    start_g: u32,
}

/// Answers number, place, count of cells, i, o, the done wire and 16 output wires.
pub fn compile(width: u32, table: &[u32], netlist: &mut [u32]) -> [u32; 22] {
    let mut answer = [0; 22];
    let facts = match check(width, table) {
        Ok(facts) => facts,
        Err((number, place)) => {
            (answer[0], answer[1]) = (number, place);
            return answer;
        }
    };
    let mut emission = Emission { table, facts: &facts, cells: vec![] };
    let block = emission.whole();
    let numbers = emission.cells.concat();
    if netlist.len() < numbers.len() {
        answer[0] = 10;
        return answer;
    }
    netlist[..numbers.len()].copy_from_slice(&numbers);
    let main = facts.main();
    answer[2] = emission.cells.len() as u32;
    answer[3..6].copy_from_slice(&[facts.inputs[main], facts.outputs[main], block.done]);
    answer[6..6 + block.outputs.len()].copy_from_slice(&block.outputs);
    answer
}

impl Emission<'_> {
    /// Adds a cell and gives its wire.
    fn cell(&mut self, kind: u32, x: u32, y: u32, z: u32) -> u32 {
        self.cells.push([kind, x, y, z]);
        self.cells.len() as u32 - 1
    }

    /// Lets a register that was added earlier read this wire.
    fn mend(&mut self, register: u32, wire: u32) {
        self.cells[register as usize][1] = wire;
    }

    /// Adds the three cells that are high in the cycle in which d rises.
    fn rise(&mut self, d: u32) -> u32 {
        let before = self.cell(5, d, 0, 0);
        let low = self.cell(1, before, 0, 0);
        self.cell(2, d, low, 0)
    }

    /// Adds a pair that keeps a word taken under s, and gives the register.
    fn keep(&mut self, s: u32, word: u32) -> u32 {
        let register = self.cell(10, 0, 0, 0);
        let choice = self.cell(11, s, word, register);
        self.mend(register, choice);
        register
    }

    /// Adds the whole circuit: load, inputs, the start of a run and the main block.
    fn whole(&mut self) -> Block {
        let main = self.facts.main();
        let load = self.cell(0, 0, 0, 0);
        let inputs: Vec<u32> =
            (0..self.facts.inputs[main]).map(|n| self.cell(8, n, 0, 0)).collect();
        let before = self.cell(5, load, 0, 0);
        let low = self.cell(1, before, 0, 0);
        let idle = self.cell(5, 0, 0, 0);
        let rises = self.cell(2, load, low, 0);
        let start = self.cell(2, rises, idle, 0);
        let block = self.block(main, start, &inputs);
        self.mend(idle, block.done);
        block
    }

    /// Adds the block of a term, started by s, on the given words.
    fn block(&mut self, term: usize, s: u32, inputs: &[u32]) -> Block {
        let numbers = &self.table[4 * term..4 * term + 4];
        let [a, b, c] = [1, 2, 3].map(|n| numbers[n] as usize);
        match numbers[0] {
            1 => self.seq(a, b, s, inputs),
            2 => self.par(a, b, s, inputs),
            3 => self.ite([a, b, c], s, inputs),
            4 => self.rec([a, b, c], s, inputs),
            _ => self.leaf(term, s, inputs),
        }
    }

    /// Adds the four cells of a term of kind 9 or more.
    fn leaf(&mut self, term: usize, s: u32, inputs: &[u32]) -> Block {
        let numbers = &self.table[4 * term..4 * term + 4];
        let done = self.cell(1, s, 0, 0);
        let register = self.cell(10, 0, 0, 0);
        let operation = match numbers[0] {
            9 => self.cell(9, numbers[2], 0, 0),
            12 => self.cell(12, inputs[numbers[2] as usize], 0, 0),
            kind @ 13..=19 => self.cell(kind, inputs[0], inputs[1], 0),
            kind => self.cell(kind, inputs[0], 0, 0),
        };
        let choice = self.cell(11, s, operation, register);
        self.mend(register, choice);
        Block { done, outputs: vec![register] }
    }

    /// Adds g behind f: g starts when f's done rises.
    fn seq(&mut self, f: usize, g: usize, s: u32, inputs: &[u32]) -> Block {
        let first = self.block(f, s, inputs);
        let rise = self.rise(first.done);
        let second = self.block(g, rise, &first.outputs);
        let done = self.cell(2, first.done, second.done, 0);
        Block { done, outputs: second.outputs }
    }

    /// Adds f and g side by side.
    fn par(&mut self, f: usize, g: usize, s: u32, inputs: &[u32]) -> Block {
        let first = self.block(f, s, inputs);
        let second = self.block(g, s, inputs);
        let done = self.cell(2, first.done, second.done, 0);
        Block { done, outputs: [first.outputs, second.outputs].concat() }
    }

    /// Adds the wires that start one of two branches when the test is done.
    fn choice(&mut self, test: &Block) -> Choice {
        let rise = self.rise(test.done);
        let holds = self.cell(6, test.outputs[0], 0, 0);
        let fails = self.cell(1, holds, 0, 0);
        let start_f = self.cell(2, rise, holds, 0);
        let start_g = self.cell(2, rise, fails, 0);
        Choice { holds, start_f, start_g }
    }

    /// Adds a choice; the branches read kept words, as the caller may change the inputs meanwhile.
    fn ite(&mut self, [e, f, g]: [usize; 3], s: u32, inputs: &[u32]) -> Block {
        let kept: Vec<u32> = inputs.iter().map(|&word| self.keep(s, word)).collect();
        let test = self.block(e, s, inputs);
        let choice = self.choice(&test);
        let first = self.block(f, choice.start_f, &kept);
        let second = self.block(g, choice.start_g, &kept);
        let both = self.cell(2, test.done, first.done, 0);
        let done = self.cell(2, both, second.done, 0);
        let pairs = first.outputs.iter().zip(&second.outputs);
        let outputs = pairs.map(|(&f, &g)| self.cell(11, choice.holds, f, g)).collect();
        Block { done, outputs }
    }

    /// Adds a loop; g's answer comes back through registers, and done stays low in the cycle
    /// between two rounds.
    fn rec(&mut self, [e, f, g]: [usize; 3], s: u32, inputs: &[u32]) -> Block {
        let again = self.cell(4, 0, 0, 0);
        let back: Vec<u32> = inputs.iter().map(|_| self.cell(10, 0, 0, 0)).collect();
        let start = self.cell(3, s, again, 0);
        let words: Vec<u32> =
            back.iter().zip(inputs).map(|(&b, &i)| self.cell(11, again, b, i)).collect();
        let kept: Vec<u32> = words.iter().map(|&word| self.keep(start, word)).collect();
        let test = self.block(e, start, &words);
        let choice = self.choice(&test);
        let first = self.block(f, choice.start_f, &kept);
        let second = self.block(g, choice.start_g, &kept);
        let rise = self.rise(second.done);
        self.mend(again, rise);
        for (&register, &word) in back.iter().zip(&second.outputs) {
            self.mend(register, word);
        }
        let both = self.cell(2, test.done, first.done, 0);
        let all = self.cell(2, both, second.done, 0);
        let settled = self.cell(1, rise, 0, 0);
        let done = self.cell(2, all, settled, 0);
        Block { done, outputs: first.outputs }
    }
}
