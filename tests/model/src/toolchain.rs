//! Names the calls that a toolchain offers, so that a harness can drive the model or another
//! implementation, such as one that is reached through C.

use crate::MOST_WORDS;

/// The five calls, with the model's shapes of arguments and answers.
pub trait Toolchain {
    /// Answers number, place, 1 if ended, cycles, o and 16 words.
    fn evaluate(&self, width: u32, table: &[u32], words: &[u32], budget: u32) -> [u32; 21];

    /// Answers number, place, cells, i, o, done and 16 output wires.
    fn compile(&self, width: u32, table: &[u32], netlist: &mut [u32]) -> [u32; 22];

    /// Writes the wires of cycle 0; answers number, place.
    fn power_up(
        &self,
        width: u32,
        netlist: &[u32],
        load: bool,
        words: &[u32],
        wires: &mut [u32],
    ) -> [u32; 2];

    /// Writes the wires of the next cycle; answers number, place.
    fn step(
        &self,
        width: u32,
        netlist: &[u32],
        before: &[u32],
        load: bool,
        words: &[u32],
        after: &mut [u32],
    ) -> [u32; 2];

    /// Writes the Verilog text; answers number, place, length.
    #[allow(clippy::too_many_arguments)]
    fn write(
        &self,
        width: u32,
        netlist: &[u32],
        i: u32,
        o: u32,
        done: u32,
        outs: &[u32; MOST_WORDS],
        text: &mut [u8],
    ) -> [u32; 3];
}

/// The model as a toolchain.
pub struct Model;

impl Toolchain for Model {
    fn evaluate(&self, width: u32, table: &[u32], words: &[u32], budget: u32) -> [u32; 21] {
        crate::evaluate::evaluate(width, table, words, budget)
    }

    fn compile(&self, width: u32, table: &[u32], netlist: &mut [u32]) -> [u32; 22] {
        crate::compile::compile(width, table, netlist)
    }

    fn power_up(
        &self,
        width: u32,
        netlist: &[u32],
        load: bool,
        words: &[u32],
        wires: &mut [u32],
    ) -> [u32; 2] {
        crate::simulate::power_up(width, netlist, load, words, wires)
    }

    fn step(
        &self,
        width: u32,
        netlist: &[u32],
        before: &[u32],
        load: bool,
        words: &[u32],
        after: &mut [u32],
    ) -> [u32; 2] {
        crate::simulate::step(width, netlist, before, load, words, after)
    }

    fn write(
        &self,
        width: u32,
        netlist: &[u32],
        i: u32,
        o: u32,
        done: u32,
        outs: &[u32; MOST_WORDS],
        text: &mut [u8],
    ) -> [u32; 3] {
        crate::verilog::write(width, netlist, i, o, done, outs, text)
    }
}
