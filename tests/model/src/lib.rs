//! An independent model of the rules of docs/READING.md, written from the rules alone.
//!
//! It answers what every part of the toolchain has to answer, so that other implementations can be
//! compared with it. It favours the rules' own words over speed, and depends on nothing but
//! the standard library. The modules follow the rules' order:
//!
//! - `words`: numbers below 2^W and the operations on them;
//! - `table`: checks 1 to 9, word counts and sizes;
//! - `evaluate`: the words and cycles of a table on given words, with `straight` for long loops;
//! - `compile`: from a table to cells;
//! - `cells`: checks 12 to 16;
//! - `runs`: the small runs;
//! - `simulate`: one cycle of a netlist;
//! - `verilog`: the text of a netlist;
//! - `program`: what the program prints for its input.
//!
//! Besides these, `toolchain` names the five calls so that another implementation can stand in,
//! `random` makes inputs of every sort, `differ` compares two implementations on whole calls,
//! `promise` tries the handshake on one, and `icarus` compares wires with Icarus Verilog.

pub mod cells;
pub mod compile;
pub mod differ;
pub mod evaluate;
pub mod icarus;
pub mod program;
pub mod promise;
pub mod random;
pub mod runs;
pub mod simulate;
pub mod straight;
pub mod table;
pub mod toolchain;
pub mod verilog;
pub mod words;

/// A refusal: its number and its place.
pub type Refusal = (u32, u32);

/// The most words that a term or a call may take or give.
pub const MOST_WORDS: usize = 16;
