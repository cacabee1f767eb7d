//! Compares the wires that a toolchain gives with those that Icarus Verilog gives for its text,
//! wire by wire and cycle by cycle. Needs `iverilog` and `vvp`.
//!
//! A design is made from the seed and its own number alone, so that one that differs can be made
//! again without the others. Many designs share one run of the simulator, which is what costs.

mod bench;
pub mod command;

use crate::random::netlists::{compiled_by, foreign, Ported};
use crate::random::streams::{stream, Moment};
use crate::random::tables::accepted;
use crate::random::Random;
use crate::toolchain::Toolchain;
use std::io::Result;
use std::path::Path;
use std::process::Command;

/// Where a netlist comes from.
#[derive(Clone, Copy, PartialEq)]
pub enum Origin {
    /// Compiled from a random table.
    Table,
    /// Made by no compiler.
    Foreign,
}

/// A circuit with its text and with what the outside does to it.
pub struct Design {
    /// Its number within the seed.
    pub number: usize,
    width: u32,
    circuit: Ported,
    stream: Vec<Moment>,
    text: String,
}

impl Design {
    /// Gives the text that the toolchain wrote.
    pub fn text(&self) -> &str {
        &self.text
    }
}

/// Makes the design that belongs to a seed and a number.
pub fn design(
    toolchain: &dyn Toolchain,
    seed: u64,
    number: usize,
    origin: Origin,
    cycles: usize,
) -> Design {
    let mut random = Random::new(seed);
    let mut random = Random::new(random.bits() ^ number as u64);
    let width = random.width();
    let circuit = if origin == Origin::Table {
        let terms = random.pick(&[8, 20, 60, 256]);
        let cells = random.pick(&[60, 60, 200, 200, 600, 600, 600, 4096]);
        let table = accepted(&mut random, width, terms as usize, cells);
        compiled_by(toolchain, width, &table)
    } else {
        let (cells, i) = (random.between(2, 300), random.between(1, 16));
        foreign(&mut random, width, cells as usize, i)
    };
    let stream = stream(&mut random, width, circuit.i, cycles);
    let text = text(toolchain, width, &circuit);
    Design { number, width, circuit, stream, text }
}

/// Gives the text that the toolchain writes.
pub fn text(toolchain: &dyn Toolchain, width: u32, circuit: &Ported) -> String {
    let mut text = vec![0; 1 << 20];
    let Ported { netlist, i, o, done, outs } = circuit;
    let [number, place, length] = toolchain.write(width, netlist, *i, *o, *done, outs, &mut text);
    assert_eq!([number, place], [0, 0], "the writer takes a netlist that passes");
    text.truncate(length as usize);
    String::from_utf8(text).expect("the text is ASCII")
}

/// Runs Icarus once on all designs, in a directory of its own, and gives what it prints.
pub fn simulate(directory: &Path, designs: &[Design]) -> Result<String> {
    let mut source = String::new();
    for (place, design) in designs.iter().enumerate() {
        let stimuli = format!("{}.mem", design.number);
        std::fs::write(directory.join(&stimuli), bench::stimuli(design))?;
        source += &bench::renamed(design);
        source += &bench::bench(design, &stimuli, place);
    }
    std::fs::write(directory.join("designs.v"), source)?;
    run(directory, "iverilog", &["-g2001", "-o", "designs.vvp", "designs.v"])?;
    run(directory, "vvp", &["-n", "designs.vvp"])
}

/// Runs a tool in a directory and gives what it prints; a tool that fails is an error.
pub fn run(directory: &Path, tool: &str, arguments: &[&str]) -> Result<String> {
    let output = Command::new(tool).args(arguments).current_dir(directory).output()?;
    if !output.status.success() {
        let message = String::from_utf8_lossy(&output.stderr).into_owned();
        return Err(std::io::Error::other(format!("{tool} fails: {message}")));
    }
    String::from_utf8(output.stdout).map_err(std::io::Error::other)
}

/// Compares one design with its lines of the printed text; gives the first difference in words.
pub fn compare(toolchain: &dyn Toolchain, design: &Design, printed: &str) -> Option<String> {
    let prefix = format!("{} ", design.number);
    let lines: Vec<&str> = printed.lines().filter_map(|line| line.strip_prefix(&prefix)).collect();
    if lines.len() != design.stream.len() {
        return Some(format!("{} cycles printed", lines.len()));
    }
    let mut before = vec![0; design.circuit.netlist.len() / 4];
    let mut after = before.clone();
    for (t, line) in lines.iter().enumerate() {
        let answer = cycle(toolchain, design, t, &before, &mut after);
        if answer != [0, 0] {
            return Some(format!("cycle {t} is refused {} at {}", answer[0], answer[1]));
        }
        if let Some(difference) = difference(design, &after, line) {
            return Some(format!("cycle {t}, {difference}"));
        }
        std::mem::swap(&mut before, &mut after);
    }
    None
}

/// Lets the toolchain give the wires of a cycle.
fn cycle(
    toolchain: &dyn Toolchain,
    design: &Design,
    t: usize,
    before: &[u32],
    after: &mut [u32],
) -> [u32; 2] {
    let Moment { load, words } = &design.stream[t];
    let (width, netlist) = (design.width, &design.circuit.netlist);
    if t == 0 {
        toolchain.power_up(width, netlist, *load, words, after)
    } else {
        toolchain.step(width, netlist, before, *load, words, after)
    }
}

/// Compares the wires and ports of a cycle with a printed line.
fn difference(design: &Design, wires: &[u32], line: &str) -> Option<String> {
    let Ported { o, done, outs, .. } = &design.circuit;
    let ports = [*done].into_iter().chain(outs[..*o as usize].iter().copied());
    let expected: Vec<u32> =
        wires.iter().copied().chain(ports.map(|wire| wires[wire as usize])).collect();
    let seen: Vec<&str> = line.split_whitespace().skip(1).collect();
    if seen.len() != expected.len() {
        return Some(format!("{} wires and ports printed", seen.len()));
    }
    let same = |(&number, text): (&u32, &&str)| u32::from_str_radix(text, 16) == Ok(number);
    let place = expected.iter().zip(&seen).position(|pair| !same(pair))?;
    let (here, there) = (expected[place], seen[place]);
    let name = match place.checked_sub(wires.len()) {
        None => format!("wire {place}"),
        Some(0) => "done".to_string(),
        Some(port) => format!("out{}", port - 1),
    };
    Some(format!("{name}: {here:x} here, {there} by Icarus"))
}
