//! Makes whole calls of each part, most of them sound and the rest with faults in table or
//! netlist, in lengths, in words, in wires and in ports, at times in several: all refusal numbers
//! come up.

use super::netlists::{compiled, foreign, Ported};
use super::tables::accepted;
use super::{damage, limits, Random};
use crate::cells::is_bit;
use crate::verilog::write;
use crate::MOST_WORDS;

/// The parts that can be called.
#[derive(Clone, Copy, Debug, PartialEq)]
pub enum Part {
    Evaluate,
    Compile,
    PowerUp,
    Step,
    Write,
}

impl Part {
    /// All parts, in order.
    pub const ALL: [Part; 5] =
        [Part::Evaluate, Part::Compile, Part::PowerUp, Part::Step, Part::Write];

    /// Gives the refusal numbers of a part in the order of its checks.
    pub fn numbers(self) -> &'static [u32] {
        match self {
            Part::Evaluate => &[1, 2, 3, 4, 5, 6, 7, 8, 9, 11],
            Part::Compile => &[1, 2, 3, 4, 5, 6, 7, 8, 9, 10],
            Part::PowerUp => &[1, 12, 13, 14, 15, 16, 17, 11],
            Part::Step => &[1, 12, 13, 14, 15, 16, 17, 18, 11],
            Part::Write => &[1, 12, 13, 14, 15, 16, 19, 20],
        }
    }
}

/// A call with all its arguments; `length` is that of the lent buffer.
#[derive(Debug)]
pub enum Call {
    Evaluate {
        width: u32,
        table: Vec<u32>,
        words: Vec<u32>,
        budget: u32,
    },
    Compile {
        width: u32,
        table: Vec<u32>,
        length: usize,
    },
    PowerUp {
        width: u32,
        netlist: Vec<u32>,
        load: bool,
        words: Vec<u32>,
        length: usize,
    },
    Step {
        width: u32,
        netlist: Vec<u32>,
        before: Vec<u32>,
        load: bool,
        words: Vec<u32>,
        length: usize,
    },
    Write {
        width: u32,
        circuit: Ported,
        length: usize,
    },
}

impl Call {
    /// Gives the part that is called.
    pub fn part(&self) -> Part {
        match self {
            Call::Evaluate { .. } => Part::Evaluate,
            Call::Compile { .. } => Part::Compile,
            Call::PowerUp { .. } => Part::PowerUp,
            Call::Step { .. } => Part::Step,
            Call::Write { .. } => Part::Write,
        }
    }
}

/// Makes a call of any part.
pub fn call(random: &mut Random) -> Call {
    match random.below(5) {
        0 => evaluate(random),
        1 => compile(random),
        2 | 3 => simulate(random),
        _ => writer(random),
    }
}

/// Makes a width and a table, at times damaged or at a limit.
fn table(random: &mut Random) -> (u32, Vec<u32>) {
    match random.below(50) {
        0..=9 => return damage::table(random),
        10 => return (random.width(), limits::cells(random, false)),
        11 => return (random.width(), limits::cells(random, true)),
        12 => {
            let width = random.width();
            return (width, limits::filled(&accepted(random, width, 100, 4096)));
        }
        13 => {
            let width = random.width();
            return (width, limits::deep(random, width));
        }
        _ => {}
    }
    let (width, terms) = (random.width(), random.pick(&[8, 30, 100, 256]) as usize);
    let table = accepted(random, width, terms, 4096);
    (width, table)
}

/// Makes words for so many inputs: at times one too few, one too many or one too large.
fn words(random: &mut Random, width: u32, count: u32) -> Vec<u32> {
    let width = width.clamp(1, 32);
    let count = match random.below(12) {
        0 => count.saturating_sub(1),
        1 => count + 1,
        2 => random.pick(&[0, 16, 17]),
        _ => count,
    };
    let mut words = random.words(width, count);
    if random.chance(8) && count > 0 {
        let place = random.below(count) as usize;
        words[place] = random.pick(&[1u32.wrapping_shl(width), u32::MAX, words[place]]);
    }
    words
}

/// Makes a call of the evaluator; budgets are at times just enough or one too small. The largest
/// ones go to runs that end soon, as others would use them up.
fn evaluate(random: &mut Random) -> Call {
    let (width, table) = table(random);
    let inputs = crate::table::facts(width, &table).map_or(2, |facts| facts.inputs[facts.main()]);
    let words = words(random, width, inputs);
    let cycles = crate::evaluate::evaluate(width, &table, &words, 20_000)[3];
    let any = random.below(2000);
    let most = if cycles == 0 { 20_000 } else { u32::MAX };
    let budget = random.pick(&[0, 1, any, cycles, cycles.saturating_sub(1), 20_000, most]);
    Call::Evaluate { width, table, words, budget }
}

/// Makes a call of the compiler; buffers are at times just enough or one too small.
fn compile(random: &mut Random) -> Call {
    let (width, table) = table(random);
    let need = crate::table::check(width, &table).map_or(44, |facts| 4 * facts.cells() as usize);
    let length = match random.below(6) {
        0 => need,
        1 => need - 1,
        2 => random.below(need as u32) as usize,
        _ => need + random.below(9) as usize,
    };
    Call::Compile { width, table, length }
}

/// Makes a circuit that passes the cell checks.
fn circuit(random: &mut Random) -> (u32, Ported) {
    let width = random.width();
    if random.chance(50) {
        let (few, many) = (random.between(2, 60), random.between(2, 4096));
        let cells = if random.chance(2) { random.pick(&[many, 4096]) } else { few } as usize;
        let i = random.between(1, 16);
        return (width, foreign(random, width, cells, i));
    }
    let table = accepted(random, width, 20, 400);
    (width, compiled(width, &table))
}

/// Makes a call of the simulator, at power-up or later.
fn simulate(random: &mut Random) -> Call {
    let (mut width, Ported { mut netlist, i, .. }) = circuit(random);
    if random.chance(20) {
        (width, netlist) = damage::netlist(random);
    }
    let (words, load) = (words(random, width, i), random.chance(50));
    let cells = netlist.len() / 4;
    let length = if random.chance(8) { near(random, cells) } else { cells };
    if random.chance(40) {
        return Call::PowerUp { width, netlist, load, words, length };
    }
    let bad = if random.chance(15) { 5 } else { 0 };
    let mut before = wires(random, width.clamp(1, 32), &netlist, bad);
    if random.chance(8) {
        before.resize(near(random, cells), 0);
    }
    Call::Step { width, netlist, before, load, words, length }
}

/// Gives a length that is off by one.
fn near(random: &mut Random, length: usize) -> usize {
    if random.chance(50) {
        length + 1
    } else {
        length.saturating_sub(1)
    }
}

/// Makes wires that the cells could drive, whether they fit together or not; so many of a hundred
/// are too large for that.
pub(super) fn wires(random: &mut Random, width: u32, netlist: &[u32], bad: u32) -> Vec<u32> {
    let mut wires = vec![];
    for cell in netlist.chunks_exact(4) {
        let width = if is_bit(cell[0]) { 1 } else { width };
        let over = random.pick(&[1u32.wrapping_shl(width).max(2), u32::MAX]);
        wires.push(if random.chance(bad) { over } else { random.word(width) });
    }
    wires
}

/// Makes a call of the writer; at times a port is wrong or the buffer is too short.
fn writer(random: &mut Random) -> Call {
    let (mut width, mut circuit) = circuit(random);
    let need = {
        let Ported { netlist, i, o, done, outs } = &circuit;
        write(width, netlist, *i, *o, *done, outs, &mut vec![0; 1 << 19])[2] as usize
    };
    if random.chance(15) {
        (width, circuit.netlist) = damage::netlist(random);
    }
    let cells = (circuit.netlist.len() / 4) as u32;
    let wild = [random.below(cells.max(1)), cells, 0, 16, 17, u32::MAX];
    match random.below(16) {
        0 => circuit.i = random.pick(&wild),
        1 => circuit.o = random.pick(&wild),
        2 => circuit.done = random.pick(&wild),
        3 | 4 => circuit.outs[random.below(MOST_WORDS as u32) as usize] = random.pick(&wild),
        _ => {}
    }
    let length = match random.below(6) {
        0 => need,
        1 => need - 1,
        2 => random.below(need as u32) as usize,
        _ => need + random.below(9) as usize,
    };
    Call::Write { width, circuit, length }
}
