//! Makes calls with two chosen faults, so that every pair of numbers of a part comes up and shows
//! which of the two is judged first. With one number twice, it stands at two places where the
//! number has places.

use super::calls::{wires, Call, Part};
use super::damage::{double, length};
use super::netlists::{foreign, Ported};
use super::Random;
use crate::verilog::write;
use crate::words::largest;
use crate::{cells, table, Refusal, MOST_WORDS};

/// Terms of many word counts, for bad terms to name: 1 to 1, 2 to 1, then 1 to 2, 4, 8 and 16,
/// then 2 to 1 and 2 to 2.
const STOCK: [[u32; 4]; 8] = [
    [20, 0, 0, 0],
    [13, 0, 0, 0],
    [2, 0, 0, 0],
    [2, 2, 2, 0],
    [2, 3, 3, 0],
    [2, 4, 4, 0],
    [12, 2, 0, 0],
    [2, 1, 6, 0],
];

/// Gives every part with every two of its numbers, and with each number alone.
pub fn pairs() -> Vec<(Part, [u32; 2])> {
    let mut pairs = vec![];
    for part in Part::ALL {
        for (n, &first) in part.numbers().iter().enumerate() {
            pairs.extend(part.numbers()[n..].iter().map(|&second| (part, [first, second])));
        }
    }
    pairs
}

/// Makes a call of a part with these faults.
pub fn call(random: &mut Random, part: Part, faults: [u32; 2]) -> Call {
    match part {
        Part::Evaluate | Part::Compile => on_table(random, part, faults),
        Part::PowerUp | Part::Step => on_wires(random, part, faults),
        Part::Write => on_ports(random, faults),
    }
}

/// Gives the width of the call, which is no width where 1 is due.
fn width(random: &mut Random, sound: u32, faults: [u32; 2]) -> u32 {
    if faults.contains(&1) {
        random.pick(&[0, 33, 64, u32::MAX])
    } else {
        sound
    }
}

/// Makes a call of the evaluator or the compiler.
fn on_table(random: &mut Random, part: Part, faults: [u32; 2]) -> Call {
    let sound = random.width();
    let mut numbers = STOCK.concat();
    (0..random.between(2, 9)).for_each(|_| numbers.extend([20, 0, 0, 0]));
    let judge = |numbers: &[u32]| table::facts(sound, numbers).map(|_| ());
    spoil(random, sound, &mut numbers, STOCK.len(), faults, &judge);
    if faults.contains(&9) {
        double(&mut numbers, 1);
    }
    let need = table::check(sound, &numbers).map_or(44, |facts| 4 * facts.cells() as u32);
    if faults.contains(&2) {
        length(random, &mut numbers, 1028);
    }
    let width = width(random, sound, faults);
    if part == Part::Compile {
        let length = if faults.contains(&10) { random.below(need) } else { need };
        return Call::Compile { width, table: numbers, length: length as usize };
    }
    let words = words(random, sound, 1, faults);
    Call::Evaluate { width, table: numbers, words, budget: random.pick(&[0, 1, 1000]) }
}

/// Makes a call of the simulator.
fn on_wires(random: &mut Random, part: Part, faults: [u32; 2]) -> Call {
    let sound = random.width();
    let Ported { mut netlist, i, .. } = spoilt_circuit(random, sound, faults);
    let mut before = wires(random, sound, &netlist, 0);
    for _ in faults.iter().filter(|&&number| number == 18) {
        overload(random, sound, &netlist, &mut before);
    }
    let mut lengths = [before.len(), before.len()];
    if faults.contains(&17) {
        let judged = if part == Part::Step { random.below(2) as usize } else { 1 };
        lengths[judged] =
            random.pick(&[0, before.len() as u32 - 1, before.len() as u32 + 1]) as usize;
    }
    if faults.contains(&12) {
        length(random, &mut netlist, 16388);
    }
    before.resize(lengths[0], 0);
    let (width, length) = (width(random, sound, faults), lengths[1]);
    let (words, load) = (words(random, sound, i, faults), random.chance(50));
    match part {
        Part::PowerUp => Call::PowerUp { width, netlist, load, words, length },
        _ => Call::Step { width, netlist, before, load, words, length },
    }
}

/// Gives one wire a number that it can't carry. At W 32 every number is a word, so that only bits
/// can be wrong; a netlist made here has one.
fn overload(random: &mut Random, width: u32, netlist: &[u32], wires: &mut [u32]) {
    loop {
        let place = random.below(wires.len() as u32) as usize;
        let most = if cells::is_bit(netlist[4 * place]) { 1 } else { largest(width) };
        if most < u32::MAX {
            wires[place] = random.pick(&[most + 1, u32::MAX]);
            return;
        }
    }
}

/// Makes a call of the writer.
fn on_ports(random: &mut Random, faults: [u32; 2]) -> Call {
    let sound = random.width();
    let good = circuit(random, sound);
    let text = |circuit: &Ported| {
        let Ported { netlist, i, o, done, outs } = circuit;
        write(sound, netlist, *i, *o, *done, outs, &mut vec![0; 1 << 15])
    };
    let need = text(&good)[2];
    let mut circuit = Ported { netlist: good.netlist.clone(), ..good };
    while faults.contains(&19) && text(&circuit)[0] != 19 {
        wrong_port(random, &mut circuit);
    }
    spoil_circuit(random, sound, &mut circuit.netlist, faults);
    if faults.contains(&12) {
        length(random, &mut circuit.netlist, 16388);
    }
    let length = if faults.contains(&20) { random.below(need) } else { need };
    Call::Write { width: width(random, sound, faults), circuit, length: length as usize }
}

/// Changes one of the ports, at times to one that fits too.
fn wrong_port(random: &mut Random, circuit: &mut Ported) {
    let cells = (circuit.netlist.len() / 4) as u32;
    let wild = [random.below(cells), cells, 0, 16, 17, u32::MAX];
    match random.below(4) {
        0 => circuit.i = random.pick(&wild),
        1 => circuit.o = random.pick(&wild),
        2 => circuit.done = random.pick(&wild),
        _ => circuit.outs[random.below(MOST_WORDS as u32) as usize] = random.pick(&wild),
    }
}

/// The cells at the end of a circuit that no cell before them reads.
const TAIL: u32 = 6;

/// Makes a sound circuit that no compiler made.
fn circuit(random: &mut Random, width: u32) -> Ported {
    let (cells, i) = (random.between(2, 12) as usize, random.between(1, 16));
    let mut circuit = foreign(random, width, cells, i);
    // Without an input cell, a missing word would go unnoticed.
    circuit.netlist.extend([8, i - 1, 0, 0]);
    (1..TAIL).for_each(|_| circuit.netlist.extend([9, 0, 0, 0]));
    circuit
}

/// Makes a circuit with the faults that stand in its cells.
fn spoilt_circuit(random: &mut Random, width: u32, faults: [u32; 2]) -> Ported {
    let mut circuit = circuit(random, width);
    spoil_circuit(random, width, &mut circuit.netlist, faults);
    circuit
}

/// Puts the faults that stand in cells near the end of a netlist.
fn spoil_circuit(random: &mut Random, width: u32, netlist: &mut [u32], faults: [u32; 2]) {
    let first = netlist.len() / 4 + 1 - TAIL as usize;
    spoil(random, width, netlist, first, faults, &|netlist| cells::check(width, netlist));
}

/// Makes input words, the wrong ones where 11 is due.
fn words(random: &mut Random, width: u32, count: u32, faults: [u32; 2]) -> Vec<u32> {
    let mut words = random.words(width, count);
    if faults.contains(&11) {
        match random.below(3) {
            0 if width < 32 => words[random.below(count) as usize] = largest(width) + 1,
            1 => words.resize(MOST_WORDS + 1, 0),
            _ => words.truncate(count as usize - 1),
        }
    }
    words
}

/// Puts for each fault that has a place a term or a cell that gives it, from a first place on.
/// Each is found by trial on the sound numbers, so that it would be refused without the other.
fn spoil(
    random: &mut Random,
    width: u32,
    numbers: &mut [u32],
    first: usize,
    faults: [u32; 2],
    judge: &dyn Fn(&[u32]) -> Result<(), Refusal>,
) {
    let sound = numbers.to_vec();
    let mut places = two_places(random, first, sound.len() / 4);
    let placed = |number: u32| (3..=8).contains(&number) || (13..=16).contains(&number);
    for number in faults.into_iter().filter(|&number| placed(number)) {
        let place = places.pop().expect("a place for each of two faults");
        let mut trial = sound.clone();
        while judge(&trial) != Err((number, place as u32)) {
            trial[4 * place..4 * place + 4].copy_from_slice(&wild(random, width, place as u32));
        }
        numbers[4 * place..4 * place + 4].copy_from_slice(&trial[4 * place..4 * place + 4]);
    }
}

/// Picks two places between a first one and an end, in either order.
fn two_places(random: &mut Random, first: usize, end: usize) -> Vec<usize> {
    let early = first + random.below((end - first - 1) as u32) as usize;
    let late = early + 1 + random.below((end - early - 1) as u32) as usize;
    if random.chance(50) {
        vec![early, late]
    } else {
        vec![late, early]
    }
}

/// Makes a term or a cell of any numbers that could matter, more often than not a wrong one.
fn wild(random: &mut Random, width: u32, own: u32) -> [u32; 4] {
    let kind = match random.below(8) {
        0..=3 => random.between(1, 4),
        4 => random.pick(&[9, 12, 8, 11]),
        5 => random.pick(&[0, 5, 6, 7, 10, 23, 24, u32::MAX]),
        _ => random.between(0, 24),
    };
    let number = |random: &mut Random| match random.below(8) {
        0..=2 => 0,
        3 | 4 => random.below(own),
        5 => random.pick(&[own - 1, own, own + 1, own + 2]),
        6 => random.pick(&[1, 15, 16, 17]),
        _ => random.pick(&[largest(width), largest(width).wrapping_add(1), u32::MAX]),
    };
    [kind, number(random), number(random), number(random)]
}
