//! Makes the same call of two toolchains and compares every returned number and all lent memory.

use crate::random::calls::Call;
use crate::random::netlists::Ported;
use crate::toolchain::Toolchain;

/// What a lent buffer holds before a call: numbers that tell a place that is left alone.
fn lent(length: usize) -> Vec<u32> {
    (0..length).map(|n| 0xdead_0000 | n as u32 & 0xffff).collect()
}

/// Makes a call and gives the answer and all lent memory afterwards.
pub fn outcome(toolchain: &dyn Toolchain, call: &Call) -> (Vec<u32>, Vec<u32>) {
    match call {
        Call::Evaluate { width, table, words, budget } => {
            (toolchain.evaluate(*width, table, words, *budget).to_vec(), vec![])
        }
        Call::Compile { width, table, length } => {
            let mut netlist = lent(*length);
            (toolchain.compile(*width, table, &mut netlist).to_vec(), netlist)
        }
        Call::PowerUp { width, netlist, load, words, length } => {
            let mut wires = lent(*length);
            let answer = toolchain.power_up(*width, netlist, *load, words, &mut wires);
            (answer.to_vec(), wires)
        }
        Call::Step { width, netlist, before, load, words, length } => {
            let mut after = lent(*length);
            let answer = toolchain.step(*width, netlist, before, *load, words, &mut after);
            (answer.to_vec(), after)
        }
        Call::Write { width, circuit, length } => {
            let mut text: Vec<u8> = (0..*length).map(|n| 128 | n as u8).collect();
            let Ported { netlist, i, o, done, outs } = circuit;
            let answer = toolchain.write(*width, netlist, *i, *o, *done, outs, &mut text);
            (answer.to_vec(), text.into_iter().map(u32::from).collect())
        }
    }
}

/// Compares two toolchains on a call; gives the refusal number, or the difference in words.
pub fn compare(left: &dyn Toolchain, right: &dyn Toolchain, call: &Call) -> Result<u32, String> {
    let (here, there) = (outcome(left, call), outcome(right, call));
    if here.0 != there.0 {
        return Err(format!("answers {:?} and {:?}", here.0, there.0));
    }
    match here.1.iter().zip(&there.1).position(|(x, y)| x != y) {
        Some(place) => Err(format!("lent memory differs at {place}")),
        None => Ok(here.0[0]),
    }
}
