//! Tries the handshake on a toolchain: what the evaluator says of a table is what its circuit does, in
//! any number of runs, under any load and any words. The evaluator here is the model's, compiler
//! and simulator are the toolchain's.

use crate::evaluate::evaluate;
use crate::random::netlists::{compiled_by, Ported};
use crate::random::streams::{stream, Moment};
use crate::random::tables::accepted;
use crate::random::Random;
use crate::toolchain::Toolchain;

/// What a run owes: when done comes back, if it does, and with which words.
struct Run {
    end: Option<usize>,
    words: Vec<u32>,
}

/// What was seen, so that a test which sees too little can fail.
#[derive(Clone, Copy, Debug, Default)]
pub struct Tally {
    /// Runs that end.
    pub ended: u64,
    /// Runs that never end, or not within any stream.
    pub endless: u64,
    /// Rises of load that start nothing.
    pub ignored: u64,
    /// The cycles of the longest run that ends.
    pub longest: u32,
}

/// Makes a table and a stream and tries the toolchain on them; gives the first wrong cycle in
/// words.
pub fn attempt(
    toolchain: &dyn Toolchain,
    random: &mut Random,
    tally: &mut Tally,
) -> Result<(), String> {
    let width = random.width();
    let terms = random.pick(&[8, 20, 60, 256]) as usize;
    let table = accepted(random, width, terms, 1000);
    let circuit = compiled_by(toolchain, width, &table);
    let cycles = random.between(50, 400) as usize;
    let stream = stream(random, width, circuit.i, cycles);
    check(toolchain, width, &table, &circuit, &stream, tally)
        .map_err(|difference| format!("{difference} of the table {table:?} at width {width}"))
}

/// Gives done and the output words of all cycles.
fn traces(
    toolchain: &dyn Toolchain,
    width: u32,
    circuit: &Ported,
    stream: &[Moment],
) -> Result<Vec<(bool, Vec<u32>)>, String> {
    let Ported { netlist, o, done, outs, .. } = circuit;
    let mut before = vec![0; netlist.len() / 4];
    let mut after = before.clone();
    let mut seen = vec![];
    for (t, Moment { load, words }) in stream.iter().enumerate() {
        let answer = match t {
            0 => toolchain.power_up(width, netlist, *load, words, &mut after),
            _ => toolchain.step(width, netlist, &before, *load, words, &mut after),
        };
        if answer != [0, 0] {
            return Err(format!("refused {} at {} in cycle {t}", answer[0], answer[1]));
        }
        let outputs = outs[..*o as usize].iter().map(|&wire| after[wire as usize]).collect();
        seen.push((after[*done as usize] == 1, outputs));
        std::mem::swap(&mut before, &mut after);
    }
    Ok(seen)
}

/// Gives what a run that begins in this cycle owes; no stream is as long as the budget here.
fn owed(width: u32, table: &[u32], moment: &Moment, t: usize, tally: &mut Tally) -> Run {
    let answer = evaluate(width, table, &moment.words, 1_000_000);
    assert_eq!(answer[..2], [0, 0], "the table is accepted and the words fit");
    if answer[2] == 0 {
        tally.endless += 1;
        return Run { end: None, words: vec![] };
    }
    tally.ended += 1;
    tally.longest = tally.longest.max(answer[3]);
    let words = answer[5..5 + answer[4] as usize].to_vec();
    Run { end: Some(t + answer[3] as usize), words }
}

/// Checks the promise on one table and one stream.
fn check(
    toolchain: &dyn Toolchain,
    width: u32,
    table: &[u32],
    circuit: &Ported,
    stream: &[Moment],
    tally: &mut Tally,
) -> Result<(), String> {
    let seen = traces(toolchain, width, circuit, stream)?;
    let mut run: Option<Run> = None;
    for t in 0..stream.len() {
        let rises = t > 0 && stream[t].load && !stream[t - 1].load;
        if rises && seen[t - 1].0 {
            run = Some(owed(width, table, &stream[t], t, tally));
        } else if rises {
            tally.ignored += 1;
        }
        let (done, words) = &seen[t];
        // Before the first run done is high, and the words are promised nothing.
        let over = run.as_ref().is_none_or(|run| run.end.is_some_and(|end| t >= end));
        if *done != over {
            return Err(format!("done is {done} in cycle {t}"));
        }
        if let Some(run) = run.as_ref().filter(|run| over && run.words != *words) {
            return Err(format!("words {words:?}, owed {:?}, in cycle {t}", run.words));
        }
    }
    Ok(())
}
