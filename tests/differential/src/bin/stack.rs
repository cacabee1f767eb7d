//! `stack SEED CASES`: makes the calls on the deepest tables and the largest netlists and prints the
//! most stack that each sort of call takes. One that is refused, or takes more than
//! `include/rumiotka.h` states, fails.

use differential::depth;
use differential::direct::Direct;
use model::random::calls::Call;
use model::random::netlists::{compiled, foreign};
use model::random::{limits, Random};
use std::process::ExitCode;

/// The calls, in the order in which they are made.
const NAMES: [&str; 5] = ["evaluate", "compile", "power_up", "step", "write"];

/// Gives the stack of a call, as the header states it.
fn stated(call: &Call) -> usize {
    match call {
        Call::Compile { .. } => 112 << 10,
        Call::Evaluate { .. } => 64 << 10,
        _ => 8 << 10,
    }
}

/// Makes the calls of a deep table and its circuit, and of a netlist of as many cells as may be.
fn calls(random: &mut Random) -> Vec<Call> {
    let width = random.width();
    let table = match random.chance(10) {
        true => limits::deepest(),
        false => limits::deep(random, width),
    };
    let circuit = compiled(width, &table);
    let large = foreign(random, width, 4096, 16);
    let words = random.words(width, 16);
    let (netlist, length, load) = (large.netlist.clone(), 4096, true);
    let before = vec![0; 4096];
    vec![
        Call::Evaluate { width, table: table.clone(), words: words[..1].to_vec(), budget: 9999 },
        Call::Compile { width, table, length: circuit.netlist.len() },
        Call::PowerUp { width, netlist: netlist.clone(), load, words: words.clone(), length },
        Call::Step { width, netlist, before, load, words, length },
        Call::Write { width, circuit: large, length: 1 << 19 },
    ]
}

/// Makes a call; gives the stack that it takes, or nothing where it is refused.
fn taken(call: &Call) -> Option<usize> {
    let mut number = 0;
    let bytes = depth::of(&mut || number = model::differ::outcome(&Direct, call).0[0]);
    (number == 0).then_some(bytes)
}

/// Makes all calls; gives how many fail, and the most stack that each sort takes.
fn measure(seed: u64, cases: u64) -> (u64, [usize; 5]) {
    let mut random = Random::new(seed);
    let (mut failed, mut most) = (0, [0; 5]);
    for _ in 0..cases {
        for (sort, call) in calls(&mut random).iter().enumerate() {
            let bytes = taken(call);
            most[sort] = most[sort].max(bytes.unwrap_or(0));
            if bytes.is_none_or(|bytes| bytes > stated(call)) {
                println!("{} is refused or takes more than is stated: {bytes:?}", NAMES[sort]);
                failed += 1;
            }
        }
    }
    (failed, most)
}

/// Makes all calls and prints what they take.
fn main() -> ExitCode {
    let numbers: Option<Vec<u64>> = std::env::args().skip(1).map(|a| a.parse().ok()).collect();
    let Some([seed, cases]) = numbers.as_deref() else {
        eprintln!("usage: stack SEED CASES");
        return ExitCode::from(2);
    };
    println!("seed {seed}");
    let (failed, most) = measure(*seed, *cases);
    for (name, bytes) in NAMES.iter().zip(most) {
        println!("{name} takes at most {bytes} bytes of stack");
    }
    println!("{} passed, {failed} failed", 5 * cases - failed);
    ExitCode::from(u8::from(failed > 0))
}
