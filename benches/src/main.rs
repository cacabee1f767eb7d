//! `ratios ROOT HOST STACK`: times the proved library against other tools, in one run, on the same
//! circuits, and prints the tables of `benches/RESULTS.md`. Says on standard error how far it is.
//! Ends with a failure where a contender is missing or gives a wrong answer, and never for a time.
//!
//! ROOT is the repository's folder, HOST the program of `benches/answer.c`, and STACK the program
//! `stack` of `tests/differential`.
//!
//! - `circuits`: what is run, and what is done to it;
//! - `timing`: samples side by side, and medians;
//! - `ours`: the contenders in this process;
//! - `peers`: the contenders that are programs of their own;
//! - `report`: tables.

mod circuits;
mod ours;
mod peers;
mod report;
mod timing;

use circuits::{circuit, doubled, Circuit, ANSWERS, CYCLES};
use differential::direct::Direct;
use model::icarus::{run, text};
use model::random::netlists::{compiled_by, Ported};
use model::toolchain::{Model, Toolchain};
use peers::{Build, Folder};
use report::{amount, Table};
use std::path::Path;
use timing::{median, medians, once, Contender};

/// The rounds of samples that are short, and of those that build something.
const ROUNDS: usize = 7;
const BUILDS: usize = 3;

/// How often the host is started for one sample.
const STARTS: usize = 20;

/// Nanoseconds a cycle of everything that runs a circuit.
struct Cycles {
    inner: f64,
    step: f64,
    evaluator: f64,
    model_step: f64,
    model_evaluator: f64,
    model_walk: f64,
    verilator: f64,
    icarus: f64,
}

/// Nanoseconds from a table to the first answer.
struct Answers {
    evaluated: f64,
    process: f64,
    stepped: f64,
    verilator: f64,
    icarus: f64,
}

/// Times everything that runs a circuit, cycle by cycle, and adds what it finds to a table.
fn cycles(folder: &Folder, circuit: &Circuit, times: &mut Table) -> Cycles {
    eprintln!("{}: building with Verilator", circuit.name);
    let verilated = folder.verilate(Build::Fast);
    folder.elaborate();
    let mut contenders = [
        ours::inner(&Direct, circuit),
        ours::checking("public step", &Direct, circuit),
        ours::evaluator("evaluator", &Direct, circuit),
        ours::checking("model's step", &Model, circuit),
        ours::evaluator("model's evaluator", &Model, circuit),
        ours::walk("model's evaluator, walking", circuit),
        folder.verilator(verilated),
        folder.icarus(),
    ];
    let taken = medians(&format!("{}: cycles", circuit.name), ROUNDS, &mut contenders);
    for (contender, &ns) in contenders.iter().zip(&taken) {
        let cell = amount(ns / circuit.cells() as f64);
        times.row(vec![contender.name.to_string(), circuit.title(), amount(ns), cell]);
    }
    let [inner, step, evaluator, model_step, model_evaluator, model_walk, verilator, icarus] =
        taken[..]
    else {
        unreachable!("as many medians as contenders")
    };
    #[rustfmt::skip]
    let cycles = Cycles {
        inner, step, evaluator, model_step, model_evaluator, model_walk, verilator, icarus,
    };
    cycles
}

/// Makes a contender of a process or of several in a row, timed as a whole.
fn whole<'a>(name: &'static str, sample: impl FnMut() -> f64 + 'a) -> Contender<'a> {
    Contender { name, sample: Box::new(sample) }
}

/// Times the way from a table, or from its text, to the first answer.
fn answers(folder: &Folder, circuit: &Circuit, host: &Path) -> Answers {
    let starts = || median((0..STARTS).map(|_| folder.run_host(host)).collect());
    // The run that warms up is the first answer: no further one is asked for.
    let verilator = || {
        once(|| {
            let program = folder.verilate(Build::Soon);
            folder.run_verilated(&program, 0);
        })
    };
    let icarus = || {
        once(|| {
            folder.elaborate();
            folder.run_icarus(1);
        })
    };
    let mut contenders = [
        ours::evaluated("evaluation", &Direct, circuit),
        whole("process", starts),
        ours::stepped("simulation", &Direct, circuit),
        whole("Verilator", verilator),
        whole("Icarus", icarus),
    ];
    let taken = medians(&format!("{}: first answers", circuit.name), BUILDS, &mut contenders);
    let [evaluated, process, stepped, verilator, icarus] = taken[..] else {
        unreachable!("as many medians as contenders")
    };
    Answers { evaluated, process, stepped, verilator, icarus }
}

/// Adds the ratios of all that runs a circuit. A goal may depend on the count of cells.
fn add_cycles(table: &mut Table, all: &[(&Circuit, Cycles)]) {
    type Pick = fn(&Cycles) -> (f64, f64);
    type Goal = fn(usize) -> Option<f64>;
    let near: Goal = |cells| match cells {
        0..=65 => Some(2.0),
        66..=2000 => None,
        _ => Some(3.5),
    };
    let sorts: [(&str, Goal, Pick); 7] = [
        ("inner step / Icarus vvp", |_| Some(1.0 / 15.0), |c| (c.inner, c.icarus)),
        ("inner step / Verilator", near, |c| (c.inner, c.verilator)),
        ("public step / inner step", |_| Some(2.5), |c| (c.step, c.inner)),
        ("public step / model's step", |_| Some(1.2), |c| (c.step, c.model_step)),
        ("evaluator / Verilator", |_| Some(1.0), |c| (c.evaluator, c.verilator)),
        ("evaluator / model's evaluator", |_| Some(1.2), |c| (c.evaluator, c.model_evaluator)),
        ("evaluator / model's, walking", |_| Some(1.2), |c| (c.evaluator, c.model_walk)),
    ];
    for (what, goal, pick) in sorts {
        for (circuit, cycles) in all {
            let (ours, theirs) = pick(cycles);
            let what = format!("a cycle: {what}");
            table.ratio(&what, &circuit.title(), ours, theirs, goal(circuit.cells()));
        }
    }
}

/// Adds the ratios of first answers.
fn add_answers(table: &mut Table, all: &[(&Circuit, Answers)]) {
    type Pick = fn(&Answers) -> (f64, f64);
    let goal = Some(0.01);
    let sorts: [(&str, Option<f64>, Pick); 6] = [
        ("evaluation / Verilator with its build", goal, |a| (a.evaluated, a.verilator)),
        ("evaluation / iverilog and vvp", goal, |a| (a.evaluated, a.icarus)),
        ("process / Verilator with its build", goal, |a| (a.process, a.verilator)),
        ("process / iverilog and vvp", goal, |a| (a.process, a.icarus)),
        ("simulation / Verilator with its build", None, |a| (a.stepped, a.verilator)),
        ("simulation / iverilog and vvp", None, |a| (a.stepped, a.icarus)),
    ];
    for (what, goal, pick) in sorts {
        for (circuit, answers) in all {
            let (ours, theirs) = pick(answers);
            table.ratio(&format!("first answer: {what}"), &circuit.title(), ours, theirs, goal);
        }
    }
}

/// Makes contenders of the compiler and of the writer at some sizes, timed by the cell.
fn sized<'a>(tables: &'a [Vec<u32>], circuits: &'a [Ported]) -> Vec<Contender<'a>> {
    let cells = |ported: &Ported| ported.netlist.len() / 4;
    let compilers = tables.iter().zip(circuits).map(|(table, ported)| {
        let (cells, mut netlist) = (cells(ported), vec![0; ported.netlist.len()]);
        Contender::of_code("compile", cells as f64, move || {
            assert_eq!(Direct.compile(32, table, &mut netlist)[2], cells as u32);
        })
    });
    let writers = circuits.iter().map(|ported| {
        let mut bytes = text(&Direct, 32, ported).into_bytes();
        Contender::of_code("write", cells(ported) as f64, move || {
            let Ported { netlist, i, o, done, outs } = ported;
            let written = Direct.write(32, netlist, *i, *o, *done, outs, &mut bytes);
            assert_eq!(written, [0, 0, bytes.len() as u32]);
        })
    });
    compilers.chain(writers).collect()
}

/// Times the compiler and the writer at three sizes; their times a cell should be alike.
fn sizes(table: &mut Table, countdown: &Circuit) -> Table {
    let tables = [countdown.table.clone(), doubled(8, false), doubled(9, true)];
    let circuits = tables.each_ref().map(|table| compiled_by(&Direct, 32, table));
    let cells = circuits.each_ref().map(|ported| ported.netlist.len() / 4);
    let taken = medians("compile and write", ROUNDS, &mut sized(&tables, &circuits));
    let mut times = Table::new(&["call", "cells", "ns a call", "ns a cell"]);
    for (three, name) in taken.chunks(3).zip(["compile", "write"]) {
        for (&cells, &ns) in cells.iter().zip(three) {
            let numbers = [cells.to_string(), amount(ns * cells as f64), amount(ns)];
            times.row([&[name.to_string()], &numbers[..]].concat());
        }
        let most = three.iter().copied().fold(0.0, f64::max);
        let least = three.iter().copied().fold(f64::MAX, f64::min);
        let what = format!("a cell: {name}, slowest size / fastest size");
        let sizes = format!("{} cells", cells.map(|cells| cells.to_string()).join(", "));
        table.ratio(&what, &sizes, most, least, Some(1.5));
    }
    times
}

/// Gives the stack that each call takes, as the outside checks measure it.
fn stack(program: &Path) -> Table {
    let name = program.display().to_string();
    let printed = run(Path::new("."), &name, &["1", "200"]).expect("the stack's program runs");
    let mut table = Table::new(&["call", "bytes of stack", "part of 128 KiB", "goal", ""]);
    for line in printed.lines().filter(|line| line.contains("takes at most")) {
        let words: Vec<&str> = line.split_whitespace().collect();
        let bytes: f64 = words[4].parse().expect("a number of bytes");
        let part = bytes / f64::from(128 << 10);
        let verdict = if part < 1.0 { "met" } else { "missed" };
        let cells = [words[0], &amount(bytes), &report::two_digits(part), "below 1.00", verdict];
        table.row(cells.map(str::to_string).to_vec());
    }
    table
}

/// Measures everything and prints the tables.
fn main() {
    let arguments: Vec<String> = std::env::args().skip(1).collect();
    let [root, host, stacked] = &arguments[..] else {
        panic!("usage: ratios ROOT HOST STACK");
    };
    let root = Path::new(root);
    let heads = ["ours / theirs", "circuit", "ours, ns", "theirs, ns", "ratio", "goal", ""];
    let mut ratios = Table::new(&heads);
    let mut times = Table::new(&["contender", "circuit", "ns a cycle", "ns a cell"]);
    let cycled = CYCLES.map(|source| circuit(root, source));
    let running = cycled.each_ref().map(|circuit| {
        let folder = Folder::new(root, circuit).expect("the circuit's folder is written");
        (circuit, cycles(&folder, circuit, &mut times))
    });
    let asked = ANSWERS.map(|source| circuit(root, source));
    let answered = asked.each_ref().map(|circuit| {
        let folder = Folder::new(root, circuit).expect("the circuit's folder is written");
        (circuit, answers(&folder, circuit, Path::new(host)))
    });
    add_cycles(&mut ratios, &running);
    add_answers(&mut ratios, &answered);
    let calls = sizes(&mut ratios, &cycled[0]);
    let tables = [ratios, stack(Path::new(stacked)), times, calls];
    println!("{}", tables.map(|table| table.text()).join("\n"));
}
