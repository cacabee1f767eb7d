//! `differential SEED CASES [FIRST]`: compares the proved library with the model on so many cases,
//! from case FIRST on, which is 0 unless it is given. Prints the first differences with their seed
//! and case, how often each refusal number was met, and fails where one of 1 to 20 never was.

use differential::cases::{case, Tally, LARGEST_NUMBER};
use std::process::ExitCode;
use std::sync::atomic::{AtomicU64, Ordering};
use std::thread::{available_parallelism, scope, Builder};

/// Cases that a thread takes at once, and cases between two lines of progress.
const TOGETHER: u64 = 500;
const PROGRESS: u64 = 10_000;

/// Differences that a thread shows; more are counted.
const SHOWN: u64 = 5;

/// The stack of a thread: as much as a program's main thread has.
const STACK: usize = 8 << 20;

/// What is asked for on the command line, and the next case that nobody has taken.
struct Work {
    seed: u64,
    first: u64,
    end: u64,
    next: AtomicU64,
}

/// Reads the command line.
fn work() -> Option<Work> {
    let numbers: Vec<u64> =
        std::env::args().skip(1).map(|a| a.parse().ok()).collect::<Option<_>>()?;
    let (seed, cases, first) = match numbers[..] {
        [seed, cases] => (seed, cases, 0),
        [seed, cases, first] => (seed, cases, first),
        _ => return None,
    };
    Some(Work { seed, first, end: first.checked_add(cases)?, next: AtomicU64::new(first) })
}

/// Runs cases until none is left.
fn run(work: &Work) -> Tally {
    let mut tally = Tally::default();
    loop {
        let from = work.next.fetch_add(TOGETHER, Ordering::Relaxed);
        if from >= work.end {
            return tally;
        }
        if (from - work.first) % PROGRESS == 0 {
            println!("case {from} of {} to {}", work.first, work.end);
        }
        for number in from..work.end.min(from + TOGETHER) {
            let outcome = case(work.seed, number, &mut tally);
            if let (Err(difference), 0..=SHOWN) = (outcome, tally.failed) {
                println!("seed {}, case {number}: {difference}", work.seed);
            }
        }
    }
}

/// Runs all cases, a thread for each processor.
fn run_all(work: &Work) -> Tally {
    let mut tally = Tally::default();
    scope(|scope| {
        let threads: Vec<_> = (0..available_parallelism().map_or(1, usize::from))
            .map(|_| Builder::new().stack_size(STACK).spawn_scoped(scope, || run(work)))
            .collect();
        for thread in threads {
            tally.add(&thread.expect("a thread starts").join().expect("a thread ends"));
        }
    });
    tally
}

/// Prints what was met and gives the numbers that never were.
fn report(tally: &Tally) -> Vec<usize> {
    println!("accepted {} times", tally.numbers[0]);
    for number in 1..=LARGEST_NUMBER {
        println!("refused {number}: {} times", tally.numbers[number]);
    }
    let model::promise::Tally { ended, endless, ignored, longest } = tally.promise;
    println!("{ended} runs end, the longest in {longest} cycles, {endless} don't end");
    println!("{ignored} rises of load during a run start nothing");
    (1..=LARGEST_NUMBER).filter(|&number| tally.numbers[number] == 0).collect()
}

/// Runs the comparison.
fn main() -> ExitCode {
    let Some(work) = work() else {
        eprintln!("usage: differential SEED CASES [FIRST]");
        return ExitCode::from(2);
    };
    println!("seed {}", work.seed);
    let tally = run_all(&work);
    let missing = report(&tally);
    for number in &missing {
        println!("number {number} was never met");
    }
    let failed = tally.failed + missing.len() as u64;
    println!("{} passed, {failed} failed", tally.passed);
    if failed == 0 {
        ExitCode::SUCCESS
    } else {
        ExitCode::FAILURE
    }
}
