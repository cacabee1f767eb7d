//! `runs`: the small runs 1 to 8 of docs/READING.md on the proved library. The last line counts them.

use differential::proved::Proved;
use model::runs::RUNS;
use std::panic::catch_unwind;
use std::process::ExitCode;

/// Tries every run; one that does not come out as it must prints what it met instead.
fn main() -> ExitCode {
    let mut failed = 0;
    for (name, run) in RUNS {
        println!("{name}");
        if catch_unwind(|| run(&Proved)).is_err() {
            failed += 1;
        }
    }
    println!("{} passed, {failed} failed", RUNS.len() - failed);
    ExitCode::from(u8::from(failed > 0))
}
