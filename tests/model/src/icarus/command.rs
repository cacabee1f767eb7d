//! The command `icarus SEED TABLES FOREIGN CYCLES` for any toolchain: compares its wires with
//! Icarus Verilog on so many compiled tables and foreign netlists. Prints the first difference;
//! ends with a failure where there is one.

use super::{compare, design, simulate, Design, Origin};
use crate::toolchain::Toolchain;
use std::path::{Path, PathBuf};
use std::process::ExitCode;

/// Designs in one run of the simulator, and between two lines of progress.
const TOGETHER: usize = 50;

/// What is asked for on the command line.
struct Wish {
    seed: u64,
    tables: usize,
    foreign: usize,
    cycles: usize,
}

/// Reads the command line.
fn wish() -> Option<Wish> {
    let numbers: Vec<u64> =
        std::env::args().skip(1).map(|a| a.parse().ok()).collect::<Option<_>>()?;
    let [seed, tables, foreign, cycles] = numbers[..] else { return None };
    let [tables, foreign, cycles] = [tables, foreign, cycles].map(|n| n as usize);
    (cycles > 0).then_some(Wish { seed, tables, foreign, cycles })
}

/// Makes the designs of one run of the simulator.
fn batch(toolchain: &dyn Toolchain, wish: &Wish, first: usize, end: usize) -> Vec<Design> {
    let origin = |n| if n < wish.tables { Origin::Table } else { Origin::Foreign };
    (first..end).map(|n| design(toolchain, wish.seed, n, origin(n), wish.cycles)).collect()
}

/// Compares all designs and counts those that agree and those that differ.
fn compare_all(
    toolchain: &dyn Toolchain,
    wish: &Wish,
    directory: &Path,
) -> std::io::Result<(usize, usize)> {
    let count = wish.tables + wish.foreign;
    let (mut passed, mut failed) = (0, 0);
    for first in (0..count).step_by(TOGETHER) {
        let designs = batch(toolchain, wish, first, count.min(first + TOGETHER));
        let printed = simulate(directory, &designs)?;
        for design in &designs {
            match compare(toolchain, design, &printed) {
                None => passed += 1,
                Some(difference) => {
                    if failed == 0 {
                        println!("seed {}, design {}: {difference}", wish.seed, design.number);
                    }
                    failed += 1;
                }
            }
        }
        println!("{} of {count} designs", passed + failed);
    }
    Ok((passed, failed))
}

/// Makes a directory that no other run uses.
fn directory() -> std::io::Result<PathBuf> {
    let path = std::env::temp_dir().join(format!("icarus-{}", std::process::id()));
    std::fs::create_dir_all(&path)?;
    Ok(path)
}

/// Runs the command on a toolchain.
pub fn run(toolchain: &dyn Toolchain) -> ExitCode {
    let Some(wish) = wish() else {
        eprintln!("usage: icarus SEED TABLES FOREIGN CYCLES");
        return ExitCode::from(2);
    };
    println!("seed {}", wish.seed);
    let outcome = directory().and_then(|directory| {
        let outcome = compare_all(toolchain, &wish, &directory);
        std::fs::remove_dir_all(&directory)?;
        outcome
    });
    let (passed, failed) = outcome.unwrap_or_else(|error| {
        println!("{error}");
        (0, 1)
    });
    println!("{passed} passed, {failed} failed");
    if failed == 0 {
        ExitCode::SUCCESS
    } else {
        ExitCode::FAILURE
    }
}
