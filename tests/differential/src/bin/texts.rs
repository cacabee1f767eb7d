//! `texts DIRECTORY SEED TABLES FOREIGN`: writes the proved writer's texts of so many random tables
//! and foreign netlists to a directory, for other tools to read.

use differential::proved::Proved;
use model::icarus::{design, Origin};
use std::path::Path;
use std::process::ExitCode;

/// Writes the texts of one origin, numbered from `first` on.
fn write(
    directory: &str,
    seed: u64,
    origin: Origin,
    first: usize,
    count: usize,
) -> std::io::Result<()> {
    let name = if origin == Origin::Table { "table" } else { "foreign" };
    for number in first..first + count {
        // The stream isn't used: one cycle is the shortest.
        let design = design(&Proved, seed, number, origin, 1);
        std::fs::write(Path::new(directory).join(format!("{name}{number}.v")), design.text())?;
    }
    Ok(())
}

/// Writes all texts.
fn main() -> ExitCode {
    let arguments: Vec<String> = std::env::args().skip(1).collect();
    let numbers: Option<Vec<u64>> = arguments.iter().skip(1).map(|a| a.parse().ok()).collect();
    let Some([seed, tables, foreign]) = numbers.as_deref() else {
        eprintln!("usage: texts DIRECTORY SEED TABLES FOREIGN");
        return ExitCode::from(2);
    };
    let (directory, tables, foreign) = (&arguments[0], *tables as usize, *foreign as usize);
    let written = write(directory, *seed, Origin::Table, 0, tables)
        .and_then(|()| write(directory, *seed, Origin::Foreign, tables, foreign));
    match written {
        Ok(()) => ExitCode::SUCCESS,
        Err(error) => {
            eprintln!("{directory}: {error}");
            ExitCode::FAILURE
        }
    }
}
