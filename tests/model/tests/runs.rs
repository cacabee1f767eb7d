//! The small runs 1 to 8 of docs/READING.md on the model, and what the program prints for run 1.

use model::program::respond;
use model::runs::{RUNS, TEXT};
use model::table::facts;
use model::toolchain::Model;

#[test]
fn small_runs() {
    for (name, run) in RUNS {
        println!("{name}");
        run(&Model);
    }
}

#[test]
fn printed() {
    assert_eq!(respond(b"8 20 0 0 0"), TEXT.as_bytes());
}

/// What run 7's refused table would take.
#[test]
fn refused_size() {
    let mut table = vec![20, 0, 0, 0];
    for last in 0..9 {
        table.extend([1, last, last, 0]);
    }
    assert_eq!(facts(8, &table).map(|facts| facts.cells()), Ok(4099));
}
