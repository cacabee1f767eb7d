//! `respond`: prints for its standard input what the program has to print.

use std::io::{Read, Result, Write};

/// Reads all input and prints the answer.
fn main() -> Result<()> {
    let mut input = vec![];
    std::io::stdin().read_to_end(&mut input)?;
    std::io::stdout().write_all(&model::program::respond(&input))
}
