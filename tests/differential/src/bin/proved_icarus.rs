//! `proved_icarus SEED TABLES FOREIGN CYCLES`: compares the proved library's wires with Icarus
//! Verilog, which reads the proved writer's text of the proved compiler's circuits.

use differential::proved::Proved;
use std::process::ExitCode;

/// Runs the command on the proved library.
fn main() -> ExitCode {
    model::icarus::command::run(&Proved)
}
