//! `icarus SEED TABLES FOREIGN CYCLES`: compares the model's wires with Icarus Verilog.

use model::toolchain::Model;
use std::process::ExitCode;

/// Runs the command on the model.
fn main() -> ExitCode {
    model::icarus::command::run(&Model)
}
