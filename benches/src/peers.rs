//! The contenders that run as programs of their own: Verilator's, Icarus Verilog's and the shortest
//! host of the proved library, `benches/answer.c`. What they are made from stands in a folder a
//! circuit.

use crate::circuits::Circuit;
use crate::timing::{children_time, once, Contender};
use model::icarus::run;
use std::fs::{create_dir_all, remove_dir_all, write, File};
use std::path::{Path, PathBuf};
use std::process::Command;

/// What a timed part of a program should take at least, in nanoseconds.
const SAMPLE: f64 = 2e8;

/// How Verilator's C++ is compiled: for speed of the circuit, or for speed of the compiler.
#[derive(Clone, Copy)]
pub enum Build {
    /// As fast a circuit as Verilator gives.
    Fast,
    /// As short a build as Verilator gives.
    Soon,
}

/// A circuit's folder, with its text and what joins the drivers to its ports.
pub struct Folder<'a> {
    circuit: &'a Circuit,
    path: PathBuf,
    drivers: PathBuf,
}

/// Runs a tool in a folder and gives what it prints; one that is missing or fails ends the bench.
fn tool(folder: &Path, name: &str, arguments: &[&str]) -> String {
    run(folder, name, arguments).unwrap_or_else(|error| panic!("{name}: {error}"))
}

/// Gives a text for each of so many ports, joined.
fn ports(count: usize, join: &str, text: impl Fn(usize) -> String) -> String {
    (0..count).map(text).collect::<Vec<_>>().join(join)
}

impl<'a> Folder<'a> {
    /// Makes the folder of a circuit, anew. Drivers are the sources in `benches/`.
    pub fn new(root: &Path, circuit: &'a Circuit) -> std::io::Result<Folder<'a>> {
        let path = root.join("target/bench").join(circuit.name);
        let _ = remove_dir_all(&path);
        create_dir_all(&path)?;
        let folder = Folder { circuit, path, drivers: root.join("benches") };
        let table: Vec<String> = circuit.table.iter().map(u32::to_string).collect();
        write(folder.path.join("table.txt"), format!("{} {}\n", circuit.width, table.join(" ")))?;
        write(folder.path.join("f.v"), &circuit.text)?;
        write(folder.path.join("ports.h"), folder.cpp_ports())?;
        write(folder.path.join("ports.v"), folder.verilog_ports())?;
        Ok(folder)
    }

    /// Gives the C++ that the driver needs to know of the circuit.
    fn cpp_ports(&self) -> String {
        let Circuit { words, expected, .. } = self.circuit;
        let drive = ports(words.len(), " ", |k| format!("f.inp{k} = {}u;", words[k]));
        let right = ports(expected.len(), " && ", |k| format!("f.out{k} == {}u", expected[k]));
        format!(
            "static const unsigned PERIOD = {};\n\
             static inline void drive(Vf &f) {{ {drive} }}\n\
             static inline bool right(const Vf &f) {{ return f.done == 1 && {right}; }}\n",
            self.circuit.period()
        )
    }

    /// Gives the Verilog that the driver needs to know of the circuit.
    fn verilog_ports(&self) -> String {
        let Circuit { width, words, expected, .. } = self.circuit;
        let inputs = ports(words.len(), ", ", |k| format!("{width}'d{}", words[k]));
        let outputs = ports(expected.len(), ", ", |k| format!("out{k}"));
        let right =
            ports(expected.len(), " && ", |k| format!("out{k} === {width}'d{}", expected[k]));
        format!(
            "`define PERIOD {}\n\
             `define WIRES wire done; wire [{}:0] {outputs};\n\
             `define PORTS clk, load, {inputs}, done, {outputs}\n\
             `define RIGHT done === 1 && {right}\n",
            self.circuit.period(),
            width - 1
        )
    }

    /// Builds the circuit with Verilator; gives the program.
    pub fn verilate(&self, build: Build) -> PathBuf {
        let (made, level) = match build {
            Build::Fast => ("fast", "-O3 -march=native"),
            Build::Soon => ("soon", "-O0"),
        };
        let _ = remove_dir_all(self.path.join(made));
        let driver = self.drivers.join("verilator.cpp").display().to_string();
        let include = format!("-I{}", self.path.display());
        let levels = format!("OPT_FAST='{level}' OPT_SLOW='{level}' OPT_GLOBAL='{level}'");
        let fixed = "-O3 --x-assign fast --x-initial fast --noassert -Wno-fatal --top-module f \
                     --cc --exe --build -j 0";
        let mut arguments: Vec<&str> = fixed.split(' ').collect();
        arguments.extend(["-CFLAGS", &include, "-MAKEFLAGS", &levels, "--Mdir", made]);
        arguments.extend(["f.v", &driver]);
        tool(&self.path, "verilator", &arguments);
        self.path.join(made).join("Vf")
    }

    /// Translates the circuit with Icarus Verilog.
    pub fn elaborate(&self) {
        let driver = self.drivers.join("icarus.v").display().to_string();
        tool(&self.path, "iverilog", &["-g2001", "-o", "bench.vvp", &driver, "f.v"]);
    }

    /// Runs a program of Verilator's; gives the nanoseconds that it counts.
    pub fn run_verilated(&self, program: &Path, runs: u64) -> f64 {
        let printed = tool(&self.path, &program.display().to_string(), &[&runs.to_string()]);
        let numbers: Vec<u64> = printed.split_whitespace().flat_map(str::parse).collect();
        let [taken, good] = numbers[..] else { panic!("Verilator's program prints {printed}") };
        assert_eq!(good, runs, "Verilator gives the right words of {}", self.circuit.name);
        taken as f64
    }

    /// Runs the translated circuit in Icarus Verilog; gives the process's processor time in
    /// nanoseconds.
    pub fn run_icarus(&self, runs: u64) -> f64 {
        let (option, start) = (format!("+runs={runs}"), children_time());
        let printed = tool(&self.path, "vvp", &["-n", "bench.vvp", &option]);
        let taken = children_time() - start;
        let good = printed.trim().parse();
        assert_eq!(good, Ok(runs), "Icarus gives the right words of {}", self.circuit.name);
        taken
    }

    /// Runs the shortest host on the circuit's table; gives the nanoseconds of the whole process.
    pub fn run_host(&self, host: &Path) -> f64 {
        let table = File::open(self.path.join("table.txt")).expect("the table is written");
        let words: Vec<String> = self.circuit.words.iter().map(u32::to_string).collect();
        let mut command = Command::new(host);
        command.args(words).stdin(table);
        let mut printed = vec![];
        let taken = once(|| printed = command.output().expect("the host runs").stdout);
        let numbers: Vec<u32> =
            String::from_utf8_lossy(&printed).split_whitespace().flat_map(str::parse).collect();
        let right = [&[self.circuit.cycles], &self.circuit.expected[..]].concat();
        assert_eq!(numbers, right, "the host gives the right words of {}", self.circuit.name);
        taken
    }

    /// Makes a contender of Verilator's program, timed by the cycle; its start is not counted.
    pub fn verilator(&self, program: PathBuf) -> Contender<'_> {
        let mut runs = 1;
        let sample = move || loop {
            let taken = self.run_verilated(&program, runs);
            if taken >= SAMPLE / 4.0 {
                return taken / (runs as f64 * f64::from(self.circuit.period()));
            }
            runs = (runs as f64 * (SAMPLE / 2.0 / taken).clamp(1.2, 1000.0)) as u64 + 1;
        };
        Contender { name: "Verilator", sample: Box::new(sample) }
    }

    /// Makes a contender of Icarus Verilog, timed by the cycle. Its start is taken off: a sample is
    /// the difference of two runs, one longer than the other.
    pub fn icarus(&self) -> Contender<'_> {
        let mut more = 1;
        let sample = move || loop {
            let short = self.run_icarus(1);
            let taken = self.run_icarus(1 + more) - short;
            if taken >= SAMPLE {
                return taken / (more as f64 * f64::from(self.circuit.period()));
            }
            more = (more as f64 * (1.5 * SAMPLE / taken.max(1.0)).clamp(1.2, 10.0)) as u64 + 1;
        };
        Contender { name: "Icarus vvp", sample: Box::new(sample) }
    }
}
