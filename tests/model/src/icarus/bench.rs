//! Writes the testbench of a design: it drives the stimuli and prints every wire of every cycle.

use super::Design;
use std::fmt::Write;

/// How many wires one print statement names.
const NAMES: usize = 40;

/// Gives the design's text with a module name that no other design has.
pub fn renamed(design: &Design) -> String {
    let rest = design.text.strip_prefix("module f ").expect("the text opens with its module");
    format!("module f{} {rest}", design.number)
}

/// Gives load and input words, a line of binary digits for each cycle.
pub fn stimuli(design: &Design) -> String {
    let mut text = String::new();
    for moment in &design.stream {
        write!(text, "{}", u8::from(moment.load)).expect("a String takes all");
        for word in &moment.words {
            write!(text, "{word:0w$b}", w = design.width as usize).expect("a String takes all");
        }
        text.push('\n');
    }
    text
}

/// Gives a module that waits for its turn, so that no two designs print at the same time.
///
/// Clock and stimuli never change together with a rising edge: a cycle's wires are printed when
/// all has settled, just before the edge that ends it. Cycle 0 is printed before the first edge.
pub fn bench(design: &Design, stimuli: &str, place: usize) -> String {
    let (number, cycles, top) = (design.number, design.stream.len(), design.width - 1);
    let inputs = names("inp", design.circuit.i);
    let outputs = names("out", design.circuit.o);
    let bits = design.circuit.i * design.width;
    let start = place * 4 * (cycles + 1);
    let prints = prints(design, &outputs);
    format!(
        "module b{number};
  reg clk = 0;
  reg load;
  reg [{top}:0] {inputs};
  wire done;
  wire [{top}:0] {outputs};
  reg [{bits}:0] moments [0:{last}];
  integer t;
  f{number} dut (clk,load,{inputs},done,{outputs});
  initial begin
    $readmemb(\"{stimuli}\", moments);
    #{start};
    for (t = 0; t < {cycles}; t = t + 1) begin
      {{load,{inputs}}} = moments[t];
      #1;
      $write(\"{number} %0d\", t);
{prints}      $write(\"\\n\");
      clk = 1;
      #1 clk = 0;
    end
  end
endmodule
",
        last = cycles - 1
    )
}

/// Gives names with numbers, apart by commas.
fn names(name: &str, count: u32) -> String {
    (0..count).map(|k| format!("{name}{k}")).collect::<Vec<_>>().join(",")
}

/// Gives the statements that print all wires, and after them done and the output ports.
fn prints(design: &Design, outputs: &str) -> String {
    let mut all: Vec<String> =
        (0..design.circuit.netlist.len() / 4).map(|n| format!("dut.w{n}")).collect();
    all.push("done".to_string());
    all.extend(outputs.split(',').map(str::to_string));
    let statement = |some: &[String]| {
        format!("      $write(\"{}\",{});\n", " %h".repeat(some.len()), some.join(","))
    };
    all.chunks(NAMES).map(statement).collect()
}
