//! The small runs 1 to 8 of docs/READING.md, on any toolchain. A run that does not come out as it
//! must panics.

use crate::toolchain::Toolchain;
use crate::MOST_WORDS;

const COMPLEMENT: [u32; 4] = [20, 0, 0, 0];

#[rustfmt::skip]
const COUNTDOWN: [u32; 40] = [
    12, 1, 0, 0,  9, 1, 0, 0,  2, 0, 1, 0,  18, 0, 0, 0,  1, 2, 3, 0,
    9, 1, 1, 0,  2, 0, 5, 0,  14, 0, 0, 0,  1, 6, 7, 0,  4, 4, 0, 8,
];

/// Run 4's table. The first word of the answer is Const 0 (term 1), and not Field 0.
#[rustfmt::skip]
const MULTIPLIER: [u32; 76] = [
    12, 3, 0, 0,  9, 3, 0, 0,  2, 0, 1, 0,  18, 0, 0, 0,  1, 2, 3, 0,
    12, 3, 1, 0,  12, 3, 2, 0,  2, 1, 5, 0,  2, 7, 6, 0,
    9, 3, 1, 0,  2, 0, 9, 0,  14, 0, 0, 0,  1, 10, 11, 0,
    2, 5, 6, 0,  13, 0, 0, 0,  1, 13, 14, 0,
    2, 12, 5, 0,  2, 16, 15, 0,  4, 4, 8, 17,
];

/// Run 1's text.
pub const TEXT: &str = "\
module f (clk,load,inp0,done,out0);
  input clk,load;
  input [7:0] inp0;
  output done;
  output [7:0] out0;
  wire w0 = load;
  wire [7:0] w1 = inp0;
  reg w2 = 1;
  wire w3 = !w2;
  reg w4 = 1;
  wire w5 = w0 & w3;
  wire w6 = w5 & w4;
  wire w7 = !w6;
  reg [7:0] w8 = 0;
  wire [7:0] w9 = ~w1;
  wire [7:0] w10 = w6 ? w9 : w8;
  always @(posedge clk) w2 <= w0;
  always @(posedge clk) w4 <= w7;
  always @(posedge clk) w8 <= w10;
  assign done = w7;
  assign out0 = w8;
endmodule
";

/// A run's name and what tries it.
pub type Run = (&'static str, fn(&dyn Toolchain));

/// All runs, in order.
pub const RUNS: [Run; 8] = [
    ("run 1: complement", complement),
    ("run 2: countdown", countdown),
    ("run 3: handshake", handshake),
    ("run 4: multiplier", multiplier),
    ("run 5: words wrap", words_wrap),
    ("run 6: never ends", never_ends),
    ("run 7: doubling", doubling),
    ("run 8: constants", constants),
];

/// A compiled table: its cells, done and output wires.
struct Circuit {
    netlist: Vec<u32>,
    answer: [u32; 22],
}

/// Compiles a table, or gives the refusal.
fn compiled(tools: &dyn Toolchain, width: u32, table: &[u32]) -> Result<Circuit, [u32; 2]> {
    let mut netlist = vec![0; 16384];
    let answer = tools.compile(width, table, &mut netlist);
    if answer[0] != 0 {
        return Err([answer[0], answer[1]]);
    }
    netlist.truncate(4 * answer[2] as usize);
    Ok(Circuit { netlist, answer })
}

/// Counts the cells of the whole circuit, or gives the refusal.
fn cells(tools: &dyn Toolchain, width: u32, table: &[u32]) -> Result<u32, [u32; 2]> {
    compiled(tools, width, table).map(|circuit| circuit.answer[2])
}

/// Gives cycles and words of a run that ends.
fn ended(
    tools: &dyn Toolchain,
    width: u32,
    table: &[u32],
    words: &[u32],
    budget: u32,
) -> (u32, Vec<u32>) {
    let answer = tools.evaluate(width, table, words, budget);
    assert_eq!(answer[..3], [0, 0, 1], "the run ends");
    let o = answer[4] as usize;
    assert!(answer[5 + o..].iter().all(|&word| word == 0), "numbers past o are 0");
    (answer[3], answer[5..5 + o].to_vec())
}

/// Gives done and the first output word of every cycle under a load, with the words held.
fn trace(
    tools: &dyn Toolchain,
    width: u32,
    table: &[u32],
    words: &[u32],
    loads: &[u32],
) -> Vec<(u32, u32)> {
    let circuit = compiled(tools, width, table).expect("the table is accepted");
    let mut before = vec![0; circuit.netlist.len() / 4];
    let mut after = before.clone();
    let mut seen = vec![];
    for (t, &load) in loads.iter().enumerate() {
        let answer = if t == 0 {
            tools.power_up(width, &circuit.netlist, load == 1, words, &mut after)
        } else {
            tools.step(width, &circuit.netlist, &before, load == 1, words, &mut after)
        };
        assert_eq!(answer, [0, 0]);
        seen.push((after[circuit.answer[5] as usize], after[circuit.answer[6] as usize]));
        std::mem::swap(&mut before, &mut after);
    }
    seen
}

/// Gives done alone of every cycle.
fn dones(
    tools: &dyn Toolchain,
    width: u32,
    table: &[u32],
    words: &[u32],
    loads: &[u32],
) -> Vec<u32> {
    trace(tools, width, table, words, loads).iter().map(|&(done, _)| done).collect()
}

/// Gives the Verilog text of a table's circuit.
fn text(tools: &dyn Toolchain, width: u32, table: &[u32]) -> Vec<u8> {
    let circuit = compiled(tools, width, table).expect("the table is accepted");
    let answer = circuit.answer;
    let outs: [u32; MOST_WORDS] = answer[6..].try_into().expect("16 output wires");
    let mut text = vec![0; 65536];
    let written =
        tools.write(width, &circuit.netlist, answer[3], answer[4], answer[5], &outs, &mut text);
    assert_eq!(written[..2], [0, 0]);
    text.truncate(written[2] as usize);
    text
}

/// Run 1: 11 cells, 485 bytes of text, 5 gives 250 in 1 cycle, load 0,1,1,1 gives done 1,0,1,1.
fn complement(tools: &dyn Toolchain) {
    assert_eq!(TEXT.len(), 485);
    assert_eq!(text(tools, 8, &COMPLEMENT), TEXT.as_bytes());
    assert_eq!(cells(tools, 8, &COMPLEMENT), Ok(11));
    assert_eq!(ended(tools, 8, &COMPLEMENT, &[5], 1), (1, vec![250]));
    assert_eq!(dones(tools, 8, &COMPLEMENT, &[5], &[0, 1, 1, 1]), [1, 0, 1, 1]);
    assert_eq!(trace(tools, 8, &COMPLEMENT, &[5], &[0, 1, 1, 1])[2..], [(1, 250), (1, 250)]);
}

/// Run 2: 65 cells; n takes 5n+3 cycles and gives 0; for 3, 17 is unfinished and 18 answers.
fn countdown(tools: &dyn Toolchain) {
    assert_eq!(cells(tools, 8, &COUNTDOWN), Ok(65));
    for n in 0..=255 {
        assert_eq!(ended(tools, 8, &COUNTDOWN, &[n], u32::MAX), (5 * n + 3, vec![0]));
    }
    assert_eq!(tools.evaluate(8, &COUNTDOWN, &[3], 17), [0; 21]);
    assert_eq!(ended(tools, 8, &COUNTDOWN, &[3], 18), (18, vec![0]));
}

/// Run 3: done is low at 1, 2, 3; a load that rises at 4 starts nothing, nor load held from 0 on.
fn handshake(tools: &dyn Toolchain) {
    let seen = |loads: &[u32]| dones(tools, 8, &COUNTDOWN, &[0], loads);
    assert_eq!(seen(&[0, 1, 1, 1, 1, 1]), [1, 0, 0, 0, 1, 1]);
    assert_eq!(seen(&[0, 1, 0, 0, 1, 1, 1, 1, 1, 1]), [1, 0, 0, 0, 1, 1, 1, 1, 1, 1]);
    assert_eq!(seen(&[1; 12]), [1; 12]);
    assert_eq!(seen(&[0, 1, 0, 0, 0, 1, 1, 1, 1, 1]), [1, 0, 0, 0, 1, 0, 0, 0, 1, 1]);
}

/// Run 4: 108 cells, (5,7,0) gives (0,7,35) in 28 cycles, with Const 0 or Field 0 as first word.
fn multiplier(tools: &dyn Toolchain) {
    let mut field = MULTIPLIER;
    field[4 * 7 + 1] = 0;
    for table in [MULTIPLIER, field] {
        assert_eq!(cells(tools, 32, &table), Ok(108));
        assert_eq!(ended(tools, 32, &table, &[5, 7, 0], 28), (28, vec![0, 7, 35]));
        assert_eq!(tools.evaluate(32, &table, &[5, 7, 0], 27), [0; 21]);
    }
}

/// Run 5: sums, differences and shifts at the ends of their ranges.
fn words_wrap(tools: &dyn Toolchain) {
    let one = |width, kind, words: &[u32]| ended(tools, width, &[kind, 0, 0, 0], words, 1).1[0];
    assert_eq!(one(8, 13, &[200, 100]), 44);
    assert_eq!(one(8, 14, &[0, 1]), 255);
    assert_eq!(one(8, 21, &[129]), 2);
    assert_eq!(one(32, 13, &[4294967295, 1]), 0);
    assert_eq!(one(1, 14, &[0, 1]), 1);
}

/// Run 6: ten million cycles are not enough, and done stays low.
fn never_ends(tools: &dyn Toolchain) {
    let table = [12, 1, 0, 0, 9, 1, 0, 0, 4, 1, 0, 0];
    assert_eq!(tools.evaluate(8, &table, &[7], 10_000_000), [0; 21]);
    let mut loads = [1; 500];
    loads[0] = 0;
    assert!(dones(tools, 8, &table, &[7], &loads)[1..].iter().all(|&done| done == 0));
}

/// Run 7: 9 terms give 2,051 cells; 10 would give 4,099 and are refused 9; 4,096 are accepted.
fn doubling(tools: &dyn Toolchain) {
    let mut table = COMPLEMENT.to_vec();
    for last in 0..8 {
        table.extend([1, last, last, 0]);
    }
    assert_eq!(cells(tools, 8, &table), Ok(2051));
    table.extend([1, 8, 8, 0]);
    assert_eq!(cells(tools, 8, &table), Err([9, 0]));
    table.truncate(36);
    table.extend([2, 8, 8, 0]);
    assert_eq!(cells(tools, 8, &table), Ok(4096));
}

/// Run 8: constant 255 is accepted at width 8, 256 is refused 5.
fn constants(tools: &dyn Toolchain) {
    assert_eq!(cells(tools, 8, &[9, 1, 255, 0]), Ok(11));
    assert_eq!(cells(tools, 8, &[9, 1, 256, 0]), Err([5, 0]));
}
