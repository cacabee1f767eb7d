//! The line of every kind of cell, and the ports of several words, written out by hand.

use model::verilog::write;

/// Every kind of cell once; registers read forward, themselves and backward.
#[rustfmt::skip]
const CELLS: [[u32; 4]; 22] = [
    [0, 0, 0, 0], [1, 0, 0, 0], [2, 0, 1, 0], [3, 2, 1, 0], [4, 8, 0, 0], [5, 5, 0, 0],
    [8, 1, 0, 0], [9, 1, 0, 0], [6, 7, 0, 0], [10, 6, 0, 0], [11, 0, 6, 7], [12, 7, 0, 0],
    [13, 6, 7, 0], [14, 6, 7, 0], [15, 6, 7, 0], [16, 6, 7, 0], [17, 6, 7, 0], [18, 6, 7, 0],
    [19, 6, 7, 0], [20, 6, 0, 0], [21, 6, 0, 0], [22, 6, 0, 0],
];

/// The text at W 1, where words have a range all the same.
const NARROW: &str = "\
module f (clk,load,inp0,inp1,done,out0,out1,out2);
  input clk,load;
  input [0:0] inp0;
  input [0:0] inp1;
  output done;
  output [0:0] out0;
  output [0:0] out1;
  output [0:0] out2;
  wire w0 = load;
  wire w1 = !w0;
  wire w2 = w0 & w1;
  wire w3 = w2 | w1;
  reg w4 = 0;
  reg w5 = 1;
  wire [0:0] w6 = inp1;
  wire [0:0] w7 = 1'd1;
  wire w8 = w7 != 0;
  reg [0:0] w9 = 0;
  wire [0:0] w10 = w0 ? w6 : w7;
  wire [0:0] w11 = w7;
  wire [0:0] w12 = w6 + w7;
  wire [0:0] w13 = w6 - w7;
  wire [0:0] w14 = w6 & w7;
  wire [0:0] w15 = w6 | w7;
  wire [0:0] w16 = w6 ^ w7;
  wire [0:0] w17 = w6 == w7;
  wire [0:0] w18 = w6 < w7;
  wire [0:0] w19 = ~w6;
  wire [0:0] w20 = w6 << 1;
  wire [0:0] w21 = w6 >> 1;
  always @(posedge clk) w4 <= w8;
  always @(posedge clk) w5 <= w5;
  always @(posedge clk) w9 <= w6;
  assign done = w3;
  assign out0 = w21;
  assign out1 = w6;
  assign out2 = w21;
endmodule
";

/// Writes the cells at a width.
fn text(width: u32) -> String {
    let mut outs = [0; 16];
    outs[..3].copy_from_slice(&[21, 6, 21]);
    let mut text = vec![0; 5000];
    let answer = write(width, &CELLS.concat(), 2, 3, 3, &outs, &mut text);
    assert_eq!(answer[..2], [0, 0]);
    text.truncate(answer[2] as usize);
    String::from_utf8(text).expect("the text is ASCII")
}

#[test]
fn every_kind_has_its_line() {
    assert_eq!(text(1), NARROW);
}

#[test]
fn ranges_and_constants_follow_the_width() {
    for width in 2..=32 {
        let range = format!("[{}:0]", width - 1);
        let wide = NARROW.replace("[0:0]", &range).replace("1'd", &format!("{width}'d"));
        assert_eq!(text(width), wide);
    }
}
