//! Writes a netlist as structural Verilog.
//! Refuses 1, 12 to 16, 19 and 20; a refused call leaves the buffer as it was.
//! docs/READING.md: "The Verilog text".

use crate::cells::{check, is_bit, is_register, is_word};
use crate::{Refusal, MOST_WORDS};
use std::fmt::Write;

/// Writes the text into the buffer; answers number, place, length.
#[allow(clippy::too_many_arguments)]
pub fn write(
    width: u32,
    netlist: &[u32],
    i: u32,
    o: u32,
    done: u32,
    outs: &[u32; MOST_WORDS],
    text: &mut [u8],
) -> [u32; 3] {
    let judge = || {
        check(width, netlist)?;
        check_ports(netlist, i, o, done, outs)
    };
    if let Err((number, place)) = judge() {
        return [number, place, 0];
    }
    let whole = whole(width, netlist, i, done, &outs[..o as usize]);
    if text.len() < whole.len() {
        return [20, 0, 0];
    }
    text[..whole.len()].copy_from_slice(whole.as_bytes());
    [0, 0, whole.len() as u32]
}

/// Refuses 19 for ports that the netlist can't serve.
fn check_ports(
    netlist: &[u32],
    i: u32,
    o: u32,
    done: u32,
    outs: &[u32; MOST_WORDS],
) -> Result<(), Refusal> {
    let count = 1..=MOST_WORDS as u32;
    if !count.contains(&i) || !count.contains(&o) {
        return Err((19, 0));
    }
    let kind = |wire: u32| netlist.chunks(4).nth(wire as usize).map(|cell| cell[0]);
    let (given, rest) = outs.split_at(o as usize);
    let fit = netlist.chunks(4).all(|cell| cell[0] != 8 || cell[1] < i)
        && kind(done).is_some_and(is_bit)
        && given.iter().all(|&wire| kind(wire).is_some_and(is_word))
        && rest.iter().all(|&wire| wire == 0);
    if fit {
        Ok(())
    } else {
        Err((19, 0))
    }
}

/// Gives the text: ports, cells, clock lines, outputs.
fn whole(width: u32, netlist: &[u32], i: u32, done: u32, outs: &[u32]) -> String {
    let mut lines = ports(width, i, outs.len() as u32);
    for (n, cell) in netlist.chunks(4).enumerate() {
        lines.push(declaration(width, n, cell));
    }
    for (n, cell) in netlist.chunks(4).enumerate().filter(|(_, cell)| is_register(cell[0])) {
        lines.push(format!("  always @(posedge clk) w{n} <= w{};", cell[1]));
    }
    lines.push(format!("  assign done = w{done};"));
    for (k, wire) in outs.iter().enumerate() {
        lines.push(format!("  assign out{k} = w{wire};"));
    }
    lines.push("endmodule".to_string());
    lines.join("\n") + "\n"
}

/// Gives the header and the port lines.
fn ports(width: u32, i: u32, o: u32) -> Vec<String> {
    let top = width - 1;
    let mut header = "module f (clk,load".to_string();
    for k in 0..i {
        write!(header, ",inp{k}").expect("a String takes all");
    }
    header += ",done";
    for k in 0..o {
        write!(header, ",out{k}").expect("a String takes all");
    }
    let mut lines = vec![header + ");", "  input clk,load;".to_string()];
    lines.extend((0..i).map(|k| format!("  input [{top}:0] inp{k};")));
    lines.push("  output done;".to_string());
    lines.extend((0..o).map(|k| format!("  output [{top}:0] out{k};")));
    lines
}

/// Gives the line that declares a cell's wire.
fn declaration(width: u32, n: usize, cell: &[u32]) -> String {
    let class = if is_register(cell[0]) { "reg" } else { "wire" };
    let range = if is_word(cell[0]) { format!("[{}:0] ", width - 1) } else { String::new() };
    format!("  {class} {range}w{n} = {};", value(width, cell))
}

/// Gives what stands to the right of a declaration's equals sign.
fn value(width: u32, cell: &[u32]) -> String {
    let [kind, x, y, z] = [cell[0], cell[1], cell[2], cell[3]];
    let between = |operator: &str| format!("w{x} {operator} w{y}");
    match kind {
        0 => "load".to_string(),
        1 => format!("!w{x}"),
        2 | 15 => between("&"),
        3 | 16 => between("|"),
        4 | 10 => "0".to_string(),
        5 => "1".to_string(),
        6 => format!("w{x} != 0"),
        8 => format!("inp{x}"),
        9 => format!("{width}'d{x}"),
        11 => format!("w{x} ? w{y} : w{z}"),
        12 => format!("w{x}"),
        13 => between("+"),
        14 => between("-"),
        17 => between("^"),
        18 => between("=="),
        19 => between("<"),
        20 => format!("~w{x}"),
        21 => format!("w{x} << 1"),
        _ => format!("w{x} >> 1"),
    }
}
