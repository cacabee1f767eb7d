//! The tables in `examples/` give the answers that their README states.

use model::evaluate::evaluate;
use model::program::{numbers, respond};
use model::random::netlists::compiled;
use model::simulate::{power_up, step};
use model::table::check;

/// The rooms of the walk from 0 to 29, dead ends included.
#[rustfmt::skip]
const PATH: [u32; 38] = [
    0, 1, 7, 8, 9, 3, 4, 10, 11, 17, 16, 15, 21, 27, 26, 25, 19, 18, 12, 13, 14, 20, 14, 13, 12, 6,
    12, 18, 24, 18, 19, 25, 26, 27, 28, 22, 23, 29,
];

/// Reads an example as the program does: its width and its table.
fn example(name: &str) -> (u32, Vec<u32>) {
    let path = format!("{}/../../examples/{name}.txt", env!("CARGO_MANIFEST_DIR"));
    let bytes = std::fs::read(path).expect("the example is there");
    assert!(respond(&bytes).starts_with(b"module f (clk,load,"), "the program prints it");
    let numbers = numbers(&bytes).expect("a number list");
    (numbers[0], numbers[1..].to_vec())
}

/// Evaluates an example: its cells, the cycles and the words.
fn run(name: &str, words: &[u32]) -> (u128, u32, Vec<u32>) {
    let (width, table) = example(name);
    let answer = evaluate(width, &table, words, u32::MAX);
    assert_eq!(answer[..3], [0, 0, 1], "the run ends");
    let cells = check(width, &table).expect("accepted").cells();
    (cells, answer[3], answer[5..5 + answer[4] as usize].to_vec())
}

#[test]
fn small_examples() {
    assert_eq!(run("complement", &[5]), (11, 1, vec![250]));
    assert_eq!(run("countdown", &[3]), (65, 18, vec![0]));
    assert_eq!(run("countdown", &[200]), (65, 1003, vec![0]));
    assert_eq!(run("multiplier", &[5, 7, 0]), (108, 28, vec![0, 7, 35]));
    assert_eq!(run("multiplier", &[12, 12, 0]), (108, 63, vec![0, 12, 144]));
}

#[test]
fn the_maze_is_left() {
    assert_eq!(run("maze", &[1, 0, 0]), (483, 1191, vec![1 << 29, 2, 37]));
    assert_eq!(run("maze", &[1 << 29, 0, 0]).1, 3);
}

/// The compiled maze takes as many cycles as the evaluator counts, and shows the same words.
#[test]
fn the_maze_circuit_leaves_it_too() {
    let (width, table) = example("maze");
    let circuit = compiled(width, &table);
    let mut before = vec![0; circuit.netlist.len() / 4];
    let mut after = before.clone();
    assert_eq!(power_up(width, &circuit.netlist, false, &[0; 3], &mut before), [0, 0]);
    for t in 0..=1191 {
        let words = if t == 0 { [1, 0, 0] } else { [7, 7, 7] };
        assert_eq!(step(width, &circuit.netlist, &before, true, &words, &mut after), [0, 0]);
        assert_eq!(after[circuit.done as usize], u32::from(t == 1191));
        std::mem::swap(&mut before, &mut after);
    }
    let outs = circuit.outs[..3].iter().map(|&wire| before[wire as usize]);
    assert!(outs.eq([1 << 29, 2, 37]));
}

/// The drawing in the README shows the openings that the table's two map constants hold.
#[test]
fn the_map_is_as_drawn() {
    let path = format!("{}/../../examples/README.md", env!("CARGO_MANIFEST_DIR"));
    let text = std::fs::read_to_string(path).expect("the README is there");
    let drawn = |line: &&[u8]| line.len() == 31 && matches!(line[0], b'+' | b'|');
    let rows: Vec<&[u8]> = text.lines().map(str::as_bytes).filter(drawn).collect();
    assert_eq!(rows.len(), 11, "five rows of rooms between six of walls");
    let (mut right, mut down) = (0u32, 0u32);
    for room in 0..30 {
        let (x, y) = (room % 6, room / 6);
        right |= u32::from(rows[2 * y + 1][5 * x + 5] == b' ') << room;
        down |= u32::from(rows[2 * y + 2][5 * x + 2] == b' ') << room;
    }
    let (_, table) = example("maze");
    assert_eq!([right, down], [table[4 * 3 + 2], table[4 * 4 + 2]]);
}

/// The body of the loop stands alone as a table: each of its runs is one round of the walk.
#[test]
fn the_path_is_as_drawn() {
    let (width, table) = example("maze");
    let body = 1 + table[table.len() - 1] as usize;
    let mut state = vec![1, 0, 0];
    let (mut rounds, mut path) = (0, vec![0]);
    while state[0] != 1 << 29 {
        let answer = evaluate(width, &table[..4 * body], &state, u32::MAX);
        assert_eq!((answer[2], answer[4]), (1, 3));
        if answer[5] != state[0] {
            assert_eq!(answer[5].count_ones(), 1, "a position is one bit");
            path.push(answer[5].trailing_zeros());
        }
        state = answer[5..8].to_vec();
        rounds += 1;
    }
    assert_eq!((rounds, path.as_slice()), (72, &PATH[..]));
}
