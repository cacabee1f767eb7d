//! Every refusal number with its place, the order between them, and that a refused call writes
//! nothing.

use model::compile::compile;
use model::evaluate::evaluate;
use model::program::respond;
use model::random::{damage, Random};
use model::simulate::{power_up, step};
use model::verilog::write;

/// Gives number and place of the compiler's refusal and sees that the evaluator's is the same.
fn table(width: u32, table: &[u32]) -> [u32; 2] {
    let mut netlist = [77; 16400];
    let answer = compile(width, table, &mut netlist);
    let refused = [answer[0], answer[1]];
    if answer[0] != 0 {
        assert!(answer[2..].iter().all(|&n| n == 0) && netlist.iter().all(|&n| n == 77));
        let evaluated = evaluate(width, table, &[], 9);
        assert_eq!(evaluated[..2], refused);
        assert!(evaluated[2..].iter().all(|&n| n == 0));
    }
    refused
}

/// Gives number and place of the simulator's refusal at power-up and sees that a step's and the
/// writer's are the same as far as they judge the netlist alone.
fn netlist(width: u32, netlist: &[u32]) -> [u32; 2] {
    let count = netlist.len() / 4;
    let (before, mut after) = (vec![0; count], vec![9; count]);
    let answer = power_up(width, netlist, false, &[0; 16], &mut after);
    if answer != [0, 0] {
        assert!(after.iter().all(|&n| n == 9));
        assert_eq!(step(width, netlist, &before, false, &[0; 16], &mut after), answer);
        assert!(after.iter().all(|&n| n == 9));
        let mut text = [7; 90];
        let written = write(width, netlist, 16, 1, 0, &[0; 16], &mut text);
        assert_eq!(written, [answer[0], answer[1], 0]);
        assert_eq!(text, [7; 90]);
    }
    answer
}

#[test]
fn tables_1_to_6() {
    for width in [0, 33, u32::MAX] {
        assert_eq!(table(width, &[]), [1, 0]);
    }
    for length in [0, 1, 3, 5, 1023, 1028] {
        assert_eq!(table(8, &vec![20; length]), [2, 0]);
    }
    let mut longest = [20, 0, 0, 0].repeat(256);
    assert_eq!(table(8, &longest), [0, 0]);
    longest[4 * 255] = 23;
    assert_eq!(table(8, &longest), [3, 255]);
    for kind in [0, 5, 6, 7, 8, 10, 11, 23, u32::MAX] {
        assert_eq!(table(8, &[20, 0, 0, 0, kind, 9, 9, 9]), [3, 1]);
    }
    let unused = [[1, 0, 0, 1], [2, 0, 0, 1], [9, 0, 0, 1], [12, 0, 0, 1], [13, 1, 0, 0]];
    let more = [[17, 0, 1, 0], [19, 0, 0, 1], [20, 1, 0, 0], [21, 0, 1, 0], [22, 0, 0, 1]];
    for term in [unused, more].concat() {
        assert_eq!(table(8, &[&[20, 0, 0, 0], &term[..]].concat()), [4, 1]);
    }
    let ranges = [[9, 0, 0, 0], [9, 17, 0, 0], [9, 1, 256, 0], [12, 0, 0, 0], [12, 17, 0, 0]];
    for term in [ranges.to_vec(), vec![[12, 3, 3, 0], [12, 16, 16, 0]]].concat() {
        assert_eq!(table(8, &term), [5, 0]);
    }
    for term in [[1, 1, 0, 0], [2, 0, 1, 0], [3, 0, 0, 1], [4, 0, 0, u32::MAX]] {
        assert_eq!(table(8, &[&[20, 0, 0, 0], &term[..]].concat()), [6, 1]);
    }
}

#[test]
fn tables_7_to_10() {
    let two = [13, 0, 0, 0, 20, 0, 0, 0, 12, 2, 0, 0, 2, 2, 2, 0];
    let with = |term: [u32; 4]| table(8, &[&two[..], &term[..]].concat());
    for term in [[1, 0, 0, 0], [2, 0, 1, 0], [3, 3, 0, 0], [3, 0, 0, 3], [3, 1, 0, 0], [4, 0, 0, 0]]
    {
        assert_eq!(with(term), [7, 4]);
    }
    assert_eq!(with([4, 3, 0, 3]), [7, 4]);
    assert_eq!(with([4, 0, 0, 3]), [0, 0]);
    let mut par = vec![20, 0, 0, 0];
    for last in 0..5 {
        par.extend([2, last, last, 0]);
    }
    assert_eq!(table(8, &par), [8, 5]);
    let doubling = |kind: u32| {
        let mut table = vec![20, 0, 0, 0];
        (0..255).for_each(|last| table.extend([kind, last, last, if kind > 2 { last } else { 0 }]));
        table
    };
    for kind in [1, 3, 4] {
        assert_eq!(table(8, &doubling(kind)), [9, 0]);
    }
    let mut reached = doubling(1);
    reached[1020..].copy_from_slice(&[20, 0, 0, 0]);
    assert_eq!(table(8, &reached), [0, 0]);
    assert_eq!(compile(8, &[20, 0, 0, 0], &mut [5; 43])[..3], [10, 0, 0]);
    assert_eq!(compile(8, &[20, 0, 0, 0], &mut [])[..3], [10, 0, 0]);
    assert_eq!(compile(8, &[20, 0, 0, 0], &mut [5; 44])[..3], [0, 0, 11]);
}

/// A choice around two sums has 58 cells; behind six chains of Seq these are 4,090, and 7 in
/// front.
#[test]
fn one_cell_over_is_refused_9() {
    let mut terms = vec![[20, 0, 0, 0]];
    (0..8).for_each(|last| terms.push([1, last, last, 0]));
    terms.push([13, 0, 0, 0]);
    terms.extend([[2, 0, 0, 0], [1, 10, 9, 0], [2, 11, 0, 0], [1, 12, 9, 0]]);
    terms.extend([[1, 0, 13, 0], [3, 0, 0, 14]]);
    (3..9).for_each(|chain| terms.push([1, chain, terms.len() as u32 - 1, 0]));
    let facts = model::table::facts(8, &terms.concat()).expect("well formed");
    assert_eq!(facts.sizes[15..], [58, 122, 250, 506, 1018, 2042, 4090]);
    assert_eq!(facts.cells(), 4097);
    assert_eq!(table(8, &terms.concat()), [9, 0]);
}

#[test]
fn words_11() {
    let complement = [20, 0, 0, 0];
    for words in [&[][..], &[1, 2], &[256], &[u32::MAX]] {
        let answer = evaluate(8, &complement, words, 0);
        assert_eq!((answer[0], &answer[1..]), (11, &[0; 20][..]));
    }
    assert_eq!(evaluate(8, &complement, &[255], 0), [0; 21]);
    let input = [8, 1, 0, 0];
    let mut wires = [5];
    for words in [&[][..], &[1], &[1, 256], &[256, 1], &[1, 1, 256], &[0; 17]] {
        assert_eq!(power_up(8, &input, true, words, &mut wires), [11, 0]);
        assert_eq!(step(8, &input, &[255], true, words, &mut wires), [11, 0]);
        assert_eq!(wires, [5]);
    }
    assert_eq!(power_up(8, &input, true, &[1, 2, 3], &mut wires), [0, 0]);
    assert_eq!(wires, [2]);
}

#[test]
fn netlists_12_to_16() {
    assert_eq!(netlist(0, &[]), [1, 0]);
    for length in [0, 1, 6, 16383, 16388] {
        assert_eq!(netlist(8, &vec![0; length]), [12, 0]);
    }
    assert_eq!(netlist(8, &vec![0; 16384]), [0, 0]);
    // A bit and a word, and then the cell that is refused.
    let with = |cell: [u32; 4]| netlist(8, &[&[0, 0, 0, 0, 8, 0, 0, 0], &cell[..]].concat());
    for kind in [7, 23, u32::MAX] {
        assert_eq!(with([kind, 9, 9, 9]), [13, 2]);
    }
    for cell in [[0, 1, 0, 0], [0, 0, 1, 0], [0, 0, 0, 1], [2, 0, 0, 1], [19, 1, 1, 1]] {
        assert_eq!(with(cell), [14, 2]);
    }
    for kind in [1, 4, 5, 6, 8, 9, 10, 12, 20, 21, 22] {
        assert_eq!(with([kind, 0, 1, 0]), [14, 2]);
        assert_eq!(with([kind, 99, 0, 1]), [14, 2]);
    }
    for cell in [[9, 256, 0, 0], [8, 16, 0, 0]] {
        assert_eq!(with(cell), [14, 2]);
    }
    for cell in [[1, 2, 0, 0], [2, 0, 2, 0], [11, 0, 1, 2], [10, 3, 0, 0], [4, u32::MAX, 0, 0]] {
        assert_eq!(with(cell), [15, 2]);
    }
    for cell in [[1, 1, 0, 0], [3, 0, 1, 0], [6, 0, 0, 0], [11, 1, 1, 1], [11, 0, 1, 0]] {
        assert_eq!(with(cell), [16, 2]);
    }
    for cell in [[4, 1, 0, 0], [5, 1, 0, 0], [10, 0, 0, 0], [12, 0, 0, 0], [18, 1, 0, 0]] {
        assert_eq!(with(cell), [16, 2]);
    }
    assert_eq!(with([10, 2, 0, 0]), [0, 0]);
    assert_eq!(netlist(8, &[4, 1, 0, 0, 7, 0, 0, 0]), [13, 1]);
    assert_eq!(netlist(8, &[10, 1, 0, 0, 4, 0, 0, 0]), [16, 0]);
}

#[test]
fn wires_17_and_18() {
    let both = [0, 0, 0, 0, 8, 0, 0, 0];
    let mut wires = [4; 3];
    assert_eq!(power_up(8, &both, true, &[999], &mut wires), [17, 0]);
    assert_eq!(step(8, &both, &[2; 3], true, &[999], &mut wires[..2]), [17, 0]);
    assert_eq!(step(8, &both, &[2; 2], true, &[999], &mut wires[..1]), [17, 0]);
    assert_eq!(step(8, &both, &[2, 256], true, &[999], &mut wires[..2]), [18, 0]);
    assert_eq!(step(8, &both, &[1, 256], true, &[999], &mut wires[..2]), [18, 1]);
    assert_eq!(step(8, &both, &[1, 255], true, &[999], &mut wires[..2]), [11, 0]);
    assert_eq!(wires, [4; 3]);
    assert_eq!(step(8, &both, &[1, 255], true, &[99], &mut wires[..2]), [0, 0]);
    assert_eq!(wires, [1, 99, 4]);
}

#[test]
fn ports_19_and_text_20() {
    let both = [0, 0, 0, 0, 8, 1, 0, 0];
    let mut outs = [0; 16];
    outs[0] = 1;
    let mut text = [7; 300];
    let mut call = |i, o, done, outs: &[u32; 16]| write(8, &both, i, o, done, outs, &mut text);
    let past = std::array::from_fn(|k| u32::from(k < 2));
    let bad = [(0, 1, 0), (17, 1, 0), (2, 0, 0), (2, 17, 0), (1, 1, 0), (2, 1, 1), (2, 1, 2)];
    for (i, o, done) in bad {
        assert_eq!(call(i, o, done, &outs), [19, 0, 0]);
    }
    assert_eq!(call(2, 1, 0, &past), [19, 0, 0]);
    assert_eq!(call(2, 2, 0, &outs), [19, 0, 0]);
    assert_eq!(call(2, 1, 0, &[2; 16]), [19, 0, 0]);
    let [number, _, length] = call(2, 1, 0, &outs);
    assert_eq!((number, text[length as usize]), (0, 7));
    let mut short = vec![7; length as usize - 1];
    assert_eq!(write(8, &both, 2, 1, 0, &outs, &mut short), [20, 0, 0]);
    assert!(short.iter().all(|&byte| byte == 7));
    let mut exact = vec![7; length as usize];
    assert_eq!(write(8, &both, 2, 1, 0, &outs, &mut exact), [0, 0, length]);
    assert_eq!(exact, text[..length as usize]);
}

#[test]
fn the_program_refuses() {
    let list = b"not a number list\n";
    for input in ["", " \n", "8\t20", "8\r\n", "8 -1", "8 +1", "4294967296", "1a", "8,20"] {
        assert_eq!(respond(input.as_bytes()), list);
    }
    assert_eq!(respond("8 ".repeat(1026).as_bytes()), list);
    assert_eq!(respond("8 ".repeat(1025).as_bytes()), b"refused 3 at 0\n");
    assert_eq!(respond(&[b'0'; 16385]), list);
    assert_eq!(respond(&[b'0'; 16384]), b"refused 1 at 0\n");
    assert_eq!(respond(b"8"), b"refused 2 at 0\n");
    assert_eq!(respond(b"008\n20 0\n\n0 00"), respond(b"8 20 0 0 0"));
    assert_eq!(respond(b"8 20 0 0 0 9 0 0 0"), b"refused 5 at 1\n");
    let doubled = |terms: usize| {
        let seqs: Vec<String> = (1..terms).map(|n| format!("1 {} {} 0", n - 1, n - 1)).collect();
        format!("8 20 0 0 0\n{}\n", seqs.join("\n"))
    };
    assert!(respond(doubled(7).as_bytes()).starts_with(b"module f (clk"));
    assert_eq!(respond(doubled(8).as_bytes()), b"refused 10 at 0\n");
    assert_eq!(respond(doubled(10).as_bytes()), b"refused 9 at 0\n");
}

#[test]
fn damage_reaches_every_number() {
    let mut random = Random::new(3);
    let mut seen = [0u32; 21];
    for _ in 0..20_000 {
        let (width, numbers) = damage::table(&mut random);
        seen[table(width, &numbers)[0] as usize] += 1;
        let (width, numbers) = damage::netlist(&mut random);
        seen[netlist(width, &numbers)[0] as usize] += 1;
    }
    println!("{seen:?}");
    for number in (1..=9).chain(12..=16) {
        assert!(seen[number] > 100, "number {number} comes up {} times", seen[number]);
    }
}
