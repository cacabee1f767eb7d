//! The generators make what they promise: every kind, sharing, loops in loops, registers that read
//! every way.

use model::program::{respond, MOST_BYTES};
use model::random::inputs::input;
use model::random::limits;
use model::random::netlists::foreign;
use model::random::tables::accepted;
use model::random::Random;
use model::verilog::write;

/// What is reached from the main term: how often each term is used, and how deep loops nest.
fn reached(table: &[u32]) -> (Vec<u32>, u32) {
    let count = table.len() / 4;
    let (mut uses, mut depth) = (vec![0u32; count], vec![0u32; count]);
    uses[count - 1] = 1;
    for term in (0..count).rev() {
        let operands = match table[4 * term] {
            _ if uses[term] == 0 => &[],
            1 | 2 => &table[4 * term + 1..4 * term + 3],
            3 | 4 => &table[4 * term + 1..4 * term + 4],
            _ => &[],
        };
        for &operand in operands {
            uses[operand as usize] += 1;
        }
    }
    for term in 0..count {
        let inner = |n: usize| depth[table[4 * term + n] as usize];
        depth[term] = match table[4 * term] {
            1 | 2 => inner(1).max(inner(2)),
            3 => inner(1).max(inner(2)).max(inner(3)),
            4 => 1 + inner(1).max(inner(2)).max(inner(3)),
            _ => 0,
        };
    }
    (uses, depth[count - 1])
}

#[test]
fn tables_hold_everything() {
    let mut random = Random::new(8);
    let (mut kinds, mut widths) = ([0u32; 23], [0u32; 33]);
    let (mut nested, mut shared, mut largest) = (0, 0, 0);
    for _ in 0..2_000 {
        let width = random.width();
        let table = accepted(&mut random, width, 256, 4096);
        let (uses, depth) = reached(&table);
        for (term, _) in table.chunks(4).zip(&uses).filter(|(_, &uses)| uses > 0) {
            kinds[term[0] as usize] += 1;
        }
        widths[width as usize] += 1;
        nested += u32::from(depth >= 2);
        shared += u32::from(uses.iter().any(|&uses| uses > 1));
        largest = largest.max(model::table::check(width, &table).expect("accepted").cells());
    }
    println!("{nested} nested, {shared} shared, up to {largest} cells, kinds {kinds:?}");
    assert!((1..=4).chain([9]).chain(12..=22).all(|kind| kinds[kind] > 50));
    assert!(widths[1..].iter().all(|&often| often > 0));
    assert!(nested > 200 && shared > 500 && largest > 3_000);
}

#[test]
fn tables_reach_the_limits() {
    let mut random = Random::new(11);
    for _ in 0..200 {
        for (one_more, cells) in [(false, 4096), (true, 4097)] {
            let table = limits::cells(&mut random, one_more);
            let facts = model::table::facts(8, &table).expect("well formed");
            assert_eq!(facts.cells(), cells);
        }
        let table = accepted(&mut random, 8, 100, 4096);
        let filled = limits::filled(&table);
        assert_eq!(filled.len(), 1024);
        let cells = |table: &[u32]| model::table::check(8, table).expect("accepted").cells();
        assert_eq!(cells(&filled), cells(&table));
    }
    let deep: Vec<Vec<u32>> = (0..200).map(|_| limits::deep(&mut random, 8)).collect();
    assert!(deep.iter().all(|table| model::table::check(8, table).is_ok() && table.len() > 400));
    assert!(deep.iter().any(|table| table.len() == 1024));
}

#[test]
fn foreign_netlists_hold_everything() {
    let mut random = Random::new(9);
    let (mut kinds, mut ways) = ([0u32; 23], [0u32; 3]);
    for _ in 0..2_000 {
        let (width, cells, i) = (random.width(), random.between(2, 200), random.between(1, 16));
        let made = foreign(&mut random, width, cells as usize, i);
        assert_eq!(made.netlist.len(), 4 * cells as usize);
        let mut text = vec![0; 1 << 16];
        let written = write(width, &made.netlist, made.i, made.o, made.done, &made.outs, &mut text);
        assert_eq!(written[..2], [0, 0], "it passes 12 to 16 and its ports pass 19");
        for (own, cell) in (0..).zip(made.netlist.chunks(4)) {
            kinds[cell[0] as usize] += 1;
            if matches!(cell[0], 4 | 5 | 10) {
                ways[1 + (cell[1] > own) as usize - (cell[1] < own) as usize] += 1;
            }
        }
    }
    println!("registers read {ways:?} backward, themselves, forward; kinds {kinds:?}");
    assert!((0..=6).chain(8..=22).all(|kind| kinds[kind] > 1_000));
    assert!(ways.iter().all(|&often| often > 100));
}

#[test]
fn inputs_hold_everything() {
    let mut random = Random::new(10);
    let (mut refused, mut texts, mut lists, mut over) = ([0u32; 21], 0, 0, 0);
    for _ in 0..5_000 {
        let input = input(&mut random);
        over += u32::from(input.len() > MOST_BYTES);
        let answer = String::from_utf8(respond(&input)).expect("the answer is ASCII");
        match answer.strip_prefix("refused ") {
            Some(rest) => {
                let number = rest.split(' ').next().expect("a number");
                refused[number.parse::<usize>().expect("a number")] += 1;
            }
            None if answer == "not a number list\n" => lists += 1,
            None => texts += 1,
        }
    }
    println!("{texts} texts, {lists} no lists, {over} over the limit, refused {refused:?}");
    assert!(refused[1..=10].iter().all(|&often| often > 10));
    assert!(texts > 500 && lists > 500 && over > 50);
}
