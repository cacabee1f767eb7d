//! Random calls reach every refusal number, chosen faults show which is judged first, and
//! comparison notices wrong toolchains.

use model::differ::{compare, outcome};
use model::icarus;
use model::random::calls::{call, Part};
use model::random::{faults, Random};
use model::toolchain::{Model, Toolchain};

/// A toolchain with a wrong deed in three of its calls.
struct Crooked;

impl Toolchain for Crooked {
    fn evaluate(&self, width: u32, table: &[u32], words: &[u32], budget: u32) -> [u32; 21] {
        Model.evaluate(width, table, words, budget.saturating_add(1))
    }

    fn compile(&self, width: u32, table: &[u32], netlist: &mut [u32]) -> [u32; 22] {
        let answer = Model.compile(width, table, netlist);
        // A refused call that writes is wrong even if its answer is right.
        if let (10, Some(first)) = (answer[0], netlist.first_mut()) {
            *first = 0;
        }
        answer
    }

    fn power_up(
        &self,
        w: u32,
        n: &[u32],
        load: bool,
        words: &[u32],
        wires: &mut [u32],
    ) -> [u32; 2] {
        Model.power_up(w, n, load, words, wires)
    }

    fn step(
        &self,
        width: u32,
        netlist: &[u32],
        before: &[u32],
        load: bool,
        words: &[u32],
        after: &mut [u32],
    ) -> [u32; 2] {
        let answer = Model.step(width, netlist, before, load, words, after);
        if answer == [0, 0] && netlist.chunks(4).next_back().is_some_and(|cell| cell[0] == 11) {
            *after.last_mut().expect("a wire a cell") ^= 1;
        }
        answer
    }

    fn write(
        &self,
        width: u32,
        netlist: &[u32],
        i: u32,
        o: u32,
        done: u32,
        outs: &[u32; 16],
        text: &mut [u8],
    ) -> [u32; 3] {
        Model.write(width, netlist, i, o, done, outs, text)
    }
}

#[test]
fn calls_reach_every_number_of_every_part() {
    let mut random = Random::new(4);
    let mut seen = [[0u32; 21]; 5];
    for _ in 0..30_000 {
        let call = call(&mut random);
        seen[call.part() as usize][outcome(&Model, &call).0[0] as usize] += 1;
    }
    for part in Part::ALL {
        println!("{part:?} {:?}", seen[part as usize]);
        for (number, &often) in (0..).zip(&seen[part as usize]) {
            let due = number == 0 || part.numbers().contains(&number);
            assert_eq!(often > 0, due, "{part:?}, number {number}");
        }
    }
}

/// Numbers that are tried term by term or cell by cell: the lower place decides between them.
fn placed(number: u32) -> bool {
    (3..=8).contains(&number) || (13..=16).contains(&number)
}

#[test]
fn of_two_faults_the_one_judged_first_is_given() {
    let mut random = Random::new(7);
    for (part, faults) in faults::pairs() {
        let due = part.numbers().iter().find(|number| faults.contains(number)).copied();
        let mut seen = [0; 21];
        for _ in 0..40 {
            let call = faults::call(&mut random, part, faults);
            assert_eq!(call.part(), part);
            seen[outcome(&Model, &call).0[0] as usize] += 1;
        }
        for number in (0..21).filter(|&number| seen[number as usize] > 0) {
            let either = faults.iter().all(|&fault| placed(fault)) && faults.contains(&number);
            assert!(either || Some(number) == due, "{part:?}, {faults:?} gives {number}");
        }
        assert!(
            faults.iter().any(|&fault| !placed(fault))
                || faults.iter().all(|&f| seen[f as usize] > 0)
        );
    }
}

#[test]
fn a_crooked_toolchain_is_noticed() {
    let mut random = Random::new(5);
    let mut noticed = [0; 5];
    for _ in 0..5_000 {
        let call = call(&mut random);
        noticed[call.part() as usize] += u32::from(compare(&Model, &Crooked, &call).is_err());
        assert!(compare(&Model, &Model, &call).is_ok());
    }
    assert!(noticed[0] > 0 && noticed[1] > 0 && noticed[3] > 0);
    assert_eq!((noticed[2], noticed[4]), (0, 0));
}

/// Needs `iverilog` and `vvp`.
#[test]
fn icarus_notices_it_too() {
    let directory = std::env::temp_dir().join(format!("model-differ-{}", std::process::id()));
    std::fs::create_dir_all(&directory).expect("a directory of its own");
    let designs: Vec<icarus::Design> =
        (0..10).map(|n| icarus::design(&Model, 6, n, icarus::Origin::Table, 30)).collect();
    let printed = icarus::simulate(&directory, &designs).expect("Icarus is installed");
    std::fs::remove_dir_all(&directory).expect("the directory is there");
    let differ = |toolchain: &dyn Toolchain| {
        designs.iter().filter(|d| icarus::compare(toolchain, d, &printed).is_some()).count()
    };
    assert_eq!(differ(&Model), 0);
    assert!(differ(&Crooked) > 0);
}
