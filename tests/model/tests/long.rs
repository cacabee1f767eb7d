//! Long runs on huge budgets: they need no stack and little time, and straight-line code changes
//! nothing but the time.

use model::evaluate::{evaluate, evaluate_with};
use model::random::tables::accepted;
use model::random::Random;

#[rustfmt::skip]
const COUNTDOWN: [u32; 40] = [
    12, 1, 0, 0,  9, 1, 0, 0,  2, 0, 1, 0,  18, 0, 0, 0,  1, 2, 3, 0,
    9, 1, 1, 0,  2, 0, 5, 0,  14, 0, 0, 0,  1, 6, 7, 0,  4, 4, 0, 8,
];

#[test]
fn a_countdown_of_millions_ends() {
    let n = 10_000_000;
    assert_eq!(evaluate(32, &COUNTDOWN, &[n], u32::MAX)[..6], [0, 0, 1, 5 * n + 3, 1, 0]);
    assert_eq!(evaluate(32, &COUNTDOWN, &[n], 5 * n + 3)[2], 1);
    assert_eq!(evaluate(32, &COUNTDOWN, &[n], 5 * n + 2), [0; 21]);
    assert_eq!(evaluate(32, &COUNTDOWN, &[u32::MAX], 50_000_000), [0; 21]);
}

/// A hundred loops, each the body of the next, on a stack of a quarter of a megabyte.
#[test]
fn nested_loops_need_little_stack() {
    let mut table = vec![20, 0, 0, 0, 12, 1, 0, 0, 4, 1, 1, 0];
    (2..100).for_each(|last| table.extend([4, 1, 1, last]));
    let run = move || evaluate(8, &table, &[0], u32::MAX);
    let small = std::thread::Builder::new().stack_size(1 << 18);
    let answer = small.spawn(run).expect("a thread").join().expect("no overflow");
    assert_eq!((answer[2], answer[5]), (1, 255));
}

#[test]
fn straight_line_code_gives_the_same() {
    let mut random = Random::new(7);
    let mut ended = 0;
    for _ in 0..5_000 {
        let width = random.width();
        let terms = random.pick(&[8, 20, 60]) as usize;
        let table = accepted(&mut random, width, terms, 2000);
        let facts = model::table::check(width, &table).expect("accepted");
        let words = random.words(width, facts.inputs[facts.main()]);
        let whole = evaluate_with(width, &table, &words, 5_000, u32::MAX);
        ended += whole[2];
        let cycles = if whole[2] == 1 { whole[3] } else { 5_000 };
        for budget in [cycles, cycles - 1, cycles / 2, 5_000] {
            let plain = evaluate_with(width, &table, &words, budget, u32::MAX);
            assert_eq!(plain, if budget < cycles { [0; 21] } else { whole });
            assert_eq!(evaluate_with(width, &table, &words, budget, 0), plain);
            assert_eq!(evaluate_with(width, &table, &words, budget, 3), plain);
        }
    }
    assert!(ended > 3_000);
}
