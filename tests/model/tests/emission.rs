//! The cells of one term of each kind, written out by hand.

use model::compile::compile;

/// What compilation gives: cells, done, output wires.
type Compiled = (Vec<[u32; 4]>, u32, Vec<u32>);

/// Compiles a table at W 8.
fn cells(table: &[[u32; 4]]) -> Compiled {
    let mut netlist = vec![0; 16384];
    let answer = compile(8, &table.concat(), &mut netlist);
    assert_eq!(answer[..2], [0, 0]);
    let cells = netlist.chunks(4).take(answer[2] as usize).map(|c| [c[0], c[1], c[2], c[3]]);
    (cells.collect(), answer[5], answer[6..6 + answer[4] as usize].to_vec())
}

/// Gives the seven cells in front of a block with one input word.
fn front(done: u32) -> Vec<[u32; 4]> {
    let load = [[0, 0, 0, 0], [8, 0, 0, 0], [5, 0, 0, 0], [1, 2, 0, 0], [5, done, 0, 0]];
    [&load[..], &[[2, 0, 3, 0], [2, 5, 4, 0]]].concat()
}

const FIELD: [u32; 4] = [12, 1, 0, 0];
const COMPLEMENT: [u32; 4] = [20, 0, 0, 0];
const LEFT: [u32; 4] = [21, 0, 0, 0];

#[test]
fn leaf() {
    let block = [[1, 6, 0, 0], [10, 10, 0, 0], [9, 77, 0, 0], [11, 6, 9, 8]];
    assert_eq!(cells(&[[9, 1, 77, 0]]), ([&front(7)[..], &block].concat(), 7, vec![8]));
    let (two, done, outs) = cells(&[[14, 0, 0, 0]]);
    assert_eq!(two[..4], [[0, 0, 0, 0], [8, 0, 0, 0], [8, 1, 0, 0], [5, 0, 0, 0]]);
    assert_eq!(two[4..8], [[1, 3, 0, 0], [5, 8, 0, 0], [2, 0, 4, 0], [2, 6, 5, 0]]);
    assert_eq!(two[8..], [[1, 7, 0, 0], [10, 11, 0, 0], [14, 1, 2, 0], [11, 7, 10, 9]]);
    assert_eq!((done, outs), (8, vec![9]));
    assert_eq!(cells(&[[12, 2, 1, 0]]).0[10], [12, 2, 0, 0]);
}

#[test]
fn seq() {
    let f = [[1, 6, 0, 0], [10, 10, 0, 0], [20, 1, 0, 0], [11, 6, 9, 8]];
    let rise = [[5, 7, 0, 0], [1, 11, 0, 0], [2, 7, 12, 0]];
    let g = [[1, 13, 0, 0], [10, 17, 0, 0], [21, 8, 0, 0], [11, 13, 16, 15]];
    let all = [&front(18)[..], &f, &rise, &g, &[[2, 7, 14, 0]]].concat();
    assert_eq!(cells(&[COMPLEMENT, LEFT, [1, 0, 1, 0]]), (all, 18, vec![15]));
}

#[test]
fn par() {
    let f = [[1, 6, 0, 0], [10, 10, 0, 0], [20, 1, 0, 0], [11, 6, 9, 8]];
    let g = [[1, 6, 0, 0], [10, 14, 0, 0], [21, 1, 0, 0], [11, 6, 13, 12]];
    let all = [&front(15)[..], &f, &g, &[[2, 7, 11, 0]]].concat();
    assert_eq!(cells(&[COMPLEMENT, LEFT, [2, 0, 1, 0]]), (all, 15, vec![8, 12]));
}

#[test]
fn ite() {
    let keep = [[10, 8, 0, 0], [11, 6, 1, 7]];
    let e = [[1, 6, 0, 0], [10, 12, 0, 0], [12, 1, 0, 0], [11, 6, 11, 10]];
    let rise = [[5, 9, 0, 0], [1, 13, 0, 0], [2, 9, 14, 0]];
    let starts = [[6, 10, 0, 0], [1, 16, 0, 0], [2, 15, 16, 0], [2, 15, 17, 0]];
    let f = [[1, 18, 0, 0], [10, 23, 0, 0], [20, 7, 0, 0], [11, 18, 22, 21]];
    let g = [[1, 19, 0, 0], [10, 27, 0, 0], [21, 7, 0, 0], [11, 19, 26, 25]];
    let end = [[2, 9, 20, 0], [2, 28, 24, 0], [11, 16, 21, 25]];
    let all = [&front(29)[..], &keep, &e, &rise, &starts, &f, &g, &end].concat();
    assert_eq!(cells(&[FIELD, COMPLEMENT, LEFT, [3, 0, 1, 2]]), (all, 29, vec![30]));
}

#[test]
fn rec() {
    let again = [[4, 34, 0, 0], [10, 29, 0, 0], [3, 6, 7, 0], [11, 7, 8, 1]];
    let keep = [[10, 12, 0, 0], [11, 9, 10, 11]];
    let e = [[1, 9, 0, 0], [10, 16, 0, 0], [12, 10, 0, 0], [11, 9, 15, 14]];
    let rise = [[5, 13, 0, 0], [1, 17, 0, 0], [2, 13, 18, 0]];
    let starts = [[6, 14, 0, 0], [1, 20, 0, 0], [2, 19, 20, 0], [2, 19, 21, 0]];
    let f = [[1, 22, 0, 0], [10, 27, 0, 0], [20, 11, 0, 0], [11, 22, 26, 25]];
    let g = [[1, 23, 0, 0], [10, 31, 0, 0], [21, 11, 0, 0], [11, 23, 30, 29]];
    let rise_g = [[5, 28, 0, 0], [1, 32, 0, 0], [2, 28, 33, 0]];
    let end = [[2, 13, 24, 0], [2, 35, 28, 0], [1, 34, 0, 0], [2, 36, 37, 0]];
    let body = [&again[..], &keep, &e, &rise, &starts, &f, &g, &rise_g, &end].concat();
    let all = [front(38), body].concat();
    assert_eq!(cells(&[FIELD, COMPLEMENT, LEFT, [4, 0, 1, 2]]), (all, 38, vec![25]));
}

/// With two words, cells of one sort stand together and pairs alternate.
#[test]
fn rec_on_two_words() {
    let table = [[12, 2, 0, 0], [12, 2, 1, 0], [2, 1, 0, 0], [4, 0, 2, 2]];
    let (all, done, outs) = cells(&table);
    assert_eq!(all.len(), 8 + 4 * 2 + 16 + 4 + 9 + 9);
    let kinds: Vec<u32> = all[8..20].iter().map(|cell| cell[0]).collect();
    assert_eq!(kinds, [4, 10, 10, 3, 11, 11, 10, 11, 10, 11, 1, 10]);
    assert_eq!(all[12..14], [[11, 8, 9, 1], [11, 8, 10, 2]]);
    assert_eq!(all[14..18], [[10, 15, 0, 0], [11, 11, 12, 14], [10, 17, 0, 0], [11, 11, 13, 16]]);
    // f is at 29 to 37 and g at 38 to 46: the second word of a Par lies four cells behind the
    // first.
    assert_eq!(all[9..11], [[10, 39, 0, 0], [10, 43, 0, 0]]);
    assert_eq!((done, outs), (53, vec![30, 34]));
}
