//! The handshake on random accepted tables, and the sizes of compiled circuits.

use model::promise::{attempt, Tally};
use model::random::netlists::compiled;
use model::random::tables::accepted;
use model::random::Random;
use model::toolchain::Model;

#[test]
fn circuits_keep_the_promise() {
    let mut random = Random::new(1);
    let mut tally = Tally::default();
    for _ in 0..2000 {
        attempt(&Model, &mut random, &mut tally).expect("the promise is kept");
    }
    println!("{tally:?}");
    let Tally { ended, endless, ignored, longest } = tally;
    assert!(ended > 10_000 && endless > 100 && ignored > 1_000 && longest > 300);
}

#[test]
fn compiled_cells_are_as_many_as_counted() {
    let mut random = Random::new(2);
    for _ in 0..2000 {
        let width = random.width();
        let table = accepted(&mut random, width, 256, 4096);
        let circuit = compiled(width, &table);
        let facts = model::table::check(width, &table).expect("accepted");
        assert_eq!(circuit.netlist.len() as u128, 4 * facts.cells());
        assert_eq!(model::cells::check(width, &circuit.netlist), Ok(()));
    }
}
