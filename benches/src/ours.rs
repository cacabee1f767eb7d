//! The contenders that run in this process: the proved library and the model, both through the five
//! calls, and the proved inner step.

use crate::circuits::Circuit;
use crate::timing::Contender;
use model::evaluate::evaluate_with;
use model::random::netlists::compiled_by;
use model::toolchain::Toolchain;

extern "C" {
    /// Judges as `rumiotka_step` does, and then steps from `even` to `odd` and back so many times.
    fn rumiotka_pace(
        width: u32,
        netlist: *const u32,
        netlist_len: usize,
        even: *mut u32,
        even_len: usize,
        odd: *mut u32,
        odd_len: usize,
        load: u32,
        words: *const u32,
        words_len: usize,
        pairs: u32,
        answer: *mut u32,
    );
}

/// A circuit under way: the wires of two cycles, which take turns.
struct Running<'a> {
    circuit: &'a Circuit,
    netlist: &'a [u32],
    even: Vec<u32>,
    odd: Vec<u32>,
}

impl<'a> Running<'a> {
    /// Powers a circuit up, with load low.
    fn new(toolchain: &dyn Toolchain, circuit: &'a Circuit, netlist: &'a [u32]) -> Running<'a> {
        let (mut even, odd) = (vec![0; netlist.len() / 4], vec![0; netlist.len() / 4]);
        let answer = toolchain.power_up(circuit.width, netlist, false, &circuit.words, &mut even);
        assert_eq!(answer, [0, 0], "{} powers up", circuit.name);
        Running { circuit, netlist, even, odd }
    }

    /// Steps so many pairs of cycles by the proved inner step.
    fn pace(&mut self, load: u32, pairs: u32) {
        let words = &self.circuit.words;
        let mut answer = [1; 2];
        // SAFETY: each address is that of as many numbers as the call is told.
        unsafe {
            rumiotka_pace(
                self.circuit.width,
                self.netlist.as_ptr(),
                self.netlist.len(),
                self.even.as_mut_ptr(),
                self.even.len(),
                self.odd.as_mut_ptr(),
                self.odd.len(),
                load,
                words.as_ptr(),
                words.len(),
                pairs,
                answer.as_mut_ptr(),
            );
        }
        assert_eq!(answer, [0, 0], "{} is stepped", self.circuit.name);
    }

    /// Steps so many pairs of cycles by calls that check.
    fn steps(&mut self, toolchain: &dyn Toolchain, load: bool, pairs: u32) {
        let Running { circuit: Circuit { name, width, words, .. }, netlist, even, odd } = self;
        for _ in 0..pairs {
            let first = toolchain.step(*width, netlist, even, load, words, odd);
            let second = toolchain.step(*width, netlist, odd, load, words, even);
            assert_eq!([first, second], [[0, 0]; 2], "{name} is stepped");
        }
    }
}

/// Makes a contender of the proved inner step, timed by the cycle.
pub fn inner<'a>(toolchain: &dyn Toolchain, circuit: &'a Circuit) -> Contender<'a> {
    let period = circuit.period();
    let mut running = Running::new(toolchain, circuit, &circuit.ported.netlist);
    Contender::of_code("inner step", period.into(), move || {
        running.pace(1, period / 2 - 1);
        running.pace(0, 1);
        assert!(circuit.right(&running.even), "the inner step gives the right words");
    })
}

/// Makes a contender of a toolchain's checking step, timed by the cycle.
pub fn checking<'a>(
    name: &'static str,
    toolchain: &'a dyn Toolchain,
    circuit: &'a Circuit,
) -> Contender<'a> {
    let period = circuit.period();
    let mut running = Running::new(toolchain, circuit, &circuit.ported.netlist);
    Contender::of_code(name, period.into(), move || {
        running.steps(toolchain, true, period / 2 - 1);
        running.steps(toolchain, false, 1);
        assert!(circuit.right(&running.even), "{name} gives the right words");
    })
}

/// Makes a contender of a toolchain's evaluator, timed by the cycle that it stands for.
pub fn evaluator<'a>(
    name: &'static str,
    toolchain: &'a dyn Toolchain,
    circuit: &'a Circuit,
) -> Contender<'a> {
    Contender::of_code(name, circuit.cycles.into(), move || {
        let Circuit { width, table, words, .. } = circuit;
        let answer = toolchain.evaluate(*width, table, words, u32::MAX);
        assert!(circuit.answers(&answer), "{name} gives the right words");
    })
}

/// Makes a contender of the model's evaluator as a walk over terms all the way, with no
/// straight-line code for loops, timed by the cycle.
pub fn walk<'a>(name: &'static str, circuit: &'a Circuit) -> Contender<'a> {
    Contender::of_code(name, circuit.cycles.into(), move || {
        let Circuit { width, table, words, .. } = circuit;
        let answer = evaluate_with(*width, table, words, u32::MAX, u32::MAX);
        assert!(circuit.answers(&answer), "{name} gives the right words");
    })
}

/// Makes a contender that takes a table to its first answer by evaluation: checks, compiles and
/// evaluates it.
pub fn evaluated<'a>(
    name: &'static str,
    toolchain: &'a dyn Toolchain,
    circuit: &'a Circuit,
) -> Contender<'a> {
    Contender::of_code(name, 1.0, move || {
        let Circuit { width, table, words, .. } = circuit;
        let compiled = compiled_by(toolchain, *width, table);
        assert_eq!(compiled.netlist.len(), 4 * circuit.cells(), "{name} compiles");
        let answer = toolchain.evaluate(*width, table, words, u32::MAX);
        assert!(circuit.answers(&answer), "{name} gives the right words");
    })
}

/// Makes a contender that takes a table to its first answer by simulation: checks and compiles it,
/// and steps the circuit until done rises, by calls that check.
pub fn stepped<'a>(
    name: &'static str,
    toolchain: &'a dyn Toolchain,
    circuit: &'a Circuit,
) -> Contender<'a> {
    Contender::of_code(name, 1.0, move || {
        let compiled = compiled_by(toolchain, circuit.width, &circuit.table);
        let mut running = Running::new(toolchain, circuit, &compiled.netlist);
        running.steps(toolchain, true, 1);
        while running.even[compiled.done as usize] == 0 {
            running.steps(toolchain, true, 1);
        }
        assert!(circuit.right(&running.even), "{name} gives the right words");
    })
}
