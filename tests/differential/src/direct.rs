//! The proved library through its C interface as a host calls it: nothing is copied and nothing is
//! guarded, so that a call takes the time of the library alone.

use crate::interface::*;
use model::toolchain::Toolchain;
use model::MOST_WORDS;

/// The proved library as a toolchain, with no guards.
pub struct Direct;

impl Toolchain for Direct {
    fn evaluate(&self, width: u32, table: &[u32], words: &[u32], budget: u32) -> [u32; 21] {
        let mut answer = [0; 21];
        let (table, t) = (table.as_ptr(), table.len());
        // SAFETY: each address is that of as many numbers as the call is told.
        unsafe {
            let answer = answer.as_mut_ptr();
            rumiotka_evaluate(width, table, t, words.as_ptr(), words.len(), budget, answer);
        }
        answer
    }

    fn compile(&self, width: u32, table: &[u32], netlist: &mut [u32]) -> [u32; 22] {
        let mut answer = [0; 22];
        let (table, t) = (table.as_ptr(), table.len());
        let (netlist, n) = (netlist.as_mut_ptr(), netlist.len());
        // SAFETY: each address is that of as many numbers as the call is told.
        unsafe { rumiotka_compile(width, table, t, netlist, n, answer.as_mut_ptr()) }
        answer
    }

    fn power_up(
        &self,
        width: u32,
        netlist: &[u32],
        load: bool,
        words: &[u32],
        wires: &mut [u32],
    ) -> [u32; 2] {
        let mut answer = [0; 2];
        let (load, words, given) = (u32::from(load), words.as_ptr(), words.len());
        let (netlist, n) = (netlist.as_ptr(), netlist.len());
        let (wires, w, answered) = (wires.as_mut_ptr(), wires.len(), answer.as_mut_ptr());
        // SAFETY: each address is that of as many numbers as the call is told.
        unsafe { rumiotka_power_up(width, netlist, n, load, words, given, wires, w, answered) }
        answer
    }

    fn step(
        &self,
        width: u32,
        netlist: &[u32],
        before: &[u32],
        load: bool,
        words: &[u32],
        after: &mut [u32],
    ) -> [u32; 2] {
        let mut answer = [0; 2];
        let (load, words, given) = (u32::from(load), words.as_ptr(), words.len());
        let (netlist, n) = (netlist.as_ptr(), netlist.len());
        let (before, b, after, a) =
            (before.as_ptr(), before.len(), after.as_mut_ptr(), after.len());
        let answered = answer.as_mut_ptr();
        // SAFETY: each address is that of as many numbers as the call is told.
        unsafe {
            rumiotka_step(width, netlist, n, before, b, load, words, given, after, a, answered)
        }
        answer
    }

    fn write(
        &self,
        width: u32,
        netlist: &[u32],
        i: u32,
        o: u32,
        done: u32,
        outs: &[u32; MOST_WORDS],
        text: &mut [u8],
    ) -> [u32; 3] {
        let mut answer = [0; 3];
        let (netlist, n) = (netlist.as_ptr(), netlist.len());
        let (text, t, answered) = (text.as_mut_ptr(), text.len(), answer.as_mut_ptr());
        // SAFETY: each address is that of as many numbers or bytes as the call is told.
        unsafe { rumiotka_write(width, netlist, n, i, o, done, outs.as_ptr(), text, t, answered) }
        answer
    }
}
