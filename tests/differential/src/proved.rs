//! The proved library through its C interface, with all that is lent and answered under guard.
//!
//! Every slice is lent between guards. Answers are lent full of rubbish, so that a number which a
//! call leaves out is noticed.

use crate::interface::*;
use crate::lent::Lent;
use model::toolchain::Toolchain;
use model::MOST_WORDS;

/// The proved library as a toolchain.
pub struct Proved;

/// Lends memory for an answer.
fn answer<const N: usize>() -> Lent<u32> {
    Lent::new(&[0xbad0_bad0; N])
}

/// Gives the numbers of an answer.
fn given<const N: usize>(answer: &Lent<u32>) -> [u32; N] {
    answer.back().try_into().expect("as many as were lent")
}

/// Gives load as C has it: any number but 0 is a yes, and the number follows the words.
fn yes_or_no(load: bool, words: &[u32]) -> u32 {
    let yes = [1, 2, 256, 0x8000_0000, u32::MAX];
    if load {
        yes[words.first().map_or(0, |&word| word as usize % yes.len())]
    } else {
        0
    }
}

impl Toolchain for Proved {
    fn evaluate(&self, width: u32, table: &[u32], words: &[u32], budget: u32) -> [u32; 21] {
        let (mut lent_table, mut lent_words) = (Lent::new(table), Lent::new(words));
        let mut answer = answer::<21>();
        // SAFETY: each address is that of as many numbers as the call is told.
        unsafe {
            rumiotka_evaluate(
                width,
                lent_table.address(),
                table.len(),
                lent_words.address(),
                words.len(),
                budget,
                answer.address(),
            );
        }
        lent_table.unchanged(table);
        lent_words.unchanged(words);
        given(&answer)
    }

    fn compile(&self, width: u32, table: &[u32], netlist: &mut [u32]) -> [u32; 22] {
        let (mut lent_table, mut lent_netlist) = (Lent::new(table), Lent::new(netlist));
        let mut answer = answer::<22>();
        // SAFETY: each address is that of as many numbers as the call is told.
        unsafe {
            rumiotka_compile(
                width,
                lent_table.address(),
                table.len(),
                lent_netlist.address(),
                netlist.len(),
                answer.address(),
            );
        }
        lent_table.unchanged(table);
        netlist.copy_from_slice(lent_netlist.back());
        given(&answer)
    }

    fn power_up(
        &self,
        width: u32,
        netlist: &[u32],
        load: bool,
        words: &[u32],
        wires: &mut [u32],
    ) -> [u32; 2] {
        let (mut lent_netlist, mut lent_words) = (Lent::new(netlist), Lent::new(words));
        let (mut lent_wires, mut answer) = (Lent::new(wires), answer::<2>());
        // SAFETY: each address is that of as many numbers as the call is told.
        unsafe {
            rumiotka_power_up(
                width,
                lent_netlist.address(),
                netlist.len(),
                yes_or_no(load, words),
                lent_words.address(),
                words.len(),
                lent_wires.address(),
                wires.len(),
                answer.address(),
            );
        }
        lent_netlist.unchanged(netlist);
        lent_words.unchanged(words);
        wires.copy_from_slice(lent_wires.back());
        given(&answer)
    }

    fn step(
        &self,
        width: u32,
        netlist: &[u32],
        before: &[u32],
        load: bool,
        words: &[u32],
        after: &mut [u32],
    ) -> [u32; 2] {
        let (mut lent_netlist, mut lent_words) = (Lent::new(netlist), Lent::new(words));
        let (mut lent_before, mut lent_after) = (Lent::new(before), Lent::new(after));
        let mut answer = answer::<2>();
        // SAFETY: each address is that of as many numbers as the call is told.
        unsafe {
            rumiotka_step(
                width,
                lent_netlist.address(),
                netlist.len(),
                lent_before.address(),
                before.len(),
                yes_or_no(load, words),
                lent_words.address(),
                words.len(),
                lent_after.address(),
                after.len(),
                answer.address(),
            );
        }
        lent_netlist.unchanged(netlist);
        lent_before.unchanged(before);
        lent_words.unchanged(words);
        after.copy_from_slice(lent_after.back());
        given(&answer)
    }

    fn write(
        &self,
        width: u32,
        netlist: &[u32],
        i: u32,
        o: u32,
        done: u32,
        outs: &[u32; MOST_WORDS],
        text: &mut [u8],
    ) -> [u32; 3] {
        let (mut lent_netlist, mut lent_outs) = (Lent::new(netlist), Lent::new(outs));
        let (mut lent_text, mut answer) = (Lent::new(text), answer::<3>());
        // SAFETY: each address is that of as many numbers or bytes as the call is told.
        unsafe {
            rumiotka_write(
                width,
                lent_netlist.address(),
                netlist.len(),
                i,
                o,
                done,
                lent_outs.address(),
                lent_text.address(),
                text.len(),
                answer.address(),
            );
        }
        lent_netlist.unchanged(netlist);
        lent_outs.unchanged(outs);
        text.copy_from_slice(lent_text.back());
        given(&answer)
    }
}
