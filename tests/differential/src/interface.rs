//! The C interface of the proved library, as `include/rumiotka.h` declares it and says what its
//! caller vouches for.

extern "C" {
    /// Evaluates a table on words within a budget; 21 numbers answer.
    pub fn rumiotka_evaluate(
        width: u32,
        table: *const u32,
        table_len: usize,
        words: *const u32,
        words_len: usize,
        budget: u32,
        answer: *mut u32,
    );
    /// Compiles a table into a netlist; 22 numbers answer.
    pub fn rumiotka_compile(
        width: u32,
        table: *const u32,
        table_len: usize,
        netlist: *mut u32,
        netlist_len: usize,
        answer: *mut u32,
    );
    /// Writes the wires of cycle 0; 2 numbers answer.
    pub fn rumiotka_power_up(
        width: u32,
        netlist: *const u32,
        netlist_len: usize,
        load: u32,
        words: *const u32,
        words_len: usize,
        wires: *mut u32,
        wires_len: usize,
        answer: *mut u32,
    );
    /// Writes the wires of the cycle after `before`; 2 numbers answer.
    pub fn rumiotka_step(
        width: u32,
        netlist: *const u32,
        netlist_len: usize,
        before: *const u32,
        before_len: usize,
        load: u32,
        words: *const u32,
        words_len: usize,
        after: *mut u32,
        after_len: usize,
        answer: *mut u32,
    );
    /// Writes a netlist as Verilog; 3 numbers answer.
    pub fn rumiotka_write(
        width: u32,
        netlist: *const u32,
        netlist_len: usize,
        i: u32,
        o: u32,
        done: u32,
        outs: *const u32,
        text: *mut u8,
        text_len: usize,
        answer: *mut u32,
    );
}
