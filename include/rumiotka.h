/* Rumiotka: term tables, their circuits and the circuits' cycles, as C functions on numbers.
 *
 * `./build plugin` proves the functions and writes them to target/staticlib/libplugin.a, which a
 * program links. examples/host.c is a worked host.
 *
 * What the host vouches for, at every call:
 *   - Each pointer is to live memory that is aligned for its type and holds as many elements as the
 *     length beside it says, or the brackets do. It is not null, even where the length is 0.
 *   - What a call writes (the arrays that are not const) overlaps nothing else that it is given,
 *     and no other thread uses it meanwhile.
 *   - There is stack for the call, of which no proof speaks. The deepest tables that are accepted
 *     take rumiotka_compile 112 KB, rumiotka_evaluate 64 KB, the others less than 8 KB (measured).
 * Nothing more is asked: whatever the numbers are, each call ends and writes its answer. The
 * functions keep nothing between calls.
 *
 * Every answer begins with a refusal number and a place, 0 and 0 where the call is not refused. A
 * refused call writes zeros in the rest of its answer, and nothing in any other array. Elements
 * past those that a call writes stay as they were.
 *
 * Tables, netlists, words and refusal numbers are those of docs/READING.md: four numbers a term
 * (kind, a, b, c), four numbers a cell (kind, x, y, z), one number a wire, and every word below
 * 2^width.
 */
#ifndef RUMIOTKA_H
#define RUMIOTKA_H

#include <stddef.h>
#include <stdint.h>

#ifdef __cplusplus
extern "C" {
#endif

/* Evaluates the main term of a table on input words, within a budget of cycles.
 *
 * answer: [0] refusal number (1 to 9, 11), [1] place, [2] 1 if the run ended within the budget and
 *         0 if not, [3] its cycles, [4] o, its count of words, [5] to [20] its words, those past o
 *         0.
 * Where the run did not end, [3] to [20] are 0.
 */
void rumiotka_evaluate(uint32_t width, const uint32_t *table, size_t table_len,
                       const uint32_t *words, size_t words_len, uint32_t budget,
                       uint32_t answer[21]);

/* Compiles a table into a netlist, whose numbers are written from the start of `netlist`.
 *
 * answer: [0] refusal number (1 to 10), [1] place, [2] the count of cells, [3] i and [4] o, the
 *         counts of input and output words, [5] the done wire, [6] to [21] the output wires, those
 *         past o 0.
 * The netlist is the first 4 * answer[2] numbers.
 */
void rumiotka_compile(uint32_t width, const uint32_t *table, size_t table_len,
                      uint32_t *netlist, size_t netlist_len, uint32_t answer[22]);

/* Writes all wires of cycle 0, from power-up, of any netlist, one number a wire. `load` and `words`
 * are those of cycle 0; load is 0 for no and anything else for yes.
 *
 * answer: [0] refusal number (1, 11 to 17), [1] place.
 */
void rumiotka_power_up(uint32_t width, const uint32_t *netlist, size_t netlist_len,
                       uint32_t load, const uint32_t *words, size_t words_len,
                       uint32_t *wires, size_t wires_len, uint32_t answer[2]);

/* Reads all wires of a cycle, `before`, and writes all wires of the next one, `after`. `load` and
 * `words` are those of the cycle that is written; load is 0 for no and anything else for yes.
 *
 * answer: [0] refusal number (1, 11 to 18), [1] place.
 */
void rumiotka_step(uint32_t width, const uint32_t *netlist, size_t netlist_len,
                   const uint32_t *before, size_t before_len,
                   uint32_t load, const uint32_t *words, size_t words_len,
                   uint32_t *after, size_t after_len, uint32_t answer[2]);

/* Writes a netlist as structural Verilog (IEEE 1364-2001): a module f with i input words and o
 * output words. `done` is the done wire, and `outs` the output wires, those past o 0, as
 * rumiotka_compile answers them. The text has no 0 at its end.
 *
 * answer: [0] refusal number (1, 12 to 16, 19, 20), [1] place, [2] the text's length in bytes.
 */
void rumiotka_write(uint32_t width, const uint32_t *netlist, size_t netlist_len,
                    uint32_t i, uint32_t o, uint32_t done, const uint32_t outs[16],
                    uint8_t *text, size_t text_len, uint32_t answer[3]);

#ifdef __cplusplus
}
#endif

#endif
