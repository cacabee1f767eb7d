/* A host of the plugin, in C: compiles a table, evaluates it, and then steps its circuit, raising
 * load again twice while the run is under way. One answer comes back, the evaluator's.
 *
 *     host                          the countdown from 200
 *     host WORD.. < TABLE           any table: its width and its numbers, as in the files beside it
 *
 * examples/HOST.md says how it is built and what it prints. It exits with 0 if the circuit did what
 * the evaluator said.
 */
#include <inttypes.h>
#include <stdio.h>
#include <stdlib.h>
#include <string.h>

#include "rumiotka.h"

enum { MOST_NUMBERS = 1024, MOST_CELLS = 4096, MOST_WORDS = 16, BUDGET = 1000000, AFTER = 5 };

/* A table, its circuit, and what they answer. */
struct design {
    uint32_t width;
    uint32_t table[MOST_NUMBERS];
    size_t table_len;
    uint32_t words[MOST_WORDS];
    size_t words_len;
    uint32_t netlist[4 * MOST_CELLS];
    uint32_t evaluated[21]; /* refusal, place, ended, cycles, o, words */
    uint32_t compiled[22];  /* refusal, place, cells, i, o, done, output wires */
};

/* What is counted while the circuit runs. */
struct counts {
    unsigned rises; /* of load */
    unsigned falls; /* of done: runs that began */
    unsigned low;   /* cycles with done low */
};

static const uint32_t countdown[] = {
    12, 1, 0, 0, /* 0: the word */
    9,  1, 0, 0, /* 1: 0 */
    2,  0, 1, 0, /* 2: both */
    18, 0, 0, 0, /* 3: equal */
    1,  2, 3, 0, /* 4: is the word 0? */
    9,  1, 1, 0, /* 5: 1 */
    2,  0, 5, 0, /* 6: the word and 1 */
    14, 0, 0, 0, /* 7: subtract */
    1,  6, 7, 0, /* 8: the word less 1 */
    4,  4, 0, 8, /* 9: until it is 0, one less */
};

/* Takes the words from the command line and the table from standard input, or the countdown. */
static int given(struct design *d, int argc, char **argv) {
    if (argc == 1) {
        d->width = 8;
        memcpy(d->table, countdown, sizeof countdown);
        d->table_len = sizeof countdown / sizeof countdown[0];
        d->words[0] = 200;
        d->words_len = 1;
        return 1;
    }
    for (int j = 1; j < argc && j <= MOST_WORDS; j++)
        d->words[d->words_len++] = (uint32_t)strtoul(argv[j], NULL, 10);
    if (scanf("%" SCNu32, &d->width) != 1)
        return 0;
    while (d->table_len < MOST_NUMBERS && scanf("%" SCNu32, &d->table[d->table_len]) == 1)
        d->table_len++;
    return 1;
}

/* Says whether a call was refused. */
static int refused(const char *call, const uint32_t *answer) {
    if (answer[0] != 0)
        printf("%s: refused %" PRIu32 " at %" PRIu32 "\n", call, answer[0], answer[1]);
    return answer[0] != 0;
}

static void print_words(const uint32_t *words, uint32_t count) {
    for (uint32_t j = 0; j < count; j++)
        printf(" %" PRIu32, words[j]);
    printf("\n");
}

/* Evaluates and compiles, writes the Verilog text, and prints what is answered. */
static int prepared(struct design *d) {
    static uint8_t text[1 << 20];
    const uint32_t *c = d->compiled, *e = d->evaluated;
    uint32_t written[3];
    rumiotka_evaluate(d->width, d->table, d->table_len, d->words, d->words_len, BUDGET,
                      d->evaluated);
    rumiotka_compile(d->width, d->table, d->table_len, d->netlist, 4 * MOST_CELLS, d->compiled);
    if (refused("evaluate", e) || refused("compile", c))
        return 0;
    rumiotka_write(d->width, d->netlist, 4 * c[2], c[3], c[4], c[5], c + 6, text, sizeof text,
                   written);
    if (refused("write", written))
        return 0;
    printf("compiled:  %" PRIu32 " cells, i = %" PRIu32 ", o = %" PRIu32 ", done is wire %" PRIu32
           "; %" PRIu32 " bytes of Verilog\n",
           c[2], c[3], c[4], c[5], written[2]);
    if (e[2] == 0) {
        printf("evaluated: unfinished after %d cycles\n", BUDGET);
        return 0;
    }
    printf("evaluated: after %" PRIu32 " cycles", e[3]);
    print_words(e + 5, e[4]);
    return 1;
}

/* Load rises at cycle 1, and again when a third and two thirds of the run are over. */
static uint32_t load_at(uint32_t cycle, uint32_t length) {
    return cycle == 1 || cycle == 1 + length / 3 || cycle == 1 + length * 2 / 3;
}

/* Writes the wires of cycle t. The input words are there in cycle 1 only, and zeros otherwise. */
static int stepped(const struct design *d, uint32_t t, const uint32_t *before, uint32_t *after) {
    static const uint32_t none[MOST_WORDS];
    const uint32_t *words = t == 1 ? d->words : none, load = load_at(t, d->evaluated[3]);
    const size_t cells = d->compiled[2];
    uint32_t answer[2];
    if (t == 0)
        rumiotka_power_up(d->width, d->netlist, 4 * cells, load, words, d->words_len, after, cells,
                          answer);
    else
        rumiotka_step(d->width, d->netlist, 4 * cells, before, cells, load, words, d->words_len,
                      after, cells, answer);
    return !refused(t == 0 ? "power_up" : "step", answer);
}

/* Steps the circuit until the run is over and a little longer, and prints the cycles in which load
 * or done changes, and the last one. Says whether the evaluator's words are there in the end. */
static int walked(const struct design *d, struct counts *seen) {
    static uint32_t wires[2][MOST_CELLS];
    const uint32_t length = d->evaluated[3], last = length + AFTER, o = d->compiled[4];
    uint32_t load_before = 1, done_before = 1, out[MOST_WORDS] = {0};
    printf(" cycle  load  done  out\n");
    for (uint32_t t = 0; t <= last; t++) {
        const uint32_t *now = wires[t % 2], load = load_at(t, length);
        if (!stepped(d, t, wires[(t + 1) % 2], wires[t % 2]))
            return 0;
        const uint32_t done = now[d->compiled[5]];
        for (uint32_t j = 0; j < o; j++)
            out[j] = now[d->compiled[6 + j]];
        if (t == 0 || t == last || load != load_before || done != done_before) {
            printf("%6" PRIu32 "  %4" PRIu32 "  %4" PRIu32 " ", t, load, done);
            print_words(out, o);
        }
        seen->rises += load > load_before;
        seen->falls += done < done_before;
        seen->low += done == 0;
        load_before = load;
        done_before = done;
    }
    return done_before == 1 && memcmp(out, d->evaluated + 5, sizeof out) == 0;
}

int main(int argc, char **argv) {
    static struct design d;
    struct counts seen = {0, 0, 0};
    if (!given(&d, argc, argv) || !prepared(&d))
        return 1;
    const int right = walked(&d, &seen) && seen.falls == 1 && seen.low == d.evaluated[3];
    printf("rises of load: %u; falls of done: %u; cycles with done low: %u\n", seen.rises,
           seen.falls, seen.low);
    printf("%s\n", right ? "one answer came back, the evaluator's"
                         : "this is NOT what the evaluator answers");
    return right ? 0 : 1;
}
