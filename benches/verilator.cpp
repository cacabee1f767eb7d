// Drives a circuit that Verilator made into C++, as ./bench drives every contender: word for word the same load and
// inputs, run after run, with two calls of eval a cycle.
//
//   Vf RUNS        makes one run to warm up, and fails where it is wrong; then prints the processor time of RUNS more in
//                  nanoseconds, and how many of them ended with done high and the right words
//
// The circuit's own names stand in ports.h, which ./bench writes: PERIOD, the cycles from one run to the next;
// drive(circuit), which sets the input words; and right(circuit), which looks at done and the output words.
#include "Vf.h"
#include "ports.h"
#include <cstdio>
#include <cstdlib>
#include <ctime>
#include <memory>

// One cycle: the edge, at which registers take what they were given, and then the load of the new cycle.
static inline void cycle(Vf &f, bool load) {
    f.clk = 1;
    f.eval();
    f.clk = 0;
    f.load = load;
    f.eval();
}

// One run: load rises in the first cycle and falls for the last two, so that it can rise again.
static inline bool run(Vf &f) {
    for (unsigned t = 1; t <= PERIOD - 2; t++)
        cycle(f, true);
    cycle(f, false);
    cycle(f, false);
    return right(f);
}

// The nanoseconds of processor time that this thread has taken so far.
static long long thread_time() {
    timespec now;
    clock_gettime(CLOCK_THREAD_CPUTIME_ID, &now);
    return now.tv_sec * 1000000000LL + now.tv_nsec;
}

// Powers up, makes one run to warm up, and times the rest.
int main(int argc, char **argv) {
    const unsigned long runs = argc > 1 ? strtoul(argv[1], nullptr, 10) : 1;
    const auto context = std::make_unique<VerilatedContext>();
    Vf f{context.get()};
    f.clk = 0;
    f.load = 0;
    drive(f);
    f.eval();
    if (!run(f))
        return 1;
    unsigned long good = 0;
    const long long start = thread_time();
    for (unsigned long n = 0; n < runs; n++)
        good += run(f);
    const long long end = thread_time();
    printf("%lld %lu\n", end - start, good);
    f.final();
    return 0;
}
