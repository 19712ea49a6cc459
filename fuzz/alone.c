// Runs a target without libFuzzer, as under an emulator: each input comes from the last by mutate.h, or from nothing.
//   cc -O2 -ffp-contract=off -DTARGET=5 fuzz/harness.c fuzz/alone.c libpasoletu.a -lm -o alone && ./alone RUNS [SEED]
// The first thing that does not hold stops the run; at its end stands how many inputs were taken.
#include <stddef.h>
#include <stdint.h>
#include <stdio.h>
#include <stdlib.h>
#include <string.h>

#define MOST 59300

int LLVMFuzzerInitialize(int *argc, char ***argv);
int LLVMFuzzerTestOneInput(const uint8_t *b, size_t n);
size_t LLVMFuzzerCustomMutator(uint8_t *b, size_t n, size_t most, unsigned seed);

static uint64_t state;

static uint64_t next(void) {
    state ^= state << 13;
    state ^= state >> 7;
    state ^= state << 17;
    return state;
}

// Some bytes become others, and now and then the input is cut or grows by a few.
size_t LLVMFuzzerMutate(uint8_t *b, size_t n, size_t most) {
    if (n == 0 || next() % 4 == 0) {
        size_t more = next() % 40;
        more = n + more > most ? most - n : more;
        for (size_t k = 0; k < more; k++)
            b[n + k] = next();
        n += more;
    } else if (next() % 8 == 0) {
        n = next() % n;
    }
    for (size_t k = next() % 4; n && k; k--)
        b[next() % n] = next() % 3 ? next() : next() % 2 * 128;
    return n;
}

int main(int argc, char **argv) {
    static uint8_t b[MOST];
    unsigned long runs = argc > 1 ? strtoul(argv[1], NULL, 10) : 1000;
    size_t n = 0;
    state = 0x2545f4914f6cdd1dULL + (argc > 2 ? strtoull(argv[2], NULL, 10) : 0);
    LLVMFuzzerInitialize(&argc, &argv);
    for (unsigned long k = 0; k < runs; k++) {
        if (next() % 6 == 0)
            n = 0;
        n = LLVMFuzzerCustomMutator(b, n, MOST, (unsigned)next());
        LLVMFuzzerTestOneInput(b, n);
    }
    printf("%lu inputs, 0 faults\n", runs);
    return 0;
}
