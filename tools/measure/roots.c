/* The square root of the library beside the machine's own: every bit must agree.

   A draw writes pairs of bits (a number, its root by the machine's instruction); a check reads them and asks the library. They are one program,
   so that the machine that draws need not be the one that the library is for:

     cc -O2 -o roots tools/measure/roots.c -I include "$(tools/built archive)" -lm     (the library is for x86-64)
     ./roots draw 100000000 | ./roots check
     cc -O2 -DDRAW -o roots tools/measure/roots.c -lm                                   (a machine of another kind can draw)

   First come the ends of every binade, those below the least normal number among them: its first, second, third, last and last but one number. A
   quarter of what is drawn then is below the least normal number, a quarter squares and their neighbours, the rest any bits of a number from 0 up. */
#include <math.h>
#include <stdint.h>
#include <stdio.h>
#include <stdlib.h>
#include <string.h>
#ifndef DRAW
#include "pasoletu.h"
#endif

static uint64_t state = 88172645463325252u;

static uint64_t drawn(void) {
    state ^= state << 13;
    state ^= state >> 7;
    state ^= state << 17;
    return state;
}

static const uint64_t one = (uint64_t)1 << 52, infinity = (uint64_t)2047 << 52;

/* A square of a number with up to 26 digits at a power of four, or a neighbour of it. */
static uint64_t near_square(void) {
    double root = (double)(drawn() >> (38 + drawn() % 20) | 1);
    double square = ldexp(root * root, 2 * (int)(drawn() % 480) - 500);
    uint64_t bits;
    memcpy(&bits, &square, 8);
    return bits + drawn() % 3 - 1;
}

enum { NORMAL = 2047 * 5, SMALL = 51 * 5 };

/* The i-th number. */
static uint64_t number(uint64_t i) {
    if (i < NORMAL) return (i / 5 << 52) + (i % 5 < 3 ? i % 5 : one - (i % 5 - 2));
    if (i < NORMAL + SMALL) return ((uint64_t)2 << (i - NORMAL) / 5) + i % 5 - 2;
    if (i % 4 == 0) return drawn() >> (12 + drawn() % 52);
    if (i % 2 == 0) return near_square();
    return drawn() % infinity;
}

static int draw(uint64_t n) {
    for (uint64_t i = 0; i < n; i++) {
        uint64_t pair[2] = {number(i), 0};
        double x;
        memcpy(&x, pair, 8);
        x = sqrt(x);
        memcpy(pair + 1, &x, 8);
        if (fwrite(pair, 16, 1, stdout) != 1) return 1;
    }
    return fflush(stdout) != 0;
}

#ifndef DRAW
static int check(void) {
    uint64_t pair[2], seen = 0, small = 0, wrong = 0;
    while (fread(pair, 16, 1, stdin) == 1) {
        double x, out[1] = {-1.0};
        memcpy(&x, pair, 8);
        unsigned refused = pasoletu_sqrt(x, out, 1);
        if ((refused || memcmp(out, pair + 1, 8)) && wrong++ < 10)
            printf("%016llx: refused %u, machine %016llx, library %a\n", (unsigned long long)pair[0], refused, (unsigned long long)pair[1], out[0]);
        seen++;
        small += pair[0] < one;
    }
    printf("%llu numbers, %llu of them below the least normal one: %llu differ\n", (unsigned long long)seen, (unsigned long long)small, (unsigned long long)wrong);
    return seen == 0 || wrong != 0;
}
#endif

int main(int count, char **words) {
    if (count == 3 && !strcmp(words[1], "draw")) return draw(strtoull(words[2], 0, 10));
#ifndef DRAW
    if (count == 2 && !strcmp(words[1], "check")) return check();
#endif
    fputs("usage: roots draw NUMBER | roots check\n", stderr);
    return 2;
}
