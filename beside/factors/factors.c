// Draws F, has the library factor a record with it, and counts what is accepted and what is refused. See README.md beside this file.
//   factors COUNT MORE OTHERS FILE
// COUNT of family 0, whose every F and answer goes to FILE for exact.py; MORE of it; OTHERS of each other family.
#include <stdio.h>
#include <stdlib.h>

#include "draw.h"
#include "record.h"

// The worst of the nine distances of U sigma V^T from F in m / 2^40, and of the twelve of U U^T and V V^T from the identity in 2^-40.
struct worst {
    long double of_f, of_identity;
};

static void measure(const double *x, struct worst *w) {
    const double *u = x + 9, *s = x + 18, *vt = x + 21;
    long double m = largest(x);
    for (int i = 0; i < 3; i++)
        for (int j = 0; j < 3; j++) {
            long double f = -(long double)x[3 * i + j], p = -(i == j), q = -(i == j);
            for (int k = 0; k < 3; k++) {
                f += (long double)u[3 * i + k] * s[k] * vt[3 * k + j];
                p += (long double)u[3 * i + k] * u[3 * j + k];
                q += (long double)vt[3 * k + i] * vt[3 * k + j];
            }
            f = m > 0 ? size(f) / m * 0x1p40L : size(f);
            p = size(p) * 0x1p40L;
            q = size(q) * 0x1p40L;
            w->of_f = f > w->of_f ? f : w->of_f;
            w->of_identity = p > w->of_identity ? p : w->of_identity;
            w->of_identity = q > w->of_identity ? q : w->of_identity;
        }
}

static void raise(long double *worst, long double d) { *worst = d > *worst ? d : *worst; }

// Bad where a named F is refused, where one of family 0 is, and where what is accepted misses the check.
static int run(int family, uint64_t seed, long count, FILE *out) {
    long accepted = 0, missed = 0, other = 0, named_drawn = 0, named_refused = 0, wrong = 0;
    struct worst w = {0, 0};
    state = seed;
    for (long n = 0; n < count; n++) {
        matrix f;
        double x[37];
        draw(family, f);
        int r = factor(f, x), is_named = named(f[0]);
        named_drawn += is_named;
        named_refused += is_named && r != 0;
        if (r == 0) {
            struct worst here = {0, 0};
            measure(x, &here);
            accepted++;
            wrong += !(here.of_f <= 1 + 0x1p-16L && here.of_identity <= 1 + 0x1p-16L && x[18] >= 0 && x[19] >= 0 && x[20] >= 0);
            raise(&w.of_f, here.of_f);
            raise(&w.of_identity, here.of_identity);
        } else if (r == 14) {
            missed++;
        } else {
            other++;
        }
        if (out) {
            for (int i = 0; i < 30; i++) {
                uint64_t b;
                memcpy(&b, x + i, 8);
                fprintf(out, "%016llx ", (unsigned long long)b);
            }
            fprintf(out, "%d\n", r);
        }
    }
    printf("factors | %2d | %-38s | %8ld | %8ld | %6ld | %6ld | %8ld | %6ld | %5ld | %.4f | %.4f\n", family, names[family], count, accepted, missed, other, named_drawn,
           named_refused, wrong, (double)w.of_f, (double)w.of_identity);
    return (family == 0 && missed + other != 0) || named_refused != 0 || wrong != 0;
}

int main(int argc, char **argv) {
    if (argc != 5)
        return 2;
    FILE *out = fopen(argv[4], "w");
    if (!out)
        return 2;
    printf("F: accepted, refused by 14 or another number; named: all nine sizes between 2^-20 and 2^20; wrong: accepted, and off the check in long double\n");
    printf("        |    | %-38s | %8s | %8s | %6s | %6s | %8s | %6s | %5s | %s\n", "family", "drawn", "accepted", "14", "other", "named", "refused", "wrong",
           "worst of F, of the identity, in the bound");
    int bad = run(0, 6, atol(argv[1]), out);
    fclose(out);
    bad |= run(0, 7, atol(argv[2]), NULL);
    for (int family = 1; family < FAMILIES; family++)
        bad |= run(family, 100 + family, atol(argv[3]), NULL);
    return bad;
}
