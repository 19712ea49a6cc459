// Our singular values beside nalgebra's and those in long double, of the F that factors.c draws. See README.md beside this file.
//   values COUNT MORE OTHERS
#include <float.h>
#include <stdio.h>
#include <stdlib.h>

#include "draw.h"
#include "record.h"

// nalgebra's singular values of F, which stands by rows.
void nalgebra_values(const double *f, double *values);

// nalgebra works on the squares of F: beyond these sizes they aren't floats.
static int has_squares(double m) { return m == 0 || (0x1p-500 <= m && m <= 0x1p500); }

static long double dot(const long double *a, const long double *b) { return a[0] * b[0] + a[1] * b[1] + a[2] * b[2]; }

// Turns two columns onto each other's normal; 0 where they stand so already.
static int turn(long double *a, long double *b) {
    long double x = dot(a, a), y = dot(b, b), z = dot(a, b);
    if (z * z <= 0x1p-120L * x * y)
        return 0;
    long double h = (y - x) / (2 * z), t = (h < 0 ? -1 : 1) / (size(h) + sqrtl(1 + h * h)), c = 1 / sqrtl(1 + t * t);
    for (int i = 0; i < 3; i++) {
        long double u = a[i], v = b[i];
        a[i] = c * (u - t * v);
        b[i] = c * (v + t * u);
    }
    return 1;
}

// The singular values of F in m, worked in long double: the columns are turned in pairs, and their lengths are the values.
static void long_values(const double *f, double m, long double s[3]) {
    long double a[3][3];
    for (int i = 0; i < 9; i++)
        a[i % 3][i / 3] = m > 0 ? f[i] / (long double)m : 0;
    for (int sweep = 0, turned = 1; turned && sweep < 40; sweep++)
        turned = turn(a[0], a[1]) | turn(a[1], a[2]) | turn(a[2], a[0]);
    for (int i = 0; i < 3; i++)
        s[i] = sqrtl(dot(a[i], a[i]));
}

static int falling(const void *a, const void *b) {
    long double x = *(const long double *)a, y = *(const long double *)b;
    return (x < y) - (x > y);
}

// Three values in m, the largest first.
static void in_m(const double *values, double m, long double s[3]) {
    for (int i = 0; i < 3; i++)
        s[i] = m > 0 ? values[i] / (long double)m : values[i];
    qsort(s, 3, sizeof *s, falling);
}

// The largest distance of two sets of three in m / 2^40; without end where one is no number.
static long double apart(const long double *a, const long double *b) {
    long double worst = 0;
    for (int i = 0; i < 3; i++) {
        long double d = size(a[i] - b[i]) * 0x1p40L;
        worst = d <= worst ? worst : isnan(d) ? INFINITY : d;
    }
    return worst;
}

static void raise(long double *worst, long double d) { *worst = d > *worst ? d : *worst; }

static int run(int family, uint64_t seed, long count) {
    long compared = 0, beyond = 0, refused = 0, far = 0;
    long double both = 0, ours = 0, theirs = 0;
    state = seed;
    for (long n = 0; n < count; n++) {
        matrix f;
        double x[37], values[3];
        long double s[3], t[3], exact[3];
        draw(family, f);
        double m = largest(f[0]);
        if (!has_squares(m)) {
            beyond++;
            continue;
        }
        if (factor(f, x) != 0) {
            refused++;
            continue;
        }
        compared++;
        nalgebra_values(f[0], values);
        long_values(f[0], m, exact);
        qsort(exact, 3, sizeof *exact, falling);
        in_m(x + 18, m, s);
        in_m(values, m, t);
        far += apart(s, t) > 1;
        raise(&both, apart(s, t));
        raise(&ours, apart(s, exact));
        raise(&theirs, apart(t, exact));
    }
    printf("values | %2d | %-38s | %8ld | %8ld | %7ld | %7ld | %8ld | %17.4f | %8.4f | %17.4f\n", family, names[family], count, compared, beyond, refused, far,
           (double)both, (double)ours, (double)theirs);
    return (family == 0 && refused != 0) || !(ours <= 1);
}

int main(int argc, char **argv) {
    if (argc != 4)
        return 2;
    printf("Singular values, the largest distances in m / 2^40 (8192 m / 2^53); far: more than one\n");
    printf("long double has %d binary digits here\n", LDBL_MANT_DIG);
    printf("       |    | %-38s | %8s | %8s | %7s | %7s | %8s | %17s | %8s | %17s\n", "family", "drawn", "compared", "beyond", "refused", "far", "ours, nalgebra",
           "ours", "nalgebra");
    int bad = run(0, 6, atol(argv[1]));
    bad |= run(0, 7, atol(argv[2]));
    for (int family = 1; family < FAMILIES; family++)
        bad |= run(family, 100 + family, atol(argv[3]));
    return bad;
}
