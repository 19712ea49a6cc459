// The generator of the runs, as docs/FACTORS.md writes it: numbers of 64 bits from a seed, and the families of F.
#include <math.h>
#include <stdint.h>
#include <string.h>

static uint64_t state;

static uint64_t next(void) {
    uint64_t z = state += 0x9e3779b97f4a7c15;
    z = (z ^ z >> 30) * 0xbf58476d1ce4e5b9;
    z = (z ^ z >> 27) * 0x94d049bb133111eb;
    return z ^ z >> 31;
}

static uint64_t below(uint64_t n) { return next() % n; }

static double of_bits(uint64_t b) {
    double x;
    memcpy(&x, &b, 8);
    return x;
}

// An entry: the sign and the 52 digits from a number, the exponent, from low to high, from the next.
static double entry(int low, int high) {
    uint64_t b = next();
    uint64_t e = low + 1023 + below(high - low + 1);
    return of_bits((b & 0x800fffffffffffff) | e << 52);
}

static double part(void) { return (next() >> 11) * 0x1p-53; }

static double sign(double x) { return next() & 1 ? -x : x; }

typedef double matrix[3][3];

static void product(matrix r, matrix a, matrix b) {
    for (int i = 0; i < 3; i++)
        for (int j = 0; j < 3; j++)
            r[i][j] = a[i][0] * b[0][j] + a[i][1] * b[1][j] + a[i][2] * b[2][j];
}

// A rotation, from a quaternion of four sums of four parts.
static void rotation(matrix r) {
    double q[4], n = 0;
    for (int i = 0; i < 4; i++) {
        q[i] = part() + part() + part() + part() - 2;
        n += q[i] * q[i];
    }
    n = sqrt(n);
    double w = q[0] / n, x = q[1] / n, y = q[2] / n, z = q[3] / n;
    matrix m = {{1 - 2 * (y * y + z * z), 2 * (x * y - z * w), 2 * (x * z + y * w)},
                {2 * (x * y + z * w), 1 - 2 * (x * x + z * z), 2 * (y * z - x * w)},
                {2 * (x * z - y * w), 2 * (y * z + x * w), 1 - 2 * (x * x + y * y)}};
    memcpy(r, m, sizeof m);
}

// A rotation, three values, another rotation.
static void with_values(matrix f, double a, double b, double c) {
    matrix d = {{a, 0, 0}, {0, b, 0}, {0, 0, c}}, p, q, t;
    rotation(p);
    rotation(q);
    product(t, p, d);
    product(f, t, q);
}

static const char *const names[] = {
    "entry by entry, 2^-20 to 2^20",
    "uniform from -1 to 1",
    "each entry 2^-20, 1 or 2^20 in size",
    "rows 40 binades apart",
    "columns 40 binades apart",
    "rank one",
    "rank two",
    "nearly singular: values down to 2^-60",
    "a rotation or reflection times a size",
    "two values equal",
    "values apart by 2^-1 to 2^-52",
    "near the identity",
    "whole numbers from -3 to 3",
    "symmetric",
    "skew",
    "triangular",
    "half of the entries 0",
    "exponents -300 to 300",
    "exponents 900 to 1022",
    "exponents -1022 to -900",
    "any bits that are finite",
    "up to 2^52 units of 2^-1074",
    "exponent 1023",
};

enum { FAMILIES = sizeof names / sizeof *names };

static void draw(int family, matrix f) {
    double a[3], b[3], s, t;
    switch (family) {
    case 5:
    case 6:
        for (int i = 0; i < 3; i++) {
            a[i] = entry(-10, 9);
            b[i] = entry(-10, 9);
        }
        break;
    case 8:
        s = entry(-10, 9);
        with_values(f, s, s, s);
        return;
    case 9:
        s = entry(-10, 9);
        t = entry(-20, 19);
        with_values(f, s, sign(s), t);
        return;
    case 10:
        s = entry(-10, 9);
        with_values(f, s, s * (1 + ldexp(1, -1 - (int)below(52))), s * (1 + ldexp(1, -1 - (int)below(52))));
        return;
    case 7:
        s = entry(-10, 9);
        with_values(f, s, ldexp(s, -(int)below(61)), ldexp(s, -(int)below(61)));
        return;
    }
    for (int i = 0; i < 3; i++)
        for (int j = 0; j < 3; j++) {
            double *x = &f[i][j];
            switch (family) {
            case 0: *x = entry(-20, 19); break;
            case 1: *x = sign(part()); break;
            case 2: *x = sign(ldexp(1, 20 * (int)below(3) - 20)); break;
            case 3: *x = sign(part()) * (i == 0 ? 0x1p20 : i == 1 ? 1 : 0x1p-20); break;
            case 4: *x = sign(part()) * (j == 0 ? 0x1p20 : j == 1 ? 1 : 0x1p-20); break;
            case 5: *x = a[i] * b[j]; break;
            case 6: *x = a[i] * b[j] + a[(i + 1) % 3] * b[(j + 2) % 3]; break;
            case 11: *x = (i == j) + ldexp(sign(part()), -(int)below(20)); break;
            case 12: *x = (double)below(7) - 3; break;
            case 13: *x = j < i ? f[j][i] : entry(-20, 19); break;
            case 14: *x = j < i ? -f[j][i] : j == i ? 0 : entry(-20, 19); break;
            case 15: *x = j < i ? 0 : entry(-20, 19); break;
            case 16: *x = next() & 1 ? 0 : entry(-20, 19); break;
            case 17: *x = entry(-300, 300); break;
            case 18: *x = entry(900, 1022); break;
            case 19: *x = entry(-1022, -900); break;
            case 21: *x = sign(of_bits(next() >> (12 + below(52)))); break;
            case 22: *x = entry(1023, 1023); break;
            default:
                do
                    *x = of_bits(next());
                while (!isfinite(*x));
            }
        }
}
