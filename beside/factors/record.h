// A record with an F and its determinant, and the library's factors of it. After draw.h.
#include <stddef.h>

// The library's call: U, sigma and V^T of the record's F in their places.
uint8_t pasoletu_factor(double *record, size_t record_length);

// The determinant in the order of RULES, section 4.
static double determinant(matrix f) {
    return f[0][0] * (f[1][1] * f[2][2] - f[2][1] * f[1][2]) - f[0][1] * (f[1][0] * f[2][2] - f[2][0] * f[1][2]) +
           f[0][2] * (f[1][0] * f[2][1] - f[2][0] * f[1][1]);
}

// The place of the determinant in a record of 37; what stands for U, sigma and V^T before the call is 0.
static int factor(matrix f, double x[37]) {
    memset(x, 0, 37 * sizeof *x);
    memcpy(x, f, sizeof(matrix));
    x[36] = determinant(f);
    return pasoletu_factor(x, 37);
}

static long double size(long double x) { return x < 0 ? -x : x; }

// The largest size of F's entries.
static inline double largest(const double *f) {
    double m = 0;
    for (int i = 0; i < 9; i++)
        m = size(f[i]) > m ? size(f[i]) : m;
    return m;
}

// Whether all nine sizes lie between 2^-20 and 2^20.
static inline int named(const double *x) {
    for (int i = 0; i < 9; i++)
        if (size(x[i]) < 0x1p-20L || size(x[i]) > 0x1p20L)
            return 0;
    return 1;
}
