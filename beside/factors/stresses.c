// Has the library judge the stresses that both solid laws give for the F that factors.c draws. See README.md beside this file.
//   stresses COUNT MORE OTHERS
// With NALGEBRA defined, its eigenvalues stand beside.
#include <stdio.h>
#include <stdlib.h>

#include "draw.h"
#include "record.h"

// The library's calls: a record's stress and the verdict on it.
uint8_t pasoletu_neo_hookean_stress_and_verdict(const double *law, size_t law_length, const double *limits, size_t limits_length,
                                                const double *record, size_t record_length, double *stress, size_t stress_length,
                                                uint64_t *verdict, size_t verdict_length);
uint8_t pasoletu_corotated_stress_and_verdict(const double *law, size_t law_length, const double *limits, size_t limits_length,
                                              const double *record, size_t record_length, double *stress, size_t stress_length,
                                              uint64_t *verdict, size_t verdict_length);

#ifdef NALGEBRA
// nalgebra's eigenvalues of nine floats by rows, to its own precision; whether it gives them as the text asks for them, to 1e-6 in 100 steps.
int nalgebra_eigenvalues(const double *stress, double *values);
#endif

enum { MODULI = 4 };

// lambda and mu, alike: F's entries lie 40 binades apart, and the stresses go with their squares.
static const double moduli[MODULI] = {1, 0x1p-10, 0x1p-20, 0x1p-30};

// Phase 1 is the unsplit path; at 1/2 and 0 a stress is split, and at 0 the corotated law, its flag being 1, drops the tensile part.
enum { PHASES = 3 };

static const double phases[PHASES] = {1, 0.5, 0};

static const double wide[2] = {0x1.fffffffffffffp1023, 0x1.fffffffffffffp1023};

static int judge(int corotated, double modulus, const double *limits, const double *record, double *stress, uint64_t *verdict) {
    double law[4] = {1, 0.5, modulus, modulus};
    return corotated ? pasoletu_corotated_stress_and_verdict(law, 4, limits, 2, record, 37, stress, 9, verdict, 1)
                     : pasoletu_neo_hookean_stress_and_verdict(law + 1, 3, limits, 2, record, 37, stress, 9, verdict, 1);
}

// The largest size in the lower triangle with the diagonal.
static double lower(const double *t) {
    double m = 0;
    for (int i = 0; i < 3; i++)
        for (int j = 0; j <= i; j++)
            m = size(t[3 * i + j]) > m ? size(t[3 * i + j]) : m;
    return m;
}

static void turn(long double a[3][3], int p, int q) {
    if (a[p][q] == 0)
        return;
    long double h = (a[q][q] - a[p][p]) / (2 * a[p][q]), t = (h < 0 ? -1 : 1) / (size(h) + sqrtl(1 + h * h));
    long double c = 1 / sqrtl(1 + t * t), s = t * c;
    for (int k = 0; k < 3; k++) {
        long double u = a[k][p], v = a[k][q];
        a[k][p] = c * u - s * v;
        a[k][q] = s * u + c * v;
    }
    for (int k = 0; k < 3; k++) {
        long double u = a[p][k], v = a[q][k];
        a[p][k] = c * u - s * v;
        a[q][k] = s * u + c * v;
    }
}

// Least and greatest principal value of the lower triangle, in m, by Jacobi's turns in long double.
static void long_values(const double *t, double m, long double ends[2]) {
    long double a[3][3];
    for (int i = 0; i < 3; i++)
        for (int j = 0; j < 3; j++)
            a[i][j] = m > 0 ? (j <= i ? t[3 * i + j] : t[3 * j + i]) / (long double)m : 0;
    for (int sweep = 0; sweep < 12; sweep++) {
        turn(a, 0, 1);
        turn(a, 0, 2);
        turn(a, 1, 2);
    }
    ends[0] = ends[1] = a[0][0];
    for (int i = 1; i < 3; i++) {
        ends[0] = a[i][i] < ends[0] ? a[i][i] : ends[0];
        ends[1] = a[i][i] > ends[1] ? a[i][i] : ends[1];
    }
}

// How many of four verdicts are wrong, with limits m / 2^37 above and below the greatest value, and above and below the shear.
static int wrong(int corotated, double modulus, const double *record, const double *stress) {
    double m = lower(stress), part = m * 0x1p-37;
    long double ends[2];
    long_values(stress, m, ends);
    double greatest = ends[1] * m, shear = (ends[1] - ends[0]) / 2 * m;
    double limits[4][2] = {{greatest + part, wide[1]}, {greatest - part, wide[1]}, {wide[0], shear + part}, {wide[0], shear - part}};
    int bad = 0;
    for (int k = 0; k < 4; k++) {
        double t[9];
        uint64_t verdict = 9;
        bad += judge(corotated, modulus, limits[k], record, t, &verdict) != 0 || verdict != (uint64_t)(k & 1) || memcmp(t, stress, sizeof t);
    }
    return bad;
}

struct seen {
    long asked, given, refused, missed, named, wrong, far, gave_up;
};

static void look(int corotated, double modulus, const double *record, int measured, struct seen *s) {
    double stress[9];
    uint64_t verdict;
    int r = judge(corotated, modulus, wide, record, stress, &verdict);
    s->asked++;
    s->missed += r == 14;
    s->refused += r != 0 && r != 14;
    if (r != 0)
        return;
    s->given++;
    s->named += named(stress);
    double m = lower(stress);
    if (!measured || m > 0x1p1000 || m < 0x1p-900)
        return;
    s->wrong += wrong(corotated, modulus, record, stress);
#ifdef NALGEBRA
    double values[3];
    long double ends[2];
    long_values(stress, m, ends);
    s->gave_up += !nalgebra_eigenvalues(stress, values);
    long double low = values[0], high = values[0];
    for (int i = 1; i < 3; i++) {
        low = values[i] < low ? values[i] : low;
        high = values[i] > high ? values[i] : high;
    }
    s->far += !(size(low / m - ends[0]) <= 0x1p-37L && size(high / m - ends[1]) <= 0x1p-37L);
#endif
}

// Bad where a stress of a named F is refused by 14, or any of family 0, and where a verdict is wrong.
static int run_law(int family, uint64_t seed, long count, int corotated, double phase) {
    struct seen s = {0};
    long named_missed = 0;
    state = seed;
    for (long n = 0; n < count; n++) {
        matrix f;
        double x[37];
        draw(family, f);
        int r = factor(f, x);
        if (r != 0 && corotated) {
            s.asked += MODULI;
            s.refused += MODULI;
            continue;
        }
        x[30] = phase;
        x[33] = 1;
        long missed = s.missed;
        for (int k = 0; k < MODULI; k++)
            look(corotated, moduli[k], x, n % MODULI == k, &s);
        named_missed += named(f[0]) ? s.missed - missed : 0;
    }
    printf("stresses | %2d | %-38s | %-11s | %3.1f | %8ld | %8ld | %8ld | %6ld | %8ld | %5ld | %5ld | %5ld\n", family, names[family], corotated ? "corotated" : "neo-Hookean", phase,
           s.asked, s.given, s.refused, s.missed, s.named, s.wrong, s.far, s.gave_up);
    return (family == 0 && s.missed != 0) || named_missed != 0 || s.wrong != 0;
}

static int run(int family, uint64_t seed, long count) {
    int bad = 0;
    for (int corotated = 0; corotated < 2; corotated++)
        for (int p = 0; p < PHASES; p++)
            bad |= run_law(family, seed, count, corotated, phases[p]);
    return bad;
}

int main(int argc, char **argv) {
    if (argc != 4)
        return 2;
    printf("Stresses for four sizes of the moduli; named: all nine sizes between 2^-20 and 2^20; wrong: verdicts beside values in long double,\n");
    printf("limits m / 2^37 to either side; far: nalgebra's further than that from those values; gave up: to 1e-6 in 100 steps\n");
    printf("         |    | %-38s | %-11s | %3s | %8s | %8s | %8s | %6s | %8s | %5s | %5s | %s\n", "family", "law", "phase", "asked", "given", "refused", "14", "named",
           "wrong", "far", "gave up");
    int bad = run(0, 6, atol(argv[1]));
    bad |= run(0, 7, atol(argv[2]));
    for (int family = 1; family < FAMILIES; family++)
        bad |= run(family, 100 + family, atol(argv[3]));
    return bad;
}
