// RULES' sections 4, 6 and 7 a second time: the determinant, the sheet, the finite test, the principal stresses of a pass with failure, tallies by zone, and
// the principal values of a stress by Jacobi's turns.
#include <math.h>

#define ONE 0x3ff0000000000000ULL

static double value(uint64_t w) {
    double x;
    memcpy(&x, &w, 8);
    return x;
}

static uint64_t bits(double x) {
    uint64_t w;
    memcpy(&w, &x, 8);
    return w;
}

static int finite_words(const uint64_t *w, size_t n) {
    for (size_t k = 0; k < n; k++)
        if ((w[k] >> 52 & 0x7ff) == 0x7ff)
            return 0;
    return 1;
}

// Of the F that a record begins with, along the first row. Any NaN is 7ff8000000000000.
static uint64_t determinant(const uint64_t *r) {
    double a = value(r[0]), b = value(r[1]), c = value(r[2]), d = value(r[3]), e = value(r[4]), f = value(r[5]), g = value(r[6]), h = value(r[7]), i = value(r[8]);
    double x = a * (e * i - f * h) - b * (d * i - f * g) + c * (d * h - e * g);
    return x != x ? 0x7ff8000000000000ULL : bits(x);
}

// How many floats a record has in a sheet.
static size_t sheet_floats(uint64_t model) {
    return model < MODELS && !WHOLE[model] ? BARE : FLOATS;
}

static int is_flag(uint64_t w) {
    return w == 0 || w == ONE;
}

// Whether a model's flag, if it has one, is told by the bits of 0.0 or 1.0.
static int flag_fits(uint64_t model, const uint64_t *p) {
    return FLAG[model] < 0 || is_flag(p[FLAG[model]]);
}

struct sheet {
    uint8_t refusal;
    uint64_t model, p[8];
    size_t count, at; // at: where the first record begins
};

// A reading place that stops at the first refusal.
struct place {
    const uint8_t *b;
    size_t n, at;
    uint8_t refusal;
};

static uint64_t take_byte(struct place *s) {
    if (s->refusal)
        return 0;
    if (s->at == s->n) {
        s->refusal = 4;
        return 0;
    }
    return s->b[s->at++];
}

static uint64_t take_number(struct place *s) {
    uint64_t n = take_byte(s);
    if (n & 0x80) {
        uint64_t high = take_byte(s);
        if (!s->refusal && (high == 0 || high & 0x80))
            s->refusal = 5;
        n = (n & 0x7f) | high << 7;
    }
    return n;
}

static uint64_t take_word(struct place *s) {
    uint64_t w = 0;
    for (int k = 0; k < 8; k++)
        w |= take_byte(s) << 8 * k;
    return w;
}

static struct sheet head_second(const uint8_t *b, size_t n) {
    struct place s = {b, n, 0, 0};
    struct sheet x = {0};
    x.model = take_number(&s);
    if (!s.refusal && x.model >= MODELS)
        s.refusal = 6;
    for (size_t k = 0; !s.refusal && k < FIELDS[x.model]; k++) {
        x.p[k] = take_word(&s);
        if (!s.refusal && (int)k == FLAG[x.model] && !is_flag(x.p[k]))
            s.refusal = 6;
    }
    x.count = take_number(&s);
    if (!s.refusal && x.count > MOST)
        s.refusal = 7;
    x.at = s.at;
    x.refusal = s.refusal;
    return x;
}

// The records are to end the sheet.
static struct sheet read_second(const uint8_t *b, size_t n) {
    struct sheet x = head_second(b, n);
    size_t wanted = x.refusal ? 0 : 8 * sheet_floats(x.model) * x.count;
    if (!x.refusal && n - x.at != wanted)
        x.refusal = n - x.at < wanted ? 4 : 7;
    return x;
}

// Record words of a sheet that was read; the determinant is filled in where the sheet has none.
static void records_second(const uint8_t *b, const struct sheet *x, uint64_t *out) {
    size_t floats = sheet_floats(x->model);
    struct place s = {b, x->at + x->count * floats * 8, x->at, 0};
    for (size_t k = 0; k < x->count; k++, out += FLOATS) {
        for (size_t i = 0; i < floats; i++)
            out[i] = take_word(&s);
        if (floats < FLOATS)
            out[BARE] = determinant(out);
    }
}

// A number in one or two groups; how many bytes it takes.
static size_t spell_number(uint8_t *b, uint64_t n) {
    b[0] = n < 128 ? n : n | 0x80;
    if (n < 128)
        return 1;
    b[1] = n >> 7;
    return 2;
}

static size_t spell_words(uint8_t *b, const uint64_t *w, size_t n) {
    for (size_t k = 0; k < 8 * n; k++)
        b[k] = w[k / 8] >> k % 8 * 8;
    return 8 * n;
}

// The bytes of a sheet that can be written; how many they are.
static size_t spell_second(uint8_t *b, uint64_t model, const uint64_t *p, const uint64_t *records, size_t count) {
    size_t at = spell_number(b, model);
    at += spell_words(b + at, p, FIELDS[model]);
    at += spell_number(b + at, count);
    for (size_t k = 0; k < count; k++)
        at += spell_words(b + at, records + k * FLOATS, sheet_floats(model));
    return at;
}

// Whether the principal stresses of a record can be told, and then whether they fail. `law` is flag, cfl, lambda, mu.
static int judged(const uint64_t *limits, const uint64_t *law, const uint64_t *r, int *fails) {
    double lambda = value(law[2]), mu = value(law[3]), phase = value(r[30]), h = value(r[33]);
    double sigma[3] = {value(r[18]), value(r[19]), value(r[20])}, stress[3];
    double j = sigma[0] * sigma[1] * sigma[2];
    double volume = lambda * h * (j - 1.0) * j;
    int whole = phase == 1.0, dropped = law[0] == ONE && phase == 0.0;
    if (volume != volume)
        return 0;
    for (int k = 0; k < 3; k++) {
        double e = sigma[k] - 1.0;
        if (whole) {
            stress[k] = 2.0 * mu * h * e * sigma[k] + volume;
        } else {
            double tensile = 2.0 * mu * h * (e > 0.0 ? e : 0.0) * sigma[k];
            double rest = 2.0 * mu * h * (e < 0.0 ? e : 0.0) * sigma[k];
            if (tensile != tensile || rest != rest)
                return 0;
            if (j < 1.0)
                rest += volume;
            else
                tensile += volume;
            stress[k] = tensile * (dropped ? 0.0 : 1.0) + rest;
        }
        if (!(stress[k] - stress[k] == 0.0))
            return 0;
    }
    double most = stress[0], least = stress[0];
    for (int k = 1; k < 3; k++) {
        most = stress[k] > most ? stress[k] : most;
        least = stress[k] < least ? stress[k] : least;
    }
    *fails = most > value(limits[0]) || (most - least) / 2.0 > value(limits[1]);
    return 1;
}

// Clears the entry between two axes of a symmetric matrix.
static void cleared(double a[3][3], int p, int q) {
    if (a[p][q] == 0)
        return;
    double h = (a[q][q] - a[p][p]) / (2 * a[p][q]), t = (h < 0 ? -1 : 1) / (fabs(h) + sqrt(1 + h * h)), c = 1 / sqrt(1 + t * t), s = t * c;
    for (int k = 0; k < 3; k++) {
        double u = a[k][p], v = a[k][q];
        a[k][p] = c * u - s * v;
        a[k][q] = s * u + c * v;
    }
    for (int k = 0; k < 3; k++) {
        double u = a[p][k], v = a[q][k];
        a[p][k] = c * u - s * v;
        a[q][k] = s * u + c * v;
    }
}

// Least and greatest principal value of a stress's lower triangle with its diagonal, and the largest size there.
static void principal_ends(const uint64_t *stress, double ends[2], double *m) {
    double a[3][3];
    *m = 0;
    for (int i = 0; i < 3; i++)
        for (int j = 0; j <= i; j++)
            *m = fabs(value(stress[3 * i + j])) > *m ? fabs(value(stress[3 * i + j])) : *m;
    for (int i = 0; i < 3; i++)
        for (int j = 0; j <= i; j++)
            a[i][j] = a[j][i] = *m > 0 ? value(stress[3 * i + j]) / *m : 0;
    for (int sweep = 0; sweep < 12; sweep++) {
        cleared(a, 0, 1);
        cleared(a, 0, 2);
        cleared(a, 1, 2);
    }
    ends[0] = ends[1] = a[0][0];
    for (int i = 1; i < 3; i++) {
        ends[0] = a[i][i] < ends[0] ? a[i][i] : ends[0];
        ends[1] = a[i][i] > ends[1] ? a[i][i] : ends[1];
    }
    ends[0] *= *m;
    ends[1] *= *m;
}

// ---- tallies by zone: five words a zone, particles now, untouched, stored, refused and failed
#define TALLY 5
#define MOST_ZONES 256
#define LAST_TALLY 0xffffffffULL

enum { CLEAR, MOVE, PASS_BY_ZONE, PASS_WITH_FAILURE_BY_ZONE, CALLS };
static const char *const CALL_NAMES[CALLS] = {"clear_tallies", "move_particle", "pass_by_zone", "pass_with_failure_by_zone"};

// Whether a zone list of so many particles and so many tallies are in range: else 12.
static int zones_second(uint64_t particles, const uint64_t *zones, size_t nz, size_t tallies) {
    int fit = nz == particles && tallies <= MOST_ZONES;
    for (size_t k = 0; k < nz; k++)
        fit = fit && zones[k] < tallies;
    return fit;
}

// Particles now, counted zone by zone.
static uint64_t there_second(const uint64_t *zones, size_t nz, uint64_t zone) {
    uint64_t n = 0;
    for (size_t k = 0; k < nz; k++)
        n += zones[k] == zone;
    return n;
}

static void afresh_second(uint64_t *t, size_t tallies, const uint64_t *zones, size_t nz) {
    for (size_t z = 0; z < tallies; z++)
        t[TALLY * z] = there_second(zones, nz, z);
}

// Whether some so-far number and the particles listed in its zone would pass the last: then 13.
static int full_second(const uint64_t *t, size_t tallies, const uint64_t *zones, size_t nz) {
    for (size_t z = 0; z < tallies; z++)
        for (int k = 1; k < TALLY; k++)
            if (t[TALLY * z + k] > LAST_TALLY - there_second(zones, nz, z))
                return 1;
    return 0;
}

static void outcome_second(uint64_t *t, uint64_t zone, uint64_t outcome, int failed) {
    t[TALLY * zone + 1 + outcome] += 1;
    t[TALLY * zone + 4] += failed;
}
