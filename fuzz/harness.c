// One fuzz target a build, chosen by TARGET: 0 read_sheet, 1 run_sheet, 2 update, 3 pass, 4 pass_with_failure,
// 5 write_sheet, 6 parts, 7 tallies, 8 flat.
// README.md says what is checked. The first thing that does not hold is printed, and the run stops there.
#include "rooms.h"
#include "calls.h"
#include "second.h"
#ifdef BREAK
#include "broken.h"
#endif
#include <math.h>
#include <stdarg.h>
#define SHEETS (TARGET < 2 || TARGET == 5 || TARGET == 6) // an input is a sheet's bytes
#define JUDGED (TARGET == 4 || TARGET == 7) // limits and a corotated law stand in it
#define FLAT (TARGET == 8) // its records have two axes and no determinant
// Where a record's parts stand, F first, and how many floats it has.
#define AXES (FLAT ? 2 : 3)
#define U_AT (AXES * AXES)
#define SIGMA_AT (2 * U_AT)
#define VT_AT (SIGMA_AT + AXES)
#define PHASE_AT (VT_AT + U_AT)
#define WIDTH (FLAT ? FLAT_FLOATS : FLOATS)
#include "mutate.h"

// ---- a row a law: which of the six scalars it may change, the place of its amount among them, and parameters that a user might give
static const uint8_t named[LAWS][6] = {{0, 1, 0, 1, 0, 0}, {0, 0, 1, 0, 0, 0}, {0, 1, 1, 0, 1, 0}, {0, 0, 0, 0, 0, 1}};
static const int amount[LAWS] = {3, 2, 2, 5};

static void user_parameters(size_t law, double *p) {
    double young = pow(10.0, between(2.0, 7.0)), poisson = below(8) ? between(0.0, 0.49) : between(-1.0, 1.0), flag = below(2);
    double drawn[LAWS][8] = {{between(0.0, 0.1), between(0.0, 0.02), between(1.0, 20.0)},
                             {young, poisson, young * pow(10.0, between(-5.0, 0.0)), pow(10.0, between(-2.0, 6.0))},
                             {between(0.0, 1.2), between(0.0, 0.4), between(0.0, 0.5), between(0.0, 0.4), young * between(0.1, 2.0), young * between(0.1, 1.0), flag, between(0.0, 1.5)},
                             {young, poisson, between(0.0, 1.0), flag, between(0.0, 5.0), between(0.1, 3.0)}};
    memcpy(p, drawn[law], sizeof drawn[law]);
}

#define ROOM (MOST * FLOATS)
#define LONGEST (1 + 8 * 8 + 2 + 8 * ROOM) // bytes of a sheet
#define PASSED 8 // records in an input for the passes

static struct room sheet_room, parameters_room, limits_room, law_room, records_room, answers_room, out_room, one_room, two_room, bytes_room, few_room, state_room, progress_room, zones_room, tallies_room;

// What was met is told to the fuzzer as coverage, since the library itself is not instrumented.
__attribute__((section("__libfuzzer_extra_counters"))) static uint8_t met[1024];

static void fault(const char *what, ...) {
    va_list v;
    va_start(v, what);
    fprintf(stderr, "\nFAULT: ");
    vfprintf(stderr, what, v);
    fprintf(stderr, "\n");
    va_end(v);
    abort();
}

static void check(int holds, const char *what, uint64_t a, uint64_t b) {
    if (!holds)
        fault("%s (%llx, %llx)", what, (unsigned long long)a, (unsigned long long)b);
}

static void check_room(const struct room *r, const char *what) {
    if (kept(r))
        return;
    const uint64_t *w = (const uint64_t *)r->write, *want = (const uint64_t *)r->want;
    size_t all = r->bytes / 8;
    for (size_t k = 0; k < all; k++)
        if (w[k] != want[k])
            fault("%s: word %ld from the end is %016llx and should be %016llx", what, (long)(all - k), (unsigned long long)w[k], (unsigned long long)want[k]);
}

// ---- one record: pasoletu_update alone (pasoletu_flat_update of a flat one), and what RULES says of any answer

struct done {
    uint8_t status;
    uint64_t record[FLOATS], answer[2];
};

static unsigned long surfaces; // records that demand 3 was asked of

static double larger(double a, double b) {
    return b < a ? a : b;
}

static double smaller(double a, double b) {
    return a < b ? a : b;
}

static double snow_clamped(const uint64_t *p, uint64_t sigma) {
    return smaller(larger(value(sigma), 1.0 - value(p[0])), 1.0 + value(p[1]));
}

static double snow_determinant(const uint64_t *p, const uint64_t *was) {
    double old = value(was[SIGMA_AT]), new = snow_clamped(p, was[SIGMA_AT]);
    for (int k = 1; k < AXES; k++) {
        old *= value(was[SIGMA_AT + k]);
        new *= snow_clamped(p, was[SIGMA_AT + k]);
    }
    return value(was[PHASE_AT + 1]) * (old / new);
}

// Section 6: Snow asks one function, the exponential. 2 comes exactly where its argument lies below -700, 10 exactly where above 700.
static void check_side(const uint64_t *p, const uint64_t *was, uint8_t status) {
    double x = value(p[2]) * (1.0 - snow_determinant(p, was));
    check((status == 2) == (x < -700.0) && (status == 10) == (x > 700.0), "Snow's exponential, refused by its argument's side: answer, argument", status, bits(x));
}

// Demand 3: in its ranges the sigma that Rankine stored put the largest principal stress on the yield surface, here by the machine's logarithms.
static void check_surface(const uint64_t *p, const uint64_t *was, const uint64_t *r) {
    double young = value(p[0]), poisson = value(p[1]), hardening = value(was[PHASE_AT + 2]), s = value(p[2]) - (hardening - 1.0);
    double mu = young / (2.0 * (1.0 + poisson)), lambda = young * poisson / ((1.0 + poisson) * (1.0 - 2.0 * poisson));
    double whole = 2.0 * mu + AXES * lambda, sum = 0.0, most = -INFINITY;
    int within = mu >= 1.0 && mu <= 0x1p40 && lambda >= 0.0 && lambda <= 0x1p40 && fabs(s) <= 4.0 * whole;
    for (int k = SIGMA_AT; k < VT_AT; k++) {
        double strain = log(value(r[k]));
        sum += strain;
        most = larger(most, strain);
        within = within && fabs(log(value(was[k]))) <= 4.0;
    }
    double stress = lambda * sum + 2.0 * mu * most;
    check(!within || fabs(stress - s) <= ldexp(whole, -39), "Rankine's stored sigma are not on the yield surface: stress, should be", bits(stress), bits(s));
    check(value(r[PHASE_AT + 2]) <= value(p[2]), "Rankine's stored hardening is over the strength", r[PHASE_AT + 2], p[2]);
    surfaces += within;
}

// Section 7: F is recomposed, U and V^T stay, and of the six scalars only those that the law names may change.
static void check_stored(uint64_t model, const uint64_t *p, const uint64_t *was, const struct done *d) {
    const uint64_t *r = d->record;
    model = LAW_OF[model];
    check(finite_words(r, WIDTH) && finite_words(d->answer + 1, 1), "a stored float is not finite", model, 0);
    if (!FLAT)
        check(r[BARE] == determinant(r), "the stored determinant is not that of F: bits, should be", r[BARE], determinant(r));
    for (int k = U_AT; k < PHASE_AT + 6; k++) {
        int free = (k >= SIGMA_AT && k < VT_AT) || (k >= PHASE_AT && named[model][k - PHASE_AT]);
        check(free || r[k] == was[k], "an update changed a float that its law does not name: place, bits", k, r[k]);
    }
    for (int i = 0; i < AXES; i++)
        for (int j = 0; j < AXES; j++) {
            double f = value(r[U_AT + AXES * i]) * value(r[SIGMA_AT]) * value(r[VT_AT + j]);
            for (int k = 1; k < AXES; k++)
                f += value(r[U_AT + AXES * i + k]) * value(r[SIGMA_AT + k]) * value(r[VT_AT + AXES * k + j]);
            check(bits(f) == r[AXES * i + j], "F is not U sigma V^T: place, bits", AXES * i + j, r[AXES * i + j]);
        }
    uint64_t before = was[PHASE_AT + amount[model]], stored = r[PHASE_AT + amount[model]];
    if (model == 2)
        check(bits(value(before) + value(d->answer[1])) == stored, "dq is not what the hardening grew by", d->answer[1], stored);
    else
        check(d->answer[1] == stored, "the amount is not the float that was stored", d->answer[1], stored);
    if (model == 1)
        check_surface(p, was, r);
    if (model == 0) {
        for (int k = SIGMA_AT; k < VT_AT; k++)
            check(bits(snow_clamped(p, was[k])) == r[k], "a sigma is not clamped: bits, should be", r[k], bits(snow_clamped(p, was[k])));
        double det = snow_determinant(p, was), x = value(p[2]) * (1.0 - det), h = value(stored);
        check(bits(det) == r[PHASE_AT + 1], "Snow's plastic determinant", r[PHASE_AT + 1], bits(det));
        check(fabs(h - exp(x)) <= ldexp(exp(x), -44), "Snow's elastic hardening is not the exponential", stored, bits(exp(x)));
    }
}

// What a run has met in all, printed at its end: a target that never reaches a law's outcome has not tried it.
// An outcome is untouched, stored, or refused by 1, 2, 3, 10 or 11.
static unsigned long outcomes[LAWS][7], verdicts[2], refusals[9], writes[10], fills[9], parts_told[16], ends_told[16], judgements[2][16], tallied[CALLS][14];

static void print_met(void) {
    if (SHEETS)
        fprintf(stderr, "met: sheets read %lu, refused 4: %lu, 5: %lu, 6: %lu, 7: %lu\n", refusals[0], refusals[4], refusals[5], refusals[6], refusals[7]);
    if (TARGET == 5)
        fprintf(stderr, "met: sheets written %lu, refused 6: %lu, 7: %lu, 8: %lu, 9: %lu\n", writes[0], writes[6], writes[7], writes[8], writes[9]);
    if (TARGET == 6) {
        fprintf(stderr, "met: parts taken %lu, refused 5: %lu, 6: %lu, 7: %lu, 4 again: %lu, 15: %lu, 8: %lu\n", parts_told[0], parts_told[5], parts_told[6], parts_told[7], parts_told[4], parts_told[15], parts_told[8]);
        fprintf(stderr, "met: ends taken %lu, refused 4: %lu, 5: %lu, 6: %lu, 7: %lu, 15: %lu, 8: %lu\n", ends_told[0], ends_told[4], ends_told[5], ends_told[6], ends_told[7], ends_told[15], ends_told[8]);
    }
    for (int k = 0; k < (TARGET % 5 && TARGET != 6 ? LAWS : 0); k++)
        fprintf(stderr, "met: %s untouched %lu, stored %lu, refused 1: %lu, 2: %lu, 3: %lu, 10: %lu, 11: %lu\n", NAMES[k], outcomes[k][0], outcomes[k][1], outcomes[k][2], outcomes[k][3], outcomes[k][4], outcomes[k][5], outcomes[k][6]);
    if (TARGET == 2 || FLAT)
        fprintf(stderr, "met: rankine in demand 3's ranges %lu\n", surfaces);
    if (TARGET == 3)
        fprintf(stderr, "met: lists filled %lu, refused 8: %lu\n", fills[0], fills[8]);
    for (int k = 0; k < (TARGET == 7 ? CALLS : 0); k++)
        fprintf(stderr, "met: %s done %lu, refused 6: %lu, 8: %lu, 12: %lu, 13: %lu\n", CALL_NAMES[k], tallied[k][0], tallied[k][6], tallied[k][8], tallied[k][12], tallied[k][13]);
    if (JUDGED)
        fprintf(stderr, "met: failed %lu, not failed %lu\n", verdicts[1], verdicts[0]);
    for (int k = 0; k < (TARGET == 4 ? 2 : 0); k++)
        fprintf(stderr, "met: %s stress and verdict %lu, refused 1: %lu, 2: %lu, 3: %lu, 6: %lu, 8: %lu, 10: %lu, 11: %lu, 14: %lu\n", k ? "corotated" : "neo-Hookean", judgements[k][0], judgements[k][1], judgements[k][2], judgements[k][3], judgements[k][6], judgements[k][8], judgements[k][10], judgements[k][11], judgements[k][14]);
}

static void tell(uint64_t model, const uint64_t *was, const struct done *d) {
    uint8_t kind = d->status ? d->status : 16 + d->answer[0];
    model = LAW_OF[model];
    met[model * 32 + kind] = 1;
    unsigned place = d->status >= 10 ? d->status - 5 : d->status + 1;
    outcomes[model][d->status ? place : d->answer[0]]++;
    if (d->status || d->answer[0] == 0)
        return;
    unsigned same = 0;
    for (int k = 0; k < AXES; k++) {
        same |= (d->record[SIGMA_AT + k] == was[SIGMA_AT + k]) << k;
        same |= (d->record[SIGMA_AT + k] == d->record[SIGMA_AT + (k + 1) % AXES]) << (3 + k);
    }
    same |= (d->record[SIGMA_AT] == ONE) << 6;
    met[128 + model * 128 + same] = 1;
}

static int lengths_fit(uint64_t model, size_t np) {
    return model >= MODELS || np == FIELDS[model];
}

// An update of a record, with the lengths given; what it leaves is checked against everything that RULES says of it.
static struct done updated(uint64_t model, const uint64_t *p, size_t np, const uint64_t *was, size_t nr, size_t na) {
    struct done d = {0};
    uint64_t *r = lend(&one_room, was, nr), *a = lend(&two_room, NULL, na);
    const uint64_t *shown = show(&parameters_room, p, np);
    d.status = FLAT ? pasoletu_flat_update(model, shown, np, r, nr, a, na) : pasoletu_update(model, shown, np, r, nr, a, na);
    if (!lengths_fit(model, np) || nr != WIDTH || na != 2) {
        check(d.status == 8, "update with lists of the wrong length: answer", d.status, 8);
    } else if (model >= MODELS || !flag_fits(model, p)) {
        check(d.status == 6, "update with an unknown model or flag: answer", d.status, 6);
    } else {
        int one = !finite_words(p, np) || !finite_words(was, WIDTH);
        check((d.status == 1) == one, "refusal 1 comes exactly where a float is not finite: answer, should be 1", d.status, one);
        int eleven = !FLAT && !one && was[BARE] != determinant(was);
        check((d.status == 11) == eleven, "refusal 11 comes exactly where the stored determinant has other bits than F's, and after 1: answer, should be 11", d.status, eleven);
        check(d.status <= 3 || d.status == 10 || d.status == 11, "update: answer", d.status, 0);
        if (LAW_OF[model] == 0 && !one && !eleven)
            check_side(p, was, d.status);
        if (d.status == 0) {
            check(a[0] <= 1 && (a[0] == 1 || a[1] == 0), "update's answer places", a[0], a[1]);
            memcpy(d.record, r, 8 * WIDTH);
            memcpy(d.answer, a, sizeof d.answer);
            if (a[0] == 1) {
                memcpy(wanted(&one_room, WIDTH), r, 8 * WIDTH);
                check_stored(model, p, was, &d);
            }
            memcpy(wanted(&two_room, 2), a, sizeof d.answer);
        }
        tell(model, was, &d);
    }
    check_room(&one_room, d.status ? "update was refused and wrote its record" : "update's record");
    check_room(&two_room, "update's answer");
    return d;
}

// ---- lists: what a pass is to leave, from the update alone on each record

struct judge {
    uint64_t limits[3], law[5];
    size_t nl, nw; // the lengths that are lent: 2 and 4, or others
};

static uint64_t want_records[ROOM], want_answers[2 * MOST], want_counts[4];
static int want_failed[MOST];

static void want_pass(uint64_t model, const uint64_t *p, const struct judge *j, const uint64_t *records, size_t count) {
    memset(want_counts, 0, sizeof want_counts);
    for (size_t k = 0; k < count; k++) {
        const uint64_t *r = records + k * WIDTH;
        int fails = 0;
        struct done d = {0};
        if (j && !(finite_words(j->limits, 2) && finite_words(j->law, 4)))
            d.status = 1;
        else
            d = updated(model, p, FIELDS[model], r, WIDTH, 2);
        // the verdict on the record that the law leaves, whose phase is still the one that came
        if (j && !d.status && !judged(j->limits, j->law, d.record, &fails))
            d.status = 3;
        if (fails)
            d.record[30] = 0;
        if (j)
            met[640 + LAW_OF[model] * 16 + (d.status ? d.status : 4 + fails * 2 + d.answer[0])] = 1;
        memcpy(want_records + k * WIDTH, d.status ? r : d.record, 8 * WIDTH);
        want_answers[2 * k] = d.status ? 2 : d.answer[0];
        want_answers[2 * k + 1] = d.status ? d.status : d.answer[1];
        want_counts[d.status ? 2 : d.answer[0]]++;
        want_counts[3] += fails;
        want_failed[k] = fails;
        verdicts[fails] += !d.status;
    }
}

static void one_pass(uint64_t model, const uint64_t *p, size_t np, const struct judge *j, const uint64_t *records, size_t nr, size_t na, size_t nc) {
    size_t count = nr / WIDTH, places = j ? 4 : 3;
    uint8_t want = 0;
    if (!lengths_fit(model, np) || nr % WIDTH || na != 2 * count || nc != places || (j && (j->nl != 2 || j->nw != 4)))
        want = 8;
    else if (model >= MODELS || !flag_fits(model, p) || (j && !is_flag(j->law[0])))
        want = 6;
    else
        want_pass(model, p, j, records, count);
    uint64_t *r = lend(&records_room, records, nr), *a = lend(&answers_room, NULL, na), *c = lend(&out_room, NULL, nc);
    const uint64_t *shown = show(&parameters_room, p, np);
    uint8_t got = j ? pasoletu_pass_with_failure(model, shown, np, show(&limits_room, j->limits, j->nl), j->nl, show(&law_room, j->law, j->nw), j->nw, r, nr, a, na, c, nc)
                : FLAT ? pasoletu_flat_pass(model, shown, np, r, nr, a, na, c, nc)
                       : pasoletu_pass(model, shown, np, r, nr, a, na, c, nc);
    check(got == want, "a pass: answer, should be", got, want);
    if (!want) {
        memcpy(wanted(&records_room, nr), want_records, 8 * nr);
        memcpy(wanted(&answers_room, na), want_answers, 8 * na);
        memcpy(wanted(&out_room, nc), want_counts, 8 * nc);
    }
    check_room(&records_room, want ? "a refused pass wrote its records" : "a pass's records");
    check_room(&answers_room, want ? "a refused pass wrote its answers" : "a pass's answers");
    check_room(&out_room, want ? "a refused pass wrote its counts" : "a pass's counts");
}

// The determinants of a list filled in: 8 for one that is not of whole records, else each last float, whatever stood there.
static void one_fill(const uint64_t *records, size_t nr) {
    uint8_t want = nr % FLOATS ? 8 : 0;
    uint64_t *r = lend(&records_room, records, nr);
    uint8_t got = pasoletu_fill_determinants(r, nr);
    check(got == want, "fill_determinants: answer, should be", got, want);
    if (!want)
        for (uint64_t *w = wanted(&records_room, nr), *end = w + nr; w < end; w += FLOATS)
            w[BARE] = determinant(w);
    check_room(&records_room, want ? "a refused fill_determinants wrote its records" : "fill_determinants's records");
    fills[want]++;
}

// Stress and verdict of a record by either solid law, in lists of the lengths given: 8, 6, 1 and 11 exactly where RULES says and in this order; what is
// refused writes neither; the stress is finite, and the verdict that on its principal values as worked in second.h, where no limit is near one.
static void one_judged(int corotated, const struct judge *j, const uint64_t *record, size_t nr, size_t ns, size_t nv) {
    const uint64_t *law = j->law + !corotated;
    size_t nw = j->nw - !corotated, fields = 3 + corotated;
    uint64_t *s = lend(&out_room, NULL, ns), *v = lend(&two_room, NULL, nv);
    const uint64_t *l = show(&limits_room, j->limits, j->nl), *w = show(&law_room, law, nw), *r = show(&records_room, record, nr);
    uint8_t got = corotated ? pasoletu_corotated_stress_and_verdict(w, nw, l, j->nl, r, nr, s, ns, v, nv)
                            : pasoletu_neo_hookean_stress_and_verdict(w, nw, l, j->nl, r, nr, s, ns, v, nv);
    uint8_t want = 0;
    if (nw != fields || j->nl != 2 || nr != FLOATS || ns != 9 || nv != 1)
        want = 8;
    else if (corotated && !is_flag(law[0]))
        want = 6;
    else if (!finite_words(law, fields) || !finite_words(j->limits, 2) || !finite_words(record, FLOATS))
        want = 1;
    else if (record[BARE] != determinant(record))
        want = 11;
    if (want)
        check(got == want, "stress and verdict: answer, should be", got, want);
    else
        check(got == 0 || got == 3 || got == 14 || (!corotated && (got == 2 || got == 10)), "stress and verdict: answer", got, 0);
    if (got == 0) {
        double ends[2], m;
        check(finite_words(s, 9) && v[0] <= 1, "a stress is not finite, or its verdict neither yes nor no", s[0], v[0]);
        principal_ends(s, ends, &m);
        double shear = ends[1] / 2 - ends[0] / 2, a = value(j->limits[0]), b = value(j->limits[1]), part = m * 0x1p-36;
        int told = ends[1] > a || shear > b, near = fabs(ends[1] - a) <= part || fabs(shear - b) <= part;
        check(near || m > 0x1p1000 || m < 0x1p-900 || v[0] == (uint64_t)told, "a stress's verdict, should be", v[0], told);
        memcpy(wanted(&out_room, 9), s, 72);
        memcpy(wanted(&two_room, 1), v, 8);
    }
    check_room(&out_room, got ? "a refused stress and verdict wrote the stress" : "a stress");
    check_room(&two_room, got ? "a refused stress and verdict wrote the verdict" : "a verdict");
    judgements[corotated][got < 15 ? got : 15]++;
    met[960 + corotated * 32 + (got ? got : 16 + v[0])] = 1;
}

// ---- sheets

static uint64_t sheet_records[ROOM];

static void one_read(const uint8_t *b, size_t n, int at_start, const struct sheet *x, size_t nh, size_t nr) {
    uint8_t want = nh != 11 || nr % FLOATS ? 8 : x->refusal ? x->refusal : x->count * FLOATS > nr ? 8 : 0;
    uint64_t *h = lend(&out_room, NULL, nh), *r = lend(&records_room, NULL, nr);
    uint8_t got = pasoletu_read_sheet(show_bytes(&sheet_room, b, n, at_start), n, h, nh, r, nr);
    check(got == want, "read_sheet: answer, should be", got, want);
    if (!want) {
        uint64_t *w = wanted(&out_room, nh);
        w[0] = x->model;
        memcpy(w + 1, x->p, sizeof x->p);
        w[9] = x->count;
        w[10] = x->at;
        memcpy(wanted(&records_room, nr), sheet_records, 8 * FLOATS * x->count);
    }
    check_room(&out_room, want ? "a refused read_sheet wrote its header" : "read_sheet's header");
    check_room(&records_room, want ? "a refused read_sheet wrote its records" : "read_sheet's records");
}

static void one_run(const uint8_t *b, size_t n, int at_start, const struct sheet *x, size_t nr, size_t na, size_t nc) {
    uint8_t want = nc != 4 || nr % FLOATS || na != nr / FLOATS * 2 ? 8 : x->refusal ? x->refusal : x->count * FLOATS > nr ? 8 : 0;
    uint64_t *r = lend(&records_room, NULL, nr), *a = lend(&answers_room, NULL, na), *c = lend(&out_room, NULL, nc);
    uint8_t got = pasoletu_run_sheet(show_bytes(&sheet_room, b, n, at_start), n, r, nr, a, na, c, nc);
    check(got == want, "run_sheet: answer, should be", got, want);
    if (!want) {
        memcpy(wanted(&records_room, nr), want_records, 8 * FLOATS * x->count);
        memcpy(wanted(&answers_room, na), want_answers, 16 * x->count);
        uint64_t *w = wanted(&out_room, nc);
        w[0] = x->count;
        memcpy(w + 1, want_counts, 24);
    }
    check_room(&records_room, want ? "a refused run_sheet wrote its records" : "run_sheet's records");
    check_room(&answers_room, want ? "a refused run_sheet wrote its answers" : "run_sheet's answers");
    check_room(&out_room, want ? "a refused run_sheet wrote its counts" : "run_sheet's counts");
}

static struct sheet sheet_told(const uint8_t *b, size_t n) {
    struct sheet x = read_second(b, n);
    if (!x.refusal)
        records_second(b, &x, sheet_records);
    met[720 + x.refusal] = 1;
    refusals[x.refusal]++;
    return x;
}

static void read_sheet_target(const uint8_t *b, size_t n) {
    struct sheet x = sheet_told(b, n);
    size_t exact = x.refusal ? 0 : x.count * FLOATS;
    one_read(b, n, 0, &x, 11, ROOM);
    one_read(b, n, 1, &x, 11, exact);
    one_read(b, n, 0, &x, 11, exact + 1 + n % (FLOATS - 1));
    one_read(b, n, 0, &x, n % 2 ? 10 : 12, ROOM);
    if (exact)
        one_read(b, n, 0, &x, 11, exact - FLOATS);
}

static void run_sheet_target(const uint8_t *b, size_t n) {
    struct sheet x = sheet_told(b, n);
    size_t exact = x.refusal ? 0 : x.count * FLOATS;
    if (!x.refusal)
        want_pass(x.model, x.p, NULL, sheet_records, x.count);
    one_run(b, n, 0, &x, ROOM, 2 * MOST, 4);
    one_run(b, n, 1, &x, exact, exact / FLOATS * 2, 4);
    one_run(b, n, 0, &x, exact + 1 + n % (FLOATS - 1), exact / FLOATS * 2, 4);
    one_run(b, n, 0, &x, ROOM, 2 * MOST + (n % 2 ? 1 : -1), 4);
    one_run(b, n, 0, &x, ROOM, 2 * MOST, n % 3 ? 3 : 5);
    if (exact)
        one_run(b, n, 0, &x, exact - FLOATS, exact / FLOATS * 2 - 2, 4);
}

// ---- sheets out: 8, 6, 7 and 9 in this order, or the bytes of a second writer at the front of the room

static uint8_t spelled[LONGEST];

static void one_write(uint64_t model, const uint64_t *p, size_t np, const uint64_t *records, size_t nr, size_t room, size_t nw) {
    size_t count = nr / FLOATS, length = 0;
    uint8_t want = 0;
    if (nw != 1 || nr % FLOATS || !lengths_fit(model, np))
        want = 8;
    else if (model >= MODELS || !flag_fits(model, p))
        want = 6;
    else if (count > MOST)
        want = 7;
    else {
        length = spell_second(spelled, model, p, records, count);
        want = length > room ? 9 : 0;
    }
    struct room *lent = room + 64 > few_room.bytes ? &bytes_room : &few_room;
    uint8_t *b = lend_bytes(lent, room);
    uint64_t *w = lend(&out_room, NULL, nw);
    uint8_t got = pasoletu_write_sheet(model, show(&parameters_room, p, np), np, show(&records_room, records, nr), nr, b, room, w, nw);
    check(got == want, "write_sheet: answer, should be", got, want);
    if (!want) {
        memcpy(wanted_bytes(lent, room), spelled, length);
        wanted(&out_room, nw)[0] = length;
    }
    check_room(lent, want ? "a refused write_sheet wrote its room" : "write_sheet's room");
    check_room(&out_room, want ? "a refused write_sheet wrote its length" : "write_sheet's length");
    writes[want]++;
    met[740 + want * MODELS + model % MODELS] = 1;
}

// A sheet that was read is written again, to its own bytes, in rooms round its length.
static void same_bytes(const uint8_t *b, size_t n, const struct sheet *x) {
    size_t nr = x->count * FLOATS, np = FIELDS[x->model];
    one_write(x->model, x->p, np, sheet_records, nr, n, 1);
    check(memcmp(b, spelled, n) == 0, "a sheet that was read is not written to the same bytes: length, count", n, x->count);
    one_write(x->model, x->p, np, sheet_records, nr, n + 1 + n % 61, 1);
    one_write(x->model, x->p, np, sheet_records, nr, n - 1, 1);
    one_write(x->model, x->p, np, sheet_records, nr, n % 7 ? below(n) : 0, n % 5 ? 1 : n % 2 * 2);
}

// Any bytes as a model, lengths, parameters and records: the records are the input's words over and over.
static void any_sheet(const uint8_t *b, size_t n) {
    static uint64_t records[ROOM + FLOATS];
    struct place s = {b, n, 0, 0};
    uint64_t first = take_byte(&s), lengths = take_byte(&s), many = take_byte(&s), p[9], words[9];
    uint64_t model = first < 0xe0 ? first % MODELS : first < 0xf0 ? first % (2 * MODELS) : draw();
    size_t np = FIELDS[model % MODELS] + (lengths % 16 ? 0 : lengths & 16 ? 1 : -1);
    for (int k = 0; k < 9; k++)
        words[k] = take_word(&s);
    memcpy(p, words, sizeof p);
    if (model < MODELS && FLAG[model] >= 0 && lengths & 32)
        p[FLAG[model]] = lengths & 64 ? ONE : lengths & 128 ? 1ULL << 63 : 0;
    size_t nr = (many < 248 ? many % 6 : many % 2 ? 126 + below(4) : 199 + below(3)) * FLOATS + (lengths % 32 == 1 ? 1 + many % (FLOATS - 1) : 0);
    if (nr > ROOM + FLOATS)
        nr = ROOM + FLOATS;
    for (size_t k = 0; k < nr; k++)
        records[k] = words[k % 9] + k / 9 * 0x9e3779b97f4a7c15ULL;
    size_t exact = model < MODELS ? 1 + 8 * FIELDS[model] + (nr / FLOATS < 128 ? 1 : 2) + 8 * sheet_floats(model) * (nr / FLOATS) : 1;
    if (exact > LONGEST)
        exact = LONGEST;
    one_write(model, p, np, records, nr, exact, 1);
    one_write(model, p, np, records, nr, exact - 1, 1);
    one_write(model, p, np, records, nr, below(lengths % 16 ? PAGE : LONGEST + 1), lengths % 64 == 2 ? many % 3 : 1);
}

static void write_sheet_target(const uint8_t *b, size_t n) {
    struct sheet x = sheet_told(b, n);
    if (!x.refusal)
        same_bytes(b, n, &x);
    any_sheet(b, n);
}

// ---- a sheet in parts, cut anywhere, beside the run of the whole

#define STATE 52
static uint64_t whole_records[ROOM], whole_answers[2 * MOST];

// How many records are whole in the first n bytes, how many the sheet says it has (0 where that is not known), and its refusal.
static size_t whole_in(const uint8_t *b, size_t n, size_t *count, uint8_t *refusal) {
    struct sheet x = head_second(b, n);
    *refusal = read_second(b, n).refusal;
    *count = x.refusal ? 0 : x.count;
    size_t k = x.refusal ? 0 : (n - x.at) / (8 * sheet_floats(x.model));
    return k < *count ? k : *count;
}

struct came {
    uint8_t fault; // the number that is told again, or 0
    size_t complete, count;
};

// What the lists are to hold: the complete records of the whole run, then marks; state and progress as they are, inside their ends.
static void want_lists(const struct came *c) {
    memcpy(wanted(&records_room, ROOM), whole_records, 8 * FLOATS * c->complete);
    memcpy(wanted(&answers_room, 2 * MOST), whole_answers, 16 * c->complete);
    check_room(&records_room, "the records of a sheet in parts");
    check_room(&answers_room, "the answers of a sheet in parts");
    check_room(&state_room, "around the state of a sheet in parts");
    check_room(&progress_room, "the progress of a sheet in parts");
}

static uint64_t *lent_state(void) {
    return (uint64_t *)(state_room.write + state_room.bytes) - STATE;
}

static void want_told(const struct came *c, uint8_t got, uint8_t want, const char *what) {
    check(got == want, what, got, want);
    uint64_t *p = wanted(&progress_room, 2), *state = lent_state(), *held = wanted(&state_room, STATE);
    if (!c->fault) {
        p[0] = c->complete;
        p[1] = c->count;
    }
    if (c->fault)
        check(memcmp(state, held, 8 * STATE) == 0, "a call after a fault or the end changed the state: number", want, 0);
    memcpy(held, state, 8 * STATE);
    want_lists(c);
}

// A list of another length: 8, before all else, with nothing written.
static void wrong_lengths(const struct came *c, const uint8_t *b, size_t n) {
    uint64_t *state = lent_state(), *r = (uint64_t *)(records_room.write + records_room.bytes) - ROOM;
    uint64_t *a = (uint64_t *)(answers_room.write + answers_room.bytes) - 2 * MOST, *p = (uint64_t *)(progress_room.write + progress_room.bytes) - 2;
    int which = below(5);
    size_t ns = STATE - (which == 0), nr = ROOM - (which == 1 ? FLOATS : 0), na = 2 * MOST - (which == 2), np = 2 - (which == 3);
    if (which == 4)
        ns = 0, nr = 0, na = 0;
    uint8_t got = pasoletu_part(show_bytes(&sheet_room, b, n, 0), n, state, ns, r, nr, a, na, p, np);
    check(got == 8, "a part with a list of the wrong length: answer", got, 8);
    parts_told[got]++;
    got = pasoletu_end_parts(r, nr, a, na, state, ns, p, np);
    check(got == 8, "an end with a list of the wrong length: answer", got, 8);
    ends_told[got]++;
    want_lists(c);
}

// Every call lends another list of progress, so that one that is written after a fault or the end is seen.
static uint8_t handed(struct came *c, const uint8_t *b, size_t from, size_t n, uint64_t *state, uint64_t *r, uint64_t *a) {
    uint64_t *p = lend(&progress_room, NULL, 2);
    uint8_t refusal = 0;
    if (!c->fault)
        c->complete = whole_in(b, from + n, &c->count, &refusal);
    uint8_t want = c->fault ? c->fault : refusal == 4 ? 0 : refusal;
    uint8_t got = pasoletu_part(show_bytes(&sheet_room, b + from, n, n % 2), n, state, STATE, r, ROOM, a, 2 * MOST, p, 2);
    want_told(c, got, want, "a part: answer, should be");
    c->fault = want;
    parts_told[got]++;
    return want;
}

static void ended(struct came *c, const uint8_t *b, size_t n, uint64_t *state, uint64_t *r, uint64_t *a) {
    uint64_t *p = lend(&progress_room, NULL, 2);
    uint8_t want = c->fault, refusal = 0;
    if (!want) {
        whole_in(b, n, &c->count, &refusal);
        want = refusal;
    }
    uint8_t got = pasoletu_end_parts(r, ROOM, a, 2 * MOST, state, STATE, p, 2);
    want_told(c, got, want, "an end: answer, should be");
    c->fault = want ? want : 15;
    ends_told[got]++;
}

// The longest part of a style, so that some sheets come byte by byte, some whole.
static void one_cutting(const uint8_t *b, size_t n, size_t longest) {
    struct came c = {0, 0, 0};
    uint64_t *state = lend(&state_room, NULL, STATE), *r = lend(&records_room, NULL, ROOM), *a = lend(&answers_room, NULL, 2 * MOST);
    uint8_t got = pasoletu_begin_parts(state, STATE);
    check(got == 0, "begin_parts: answer", got, 0);
    memcpy(wanted(&state_room, STATE), state, 8 * STATE);
    for (size_t at = 0; at < n;) {
        size_t k = below(8) ? 1 + below(longest) : 0;
        k = k > n - at ? n - at : k;
        handed(&c, b, at, k, state, r, a);
        at += k;
        if (!below(16))
            wrong_lengths(&c, b, k);
    }
    ended(&c, b, n, state, r, a);
    handed(&c, b, 0, n ? below(n) : 0, state, r, a);
    handed(&c, b, 0, 0, state, r, a);
    ended(&c, b, n, state, r, a);
}

// The run of the whole: of a sheet that is refused for its length, of its whole records alone.
static void want_whole(const uint8_t *b, size_t n, const struct sheet *x) {
    static uint8_t shorter[LONGEST];
    uint64_t counts[4];
    size_t count = 0, from = n;
    uint8_t refusal, got = 0;
    size_t k = whole_in(b, n, &count, &refusal);
    if (!refusal) {
        got = pasoletu_run_sheet(b, n, whole_records, ROOM, whole_answers, 2 * MOST, counts, 4);
    } else if (k) {
        records_second(b, &(struct sheet){0, x->model, {0}, k, x->at}, sheet_records);
        from = spell_second(shorter, x->model, x->p, sheet_records, k);
        got = pasoletu_run_sheet(shorter, from, whole_records, ROOM, whole_answers, 2 * MOST, counts, 4);
    }
    check(got == 0, "run_sheet of the whole records: answer", got, 0);
}

static void parts_target(const uint8_t *b, size_t n) {
    struct sheet x = sheet_told(b, n);
    want_whole(b, n, &x);
    one_cutting(b, n, n < 1500 ? 1 + below(6) : 1 + n / 100);
    one_cutting(b, n, 400);
    one_cutting(b, n, n + 1);
}

// ---- the passes and one update: an input is a byte for the model, a byte for lengths, then the words; past the input's end all are 0

static struct place from;

static void words_taken(uint64_t *w, size_t n) {
    for (size_t k = 0; k < n; k++)
        w[k] = take_word(&from);
}

static void law_target(const uint8_t *b, size_t n) {
    from = (struct place){b, n, 0, 0};
    uint8_t first = take_byte(&from), lengths = take_byte(&from);
    uint64_t model = first < 0xf0 ? first % MODELS : first, p[9] = {0}, records[(PASSED + 1) * FLOATS] = {0};
    size_t np = FIELDS[model % MODELS];
    struct judge j = {.nl = 2, .nw = 4};
    words_taken(p, np);
    if (lengths >> 6 == 3)
        np += lengths & 1 ? 1 : -1;
    if (TARGET == 4) {
        words_taken(j.limits, 2);
        words_taken(j.law, 4);
    }
    size_t left = (n - from.at) / 8;
    size_t nr = left < PASSED * WIDTH ? left / WIDTH * WIDTH : PASSED * WIDTH;
    if (TARGET == 2)
        nr = FLOATS;
    words_taken(records, nr);
    size_t na = nr / WIDTH * 2, nc = TARGET == 4 ? 4 : 3;
    switch (lengths & 0x3f) {
    case 1: nr += 1; break;
    case 2: nr += nr ? -1 : WIDTH - 1; break;
    case 3: na += 1; break;
    case 4: na += na ? -1 : 2; break;
    case 5: nc += 1; break;
    case 6: nc -= 1; break;
    case 7: j.nl += lengths >> 6 & 1 ? 1 : -1; break;
    case 8: j.nw += lengths >> 6 & 1 ? 1 : -1; break;
    }
    if (TARGET == 3)
        one_fill(records, nr);
    if (TARGET == 4) {
        size_t ns = 9 + (nc == 5) - (nc == 3), nv = na % 2 ? 2 : 1, held = nr < FLOATS ? nr : nr % FLOATS ? FLOATS + 1 : FLOATS;
        one_judged(0, &j, records, held, ns, nv);
        one_judged(1, &j, records, held, ns, nv);
    }
    if (FLAT)
        updated(model, p, np, records, nr % WIDTH ? nr % (2 * WIDTH) : WIDTH, 2 + na % 2);
    if (TARGET == 2)
        updated(model, p, np, records, nr, na);
    else
        one_pass(model, p, np, TARGET == 4 ? &j : NULL, records, nr, na, nc);
}

// ---- tallies: a sequence of calls on one list of records, drawn from the input's bytes; the host may change tallies and zones between them

static uint64_t zones_now[PASSED + 2], tallies_now[TALLY * (MOST_ZONES + 3)], records_now[(PASSED + 1) * FLOATS];

// What a call is lent beside the tallies: lists of the lengths below.
struct lent {
    uint64_t model, p[9], particles, particle, zone;
    size_t np, nr, na, nz, nt;
    struct judge j;
};

static uint8_t want_of(int call, const struct lent *c) {
    size_t count = c->nr / FLOATS;
    int passes = call >= PASS_BY_ZONE, judges = call == PASS_WITH_FAILURE_BY_ZONE;
    if (c->nt % TALLY || (passes && (!lengths_fit(c->model, c->np) || c->nr % FLOATS || c->na != 2 * count || (judges && (c->j.nl != 2 || c->j.nw != 4)))))
        return 8;
    if (passes && (c->model >= MODELS || !flag_fits(c->model, c->p) || (judges && !is_flag(c->j.law[0]))))
        return 6;
    if (!zones_second(passes ? count : c->particles, zones_now, c->nz, c->nt / TALLY))
        return 12;
    if (call == MOVE && (c->particle >= c->nz || c->zone >= c->nt / TALLY))
        return 12;
    return passes && full_second(tallies_now, c->nt / TALLY, zones_now, c->nz) ? 13 : 0;
}

// What the call leaves, from the lists as they were: particles now afresh, and a pass's outcomes in the zone of each record.
static void leave_second(int call, const struct lent *c) {
    if (call == CLEAR)
        memset(tallies_now, 0, 8 * c->nt);
    if (call == MOVE)
        zones_now[c->particle] = c->zone;
    afresh_second(tallies_now, c->nt / TALLY, zones_now, c->nz);
    if (call < PASS_BY_ZONE)
        return;
    want_pass(c->model, c->p, call == PASS_BY_ZONE ? NULL : &c->j, records_now, c->nz);
    memcpy(records_now, want_records, 8 * c->nr);
    for (size_t k = 0; k < c->nz; k++)
        outcome_second(tallies_now, zones_now[k], want_answers[2 * k], want_failed[k]);
}

static uint8_t call_lent(int call, const struct lent *c, const uint64_t *shown, uint64_t *zones, uint64_t *r, uint64_t *a, uint64_t *t) {
    const uint64_t *p = show(&parameters_room, c->p, c->np);
    switch (call) {
    case CLEAR: return pasoletu_clear_tallies(c->particles, shown, c->nz, t, c->nt);
    case MOVE: return pasoletu_move_particle(c->particles, c->particle, c->zone, zones, c->nz, t, c->nt);
    case PASS_BY_ZONE: return pasoletu_pass_by_zone(c->model, p, c->np, shown, c->nz, r, c->nr, a, c->na, t, c->nt);
    default:
        return pasoletu_pass_with_failure_by_zone(c->model, p, c->np, show(&limits_room, c->j.limits, c->j.nl), c->j.nl, show(&law_room, c->j.law, c->j.nw), c->j.nw,
                                                  shown, c->nz, r, c->nr, a, c->na, t, c->nt);
    }
}

static void one_tallied(int call, const struct lent *c) {
    uint8_t want = want_of(call, c);
    uint64_t *zones = lend(&zones_room, zones_now, c->nz), *t = lend(&tallies_room, tallies_now, c->nt);
    uint64_t *r = lend(&records_room, records_now, c->nr), *a = lend(&answers_room, NULL, c->na);
    const uint64_t *shown = (const uint64_t *)(zones_room.read + ((uint8_t *)zones - zones_room.write));
    uint8_t got = call_lent(call, c, shown, zones, r, a, t);
    check(got == want, CALL_NAMES[call], got, want);
    if (!want) {
        leave_second(call, c);
        memcpy(wanted(&zones_room, c->nz), zones_now, 8 * c->nz);
        memcpy(wanted(&tallies_room, c->nt), tallies_now, 8 * c->nt);
        if (call >= PASS_BY_ZONE) {
            memcpy(wanted(&records_room, c->nr), want_records, 8 * c->nr);
            memcpy(wanted(&answers_room, c->na), want_answers, 8 * c->na);
        }
    }
    check_room(&zones_room, want ? "a refused call wrote its zones" : "zones after a call");
    check_room(&tallies_room, want ? "a refused call wrote its tallies" : "tallies after a call");
    check_room(&records_room, want ? "a refused call wrote its records" : "records after a call with tallies");
    check_room(&answers_room, want ? "a refused call wrote its answers" : "answers after a call with tallies");
    tallied[call][want]++;
    met[900 + call * 16 + want] = 1;
}

// Now and then one of the call's lengths is another.
static void twist(struct lent *c) {
    switch (below(64)) {
    case 0: c->nt += 1 + below(4); break;
    case 1: c->nz += 1; break;
    case 2: c->nz -= c->nz ? 1 : 0; break;
    case 3: c->na += 1; break;
    case 4: c->nr += 1; break;
    case 5: c->np += below(2) ? 1 : -1; break;
    case 6: c->j.nl += below(2) ? 1 : -1; break;
    case 7: c->j.nw += below(2) ? 1 : -1; break;
    case 8: c->particles = draw() >> below(64); break;
    }
}

static void tallies_target(const uint8_t *b, size_t n) {
    struct lent c = {.j = {.nl = 2, .nw = 4}};
    from = (struct place){b, n, 0, 0};
    uint8_t first = take_byte(&from), lengths = take_byte(&from);
    c.model = first < 0xf0 ? first % MODELS : first;
    c.np = FIELDS[c.model % MODELS];
    words_taken(c.p, c.np);
    words_taken(c.j.limits, 2);
    words_taken(c.j.law, 4);
    size_t left = (n - from.at) / 8;
    c.nr = left < PASSED * FLOATS ? left / FLOATS * FLOATS : PASSED * FLOATS;
    words_taken(records_now, c.nr);
    drawing = lengths;
    for (size_t k = 0; k < n; k++)
        drawing = (drawing ^ b[k]) * 0x100000001b3ULL;
    size_t zones = below(16) ? 1 + below(6) : below(4) ? MOST_ZONES - 1 + below(3) : 0;
    c.nt = TALLY * zones;
    c.nz = c.particles = c.nr / FLOATS;
    c.na = 2 * c.nz;
    memset(tallies_now, 0, sizeof tallies_now);
    for (size_t k = 0; k < PASSED + 2; k++)
        zones_now[k] = zones ? below(zones) : 0;
    for (size_t k = 3 + below(6); k; k--) {
        struct lent this = c;
        this.particle = c.nz && below(8) ? below(c.nz) : draw() >> below(64);
        this.zone = zones && below(8) ? below(zones) : zones + (draw() >> below(64));
        twist(&this);
        if (!below(8) && zones)
            tallies_now[TALLY * below(zones) + 1 + below(4)] = below(4) ? LAST_TALLY - below(5) : draw() >> below(64);
        size_t stray = below(24) ? PASSED + 1 : below(PASSED);
        uint64_t was = zones_now[stray];
        if (stray < PASSED)
            zones_now[stray] = zones + (draw() >> below(64));
        int call = below(CALLS + 2);
        one_tallied(call < CALLS ? call : call - 2, &this);
        if (stray < PASSED && zones_now[stray] >= zones)
            zones_now[stray] = was;
    }
}

int LLVMFuzzerInitialize(int *argc, char ***argv) {
    (void)argc, (void)argv;
    sheet_room = room_of(1 << 17);
    records_room = room_of(8 * (ROOM + FLOATS));
    answers_room = room_of(8 * (2 * MOST + 2));
    bytes_room = room_of(LONGEST + 64);
    few_room = room_of(2 * PAGE);
    zones_room = room_of(PAGE);
    tallies_room = room_of(8 * TALLY * (MOST_ZONES + 3));
    struct room *small[] = {&parameters_room, &limits_room, &law_room, &out_room, &one_room, &two_room, &state_room, &progress_room};
    for (int k = 0; k < 8; k++)
        *small[k] = room_of(PAGE);
    atexit(print_met);
    return 0;
}

int LLVMFuzzerTestOneInput(const uint8_t *b, size_t n) {
    if (n > sheet_room.bytes)
        return 0;
    if (TARGET == 0)
        read_sheet_target(b, n);
    else if (TARGET == 1)
        run_sheet_target(b, n);
    else if (TARGET == 5)
        write_sheet_target(b, n);
    else if (TARGET == 6)
        parts_target(b, n);
    else if (TARGET == 7)
        tallies_target(b, n);
    else
        law_target(b, n);
    return 0;
}
