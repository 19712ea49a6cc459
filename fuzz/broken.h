// For the self-test: the calls with one fault each, chosen by the environment's BREAK. A harness that does not stop at these sees nothing.
enum {
    BIT = 1,      // one bit of a result
    PAST_END,     // a word written after a list
    BEFORE_START, // a word written before it
    COUNT,        // a count that is one too high
    REFUSAL,      // another refusal number
    LEAVES,       // a refused call that writes
    LENT_BYTES,   // a list that is only lent to be read is written
    READS_ON,     // a byte read past the end
    ONE_MISSED,   // a record with a NaN that is not refused by 1
    SIDES,        // 2 and 10 exchanged
    PAST_SHEET,   // the byte of the room past the sheet's end cleared
    ELEVEN_MISSED, // a wrong determinant that is not refused by 11
    OLD_ONE,      // the determinant that came, kept beside a new F
    EARLY,        // a shortage told before the end
    FORGOTTEN,    // a fault that is not told again
    HELD_BYTE,    // a held byte changed in the state
    FULL_MISSED,  // 13 told as 12
    NEIGHBOUR,    // the numbers stored of two zones exchanged
    OTHER_FIELD,  // an outcome counted as refused, not as stored
    OTHER_U,      // a bit of U changed where a flat record is stored
    LAST_KEPT,    // the last flat record of a pass as it came
    OFF_SURFACE,  // a flat sigma of Rankine's a little off, with its F
    TOLD_LATE,    // the progress written by a part after a fault or the end
};

static int fault_is(int kind) {
    static int chosen = -1;
    if (chosen < 0)
        chosen = getenv("BREAK") ? atoi(getenv("BREAK")) : 0;
    return chosen == kind;
}

static volatile uint8_t seen;

// What all calls can do wrong after the true call: `out` is a written list, `counts` another.
static uint8_t spoiled(uint8_t n, uint64_t *out, size_t len, uint64_t *counts, size_t count) {
    if (fault_is(BIT) && n == 0 && len > 18)
        out[18] ^= 1;
    if (fault_is(PAST_END))
        out[len] = 1;
    if (fault_is(BEFORE_START))
        out[-1] = 1;
    if (fault_is(COUNT) && n == 0 && count)
        counts[count - 1] += 1;
    if (fault_is(REFUSAL) && n == 4)
        return 5;
    if (fault_is(REFUSAL) && n == 8)
        return 6;
    if (fault_is(LEAVES) && n && len)
        out[0] = 0;
    return n;
}

// What a record's refusal can do wrong.
static uint64_t turned(uint64_t n) {
    if (fault_is(ONE_MISSED) && n == 1)
        return 3;
    if (fault_is(SIDES) && (n == 2 || n == 10))
        return 12 - n;
    if (fault_is(ELEVEN_MISSED) && n == 11)
        return 3;
    return n;
}

static void peeked(const void *p, size_t bytes) {
    if (fault_is(LENT_BYTES) && bytes)
        *(uint8_t *)p ^= 1;
    if (fault_is(READS_ON))
        seen = ((const uint8_t *)p)[bytes];
}

static uint8_t broken_update(uint64_t model, const uint64_t *p, size_t np, uint64_t *r, size_t nr, uint64_t *a, size_t na) {
    uint64_t came = nr ? r[nr - 1] : 0;
    uint8_t n = pasoletu_update(model, p, np, r, nr, a, na);
    peeked(p, 8 * np);
    if (fault_is(OLD_ONE) && n == 0)
        r[nr - 1] = came;
    return spoiled(turned(n), r, nr, a, na);
}

static uint8_t broken_pass(uint64_t model, const uint64_t *p, size_t np, uint64_t *r, size_t nr, uint64_t *a, size_t na, uint64_t *c, size_t nc) {
    uint8_t n = pasoletu_pass(model, p, np, r, nr, a, na, c, nc);
    peeked(p, 8 * np);
    if (n == 0 && na && a[0] == 2)
        a[1] = turned(a[1]);
    return spoiled(n, r, nr, c, nc);
}

static uint8_t broken_pass_with_failure(uint64_t model, const uint64_t *p, size_t np, const uint64_t *l, size_t nl, const uint64_t *law, size_t nw,
                                        uint64_t *r, size_t nr, uint64_t *a, size_t na, uint64_t *c, size_t nc) {
    uint8_t n = pasoletu_pass_with_failure(model, p, np, l, nl, law, nw, r, nr, a, na, c, nc);
    peeked(l, 8 * nl);
    if (n == 0 && na && a[0] == 2)
        a[1] = turned(a[1]);
    return spoiled(n, r, nr, c, nc);
}

// By the pass and the update alike, so that they agree.
static void off_surface(uint64_t model, uint64_t *r, const uint64_t *a) {
    if (!fault_is(OFF_SURFACE) || a[0] != 1 || LAW_OF[model] != 1)
        return;
    r[8] = bits(value(r[8]) * (1.0 + 0x1p-30));
    for (int k = 0; k < 4; k++)
        r[k] = bits(value(r[4 + k / 2 * 2]) * value(r[8]) * value(r[10 + k % 2]) + value(r[5 + k / 2 * 2]) * value(r[9]) * value(r[12 + k % 2]));
}

// What all calls can do wrong is left to the pass, which is compared with this.
static uint8_t broken_flat_update(uint64_t model, const uint64_t *p, size_t np, uint64_t *r, size_t nr, uint64_t *a, size_t na) {
    uint8_t n = pasoletu_flat_update(model, p, np, r, nr, a, na);
    if (fault_is(OTHER_U) && n == 0 && a[0] == 1)
        r[5] ^= 1;
    if (n == 0)
        off_surface(model, r, a);
    return turned(n);
}

static uint8_t broken_flat_pass(uint64_t model, const uint64_t *p, size_t np, uint64_t *r, size_t nr, uint64_t *a, size_t na, uint64_t *c, size_t nc) {
    uint64_t came[FLAT_FLOATS];
    if (nr >= FLAT_FLOATS)
        memcpy(came, r + nr - FLAT_FLOATS, sizeof came);
    uint8_t n = pasoletu_flat_pass(model, p, np, r, nr, a, na, c, nc);
    peeked(p, 8 * np);
    if (fault_is(LAST_KEPT) && n == 0 && nr)
        memcpy(r + nr - FLAT_FLOATS, came, sizeof came);
    for (size_t k = 0; n == 0 && k < nr / FLAT_FLOATS; k++)
        off_surface(model, r + k * FLAT_FLOATS, a + 2 * k);
    if (n == 0 && na && a[0] == 2)
        a[1] = turned(a[1]);
    return spoiled(n, r, nr, c, nc);
}

static uint8_t broken_fill_determinants(uint64_t *r, size_t nr) {
    return spoiled(pasoletu_fill_determinants(r, nr), r, nr, NULL, 0);
}

static uint8_t broken_read_sheet(const uint8_t *s, size_t ns, uint64_t *h, size_t nh, uint64_t *r, size_t nr) {
    uint8_t n = pasoletu_read_sheet(s, ns, h, nh, r, nr);
    peeked(s, ns);
    return spoiled(n, r, nr, h, nh);
}

static uint8_t broken_run_sheet(const uint8_t *s, size_t ns, uint64_t *r, size_t nr, uint64_t *a, size_t na, uint64_t *c, size_t nc) {
    uint8_t n = pasoletu_run_sheet(s, ns, r, nr, a, na, c, nc);
    peeked(s, ns);
    if (n == 0 && na && a[0] == 2)
        a[1] = turned(a[1]);
    return spoiled(n, r, nr, c, nc);
}

static uint8_t broken_write_sheet(uint64_t model, const uint64_t *p, size_t np, const uint64_t *r, size_t nr, uint8_t *b, size_t nb, uint64_t *w, size_t nw) {
    uint8_t n = pasoletu_write_sheet(model, p, np, r, nr, b, nb, w, nw);
    peeked(r, 8 * nr);
    if (fault_is(BIT) && n == 0)
        b[w[0] - 1] ^= 1;
    if (fault_is(PAST_END))
        b[nb] = 1;
    if (fault_is(BEFORE_START))
        b[-1] = 1;
    if (fault_is(COUNT) && n == 0)
        w[0] += 1;
    if (fault_is(REFUSAL) && n >= 8)
        return n - 2;
    if (fault_is(LEAVES) && n && nb)
        b[0] = 0;
    if (fault_is(PAST_SHEET) && n == 0 && w[0] < nb)
        b[w[0]] = 0;
    return n;
}

static uint8_t broken_part(const uint8_t *s, size_t ns, uint64_t *state, size_t nt, uint64_t *r, size_t nr, uint64_t *a, size_t na, uint64_t *p, size_t np) {
    uint64_t before = nt ? state[0] : 0;
    uint8_t n = pasoletu_part(s, ns, state, nt, r, nr, a, na, p, np);
    peeked(s, ns);
    if (fault_is(EARLY) && n == 0 && ns && p[0] < p[1])
        return 4;
    if (fault_is(FORGOTTEN) && n && n != 8 && before)
        return 0;
    if (fault_is(TOLD_LATE) && n != 8 && before) {
        p[0] = state[5];
        p[1] = state[3];
    }
    if (fault_is(HELD_BYTE) && n == 0 && state[6] > 8)
        state[15] ^= 1;
    return spoiled(n, r, nr, p, np);
}

static uint8_t broken_end_parts(const uint64_t *r, size_t nr, const uint64_t *a, size_t na, uint64_t *state, size_t nt, uint64_t *p, size_t np) {
    uint8_t n = pasoletu_end_parts(r, nr, a, na, state, nt, p, np);
    peeked(r, 8 * nr);
    return spoiled(n, p, np, p, np);
}

// What a call with tallies can do wrong: `t` is the tallies as five words a zone.
static uint8_t spoiled_tallies(uint8_t n, const uint64_t *zones, size_t nz, uint64_t *t, size_t nt) {
    peeked(zones, 8 * nz);
    if (fault_is(FULL_MISSED) && n == 13)
        return 12;
    if (fault_is(NEIGHBOUR) && n == 0 && nt >= 10) {
        uint64_t stored = t[2];
        t[2] = t[7];
        t[7] = stored;
    }
    if (fault_is(OTHER_FIELD) && n == 0 && nt && t[2]) {
        t[2] -= 1;
        t[3] += 1;
    }
    return spoiled(n, t, nt, t, nt);
}

static uint8_t broken_clear_tallies(uint64_t particles, const uint64_t *zones, size_t nz, uint64_t *t, size_t nt) {
    return spoiled_tallies(pasoletu_clear_tallies(particles, zones, nz, t, nt), zones, nz, t, nt);
}

static uint8_t broken_move_particle(uint64_t particles, uint64_t particle, uint64_t zone, uint64_t *zones, size_t nz, uint64_t *t, size_t nt) {
    return spoiled(pasoletu_move_particle(particles, particle, zone, zones, nz, t, nt), t, nt, t, nt);
}

static uint8_t broken_pass_by_zone(uint64_t model, const uint64_t *p, size_t np, const uint64_t *zones, size_t nz, uint64_t *r, size_t nr, uint64_t *a, size_t na, uint64_t *t, size_t nt) {
    uint8_t n = pasoletu_pass_by_zone(model, p, np, zones, nz, r, nr, a, na, t, nt);
    if (n == 0 && na && a[0] == 2)
        a[1] = turned(a[1]);
    return spoiled_tallies(n, zones, nz, t, nt);
}

static uint8_t broken_pass_with_failure_by_zone(uint64_t model, const uint64_t *p, size_t np, const uint64_t *l, size_t nl, const uint64_t *law, size_t nw,
                                                const uint64_t *zones, size_t nz, uint64_t *r, size_t nr, uint64_t *a, size_t na, uint64_t *t, size_t nt) {
    uint8_t n = pasoletu_pass_with_failure_by_zone(model, p, np, l, nl, law, nw, zones, nz, r, nr, a, na, t, nt);
    if (n == 0 && na && a[0] == 2)
        a[1] = turned(a[1]);
    return spoiled_tallies(n, zones, nz, t, nt);
}

#if TARGET == 2 // elsewhere it is what a pass is compared with
#define pasoletu_update broken_update
#endif
#define pasoletu_pass broken_pass
#define pasoletu_flat_update broken_flat_update
#define pasoletu_flat_pass broken_flat_pass
#define pasoletu_pass_with_failure broken_pass_with_failure
#define pasoletu_fill_determinants broken_fill_determinants
#define pasoletu_read_sheet broken_read_sheet
#if TARGET != 6 // there it is what the parts are compared with
#define pasoletu_run_sheet broken_run_sheet
#endif
#define pasoletu_write_sheet broken_write_sheet
#define pasoletu_part broken_part
#define pasoletu_end_parts broken_end_parts
#define pasoletu_clear_tallies broken_clear_tallies
#define pasoletu_move_particle broken_move_particle
#define pasoletu_pass_by_zone broken_pass_by_zone
#define pasoletu_pass_with_failure_by_zone broken_pass_with_failure_by_zone
