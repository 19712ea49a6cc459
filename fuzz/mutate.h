// New inputs: by libFuzzer's own changes of bytes, and by changes that know where a float, the count and a record stand. Bytes alone would
// hardly ever make a record that a law takes.
size_t LLVMFuzzerMutate(uint8_t *b, size_t n, size_t most);
static void user_parameters(size_t law, double *p);

static uint64_t drawing;

static uint64_t draw(void) {
    drawing += 0x9e3779b97f4a7c15ULL;
    uint64_t z = (drawing ^ drawing >> 30) * 0xbf58476d1ce4e5b9ULL;
    z = (z ^ z >> 27) * 0x94d049bb133111ebULL;
    return z ^ z >> 31;
}

static size_t below(size_t n) {
    return draw() % n;
}

static double between(double a, double b) {
    return a + (b - a) * (draw() >> 11) * 0x1p-53;
}

static double odd_float(void) {
    static const double odd[] = {0.0, -0.0, 1.0, -1.0, 0.5, 2.0, NAN, -NAN, INFINITY, -INFINITY, 0x1p-1074, 0x1p-1022, 0x1.fffffffffffffp1023,
                                 -0x1.fffffffffffffp1023, 0x1p60, 0x1.0000000000001p60, 0x1p-60, 0x1.fffffffffffffp-61, 700.0, -700.0, 8.0, 1e-4, 1e150, 1e-150};
    return odd[below(sizeof odd / sizeof *odd)];
}

// Where an input's parts stand: the words before the records, and the records, each of so many floats and bytes.
struct layout {
    size_t model, words, first, records, floats, bytes;
};

static size_t floats_of(size_t model) {
    return SHEETS ? sheet_floats(model) : WIDTH;
}

static struct layout layout(const uint8_t *b, size_t n) {
    struct layout l;
    size_t head = SHEETS ? (n && b[0] & 0x80 ? 2 : 1) : 2;
    l.model = n ? b[0] % MODELS : 0;
    l.floats = floats_of(l.model);
    l.bytes = 8 * l.floats;
    l.words = head;
    size_t words = FIELDS[l.model] + (JUDGED ? 6 : 0);
    size_t count = SHEETS ? (n > head + 8 * words && b[head + 8 * words] & 0x80 ? 2 : 1) : 0;
    l.first = head + 8 * words + count;
    l.records = n > l.first ? (n - l.first) / l.bytes : 0;
    return l;
}

static void put_word(uint8_t *b, double x) {
    uint64_t w = bits(x);
    for (int k = 0; k < 8; k++)
        b[k] = w >> 8 * k;
}

static double word_there(const uint8_t *b) {
    uint64_t w = 0;
    for (int k = 0; k < 8; k++)
        w |= (uint64_t)b[k] << 8 * k;
    return value(w);
}

// Now and then one of some floats is of a size that no user gives.
static void stretch(double *x, size_t n) {
    if (!below(12))
        x[below(n)] *= pow(10.0, between(-308.0, 308.0));
}

static void put_parameters(uint8_t *b, size_t model) {
    double p[8];
    user_parameters(LAW_OF[model], p);
    stretch(p, FIELDS[model]);
    for (size_t k = 0; k < FIELDS[model]; k++)
        put_word(b + 8 * k, p[k]);
}

// The determinant of the F that stands in a record of all floats; now and then a neighbour, the other sign, or any float.
static void put_determinant(uint8_t *b) {
    uint64_t f[9];
    for (int k = 0; k < 9; k++)
        f[k] = bits(word_there(b + 8 * k));
    uint64_t w = determinant(f);
    if (!below(24))
        w = below(3) ? w ^ (below(2) ? 1 : 1ULL << 63) : bits(odd_float());
    put_word(b + 8 * BARE, value(w));
}

// A record that a law may take: factors near the identity or turned, sigma spread by one of some widths.
static void put_record(uint8_t *b, size_t floats) {
    double r[BARE], *scalars = r + PHASE_AT, c = cos(between(0.0, 6.3)), s = sqrt(1.0 - c * c);
    double width[] = {1e-9, 1e-3, 0.03, 0.3, 2.0, 41.0}, w = width[below(6)], shift = below(2) ? 0.0 : between(-w, w);
    double turn[2][9] = {{c, -s, 0, s, c, 0, 0, 0, 1}, {c, -s, s, c}};
    for (int k = 0; k < U_AT; k++) {
        r[U_AT + k] = below(8) ? turn[FLAT][k] : between(-1.0, 1.0);
        r[VT_AT + k] = k % (AXES + 1) == 0;
        r[k] = between(-1.0, 1.0);
    }
    for (int k = 0; k < AXES; k++)
        r[SIGMA_AT + k] = exp(shift + between(-w, w));
    if (!below(4))
        r[SIGMA_AT + below(AXES)] = r[SIGMA_AT];
    scalars[0] = (double[]){1.0, 0.0, 0.5, -0.0}[below(4)];
    scalars[1] = below(4) ? between(0.5, 1.5) : between(-100.0, 100.0);
    scalars[2] = below(2) ? 1.0 : pow(10.0, between(-3.0, 6.0));
    scalars[3] = between(0.0, 3.0);
    scalars[4] = below(2) ? 0.0 : between(-0.2, 0.2);
    scalars[5] = between(-0.5, 0.1);
    stretch(r + U_AT, PHASE_AT + 6 - U_AT);
    if (!below(24)) // of no volume, of either zero, or too far stretched
        for (int k = 0; k < U_AT; k++)
            r[k] = below(2) ? 0.0 : below(2) ? -0.0 : below(2) ? 1.0 : r[k] * 1e150;
    for (int k = 0; k < PHASE_AT + 6; k++)
        put_word(b + 8 * k, r[k]);
    if (floats == FLOATS)
        put_determinant(b);
}

static size_t put_number(uint8_t *b, size_t n) {
    if (n < 128) {
        b[0] = n;
        return 1;
    }
    b[0] = n % 128 + 128;
    b[1] = n / 128;
    return 2;
}

// A whole input from nothing.
static size_t fresh(uint8_t *b, size_t most) {
    size_t model = below(MODELS), bytes = 8 * floats_of(model), at = 0, count = below(16) ? below(4) : SHEETS ? below(202) : below(9);
    if (most < 2 + 64 + 48 + 2)
        return LLVMFuzzerMutate(b, 0, most);
    at = put_number(b, model);
    if (!SHEETS)
        b[at++] = 0;
    put_parameters(b + at, model);
    at += 8 * FIELDS[model];
    if (JUDGED) {
        double size = pow(10.0, between(1.0, 7.0)), w[6] = {size * between(0.0, 1.0), size * between(0.0, 1.0), below(2), 0.9, size * between(0.0, 2.0), size};
        for (int k = 0; k < 6; k++, at += 8)
            put_word(b + at, w[k]);
    }
    if (TARGET == 2)
        count = 1;
    if (SHEETS)
        at += put_number(b + at, count);
    for (size_t k = 0; k < count && at + bytes <= most; k++, at += bytes)
        put_record(b + at, floats_of(model));
    return at;
}

// One float becomes an odd one, a neighbour, a power of 2 times itself, another float of the input, or any bits.
static void change_word(uint8_t *b, size_t n, size_t at, size_t other) {
    double x = word_there(b + at);
    switch (below(6)) {
    case 0: x = odd_float(); break;
    case 1: x = value(bits(x) + (below(2) ? 1 : -1)); break;
    case 2: x = ldexp(x, (int)below(9) - 4); break;
    case 3: x = word_there(b + other); break;
    case 4: x = x * between(0.9, 1.1); break;
    default: x = value(draw());
    }
    (void)n;
    put_word(b + at, x);
}

// The count of a sheet: one that fits, or another.
static void change_count(uint8_t *b, struct layout l) {
    size_t at = l.words + 8 * FIELDS[l.model];
    if (l.first - at == 1)
        b[at] = below(4) ? l.records % 128 : below(256);
    else
        b[at] = 128 + below(128), b[at + 1] = below(8) ? below(3) : below(256);
}

size_t LLVMFuzzerCustomMutator(uint8_t *b, size_t n, size_t most, unsigned seed) {
    drawing = seed;
    struct layout l = layout(b, n);
    size_t what = below(16), words = (l.first - l.words) / 8 + l.floats * l.records;
    if (what < 2 || n < l.first)
        return below(4) ? fresh(b, most) : LLVMFuzzerMutate(b, n, most);
    if (what < 4)
        return LLVMFuzzerMutate(b, n, most);
    if (what < 10) {
        size_t k = below(words), other = below(words), head = (l.first - l.words) / 8;
        size_t at = k < head ? l.words + 8 * k : l.first + 8 * (k - head), from = other < head ? l.words + 8 * other : l.first + 8 * (other - head);
        change_word(b, n, at, from);
        if (k >= head && l.floats == FLOATS && below(4)) // else nearly all would be refused by 11
            put_determinant(b + l.first + l.bytes * ((k - head) / l.floats));
        return n;
    }
    if (what == 10 && l.records) {
        put_record(b + l.first + l.bytes * below(l.records), l.floats);
        return n;
    }
    if (what == 11) {
        put_parameters(b + l.words, l.model);
        return n;
    }
    if (what == 12 && n + l.bytes <= most) { // one record more
        size_t k = below(l.records + 1), at = l.first + l.bytes * k;
        memmove(b + at + l.bytes, b + at, n - at);
        put_record(b + at, l.floats);
        l.records++;
        n += l.bytes;
    } else if (what == 13 && l.records) { // one record fewer
        size_t at = l.first + l.bytes * below(l.records);
        memmove(b + at, b + at + l.bytes, n - at - l.bytes);
        l.records--;
        n -= l.bytes;
    } else if (what == 14) { // cut, or longer
        return below(2) ? below(n + 1) : LLVMFuzzerMutate(b, n, most);
    } else if (!SHEETS) {
        if (below(2))
            b[0] = below(4) ? below(MODELS) : draw();
        else
            b[1] = below(2) ? 0 : below(4) ? below(9) : draw();
        return n;
    }
    if (SHEETS)
        change_count(b, l);
    return n;
}
