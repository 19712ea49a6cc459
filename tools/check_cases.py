#!/usr/bin/env python3
"""Makes what the program check_cases is held to, from the words of change requests 6 and 9 (docs/RULES.md, sections 5 and 7) in exact fractions.

  tools/check_cases.py            writes crates/check_cases/data/list and crates/check_cases/stdout
  tools/check_cases.py --check    makes both again and compares the bytes; the last line is 'N passed, M failed'

The list has the edges of the check: last doubles that it accepts beside the first that it refuses, and what is no number. An entry is a byte, 0 for factors and
1 for principal values, a byte, 1 where it is to be accepted, and 30 words: F, U, sigma, V^T, each by rows; of principal values the values stand
for sigma, their axes for V^T, and U is 0. A byte 255 ends the list. The stdout's counts of drawn F come from the generator of docs/FACTORS.md.
"""
import itertools
import math
import pathlib
import struct
import sys
from fractions import Fraction

CRATE = pathlib.Path(__file__).resolve().parent.parent / "crates" / "check_cases"
AXES = range(3)
PLACES = list(itertools.product(AXES, AXES))
LOWER = [(i, j) for i, j in PLACES if j <= i]
NAN, INFINITY, LEAST, MOST = math.nan, math.inf, 2.0 ** -1074, sys.float_info.max


# ---- the check, in the words of the requests
def near(left, middle, right, target, m):
    """Each entry of left diag(middle) right^T within m / 2^40 of the target's."""
    return all(abs(sum(left[i][k] * middle[k] * right[j][k] for k in AXES) - target[i][j]) * 2 ** 40 <= m for i, j in PLACES)


def orthogonal(u):
    """u times its transpose within 2^-40 of the identity."""
    return near(u, [1, 1, 1], u, [[int(i == j) for j in AXES] for i in AXES], 1)


def transposed(m):
    return [list(row) for row in zip(*m)]


def exact(x):
    return [exact(y) for y in x] if isinstance(x, list) else Fraction(x)


def flat(*parts):
    return [y for x in parts for y in (flat(*x) if isinstance(x, list) else [x])]


def factors_accepted(f, u, sigma, vt):
    if not all(map(math.isfinite, flat(f, u, sigma, vt))):
        return False
    f, u, sigma, v = exact(f), exact(u), exact(sigma), transposed(exact(vt))
    return near(u, sigma, v, f, max(map(abs, flat(f)))) and orthogonal(u) and orthogonal(v) and all(0 <= s for s in sigma)


def principals_accepted(f, values, axes):
    """Of the lower triangle with the diagonal, mirrored; signs are free."""
    g = [[f[max(i, j)][min(i, j)] for j in AXES] for i in AXES]
    if not all(map(math.isfinite, flat(g, values, axes))):
        return False
    g, values, w = exact(g), exact(values), transposed(exact(axes))
    return near(w, values, w, g, max(map(abs, flat(g)))) and orthogonal(w)


# ---- the list
class Edges:
    def __init__(self):
        self.entries = []

    def add(self, kind, f, u, sigma, vt, expected=None):
        """An entry, judged here; `expected` is what its maker is sure of."""
        accepted = principals_accepted(f, sigma, vt) if kind else factors_accepted(f, u, sigma, vt)
        assert expected is None or accepted == expected, (kind, f, u, sigma, vt)
        self.entries.append((kind, accepted, flat(f, u, sigma, vt)))
        return accepted

    def straddle(self, kind, made, x, step):
        """The last double from x on, in step's direction, at which made(double) is accepted, and the next, which is not."""
        def good(n):
            y = x if n == 0 else ordered(rank(x) + (n if step > 0 else -n))
            return principals_accepted(*(made(y)[k] for k in (0, 2, 3))) if kind else factors_accepted(*made(y))
        assert good(0), made(x)
        low, high = 0, 1
        while good(high):
            low, high = high, high * 2
        while high - low > 1:
            middle = (low + high) // 2
            low, high = (middle, high) if good(middle) else (low, middle)
        for n, expected in ((low, True), (high, False)):
            self.add(kind, *made(x if n == 0 else ordered(rank(x) + (n if step > 0 else -n))), expected)

    def bytes(self):
        return b"".join(bytes([kind, accepted]) + struct.pack("<30d", *words) for kind, accepted, words in self.entries) + b"\xff"

    def counted(self, kind):
        accepted = [a for k, a, _ in self.entries if k == kind]
        return len(accepted), sum(accepted)


def rank(x):
    """The doubles counted in their order, 0 at both zeros."""
    n = struct.unpack("<q", struct.pack("<d", abs(x)))[0]
    return n if math.copysign(1, x) > 0 else -n


def ordered(n):
    return math.copysign(struct.unpack("<d", struct.pack("<q", abs(n)))[0], n)


# ---- matrices
ZEROS = [[0.0] * 3 for _ in AXES]
ONES = [[float(i == j) for j in AXES] for i in AXES]


def with_entry(m, i, j, x):
    return [[x if (i, j) == (k, l) else m[k][l] for l in AXES] for k in AXES]


def product(u, sigma, vt):
    """U diag(sigma) V^T, each entry rounded once."""
    u, sigma, vt = exact(u), exact(sigma), exact(vt)
    return [[float(sum(u[i][k] * sigma[k] * vt[k][j] for k in AXES)) for j in AXES] for i in AXES]


def rotation(w, x, y, z):
    n = w * w + x * x + y * y + z * z
    rows = [[w * w + x * x - y * y - z * z, 2 * (x * y - z * w), 2 * (x * z + y * w)],
            [2 * (x * y + z * w), w * w - x * x + y * y - z * z, 2 * (y * z - x * w)],
            [2 * (x * z - y * w), 2 * (y * z + x * w), w * w - x * x - y * y + z * z]]
    return [[float(Fraction(a, n)) for a in row] for row in rows]


def moved(first, sign):
    """The axes moved on so that the first becomes `first`, with a sign."""
    return [[sign * float((j + first) % 3 == i) for j in AXES] for i in AXES]


P, Q = rotation(3, 1, -2, 4), rotation(2, -3, 5, 1)
SIZES = [3.7, 1.1, 0.013]


def scaled(sizes, e):
    return [math.ldexp(s, e) for s in sizes]


# ---- the edges of factors
def factors(e):
    bases = [(ONES, [4.0, 2.0, 1.0], ONES), (P, SIZES, Q), (P, [1.5, 0.0, 0.0], Q), (P, scaled(SIZES, -1030), Q), (Q, scaled(SIZES, 1020), P)]
    for u, sigma, vt in bases:
        f = product(u, sigma, vt)
        e.add(0, f, u, sigma, vt, True)
        for i, j in PLACES:  # an entry off by m / 2^40, and by more
            for step in (1, -1):
                e.straddle(0, lambda x: (with_entry(f, i, j, x), u, sigma, vt), f[i][j], step)
    for n, (i, j) in enumerate(PLACES):  # U U^T and V V^T off by 2^-40, and by more; F follows
        step = 1 if n % 2 else -1
        for u, sigma, vt in bases[:2]:
            def turned_u(x):
                return product(with_entry(u, i, j, x), sigma, vt), with_entry(u, i, j, x), sigma, vt

            def turned_v(x):
                return product(u, sigma, with_entry(vt, i, j, x)), u, sigma, with_entry(vt, i, j, x)
            e.straddle(0, turned_u, u[i][j], step)
            e.straddle(0, turned_v, vt[i][j], -step)
    # u times its transpose, and not its transpose times u
    wide, narrow = 1 + 2.0 ** -50, 1 - 2.0 ** -50
    for a, b, good in ((wide, narrow, True), (narrow, wide, False)):
        u = [[a, 2.0 ** -40, 0.0], [0.0, b, 0.0], [0.0, 0.0, 1.0]]
        e.add(0, product(u, [4.0, 2.0, 1.0], ONES), u, [4.0, 2.0, 1.0], ONES, good)
        e.add(0, product(ONES, [4.0, 2.0, 1.0], transposed(u)), ONES, [4.0, 2.0, 1.0], transposed(u), good)
    for n, (i, j) in enumerate(PLACES):  # m in every place, of either sign
        u, vt, sigma = moved(i, (-1.0) ** n), transposed(moved(j, 1.0)), [4.0, 1.0, 1.0]
        f = product(u, sigma, vt)
        for step in (1, -1):
            k, l = (i + 1) % 3, (j + 2) % 3
            e.straddle(0, lambda x: (with_entry(f, k, l, x), u, sigma, vt), f[k][l], step)
    for k in AXES:  # a sigma of -0.0, and below 0
        sizes = [x if i != k else -0.0 for i, x in enumerate([4.0, 2.0, 1.0])]
        e.add(0, product(ONES, sizes, ONES), ONES, sizes, ONES, True)
        below = [x if i != k else -LEAST for i, x in enumerate(sizes)]
        e.add(0, product(ONES, sizes, ONES), ONES, below, ONES, False)
        sizes = [x if i != k else -x for i, x in enumerate([4.0, 2.0, 1.0])]
        e.add(0, product(ONES, [4.0, 2.0, 1.0], ONES), with_entry(ONES, k, k, -1.0), sizes, ONES, False)
    for x in (NAN, INFINITY, -INFINITY):  # what is no number, in every place
        words = flat(product(P, SIZES, Q), P, SIZES, Q)
        for place in range(30):
            broken = [x if k == place else y for k, y in enumerate(words)]
            e.add(0, *parted(broken), False)
    e.add(0, ZEROS, ONES, [0.0, 0.0, 0.0], ONES, True)
    e.add(0, ZEROS, ONES, [0.0, 0.0, LEAST], ONES, False)
    e.add(0, with_entry(ZEROS, 2, 1, LEAST), ONES, [0.0, 0.0, 0.0], ONES, False)
    e.add(0, with_entry(ZEROS, 2, 2, LEAST), ONES, [0.0, 0.0, LEAST], ONES, True)
    e.add(0, product(ONES, [MOST] * 3, ONES), ONES, [MOST] * 3, ONES, True)
    e.add(0, product(ONES, [MOST] * 3, ONES), ONES, [MOST, MOST, MOST / 2], ONES, False)


def parted(words):
    rows = [words[k:k + 3] for k in range(0, 30, 3)]
    return rows[0:3], rows[3:6], rows[6], rows[7:10]


# ---- the edges of principal values
def filled(g, x):
    """The matrix with x wherever it must not be read."""
    return [[g[i][j] if j <= i else x for j in AXES] for i in AXES]


def principals(e):
    signed = [-3.7, 1.1, -0.013]
    bases = [(ONES, [-4.0, 2.0, 1.0], 2.0 ** 60), (P, signed, NAN), (Q, scaled(signed, -1030), -INFINITY), (Q, scaled(signed, 1020), 0.0)]
    for axes, values, above in bases:
        g = filled(product(transposed(axes), values, axes), above)
        e.add(1, g, ZEROS, values, axes, True)
        for i, j in LOWER:
            for step in (1, -1):
                e.straddle(1, lambda x: (with_entry(g, i, j, x), ZEROS, values, axes), g[i][j], step)
    for n, (i, j) in enumerate(PLACES):
        for axes, values, above in bases[:2]:
            def turned(x):
                w = with_entry(axes, i, j, x)
                return filled(product(transposed(w), values, w), above), ZEROS, values, w
            e.straddle(1, turned, axes[i][j], 1 if n % 2 else -1)
    for i, j in LOWER:  # m in every place of the lower triangle
        g = with_entry(with_entry([[0.25 * (k == l) for l in AXES] for k in AXES], i, j, -4.0), j, i, -4.0)
        root = math.sqrt(0.5)
        axes, values = ONES, [g[k][k] for k in AXES]
        if i != j:  # the two axes of the pair, turned by an eighth of a circle
            axes = [[root if k in (i, j) and l == i else (root if k == i else -root) if k in (i, j) and l == j else float(k == l) for l in AXES] for k in AXES]
            g = with_entry(with_entry(g, i, i, 0.0), j, j, 0.0)
            values = [-4.0 if k == i else 4.0 if k == j else 0.25 for k in AXES]
        k = 3 - i - j if i != j else (i + 1) % 3
        for step in (1, -1):
            e.straddle(1, lambda x: (filled(with_entry(g, k, k, x), NAN), ZEROS, values, axes), g[k][k], step)
    # an m above the diagonal is none
    g = product(ONES, [1.0, 1.0, 1.0], ONES)
    e.add(1, with_entry(with_entry(g, 1, 0, 2.0 ** -40), 0, 2, 4.0), ZEROS, [1.0] * 3, ONES, True)
    e.add(1, with_entry(with_entry(g, 1, 0, 2.0 ** -39), 0, 2, 4.0), ZEROS, [1.0] * 3, ONES, False)
    for x in (NAN, INFINITY, -INFINITY):
        g = product(transposed(P), signed, P)
        for i, j in PLACES:
            e.add(1, with_entry(g, i, j, x), ZEROS, signed, P, j > i)
            e.add(1, g, ZEROS, signed, with_entry(P, i, j, x), False)
        for k in AXES:
            e.add(1, g, ZEROS, [x if l == k else y for l, y in enumerate(signed)], P, False)
    e.add(1, ZEROS, ZEROS, [0.0, -0.0, 0.0], ONES, True)
    e.add(1, ZEROS, ZEROS, [0.0, 0.0, -LEAST], ONES, False)


# ---- the F drawn, and what is told of them
def drawn(seed, count):
    """The generator of docs/FACTORS.md: F entry by entry, as words."""
    def number():
        nonlocal seed
        seed = (seed + 0x9e3779b97f4a7c15) % 2 ** 64
        z = seed
        z = (z ^ z // 2 ** 30) * 0xbf58476d1ce4e5b9 % 2 ** 64
        z = (z ^ z // 2 ** 27) * 0x94d049bb133111eb % 2 ** 64
        return z ^ z // 2 ** 31
    for _ in range(count):
        words = []
        for _ in range(9):
            digits = number()
            exponent = number() % 40 - 20
            words.append(digits // 2 ** 63 * 2 ** 63 + (exponent + 1023) * 2 ** 52 + digits % 2 ** 52)
        yield words


def determinant(words):
    a, b, c, d, e, f, g, h, i = struct.unpack("<9d", struct.pack("<9Q", *words))
    return a * (e * i - f * h) - b * (d * i - f * g) + c * (d * h - e * g)


def lines(e, count=10000, moduli=4):
    """The program's output: every F accepted, no stress refused by 14, none failed; the neo-Hookean law asks powers of the determinant."""
    for kind, what in ((0, "factors"), (1, "principal values")):
        asked, accepted = e.counted(kind)
        yield f"{what}: edges {asked}, to be accepted {accepted}, differ 0"
    total, powers = 0, 0
    for words in drawn(6, count):
        total = (total + sum(words)) % 2 ** 64
        powers += 2.0 ** -60 <= determinant(words) <= 2.0 ** 60
    yield f"F drawn {count}, sum of their words {total:016x}, factors handed back {count}, accepted {count}"
    for law, given in (("neo-Hookean", powers), ("corotated", count)):
        for phase in ("1", "1/2", "0"):
            yield f"{law}, phase {phase}: stresses asked {moduli * count}, given {moduli * given}, 14 0, failed 0"


def main():
    e = Edges()
    factors(e)
    principals(e)
    made = {CRATE / "data" / "list": e.bytes(), CRATE / "stdout": "".join(line + "\n" for line in lines(e)).encode()}
    if sys.argv[1:] == ["--check"]:
        stale = [path.name for path, text in made.items() if not path.is_file() or path.read_bytes() != text]
        for name in stale:
            print(f"crates/check_cases: {name} is not what tools/check_cases.py makes")
        good = 0 if stale else len(e.entries) + 1
        print(f"{good} passed, {len(stale)} failed")
        return bool(stale)
    if sys.argv[1:]:
        print(__doc__, file=sys.stderr)
        return 2
    for path, text in made.items():
        path.parent.mkdir(exist_ok=True)
        path.write_bytes(text)
    return 0


sys.exit(main())
