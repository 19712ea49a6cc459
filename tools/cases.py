#!/usr/bin/env python3
"""Writes the sheets that the crate slope_cases runs, and checks its expected output by a second reading.

  tools/cases.py write                       the sheets, as crates/slope_cases/data/00, 01, ..
  tools/cases.py check [--program PROGRAM]   reads the sheets again, works each record with Python's own floats, and compares with
                                             crates/slope_cases/stdout: outcomes and refusals exactly, an amount within 2^-30 of itself
                                             and of 1; and with what the proved program prints, where --program or PASOLETU_SLOPE names it
"""
import argparse
import math
import os
import pathlib
import struct
import subprocess
import sys

sys.path.insert(0, str(pathlib.Path(__file__).resolve().parent))
import shell  # noqa: E402
from making.rows import Table  # noqa: E402

HERE = shell.TOP / "crates" / "slope_cases"
SHEETS = sorted((HERE / "data").glob("*"))  # none where the tools are installed
I = [1.0, 0, 0, 0, 1.0, 0, 0, 0, 1.0]
NAN, INF = float("nan"), float("inf")
SNOW = [0.025, 0.0045, 10.0]
TABLE = Table(shell.TOP)  # of the laws the numbers, the names and the kinds of their parameters; no formula
MODELS = len(TABLE.law_of)
BARE = 36  # floats of a record before the determinant


def floats_of(model):
    """How many floats a record has in a sheet of this model."""
    return BARE + TABLE.law_of[model][1]


def floats(xs):
    return struct.pack("<%dd" % len(xs), *xs)


def number(n):
    return bytes([n]) if n < 128 else bytes([n % 128 + 128, n // 128])


def determinant(f):
    """Of nine floats by rows, along the first row. Any NaN is 7ff8000000000000."""
    a, b, c, d, e, g, h, i, j = f
    x = a * (e * j - g * i) - b * (d * j - g * h) + c * (d * i - e * h)
    return x if x == x else NAN


def completed(r):
    """A record's floats before the determinant, with the one of the F that stands there."""
    return r[:BARE] + [determinant(r[:9])]


def record(sigma=(1.0, 1.0, 1.0), phase=1.0, pdet=1.0, phard=1.0, ehard=1.0, gain=0.0, alpha=0.0, f=None):
    return completed((f or I) + I + list(sigma) + I + [phase, pdet, phard, ehard, gain, alpha])


def sheet(records, parameters=SNOW, model=0, count=None):
    """A sheet's bytes; by the model's number the determinants are left out."""
    n = floats_of(model)
    return number(model) + floats(parameters) + number(len(records) if count is None else count) + b"".join(floats(r[:n]) for r in records)


def broken(place, value, r=None):
    r = r or record()
    r[place] = value
    return r


def cases():
    good = sheet([record()])
    yield good
    yield sheet([record((2.0, 1.0, 0.5)), broken(18, NAN), record((0.99, 1.0, 1.001))])
    yield sheet([broken(p, v) for p in (0, 8, 9, 17, 18, 20, 21, 29, 30, 31, 32, 33, 34, 35) for v in (NAN, INF, -INF)])
    yield sheet([record(), record()], [0.025, NAN, 10.0])
    yield sheet([record()], [0.025, 0.0045, -INF])
    yield sheet([])
    yield sheet([record((1.0 + k / 1000.0, 1.0, 1.0 - k / 1000.0), pdet=1.0 + k / 4096.0) for k in range(200)])
    yield sheet([record()] * 201)
    # above the exponential's range and below it, then plus and minus infinity
    yield sheet([record((1e3, 1.0, 1.0), pdet=-1e3), record((1e-3, 1.0, 1.0), pdet=1e6), record(pdet=-1e308), record(pdet=1e308)])
    yield sheet([record((1e200, 1e200, 0.0)), record((1e200, 1e200, 1.0)), record(pdet=1e308, ehard=1.0)])
    yield b""
    yield good[:1]
    yield good[:8]
    yield good[:25]
    yield sheet([record()] * 129)[:26]
    yield good[:26]
    yield good[:-1]
    yield good + b"\0"
    yield number(0) + floats(SNOW) + b"\x81\0" + floats(record()[:BARE])
    yield b"\x80\0" + good[1:]
    yield b"\x80\x80\1" + good[1:]
    yield number(MODELS) + good[1:]
    yield number(200) + good[1:]
    # Rankine: each branch, ties, both kinds of refusal on the path, a modulus that is not finite
    strong, weak = [1e5, 0.3, 1e6, 2.0], [1e5, 0.3, 500.0, 2.0]
    yield sheet([record(), record((1.1, 0.9, 1.05)), record((1.1, 0.9, 1.05), phard=999990.0)], strong, 1)
    yield sheet([
        record((1.2, 0.95, 0.95)), record((1.2, 1.19, 0.9)), record((1.2, 1.2, 0.9)), record((1.3, 1.2, 1.1)), record((1.2, 1.2, 1.2)),
        record((0.9, 0.9, 0.9)), record((0.0, 1.0, 1.0)), record((1.0, -1.0, 1.0)), record((1e19, 1.0, 1.0)), broken(32, INF)], weak, 1)
    yield sheet([record(), broken(0, NAN)], [1e5, 0.5, 500.0, 2.0], 1)
    yield sheet([record()], [INF, 0.3, 500.0, 2.0], 1)
    # Drucker-Prager: the flag, the zero test (P12), the trace, inside, the surface; a volume that shrinks
    lame = [1e5 * 0.3 / (1.3 * 0.4), 1e5 / 2.6]
    sand = [0.6108652381980153, 0.15707963267948966, 0.2, 0.17453292519943295] + lame
    yield sheet([record(), record((1.1, 1.0, 1.0)), record((0.8, 0.81, 0.79)), record((0.6, 1.2, 0.9)), record((0.6, 1.2, 0.9), gain=0.05),
                 record((0.9, 0.9, 0.9)), record((1e-19, 1.0, 1.0)), record(phard=1e5), broken(34, NAN)], sand + [0.0, 1.0], 2)
    yield sheet([record(), record(phase=0.0), record((0.6, 1.2, 0.9), phase=-0.0)], sand + [1.0, 0.5], 2)
    yield sheet([record()], sand[:5] + [NAN, 0.0, 1.0], 2)
    yield number(2) + floats(sand + [-0.0, 1.0]) + number(0)
    yield number(2) + floats(sand + [2.0, 1.0]) + number(0)
    yield (number(2) + floats(sand + [2.0]))[:57]
    # NACC: both tips, inside, the surface with and without the hardening step
    clay = [1e4, 0.3, 0.05, 1.0, 3.0, 2.36]
    yield sheet([record(alpha=-0.01), record((0.5, 0.5, 0.5), alpha=-0.01), record((1.5, 1.5, 1.5), alpha=-0.01), record((0.9, 1.1, 1.0), alpha=-0.05),
                 record((0.8, 1.1, 1.1), alpha=-0.05), record(alpha=1.0), record((0.99, 1.0, 1.0), alpha=-300.0), record((0.0, 1.0, 1.0))], clay, 3)
    yield sheet([record((0.8, 1.1, 1.1), alpha=-0.05), record((0.5, 0.5, 0.5), alpha=-0.01)], clay[:3] + [0.0] + clay[4:], 3)
    yield number(3) + floats(clay[:3] + [0.5]) + number(0)
    # A record of 36 whose F is finite and whose determinant isn't: plus and minus infinity, a NaN. The sheet is read, the record refused by 1
    big = [1e200, 0.0, 0.0, 0.0, 1e200, 0.0, 0.0, 0.0, 1.0]
    yield sheet([record(), record(f=big), record(f=[-1e200] + big[1:]), record(f=[1e200] * 9), record()])
    # With determinants: right; wrong by a bit, by a sign, -0.0 for 0.0 and the other way; 1 before 11, 11 before the law's 2 and 3
    right, flat, turned = record((0.99, 1.0, 1.001)), record(f=[0.0] * 9), record(f=[-0.0, 0.0, -0.0] + I[3:])
    yield sheet([right, broken(36, 1.0 + 2.0 ** -52), broken(36, -1.0), flat, broken(36, -0.0, flat[:]), turned,
                 broken(36, 0.0, turned[:]), broken(36, NAN), broken(36, INF), broken(35, NAN, broken(36, 2.0)),
                 broken(36, 2.0, record(pdet=1e6)), record(pdet=1e6), right], SNOW, 4)
    yield sheet([record((1.2, 0.95, 0.95)), broken(36, 2.0, record((0.0, 1.0, 1.0))), record((0.9, 0.9, 0.9)), broken(4, 2.0)], weak, 5)
    yield sheet([broken(36, 0.0)], [1e5, 0.5, 500.0, 2.0], 5)
    # a bad parameter comes before 11
    yield sheet([record(), broken(36, 2.0)], sand[:5] + [NAN, 0.0, 1.0], 6)
    yield sheet([record(), record((0.6, 1.2, 0.9)), broken(36, 0.5, record(phase=1.0))], sand + [1.0, 0.5], 6)
    yield sheet([record((0.8, 1.1, 1.1), alpha=-0.05), broken(36, 0.5, record((0.8, 1.1, 1.1), alpha=-0.05))], clay, 7)
    # the new F's determinant isn't finite: F is, with factors that are no rotations
    far = record((1e-150, 1.0, 1.0))
    far[9:18], far[21:30] = [1e120, 0.0, 0.0, 0.0, 1e120, 0.0, 0.0, 0.0, 1e120], I
    yield sheet([far, record()], SNOW, 4)
    yield sheet([far, record()])
    # ends early and bytes after the last, by the longer record; the most records of 37
    whole = sheet([record(), record()], SNOW, 4)
    yield whole[:-8]
    yield whole[:-1]
    yield whole + b"\0"
    yield b"\4" + good[1:]
    yield number(0) + whole[1:]
    yield sheet([record((1.0 + k / 1000.0, 1.0, 1.0 - k / 1000.0), pdet=1.0 + k / 4096.0) for k in range(200)], SNOW, 4)
    yield sheet([record()] * 201, SNOW, 4)
    yield number(6) + floats(sand + [-0.0, 1.0]) + number(0)


def words(b):
    return list(struct.unpack("<%dd" % (len(b) // 8), b))


class Refused(Exception):
    """The number of docs/RULES.md, section 6; of a sheet also the byte at which it was met."""


def read_number(b, at):
    if at >= len(b):
        raise Refused(4, at)
    if b[at] < 128:
        return b[at], at + 1
    if at + 1 >= len(b):
        raise Refused(4, at + 1)
    if b[at + 1] >= 128 or b[at + 1] == 0:
        raise Refused(5, at)
    return b[at] - 128 + 128 * b[at + 1], at + 2


def read(b):
    """Model, parameters and records, each with its determinant: filled in where the sheet has none."""
    model, at = read_number(b, 0)
    if model not in TABLE.law_of:
        raise Refused(6, 0)
    (law, whole), parameters = TABLE.law_of[model], []
    for kind in TABLE.models[law].parameters:
        if len(b) < at + 8:
            raise Refused(4, len(b))
        bits = b[at:at + 8]
        if kind.flag and bits not in (floats([0.0]), floats([1.0])):
            raise Refused(6, at)
        parameters += words(bits)
        at += 8
    place = at
    count, at = read_number(b, at)
    if count > 200:
        raise Refused(7, place)
    size = 8 * floats_of(model)
    if len(b) - at != count * size:
        raise Refused(*((4, len(b)) if len(b) - at < count * size else (7, at + count * size)))
    records = [words(b[at + size * k:at + size * (k + 1)]) for k in range(count)]
    return model, parameters, records if whole else [completed(r) for r in records]


def rust_max(a, b):
    return b if a != a else a if b != b or b < a else b


def rust_min(a, b):
    return b if a != a else a if b != b or a < b else b


def snow(p, r):
    """As every law here: nothing where it leaves the record untouched, else the amount, the new sigma and the new scalars by place."""
    old = r[18:21]
    new = [rust_min(rust_max(e, 1.0 - p[0]), 1.0 + p[1]) for e in old]
    d = r[31] * divide(old[0] * old[1] * old[2], new[0] * new[1] * new[2])
    h = exp(p[2] * (1.0 - d))
    if not math.isfinite(d):
        raise Refused(3)
    return h, new, {31: d, 33: h}


def ranged(f, low, high, x):
    """2 below the range, 10 above it; an infinity lies on its side."""
    if x != x:
        raise Refused(3)
    if not low <= x <= high:
        raise Refused(2 if x < low else 10)
    return f(x)


def ln(x):
    return ranged(math.log, 2.0 ** -60, 2.0 ** 60, x)


def exp(x):
    return ranged(math.exp, -700.0, 700.0, x)


def root(x):
    return ranged(math.sqrt, 0.0, sys.float_info.max, x)


def third(x, k):
    return ranged(lambda x: x ** (k / 3), 2.0 ** -60, 2.0 ** 60, x)


def divide(a, b):
    return a / b if b else NAN if a == 0 or a != a else math.copysign(INF, a) * math.copysign(1.0, b)


def tell(*xs):
    if any(x != x for x in xs):
        raise Refused(3)


def moduli(young, poisson):
    lame = divide(young * poisson, (1.0 + poisson) * (1.0 - 2.0 * poisson))
    return lame, divide(young, 2.0 * (1.0 + poisson)), divide(young, 3.0 * (1.0 - 2.0 * poisson))


def finite(*xs):
    if not all(map(math.isfinite, xs)):
        raise Refused(3)


def norm(e):
    return root(e[0] * e[0] + e[1] * e[1] + e[2] * e[2])


def rankine(p, r):
    lame, mu, _ = moduli(p[0], p[1])
    finite(lame, mu)
    e = [ln(x) for x in r[18:21]]
    order = sorted(range(3), key=lambda i: e[i])
    c, b, a = (e[i] for i in order)
    total = e[0] + e[1] + e[2]
    s = p[2] - (r[32] - 1.0)
    new = list(e)
    if lame * total + 2.0 * mu * a <= s:
        return None
    if (2.0 * mu + lame) * b + lame * (total - a) <= s:
        new[order[2]] = divide(s - lame * (total - a), 2.0 * mu + lame)
    elif (2.0 * mu + 3.0 * lame) * c <= s:
        new[order[2]] = new[order[1]] = divide(s - lame * (total - a - b), 2.0 * mu + 2.0 * lame)
    else:
        new = [divide(s, 2.0 * mu + 3.0 * lame)] * 3
    h = r[32] + p[3] * norm([x - y for x, y in zip(e, new)])
    tell(h)
    sigma = [exp(x) for x in new]
    finite(*sigma)
    h = min(h, p[2])
    return h, sigma, {32: h}


def drucker_prager(p, r):
    h0, h1, h2, h3, lame, mu, flag, correction = p
    if flag and r[30] != 0.0:
        return None
    q = r[32]
    angle = h0 + (h1 * q - h3) * exp(-h2 * q)
    s = ranged(math.sin, -8.0, 8.0, angle)
    alpha = math.sqrt(2.0 / 3.0) * (2.0 * s) / (3.0 - s)
    e = [ln(x) + r[34] / 3.0 for x in r[18:21]]
    trace = e[0] + e[1] + e[2]
    dev = [x - trace / 3.0 for x in e]
    if dev == [0.0] * 3 or trace > 0.0:
        new, dq = [1.0] * 3, norm(e)
    else:
        n = norm(dev)
        dq = n + divide(3.0 * lame + 2.0 * mu, 2.0 * mu) * trace * alpha
        tell(dq)
        if dq <= 0.0:
            return None
        new = [exp(x - dq * divide(d, n)) for x, d in zip(e, dev)]
    before, after = r[18] * r[19] * r[20], new[0] * new[1] * new[2]
    if not after - before > 0.0:
        after = before + (after - before) * correction
    scalars = {31: r[31] * divide(before, after), 34: r[34] + (ln(before) - ln(after)), 32: q + dq}
    finite(*scalars.values())
    return dq, new, scalars


def nacc(p, r):
    _, mu, kappa = moduli(p[0], p[1])
    finite(mu, kappa)
    beta, hardens, xi, m = p[2], p[3], p[4], p[5]
    alpha, v = r[35], r[18:21]
    p0 = kappa * (1.0e-5 + ranged(math.sinh, -700.0, 700.0, xi * max(-alpha, 0.0)))
    squares = [x * x for x in v]
    total = squares[0] + squares[1] + squares[2]
    j = v[0] * v[1] * v[2]
    shear = [mu * third(j, -2) * (x - total / 3.0) for x in squares]
    pressure = -(kappa / 2.0 * (j - divide(1.0, j))) * j
    tell(p0, pressure, *shear)
    if pressure > p0 or pressure < -beta * p0:
        tip = root((-2.0 * p0 if pressure > p0 else 2.0 * beta * p0) / kappa + 1.0)
        sigma = [third(tip, 1)] * 3
        if hardens:
            alpha += ln(j / tip)
        return alpha, sigma, {35: alpha}
    y0 = (1.0 + 2.0 * beta) * 1.5
    y1 = m * m * (pressure + beta * p0) * (pressure - p0)
    if y0 * (shear[0] * shear[0] + shear[1] * shear[1] + shear[2] * shear[2]) + y1 < 1.0e-4:
        return None
    if hardens and p0 > 1.0e-4 and pressure < p0 - 1.0e-4 and pressure > -beta * p0 + 1.0e-4:
        pc = (1.0 - beta) * p0 / 2.0
        d = [pc - pressure, -(math.sqrt(1.5) * norm(shear))]
        size = math.hypot(*d)
        d = [d[0] / size, d[1] / size]
        c = m * m * (pc + beta * p0) * (pc - p0)
        b = m * m * d[0] * (2.0 * pc - p0 + beta * p0)
        a = m * m * d[0] * d[0] + (1.0 + 2.0 * beta) * d[1] * d[1]
        root_of = root(b * b - 4.0 * a * c)
        p1, p2 = pc + (-b + root_of) / (2.0 * a) * d[0], pc + (-b - root_of) / (2.0 * a) * d[0]
        px = p1 if (pressure - pc) * (p1 - pc) > 0.0 else p2
        jx = math.sqrt(abs(-2.0 * px / kappa + 1.0))
        if jx > 1.0e-4:
            alpha += ln(j / jx)
    scale = root(-y1 / y0) * (third(j, 2) / mu)
    return alpha, [root(scale * x / norm(shear) + total / 3.0) for x in shear], {35: alpha}


LAWS = [globals()[law.name] for law in TABLE.models]


def recompose(u, sigma, vt):
    """U sigma V^T in as many axes as there are sigma."""
    n = len(sigma)

    def entry(i, j):
        total = u[n * i] * sigma[0] * vt[j]
        for k in range(1, n):
            total += u[n * i + k] * sigma[k] * vt[n * k + j]
        return total
    return [entry(i, j) for i in range(n) for j in range(n)]


def taken(p, r):
    """1 over the parameters and all 37 floats of a record, then 11 where the stored determinant has other bits than that of F."""
    if not all(map(math.isfinite, p + r)):
        raise Refused(1)
    if floats(r[BARE:]) != floats([determinant(r[:9])]):
        raise Refused(11)


def worked(model, p, r):
    """The amount, nothing where the law leaves the record untouched; and the record after it. 1, then 11, then the law, then whether the new
    F's determinant is finite."""
    taken(p, r)
    told = LAWS[TABLE.law_of[model][0]](p, r)
    if told is None:
        return None, r
    amount, sigma, scalars = told
    f = recompose(r[9:18], sigma, r[21:30])
    finite(*f)
    after = completed(f + r[9:18] + list(sigma) + r[21:30] + [scalars.get(k, r[k]) for k in range(30, BARE)])
    finite(*after[BARE:])
    return amount, after


def principal(law, r):
    """The principal stresses of a corotated law (flag, cfl, lambda, mu) from a record's sigma, split by its phase."""
    split, lame, mu = law[0], law[2], law[3]
    phase, h, sigma = r[30], r[33], r[18:21]
    j = sigma[0] * sigma[1] * sigma[2]
    around = lame * h * (j - 1.0) * j
    out = []
    for s in sigma:
        e = s - 1.0
        if phase == 1.0:
            out.append(2.0 * mu * h * e * s + around)
            continue
        pos, neg = 2.0 * mu * h * max(e, 0.0) * s, 2.0 * mu * h * min(e, 0.0) * s
        tell(pos, neg)
        pos, neg = (pos, neg + around) if j < 1.0 else (pos + around, neg)
        out.append(pos * (0.0 if split and phase == 0.0 else 1.0) + neg)
    finite(*out)
    return out


def fails(limits, s):
    return max(s) > limits[0] or (max(s) - min(s)) / 2.0 > limits[1]


def worked_with_failure(model, p, limits, law, r):
    """Whether the record failed, the law's amount and the record after both: the law first, then the verdict on the record that it leaves,
    whose phase is still the one that came, then the phase."""
    if not all(map(math.isfinite, limits + law)):
        raise Refused(1)
    amount, after = worked(model, p, r)
    yes = fails(limits, principal(law, after))
    return yes, amount, after[:30] + [0.0] + after[31:] if yes else after


def expected(b):
    try:
        model, parameters, records = read(b)
    except Refused as e:
        return ["sheet refused %d" % e.args[0]]
    lines = ["particles %d" % len(records)]
    for k, r in enumerate(records):
        try:
            amount, _ = worked(model, parameters, r)
            lines.append("%d untouched" % k if amount is None else "%d stored %r" % (k, amount))
        except Refused as e:
            lines.append("%d refused %d" % (k, e.args[0]))
    return lines + ["end"]


def same(want, got):
    if want == got:
        return True
    w, g = want.split(), got.split()
    if len(w) != 3 or w[:2] != g[:2] or w[1] != "stored":
        return False
    a, b = float(w[2]), struct.unpack(">d", bytes.fromhex(g[2]))[0]
    return abs(a - b) <= 2.0 ** -30 * min(abs(a), 1.0) + 2.0 ** -44


def write():
    for k, b in enumerate(cases()):
        (HERE / "data" / ("%02d" % k)).write_bytes(b)


def parts():
    """What the gate expects of each sheet, by its heading: `-- 00` an answer, `-- 00 why` the reasons."""
    return dict(part.split("\n", 1) for part in ("\n" + (HERE / "stdout").read_text()).split("\n-- ")[1:])


def printed():
    """The lines of the answers that are expected in the gate."""
    return [line for name, text in parts().items() if not name.endswith(" why") for line in ["-- " + name, *text.splitlines()]]


def printed_by(program):
    """The lines of a program that is run on each sheet."""
    lines = []
    for path in SHEETS:
        try:
            with open(program, "rb"), open(path, "rb") as f:
                out = subprocess.run(shell.words(program), stdin=f, stdout=subprocess.PIPE).stdout
        except OSError as e:
            raise shell.Wrong("%s: cannot be run (%s): ./install.sh PREFIX or bin/slope makes the program; PASOLETU_EMULATOR names what runs it "
                              "on another processor than x86-64" % (program, e.strerror))
        lines += ["-- " + path.name] + out.decode(errors="replace").splitlines()
    return lines


def check(got, whose):
    want = [line for path in SHEETS for line in ["-- " + path.name] + expected(path.read_bytes())]
    bad = [k for k, (w, g) in enumerate(zip(want, got)) if not same(w, g)]
    print("%s: %d lines, %d expected, %d differ" % (whose, len(got), len(want), len(bad)))
    for k in bad[:5]:
        print("line %d: %r, expected %r" % (k + 1, got[k], want[k]))
    return 1 if bad or len(want) != len(got) else 0


def work(args):
    if args.command == "write":
        return write()
    program = args.program or os.environ.get("PASOLETU_SLOPE")
    return check(printed(), "the gate's") or (check(printed_by(program), program) if program else 0)


def main(argv=None):
    about = argparse.ArgumentParser(description=__doc__, formatter_class=argparse.RawDescriptionHelpFormatter, usage=argparse.SUPPRESS)
    about.add_argument("command", choices=("write", "check"))
    about.add_argument("--program")
    return shell.run("cases.py", work, about.parse_args(argv))


if __name__ == "__main__":
    sys.exit(main())
