#!/usr/bin/env python3
"""The list tests/replay/data/readings: calls with answers that second readings give, where the Rust has no such call.

  tools/vectors.py make [--library FILE]   writes the list. The numbers that `why` compared are the library's (FILE, or tools/built's), the others are worked here
  tools/vectors.py check                   makes the list again, with the numbers compared that stand in it, and holds it to its bytes and to its sources: a line
                                           for each entry and each step that is wrong. Its last line is 'N passed, M failed'. No library is needed

Sources, by call:
  why          tests, branches, steps and places: tools/reasons.py and the tables of docs/STEPS.md; the numbers compared within 2^-30 of themselves and of 1
  update       the numbers of the refusals that `why` names, each for the same parameters and record: a refused update leaves the record
  factor       F by the generator of docs/FACTORS.md (seed 6; of the denormals seed 121), its sweeps written out here a second time, judged in exact fractions
               by beside/factors/exact.py
  energies in one split   bindings/python/tests/test_energy.py, on the inputs of the list that beside/run makes, whose answers in the Rust's mode it must give
               too; the logarithms and powers -1/3 are that list's
"""
import argparse
import collections
import ctypes
import importlib.util
import math
import pathlib
import re
import struct
import subprocess
import sys
import types

sys.path.insert(0, str(pathlib.Path(__file__).resolve().parent))
import cases  # noqa: E402
import reasons  # noqa: E402
import shell  # noqa: E402
from cases import INF, NAN, SNOW, broken, record  # noqa: E402
from making import replay  # noqa: E402
from making.rows import Table  # noqa: E402

DATA = shell.TOP / "tests" / "replay" / "data"
END = b"\xff"
ONE = struct.unpack("<Q", struct.pack("<d", 1.0))[0]


def words(xs):
    return list(struct.unpack("<%dQ" % len(xs), cases.floats(xs)))


def floats(ws):
    return list(struct.unpack("<%dd" % len(ws), struct.pack("<%dQ" % len(ws), *ws)))


# ---- lists

Entry = collections.namedtuple("Entry", "call refusal inputs outputs")


def lengths():
    """How many words go into each call and come out, by its number."""
    return {number: widths[:2] for number, widths in replay.lengths(Table(shell.TOP)).items()}


def numbers():
    """The first number of each call."""
    table = Table(shell.TOP)
    return {c.name: min(n for n, d, _ in table.numbered + table.replayed if d is c) for _, c, _ in table.numbered + table.replayed}


def read(data, widths):
    at = 0
    while data[at:at + 1] != END:
        call, refusal = data[at:at + 2]
        taken, given = widths[call]
        end = at + 2 + 8 * (taken + (given if refusal == 0 else 0))
        both = list(struct.unpack("<%dQ" % ((end - at - 2) // 8), data[at + 2:end]))
        yield Entry(call, refusal, both[:taken], both[taken:])
        at = end


def spelled(e):
    both = [*e.inputs, *e.outputs]
    return bytes([e.call, e.refusal]) + struct.pack("<%dQ" % len(both), *both)


# ---- why, and the updates that it says are refused

WEAK = [1e5, 0.3, 500.0, 2.0]
SAND = [0.6108652381980153, 0.15707963267948966, 0.2, 0.17453292519943295, 57692.3, 38461.5]
ALWAYS, FAILED = SAND + [0.0, 1.0], SAND + [1.0, 0.5]
STEEP = [-0.6, 0.0, 0.0, 0.0, 1e10, 1.0, 0.0, 1.0]
CLAY = [1e4, 0.3, 0.05, 1.0, 3.0, 2.36]
SOFT = [1e-320, 0.0, 1e300, 0.0, 1.0, 1e-90]


def grown(r, x):
    """The record with x times the ones for U."""
    return r[:9] + [x if k % 4 == 0 else 0.0 for k in range(9)] + r[18:]


# A law's parameters, a record, and what comes of them: Snow's bounds; a test and whether it held; or the refusal's number and its step.
CASES = {
    0: [
        (SNOW, record(), "neither neither neither"),
        (SNOW, record((2.0, 1.0, 0.5)), "upper neither lower"),
        ([-1.0, -0.5, 1.0], record((1.0, 3.0, 0.25)), "upper upper upper"),
        (SNOW, broken(36, -1.0), (11, 40)),
        (SNOW, record((1e-3, 1.0, 1.0), pdet=1e6), (2, 3)),
        (SNOW, record((1e3, 1.0, 1.0), pdet=-1e3), (10, 3)),
        (SNOW, record((1e200, 1e200, 0.0)), (3, 3)),
        (SNOW, grown(record((2.0, 2.0, 2.0)), 1.79e308), (3, 4)),
        (SNOW, grown(record(), 1e120), (3, 41)),
    ],
    1: [
        (WEAK, record((0.9, 0.9, 0.9)), (4, True)),
        (WEAK, record((1.2, 0.95, 0.9)), (5, True)),
        (WEAK, record((1.2, 1.19, 0.9)), (6, True)),
        (WEAK, record((1.3, 1.2, 1.1)), (6, False)),
        (WEAK, broken(36, 0.0), (11, 40)),
        ([1e5, 0.5, 500.0, 2.0], record(), (3, 1)),
        (WEAK, record((1.0, 0.0, 1.0)), (2, 2)),
        (WEAK, record((1.0, 1.0, 1e19)), (10, 2)),
        ([1e308, -0.3, 1.0, 0.0], record((1e4, 1e4, 1e4)), (3, 4)),
        ([1e308, 0.4, 1.0, 0.0], record((4.0, 1.0, 0.5)), (3, 5)),
        ([5e306, 0.49, 1.0, 1.0], record((1.0, 1.01, 1.02)), (3, 6)),
        ([1.7e308, 0.3, 0.09, 0.0], record((1e-3, 700.0, 0.8)), (3, 7)),
        ([1e5, 0.3, 1e6, 0.0], record((1.5, 1.0, 0.8), phard=1e160), (10, 7)),
        ([1e5, 0.3, -1e10, 0.0], record((1.5, 1.0, 0.8)), (2, 9)),
        ([-1e5, 0.3, -1e30, 0.0], record((0.5, 0.6, 0.7)), (10, 9)),
        ([1e5, 0.3, 1e5, -1e308], record((1e18, 1e18, 1e18)), (3, 10)),
        (WEAK, grown(record((1.5, 1.0, 1.0)), 1e120), (3, 41)),
    ],
    2: [
        (FAILED, record(), (1, True)),
        (ALWAYS, record((0.9, 0.9, 0.9)), (8, True)),
        (ALWAYS, record((1.1, 1.0, 1.0)), (9, True)),
        (ALWAYS, record((0.8, 0.81, 0.79)), (13, True)),
        (FAILED, record((0.6, 1.2, 1.1), phase=-0.0), (13, False)),
        (ALWAYS, broken(36, -0.0, record((0.6, 1.2, 1.1), f=[0.0] * 9)), (11, 40)),
        (ALWAYS, record(phard=1e5), (2, 2)),
        (ALWAYS, record(phard=-1e5), (10, 2)),
        ([-10.0] + ALWAYS[1:], record(), (2, 3)),
        ([10.0] + ALWAYS[1:], record(), (10, 3)),
        (ALWAYS, record((1e-19, 1.0, 1.0)), (2, 6)),
        (ALWAYS, record((1.0, 1e19, 1.0)), (10, 6)),
        (ALWAYS, record(gain=1e200), (10, 10)),
        (SAND[:4] + [0.0, 0.0, 0.0, 1.0], record((0.5, 0.6, 0.7)), (3, 12)),
        ([-0.6, 0.0, 0.0, 0.0, 1e308, 1e-10, 0.0, 1.0], record((0.5, 1.0, 2.0), gain=-3.0), (3, 14)),
        (STEEP, record((0.9, 0.5, 0.7)), (2, 15)),
        (STEEP, record((0.5, 0.9, 0.7)), (10, 15)),
        ([0.0, 0.0, 0.2, 0.0, 1.0, 3e8, 0.0, 1.0], record((0.9, 0.9, 0.9), gain=-82.0, pdet=-0.0), (3, 16)),
        (ALWAYS, record((1e-18, 1e-18, 1e-18), gain=300.0), (2, 17)),
        (ALWAYS, record((1e18, 1e18, 2.0)), (10, 17)),
        (SAND + [0.0, 1e20], record((1.5, 1.5, 1.5)), (2, 18)),
        (SAND + [0.0, -1e20], record((1.5, 1.5, 1.5)), (10, 18)),
        (ALWAYS, record((2.0, 1.0, 1.0), pdet=1e308), (3, 19)),
        (ALWAYS, grown(record((1.5, 1.0, 1.0)), 1e120), (3, 41)),
    ],
    3: [
        (CLAY, record((0.5, 0.5, 0.5), alpha=-0.01), (7, True)),
        (CLAY, record((1.5, 1.5, 1.5), alpha=-0.01), (8, True)),
        (CLAY, record(alpha=-0.01), (9, True)),
        (CLAY, record((0.8, 1.1, 1.1), alpha=-0.05), (9, False)),
        (CLAY, broken(36, 0.5), (11, 40)),
        ([1e4, 0.5, 0.05, 1.0, 3.0, 2.36], record(), (3, 1)),
        (CLAY[:4] + [-3.0, 2.36], record(alpha=-300.0), (2, 3)),
        (CLAY, record(alpha=-300.0), (10, 3)),
        (CLAY, record((0.0, 1.0, 1.0)), (2, 5)),
        (CLAY, record((1e20, 1.0, 1.0)), (10, 5)),
        (CLAY, record((1e200, 1e200, 0.0)), (3, 5)),
        (CLAY, record((1e160, 1e-160, 1.0)), (3, 6)),
        ([1e308, 0.3, 0.0, 0.0, 3.0, 2.36], record(alpha=-1.0), (3, 8)),
        ([1e308, 0.3, 0.5, 0.0, 3.0, 0.0], record((0.9, 1.0, 1.1), alpha=-1.0), (3, 9)),
        ([1e4, 0.3, -1e10, 1.0, 3.0, 2.36], record((1.5, 1.0, 1.0), alpha=-1.0), (2, 10)),
        ([-1e200, -0.3, 1e200, 1.0, 4.2, 2.5], record((1.0, 0.8, 0.8), alpha=-0.05), (10, 10)),
        ([1e4, 1.2, 1e100, 1.0, 3.0, 2.36], record((0.9, 1.0, 0.8), alpha=-0.05), (10, 11)),
        ([-1.0, 0.49, 1e25, 1.0, 1.8, 1.9], record((1e-18, 1.0, 1.0), alpha=1.0), (2, 12)),
        ([7.0, 1.1, 0.0, 1.0, 4.0, 0.9], record((1.0, 1.0, 1e18), alpha=-0.05), (10, 12)),
        ([1e308, 0.3, 1.5e5, 1.0, 0.0, 0.0], record((0.005, 1.0, 200.0)), (10, 16)),
        ([1e139, 0.0, 0.0, 1.0, 3.0, 0.0], record((1.001, 1.0, 0.999), alpha=-50.0), (10, 17)),
        ([1.9e155, 0.0, 0.0, 1.0, 1.0, 5.0], record((1.01, 1.02, 0.95), alpha=-0.0694), (10, 19)),
        ([1e8, 0.3, 1e100, 1.0, 1.0, 0.0], record((1.2, 1.0, 0.9)), (2, 23)),
        ([3e150, 0.0, -0.4999999999999999, 0.0, 1.0, 1.0], record((300.0, 1.0, 0.002), alpha=-0.48), (10, 24)),
        ([1e-320, 0.0, 1e300, 0.0, 1.0, 0.0], record((1e90, 1e90, 1e-180)), (3, 26)),
        ([1e154, 0.0, 0.05, 0.0, 1.0, 1.0], record((0.01, 1.0, 100.0)), (10, 27)),
        ([4e-321, 0.3, 9e294, 0.0, 1.0, 7e-93], record((1.001e86 * math.sqrt(2.0), 1.001e86, 1e-172), alpha=-600.0), (3, 28)),
        (SOFT, record((1e-180, 1e90, 1e90), alpha=-600.0), (2, 29)),
        (SOFT, record((1e90, 1e90, 1e-180), alpha=-600.0), (10, 29)),
        ([1e4, 0.3, 7e3, 0.0, 3.0, 2.36], grown(record((700.0, 700.0, 700.0), alpha=-0.5), 1e308), (3, 30)),
        (CLAY, grown(record((0.5, 0.5, 0.5), alpha=-0.01), 1e120), (3, 41)),
    ],
}
# Inputs that are no number, by place: the first parameter's goes before the record's, which goes before 11.
PLACES = [(0, 2, None), (1, None, 36), (2, 7, 20), (3, 5, None), (0, None, 0), (1, 0, 5), (2, None, 29), (3, None, 35)]
# The laws that `replay` has, by their places in the table.
REPLAYED = [k for k, law in enumerate(cases.TABLE.models) if law.beside]
# Calls that are refused whole, by 6: an unknown model, a flag.
WHOLE = [(0, cases.MODELS, None), (1, 255, None), (2, 2, (6, -0.0)), (3, 7, (3, 0.5)), (2, 6, (6, NAN))]
# docs/STEPS.md, word 0.
KIND = {"test": 0, "zeros": 1, "flag": 2, "bounds": 3, "refusal": 4}
BOUND = {"neither": 0, "lower": 1, "upper": 2}


def told(law, p, r):
    """The first eight words of the reason, and what it compared: bounds as they are, floats."""
    try:
        test, compared = reasons.reason(law, p, r)
    except reasons.Stopped as e:
        number, step, *place = e.args
        whose, at = (("parameter", "float").index(place[0]) + 1, place[1]) if place else (0, 0)
        return [KIND["refusal"], number, step, whose, at, 0, 0, 0], []
    if test == "bounds":
        return [KIND["bounds"], 0, 0, 0, 0, 0, 0, 1], [BOUND[b] for b in compared]
    kind = "flag" if not compared else "zeros" if len(compared) == 3 else "test"
    return [KIND[kind], 0, 0, 0, 0, test[1], int(test[2]), reasons.BRANCHES[test]], compared


def as_label(law, first, compared):
    if first[0] == KIND["bounds"]:
        return " ".join(list(BOUND)[b] for b in compared)
    return (first[1], first[2]) if first[0] == KIND["refusal"] else (first[5], bool(first[6]))


def inputs_of(law):
    for p, r, label in CASES[law]:
        yield p, r, label
    for of, parameter, place in PLACES:
        if of == law:
            p, r, _ = CASES[law][0]
            p = broken(parameter, NAN, p[:]) if parameter is not None else p
            yield p, broken(place, -INF, r[:]) if place is not None else r, (1, 0)


def reached(number, update, compared_of):
    """The entries of `why`, with the update that is refused after its reason; and what is wrong with them."""
    entries, wrong, steps, tests = [], [], set(), set()
    for law in CASES:
        for k, (p, r, label) in enumerate(inputs_of(law)):
            first, compared = told(law, p, r)
            if as_label(law, first, compared) != label:
                wrong.append("why: law %d, case %d is %r, and should be %r" % (law, k, as_label(law, first, compared), label))
            inputs = [law + 4 * (k % 2), *words(p), *words(r)]
            there = compared_of(number + law, inputs) if compared else [0, 0, 0]
            if first[0] in (KIND["test"], KIND["zeros"]):
                near = all(reasons.near(x, y) for x, y in zip(compared, floats(there)))
                good = near and there[len(compared):] == [0] * (3 - len(compared))
            else:
                there, good = (compared or [0, 0, 0]), True
            if not good:
                wrong.append("why: law %d, case %d compared %r, and should be near %r" % (law, k, floats(there), compared))
            entries.append(Entry(number + law, 0, inputs, first + there))
            if first[1]:
                entries.append(Entry(update + law, first[1], inputs[1:], []))
                steps.add((law, first[2]))
            elif first[0] != KIND["bounds"]:
                tests.add((law, first[5], bool(first[6])))
    for law, model, flag in WHOLE:
        p, r, _ = CASES[law][0]
        p = broken(*flag, p[:]) if flag else p
        entries.append(Entry(number + law, 6, [model, *words(p), *words(r)], []))
    wrong += ["why: no entry has law %d's test %d, held %s" % test for test in sorted(set(reasons.BRANCHES) - tests) if test[0] in REPLAYED]
    return entries, wrong, steps


def silent():
    """The steps that docs/STEPS.md says refuse nothing: (law, step)."""
    part = (shell.TOP / "docs" / "STEPS.md").read_text().split("## Steps that refuse nothing\n")[1].split("\n## ")[0]
    laws = reasons.titles()
    for law, steps in re.findall(r"^- (%s) ([0-9, ]+)" % "|".join(laws), part, re.M):
        yield from ((laws.index(law), int(step)) for step in steps.split(","))


def steps_wrong(steps):
    """Each step of docs/STEPS.md is refused at by an entry, or said to refuse nothing; how many there are, and what is wrong."""
    said, every = list(silent()), [(law, step) for law, rows in enumerate(reasons.steps()) for step in rows]
    wrong = ["docs/STEPS.md: law %d's step %d is said to refuse nothing, and an entry is refused there" % s for s in said if s in steps]
    wrong += ["docs/STEPS.md: law %d has no step %d" % s for s in said if s not in every]
    wrong += ["why: no entry is refused at law %d's step %d, and docs/STEPS.md doesn't say that none can" % s for s in every if s[0] in REPLAYED and s not in steps and s not in said]
    return len(every), wrong


# ---- factors: the sweeps of docs/FACTORS.md

def drawn_by(seed):
    mask = 2 ** 64 - 1
    while True:
        seed = seed + 0x9E3779B97F4A7C15 & mask
        z = (seed ^ seed >> 30) * 0xBF58476D1CE4E5B9 & mask
        z = (z ^ z >> 27) * 0x94D049BB133111EB & mask
        yield z ^ z >> 31


def entry_by_entry(draw):
    """F's nine entries, sizes from 2^-20 to 2^20."""
    def entry():
        digits, exponent = next(draw), 1003 + next(draw) % 40
        return floats([digits & 0x800FFFFFFFFFFFFF | exponent << 52])[0]
    return [entry() for _ in range(9)]


def denormal(draw):
    """F's nine entries, up to 2^52 units of 2^-1074."""
    def entry():
        shift = 12 + (number := next(draw), next(draw) % 52)[1]
        x = floats([number >> shift])[0]
        return -x if next(draw) & 1 else x
    return [entry() for _ in range(9)]


def size(x):
    """-0.0 keeps its sign."""
    return -x if x < 0.0 else x


def tiny(x, e):
    return x == 0.0 or size(x) <= e


def half_turn(x, y, e):
    """The cosine and sine of the turn back by half the angle with the tangent y / x; none where y counts as nothing."""
    if tiny(y, e):
        return 1.0, -0.0

    def doubled(r):
        z = r * r
        t = r * (0.25 - z * (5019 / 65536 - z * (2310 / 65536 - z * (641 / 65536))))
        i = 1.0 / (1.0 + t * t)
        return (1.0 - t * t) * i, (t + t) * i
    if size(x) < size(y):
        r = x / y
        (c, s), eighth = doubled(r), math.sqrt(0.5)
        return (eighth * (c - s), eighth * (c + s)) if r < 0.0 else (eighth * (c + s), eighth * (s - c))
    c, s = doubled(cases.divide(y, x))
    return c, -s


def after(a, b):
    """One turn and then another."""
    return a[0] * b[0] - a[1] * b[1], a[1] * b[0] + a[0] * b[1]


def turned(m, turn):
    """The first two rows of m turned."""
    c, s = turn
    return [[c * x - s * y for x, y in zip(m[0], m[1])], [s * x + c * y for x, y in zip(m[0], m[1])], m[2]]


def columns(m):
    return [list(column) for column in zip(*m)]


def sweep(m, u, v, least):
    for _ in range(3):
        (a, b), (c, d) = m[0][:2], m[1][:2]
        if not (tiny(b, least) and tiny(c, least)):
            alike = half_turn(0.5 * a - 0.5 * d, 0.5 * b + 0.5 * c, 0.5 * least)
            unlike = half_turn(0.5 * a + 0.5 * d, 0.5 * c - 0.5 * b, 0.5 * least)
            left, right = after(alike, unlike), after(alike, (unlike[0], -unlike[1]))
            m = columns(turned(columns(turned(m, left)), right))
            u, v = turned(u, left), turned(v, right)
        m, u, v = [row[1:] + row[:1] for row in m[1:] + m[:1]], u[1:] + u[:1], v[1:] + v[:1]
    return m, u, v


def factors(f):
    """U, sigma and V^T of F's nine entries, 21 floats."""
    m = [f[3 * i:3 * i + 3] for i in range(3)]
    sizes = [[2.0 ** -51 * size(x) for x in row] for row in m]
    least = sum((row[0] + row[1] + row[2] for row in sizes[1:]), sizes[0][0] + sizes[0][1] + sizes[0][2])
    u = v = [[1.0, 0.0, 0.0], [0.0, 1.0, 0.0], [0.0, 0.0, 1.0]]
    for _ in range(8):
        if all(tiny(m[i][j], least) for i in range(3) for j in range(3) if i != j):
            break
        m, u, v = sweep(m, u, v, least)
    u = [[-x for x in row] if m[i][i] < 0.0 else row for i, row in enumerate(u)]
    return [x for row in columns(u) for x in row] + [size(m[i][i]) for i in range(3)] + [x for row in v for x in row]


def module(name, path):
    spec = importlib.util.spec_from_file_location(name, path)
    made = importlib.util.module_from_spec(spec)
    spec.loader.exec_module(made)
    return made


def factored(number):
    """Sixteen F entry by entry; of denormals four that miss the check and two that meet it; 1 and 11 before it."""
    exact = module("exact", shell.TOP / "beside" / "factors" / "exact.py")

    def made(f):
        r = cases.completed(f + [float(k) for k in range(21)] + [0.5, 0.25, 3.0, -1.0, 0.125, -2.0])
        found = factors(f)
        good = all(map(math.isfinite, found)) and exact.judged(f + found)[2]
        return r, found, 0 if good else 14
    draw, small, wanted = drawn_by(6), drawn_by(121), collections.Counter({0: 2, 14: 4})
    chosen = [made(entry_by_entry(draw)) for _ in range(16)]
    while any(wanted.values()):
        one = made(denormal(small))
        if wanted[one[2]]:
            wanted[one[2]] -= 1
            chosen.append(one)
    for r, found, refusal in chosen:
        yield Entry(number, refusal, words(r), [] if refusal else words(r[:9] + found + r[30:]))
    r = chosen[0][0]
    for place, x, refusal in ((9, NAN, 1), (35, INF, 1), (36, -r[36], 11), (30, NAN, 1)):
        yield Entry(number, refusal, words(broken(place, x, r[:])), [])


# ---- the energies in one split

Law = collections.namedtuple("Law", "cfl_coeff lam mu")


def energy_reading(logarithms, powers):
    """bindings/python/tests/test_energy.py's second reading, with these for the library's."""
    library = types.ModuleType("pasoletu")
    library.NeoHookeanElasticity, library.Refused = Law, ValueError
    library.elementary = types.SimpleNamespace(ln=lambda x: logarithms[x], inv_cbrt=lambda x: powers[x])
    sys.modules["pasoletu"] = library
    try:
        return module("test_energy", shell.TOP / "bindings" / "python" / "tests" / "test_energy.py").energy
    finally:
        del sys.modules["pasoletu"]


def energies(of, entries):
    """The same inputs as the Rust's entries, in one split; and what is wrong."""
    def function(name):
        return {floats(e.inputs)[0]: floats(e.outputs)[0] for e in entries if e.call == of[name] and e.refusal == 0}
    energy = energy_reading(function("ln"), function("inv_cbrt"))
    made, wrong = [], []
    for e in entries:
        given = floats(e.inputs)
        if e.call == of["neo_hookean_elastic_energy_density_in"]:
            law, phase, hardening, f, read = given[:3], given[4], given[5], given[6:15], given
        elif e.call == of["record_neo_hookean_elastic_energy_density_in"]:
            read = given
            law, r = given[:3], given[4:]
            phase, hardening, f = r[30], r[33], r[:9]
        else:
            continue
        if e.refusal not in (0, 2, 3, 10) or e.inputs[3] != 0:
            continue
        rows = [f[3 * i:3 * i + 3] for i in range(3)]
        both = [energy(Law(*law), mode, phase, hardening, rows) for mode in (False, True)]
        refusals = [x if isinstance(x, int) else 0 for x in both]
        if refusals[0] != e.refusal or (not e.refusal and words(both[:1]) != e.outputs):
            wrong.append("call %d: the reading of the energy in the Rust's mode is %r, and the list has another" % (e.call, both[0]))
        inputs = e.inputs[:3] + [ONE] + e.inputs[4:]
        made.append(Entry(e.call, refusals[1], inputs, [] if refusals[1] else words(both[1:])))
    return made, wrong


# ---- all of it

def made(compared_of):
    """The list's entries, how many steps were held, and what is wrong."""
    of, widths = numbers(), lengths()
    entries, wrong, steps = reached(of["why"], of["update"], compared_of)
    entries += factored(of["factor"])
    more, bad = energies(of, list(read((DATA / "list").read_bytes(), widths)))
    held, unheld = steps_wrong(steps)
    for e in entries + more:
        taken, given = widths[e.call]
        assert len(e.inputs) == taken and len(e.outputs) == (0 if e.refusal else given), e
    return entries + more, held, wrong + bad + unheld


def stored(widths):
    data = (DATA / "readings").read_bytes()
    return {(e.call, *e.inputs): e.outputs for e in read(data, widths)}, data


def check(args):
    there, data = stored(lengths())
    entries, held, wrong = made(lambda call, inputs: (there.get((call, *inputs)) or [0] * 11)[8:])
    again = b"".join(map(spelled, entries)) + END
    if again != data:
        wrong.append("tests/replay/data/readings is %d bytes and made again %d, and they are not the same" % (len(data), len(again)))
    for line in wrong:
        print("tools/vectors.py: " + line)
    print("%d passed, %d failed" % (len(entries) + held - len(wrong), len(wrong)))
    return len(wrong) != 0


def make(args):
    file = args.library or subprocess.run([shell.TOP / "tools" / "built", "library"], stdout=subprocess.PIPE, check=True, text=True).stdout.strip()
    library = ctypes.CDLL(file)

    def compared_of(call, inputs):
        reason, given = (ctypes.c_uint64 * 11)(), inputs[1:]
        p, r = given[:-37], given[-37:]
        lent = [(ctypes.c_uint64 * len(ws))(*ws) for ws in (p, r)]
        counted = [x for list in (*lent, reason) for x in (list, ctypes.c_size_t(len(list)))]
        status = library.pasoletu_why(ctypes.c_uint64(inputs[0]), *counted) & 255
        return list(reason)[8:] if status == 0 else [0, 0, 0]
    entries, _, wrong = made(compared_of)
    if wrong:
        raise shell.Wrong("nothing was written: " + "; ".join(wrong))
    (DATA / "readings").write_bytes(b"".join(map(spelled, entries)) + END)
    print("tests/replay/data/readings: %d entries" % len(entries))
    return 0


def main(argv=None):
    about = argparse.ArgumentParser(description=__doc__, formatter_class=argparse.RawDescriptionHelpFormatter)
    about.add_argument("what", choices=["make", "check"])
    about.add_argument("--library", help="the shared library")
    args = about.parse_args(argv)
    return shell.run("vectors.py", make if args.what == "make" else check, args)


if __name__ == "__main__":
    sys.exit(main())
