#!/usr/bin/env python3
"""Makes the list of calls that the program tests/list_cases makes in the gate, with every lent list before and after.

  tools/list_cases.py [FOLDER]            writes data/list and stdout below FOLDER (default: tests/list_cases)
  tools/list_cases.py --check [FOLDER]    makes both again and holds the files to them, byte by byte. The last line is 'N passed, M failed'

What is expected is worked here and in tools/cases.py from docs/RULES.md and never by the library: by whole numbers, fractions, and Python's own
floats in the order that RULES, section 4, fixes. Where a law's answer is asked for it is one that no bit of an elementary function goes into (each is
worked again with these functions moved, and must be the same), or the Rust's own: the first stored entry of a law in tests/replay/data/list.

The file is kinds of calls, one after the other: a name, the call's number in tests/list_cases/list_cases.c, how many entries follow, and these. An
entry is the answer wanted, three numbers (model or particles; a move's particle and zone), the lists before (parameters, limits, corotated law, zones,
records, answers, tallies, bytes; two reports stand first, counts, a header, a state and a report where tallies stand, progress where zones stand) and, as
wanted, those after that can be written. Numbers are words of 8 bytes, low byte first. A list is its length, how many of its entries follow, the entry that
all others have, and those that follow.
"""
import argparse
import contextlib
import math
import pathlib
import struct
import sys
from fractions import Fraction

HERE = pathlib.Path(__file__).resolve().parent
sys.path[:0] = [str(HERE), str(HERE / "measure")]
import cases  # noqa: E402
import replayed  # noqa: E402
import shell  # noqa: E402
from cases import Refused  # noqa: E402

PROGRAM = shell.TOP / "tests" / "list_cases"
KINDS = ["pass", "pass_factored", "flat_pass", "factor_list", "fill_determinants", "pass_with_failure", "pass_factored_with_failure", "pass_by_zone",
         "pass_with_failure_by_zone", "clear_tallies", "move_particle", "read_sheet", "run_sheet", "write_sheet", "begin_parts", "part", "end_parts", "report", "join_reports"]
LISTS = "plczratb"  # parameters, limits, corotated, zones, records, answers, tallies, bytes
WRITTEN = "zratb"
LENGTH, UNKNOWN, ZONE, FULL, LONG = 8, 6, 12, 13, 16
FLOATS, FLAT, MOST, STATE = 37, 20, 200, 52
LAST = 2 ** 32 - 1


# ---- words, floats and lists

def words(xs):
    """The bits of floats."""
    return list(struct.unpack("<%dQ" % len(xs), struct.pack("<%dd" % len(xs), *xs)))


def floats(ws):
    return list(struct.unpack("<%dd" % len(ws), struct.pack("<%dQ" % len(ws), *ws)))


def marks(n, seed=0):
    """What stands in a list that is to be written, or not: no two words alike, none of them a likely answer."""
    return [0x6d61726b00000000 + 0x10000 * seed + k for k in range(n)]


def spelled(xs, size):
    """A list in the file: those at its end that are all alike are left out."""
    there = len(xs)
    while there > 1 and xs[there - 2] == xs[-1]:
        there -= 1
    there = max(0, there - 1)
    return struct.pack("<3Q", len(xs), there, xs[-1] if xs else 0) + struct.pack("<%d%s" % (there, size), *xs[:there])


class Entry:
    """A call: its kind, the answer wanted, its numbers, the lists before, and those that are others after it."""

    def __init__(self, kind, answer, before, after=None, x=0, y=0, w=0):
        self.kind, self.answer, self.numbers = kind, answer, (x, y, w)
        self.before = {name: list(before.get(name, [])) for name in LISTS}
        self.after = {name: list((after or {}).get(name, self.before[name])) for name in LISTS}
        assert all(len(self.before[n]) == len(self.after[n]) for n in LISTS) and not set(after or {}) - set(WRITTEN), kind
        assert answer == 0 or not after or kind in ("part", "end_parts"), kind

    def bytes(self):
        def lists(held, names):
            return b"".join(spelled(held[name], "B" if name == "b" else "Q") for name in names)
        return struct.pack("<4Q", self.answer, *self.numbers) + lists(self.before, LISTS) + lists(self.after, WRITTEN)

    def refused(self, answer, **changed):
        """The same call with other lists or numbers: it is refused, and nothing is written."""
        numbers = dict(zip("xyw", self.numbers), **{n: changed.pop(n) for n in "xyw" if n in changed})
        return Entry(self.kind, answer, {**self.before, **changed}, **numbers)

    def lengths(self, names, answer=LENGTH):
        """Each of these lists a word shorter and a word longer."""
        for name in names:
            held = self.before[name]
            yield self.refused(answer, **{name: held[:-1]})
            yield self.refused(answer, **{name: held + held[-1:]})


# ---- laws whose answers no bit of an elementary function goes into

class Moved:
    """The elementary functions, each answer moved by a part of itself but where section 3 fixes it."""

    def __init__(self, by):
        self.by = by

    def __getattr__(self, name):
        plain = getattr(math, name)
        if name not in ("log", "exp", "sin", "sinh"):
            return plain
        return lambda x: plain(x) if name == "exp" and x == 0.0 else plain(x) * (1.0 + self.by)


@contextlib.contextmanager
def moved(by):
    plain = cases.math, cases.third
    cases.math, cases.third = Moved(by), lambda x, k: plain[1](x, k) * (1.0 if x == 1.0 else 1.0 + by)
    try:
        yield
    finally:
        cases.math, cases.third = plain


def told(by, *given):
    """What a reading tells of a record, as words: the answer's two and the record, or a refusal's."""
    try:
        *failed, amount, after = by(*given)
    except Refused as e:
        return (2, e.args[0]), None, False
    return ((0, 0) if amount is None else (1, *words([amount]))), words(after), failed == [True]


def known(by, *given):
    """The same, where it is the same with every elementary function moved up and down."""
    ways = []
    for k in (0.0, 2.0 ** -40, -2.0 ** -40):
        with moved(k):
            ways.append(told(by, *given))
    assert ways[0] == ways[1] == ways[2], ("an elementary function's bits go into", given)
    return ways[0]


def list_passed(by, records, floats_a_record=FLOATS):
    """Records, answers and failures of a pass, by what a reading of one record tells; a refused record keeps its words."""
    after, answers, failed = [], [], []
    for k in range(0, len(records), floats_a_record):
        r = records[k:k + floats_a_record]
        answer, stored, yes = known(by, floats(r))
        after += r if stored is None or answer[0] == 0 and stored == words(floats(r)) else stored
        answers += answer
        failed.append(yes)
    return after, answers, failed


def counts(answers):
    return [answers[::2].count(code) for code in range(3)]


IDENTITY = [1.0, 0.0, 0.0, 0.0, 1.0, 0.0, 0.0, 0.0, 1.0]
TURN = [0.6, -0.8, 0.0, 0.8, 0.6, 0.0, 0.0, 0.0, 1.0]
OTHER = [1.0, 0.0, 0.0, 0.0, 0.28, 0.96, 0.0, -0.96, 0.28]
SNOW = [0.025, 0.0045, 0.0]  # a hardening coefficient of 0: the elastic hardening becomes exp(0), which is 1
SAND = [0.6, 0.15, 0.2, 0.17, 1000.0, 500.0, 1.0, 0.5]  # only active when failed: untouched by any other phase
STONE = [1000.0, 0.25, 1.0e6, 0.0]  # Rankine: far inside, or with s = 0 all the way back, at a rate of 0
LIMITS, LAW, SPLIT = [10.0, 40.0], [0.0, 0.5, 100.0, 200.0], [1.0, 0.5, 100.0, 200.0]
NAN, INF = float("nan"), float("inf")
ODD = 0x7ff0000000000abc  # a NaN with digits of its own


def record(sigma=(1.0, 1.0, 1.0), u=TURN, vt=OTHER, phase=1.0, pdet=1.25, phard=0.5, ehard=3.0, gain=0.0, alpha=-0.125):
    """A record's words, no two scalars alike."""
    f = cases.recompose(u, list(sigma), vt)
    return words(cases.completed(f + u + list(sigma) + vt + [phase, pdet, phard, ehard, gain, alpha]))


def diagonal(f, **scalars):
    """A record whose F is diagonal, its factors others."""
    r = record((7.0, 8.0, 9.0), **scalars)
    r[:9] = words([f[0], 0.0, -0.0, 0.0, f[1], 0.0, -0.0, 0.0, f[2]])
    r[36] = words([cases.determinant(floats(r[:9]))])[0]
    return r


def with_word(r, place, word):
    return r[:place] + [word] + r[place + 1:]


WRONG = with_word(record(), 36, words([2.0])[0])
NOT_FINITE = with_word(record(), 9, ODD)
GROWN = record((1.5, 1.5, 1.5), pdet=1.5e308)  # the plastic determinant passes the floats: 0 * (1 - infinity) is no number, 3


def rust(law):
    """The parameters, the record before, the record after and the answer of the first stored update by a law in the replayed list."""
    b = replayed.LIST.read_bytes()
    for at, number, refusal, given in replayed.entries(b):
        if number == 20 + law and refusal == 0:
            n = len(given)
            ws = struct.unpack_from("<%dQ" % (n + FLOATS + 2), b, at + 2)
            if ws[-2] == 1:
                return list(ws[:n - FLOATS]), list(ws[n - FLOATS:n]), list(ws[n:-2]), list(ws[-2:])
    raise shell.Wrong("tests/replay/data/list has no stored update by law %d" % law)


# ---- passes

def passed(model, p, records, kind="pass", by=None):
    """A pass of records, its parameters as floats."""
    by = by or (lambda r: cases.worked(model, p, r))
    after, answers, _ = list_passed(by, records, FLAT if kind == "flat_pass" else FLOATS)
    before = {"p": words(p), "r": records, "a": marks(len(answers), 1), "t": marks(3, 2)}
    return Entry(kind, 0, before, {"r": after, "a": answers, "t": counts(answers)}, x=model)


def judged(model, p, limits, law, records, kind="pass_with_failure", by=None):
    by = by or (lambda r: cases.worked_with_failure(model, p, limits, law, r))
    after, answers, failed = list_passed(by, records)
    before = {"p": words(p), "l": words(limits), "c": words(law), "r": records, "a": marks(len(answers), 1), "t": marks(4, 2)}
    return Entry(kind, 0, before, {"r": after, "a": answers, "t": counts(answers) + [sum(failed)]}, x=model)


def sand():
    """Untouched thrice, stored twice, refused once: no two counts are alike."""
    return record((1.1, 0.9, 1.3)) + record(phase=0.0) + WRONG + record((2.0, 1.0, 0.5), phase=0.5) + record(phase=-0.0, gain=0.5) + record(phard=2.0)


def refusals(good):
    """Before any record: 6 for an unknown model with any list of parameters, and for a flag of sand; 8 before either."""
    for x, p in ((cases.MODELS, []), (2 ** 64 - 1, good.before["p"])):
        yield good.refused(UNKNOWN, x=x, p=p)
    for flag in (-0.0, 0.5, NAN):
        yield good.refused(UNKNOWN, p=with_word(good.before["p"], 6, words([flag])[0]))
    bad = with_word(good.before["p"], 6, words([2.0])[0])
    for name in "ra":
        yield good.refused(LENGTH, p=bad, **{name: good.before[name][:-1]})
    yield good.refused(LENGTH, x=9, t=good.before["t"] + [1])
    if good.kind != "flat_pass":
        yield good.refused(LENGTH, r=good.before["r"] + good.before["r"][:FLOATS])


def passes():
    good = passed(2, SAND, sand())
    assert good.after["t"] == [3, 2, 1]
    yield good
    yield passed(6, SAND, sand())
    yield passed(0, SNOW, record((2.0, 1.0, 0.5)) + NOT_FINITE + record() + GROWN + record((0.99, 1.003, 0.5), phase=0.0, pdet=-2.0) + WRONG)
    yield passed(1, STONE, record((1.2, 0.9, 1.1)) + record((2.0, 3.0, 4.0), phard=1.0e6 + 1.0, ehard=0.25) + with_word(record(), 36, ODD))
    yield passed(4, SNOW[:1] + [NAN] + SNOW[2:], record() + WRONG)
    yield passed(3, [1000.0, 0.25, 0.5, 1.0, 2.0, 1.0], [])
    for law in range(4):
        p, before, after, answer = rust(law)
        lists = {"p": p, "r": before, "a": marks(2, 1), "t": marks(3, 2)}
        yield Entry("pass", 0, lists, {"r": after, "a": answer, "t": [0, 1, 0]}, x=law)
    less = passed(2, SAND, record(phase=0.0) + record((1.1, 0.9, 1.3)))
    yield from refusals(less)
    yield from less.lengths("prat")


# ---- our own factors. Of a diagonal F sigma are the entries' sizes and V^T is the identity; U's column takes the sign of one below 0.

def factored(by):
    """A reading of a record after its factors: those of a diagonal F, and of one none of whose factors can meet the check. A record that the law
    refuses keeps the factors that it had, one that it leaves untouched has the new ones."""
    def reading(r):
        if not all(map(math.isfinite, r)):
            raise Refused(1)
        cases.taken([], r)
        if r[:9] == SMALL:
            raise Refused(14)
        signs = [math.copysign(1.0, r[k]) if r[k] else 1.0 for k in (0, 4, 8)]
        u = [IDENTITY[3 * i + j] * signs[j] for i in range(3) for j in range(3)]
        assert all(r[k] == 0.0 for k in (1, 2, 3, 5, 6, 7))
        return by(r[:9] + u + [abs(r[k]) if r[k] < 0.0 else r[k] for k in (0, 4, 8)] + IDENTITY + r[30:])
    return reading


# Units of 2^-1074: the singular values are 1.618.., 1 and 0.618.. of them, sigma can be whole numbers of them alone, and the check asks for 2^-40 of one.
UNIT = 2.0 ** -1074
SMALL = [UNIT, UNIT, 0.0, 0.0, UNIT, 0.0, 0.0, 0.0, UNIT]


def small():
    r = words(SMALL) + record()[9:]
    r[36] = words([cases.determinant(SMALL)])[0]
    return r


def factors():
    """Right factors of F as they come are finite and else not looked at. In order: 1 as they came, 11, 14."""
    lists = [diagonal((2.0, 1.0, 0.5)), small(), diagonal((-2.0, 1.0, 0.25), phase=0.0), with_word(diagonal((1.0, 1.0, 1.0)), 12, ODD),
             diagonal((0.0, 3.0, -0.0)), with_word(small(), 36, words([-0.0])[0]), diagonal((1.0, -3.0, -1.5), phase=0.0)]
    return [w for r in lists for w in r]


def factored_passes():
    good = passed(2, SAND, diagonal((2.0, -1.0, 0.5)) + small() + diagonal((1.0, 1.0, 1.0), phase=0.0) + diagonal((3.0, 1.0, 0.25)), "pass_factored",
                  factored(lambda r: cases.worked(2, SAND, r)))
    assert good.after["t"] == [2, 1, 1]
    yield good
    yield passed(0, SNOW, factors(), "pass_factored", factored(lambda r: cases.worked(0, SNOW, r)))
    law = [0.5, 0.5, 1.0]  # sigma 4, crushed to 1.5, and a plastic determinant of -700: above the exponential's range, so the old factors stay
    torn = diagonal((4.0, 1.0, 1.0), pdet=-700.0)
    yield passed(0, law, torn + diagonal((0.25, 1.0, 1.0), pdet=4096.0), "pass_factored", factored(lambda r: cases.worked(0, law, r)))
    bad = [0.5, INF, 1.0]
    yield passed(4, bad, torn + small() + WRONG, "pass_factored", lambda r: cases.taken(bad, r))
    less = passed(2, SAND, diagonal((2.0, -1.0, 0.5)), "pass_factored", factored(lambda r: cases.worked(2, SAND, r)))
    yield from refusals(less)
    yield from less.lengths("prat")


def factor_lists():
    records = factors() + WRONG
    after, answers, _ = list_passed(factored(lambda r: (0.0, r)), records)
    good = Entry("factor_list", 0, {"r": records, "a": marks(len(answers), 1), "t": marks(3, 2)}, {"r": after, "a": answers, "t": counts(answers)})
    assert good.after["t"] == [0, 4, 4]
    yield good
    yield Entry("factor_list", 0, {"t": marks(3)}, {"t": [0, 0, 0]})
    yield from Entry("factor_list", 0, {"r": records[:FLOATS], "a": marks(2, 1), "t": marks(3, 2)}).lengths("rat")


def judged_passes():
    # drawn apart or pressed, judged by the law's own sigma and hardening and the phase that came; no two of the four counts are alike
    records = record((1.2, 1.0, 1.0)) + record((1.3, 1.0, 0.6), ehard=0.01) + record((1.0, 1.0, 0.6)) + WRONG + record((1.0, 1.0, 1.0), phase=0.0) + NOT_FINITE + record((1.01, 1.0, 1.0), ehard=1.0) + WRONG
    good = judged(2, SAND, LIMITS, LAW, records)
    assert good.after["t"] == [4, 1, 3, 2], good.after["t"]
    yield good
    # Snow brings 2 back to 1.0045, whose stress is below the limit; 0.3 to 0.975: the law first, then the verdict
    yield judged(0, SNOW, [20.0, 40.0], LAW, record((2.0, 1.0, 1.0)) + record((1.0, 1.0, 1.0), ehard=1.0e9) + record((0.3, 1.0, 1.0)) + NOT_FINITE + record((2.0, 2.0, 2.0)))
    # each phase with the flag and without, J below 1, at 1 and above it: at 0.0 with the flag the tensile part is dropped
    three = [(1.2, 0.5, 1.0), (2.0, 0.5, 1.0), (1.2, 1.0, 1.0)]
    still = SAND[:6] + [1.0, 1.0]
    for law in (LAW, SPLIT):
        for limits in ([50.0, 1.0e9], [1.0e9, 100.0]):
            yield judged(2, still, limits, law, [w for s in three for phase in (1.0, 0.5, 2.0) for w in record(s, phase=phase, ehard=1.0)])
    # Rankine is untouched at every phase: phase 0.0 and -0.0 too
    for law in (LAW, SPLIT):
        for limits in ([50.0, 1.0e9], [1.0e9, 100.0]):
            yield judged(5, STONE, limits, law, [w for s in three for phase in (0.0, -0.0) for w in record(s, phase=phase, ehard=1.0)])
    # a stress that isn't finite undoes the law's change; limits and law are inputs of each record, before 11
    yield judged(0, SNOW, LIMITS, [0.0, 0.5, 1.7e308, 1.7e308], record((2.0, 2.0, 2.0)) + record((1.0, 1.0, 1.0)))
    yield judged(1, STONE, [INF, 1.0], LAW, WRONG + record() + GROWN)
    yield judged(1, STONE, LIMITS, [0.0, 0.5, 100.0, NAN], WRONG + record())
    less = judged(2, SAND, LIMITS, LAW, record((1.2, 1.0, 1.0)))
    yield from refusals(less)
    for flag in (-0.0, 2.0):
        yield less.refused(UNKNOWN, c=words([flag] + LAW[1:]))
        yield less.refused(LENGTH, c=words([flag] + LAW[1:]), t=marks(3))
    yield from less.lengths("plcrat")


def judged_factored_passes():
    def reading(model, p, limits, law):
        # the limits and the law are tested with what came, before 11
        def tested(r):
            if not all(map(math.isfinite, p + limits + law)):
                raise Refused(1)
            return factored(lambda q: cases.worked_with_failure(model, p, limits, law, q))(r)
        return tested
    records = diagonal((1.2, 1.0, 1.0)) + diagonal((1.0, -1.0, 1.0), phase=0.0) + small() + diagonal((1.0, 1.0, 1.01), ehard=1.0) + diagonal((-1.3, 1.2, 1.0)) + diagonal((1.0, 0.99, 1.0)) + with_word(small(), 29, ODD) + WRONG
    good = judged(2, SAND, LIMITS, LAW, records, "pass_factored_with_failure", reading(2, SAND, LIMITS, LAW))
    assert good.after["t"] == [4, 1, 3, 2], good.after["t"]
    yield good
    yield judged(0, SNOW, LIMITS, SPLIT, factors() + diagonal((1.2, 1.0, 1.0), ehard=50.0), "pass_factored_with_failure", reading(0, SNOW, LIMITS, SPLIT))
    # a refused stress: the old factors stay
    far = [0.0, 0.5, 1.7e308, 1.7e308]
    yield judged(0, SNOW, LIMITS, far, diagonal((2.0, 2.0, 2.0)) + diagonal((1.0, 1.0, 1.0)), "pass_factored_with_failure", reading(0, SNOW, LIMITS, far))
    yield judged(0, SNOW, [INF, 1.0], LAW, small() + with_word(small(), 36, 1), "pass_factored_with_failure", reading(0, SNOW, [INF, 1.0], LAW))
    less = judged(2, SAND, LIMITS, LAW, diagonal((1.2, -1.0, 1.0)), "pass_factored_with_failure", reading(2, SAND, LIMITS, LAW))
    yield from refusals(less)
    yield less.refused(UNKNOWN, c=words([-0.0] + LAW[1:]))
    yield from less.lengths("plcrat")


def determinants():
    def filled(r):
        return r[:36] + words([cases.determinant(floats(r[:9]))])
    broken = [record((2.0, 0.5, 3.0)), small(), words([1.0e200] * 9) + record()[9:], words([1.0e200, 0.0, 0.0, 0.0, -1.0e200] + [0.0] * 3 + [1.0]) + record()[9:],
              with_word(with_word(record(), 4, ODD), 20, ODD + 1), words([-0.0, 0.0, -0.0] + IDENTITY[3:]) + record()[9:], [0] * FLOATS]
    before = [w for k, r in enumerate(broken) for w in with_word(r, 36, marks(7)[k])]
    good = Entry("fill_determinants", 0, {"r": before}, {"r": [w for r in broken for w in filled(r)]})
    assert good.after["r"][2 * FLOATS + 36] == 0x7ff8000000000000 and good.after["r"][3 * FLOATS + 36] == 0xfff0000000000000
    yield good
    yield Entry("fill_determinants", 0, {})
    yield good.refused(LENGTH, r=before[:36])
    yield from Entry("fill_determinants", 0, {"r": before[:FLOATS]}).lengths("r")


# ---- flat records: no determinant, and 2 where the dimension stands

def flat_record(sigma=(1.0, 1.0), phase=1.0, pdet=1.25, phard=0.5, ehard=3.0, gain=0.0, alpha=-0.125):
    u, vt = [0.6, -0.8, 0.8, 0.6], [0.28, 0.96, -0.96, 0.28]
    return words(cases.recompose(u, list(sigma), vt) + u + list(sigma) + vt + [phase, pdet, phard, ehard, gain, alpha])


def flat_snow(p, r):
    old = r[8:10]
    new = [cases.rust_min(cases.rust_max(e, 1.0 - p[0]), 1.0 + p[1]) for e in old]
    d = r[15] * cases.divide(old[0] * old[1], new[0] * new[1])
    h = cases.exp(p[2] * (1.0 - d))
    cases.finite(d)
    return h, new, {15: d, 17: h}


def flat_sand(p, r):
    """Drucker-Prager where its flag leaves a record, or where the deviatoric strain is all zero."""
    if p[6] and r[14] != 0.0:
        return None
    e = [cases.ln(x) + r[18] / 2.0 for x in r[8:10]]
    assert e[0] == e[1]
    dq = cases.root(e[0] * e[0] + e[1] * e[1])
    before = r[8] * r[9]
    after = 1.0 if 1.0 - before > 0.0 else before + (1.0 - before) * p[7]
    return dq, [1.0, 1.0], {15: r[15] * (before / after), 16: r[16] + dq, 18: r[18] + (cases.ln(before) - cases.ln(after))}


def flat_stone(p, r):
    lame, mu, _ = cases.moduli(p[0], p[1])
    e = [cases.ln(x) for x in r[8:10]]
    small, large = sorted(e)
    total, s, new = e[0] + e[1], p[2] - (r[16] - 1.0), list(e)
    if lame * total + 2.0 * mu * large <= s:
        return None
    if (2.0 * mu + lame) * small + lame * (total - large) <= s:
        new[e.index(large)] = (s - lame * (total - large)) / (2.0 * mu + lame)
    else:
        new = [s / (2.0 * mu + 2.0 * lame)] * 2
    h = min(r[16] + p[3] * cases.root((e[0] - new[0]) ** 2 + (e[1] - new[1]) ** 2), p[2])
    return h, [cases.exp(x) for x in new], {16: h}


def flat_reading(law, p):
    def reading(r):
        if not all(map(math.isfinite, p + r)):
            raise Refused(1)
        found = law(p, r)
        if found is None:
            return None, r
        amount, sigma, scalars = found
        f = cases.recompose(r[4:8], sigma, r[10:14])
        return amount, f + r[4:8] + sigma + r[10:14] + [scalars.get(k, r[k]) for k in range(14, FLAT)]
    return reading


def flat_passes():
    records = flat_record((1.1, 0.9)) + flat_record(phase=0.0) + with_word(flat_record(), 5, ODD) + flat_record((2.0, 0.5), phase=0.5) + flat_record(phase=-0.0, gain=0.5) + flat_record(phard=2.0)
    good = passed(2, SAND, records, "flat_pass", flat_reading(flat_sand, SAND))
    assert good.after["t"] == [3, 2, 1]
    yield good
    yield passed(0, SNOW, flat_record((2.0, 0.5)) + flat_record((0.99, 1.003), pdet=-2.0) + flat_record((1.5, 1.5), pdet=1.5e308) + flat_record(), "flat_pass", flat_reading(flat_snow, SNOW))
    # s = 0 brings both all the way back, and the plastic hardening, not the elastic one, is capped
    yield passed(5, STONE, flat_record((1.2, 0.9)) + flat_record((2.0, 3.0), phard=1.0e6 + 1.0, ehard=0.25) + flat_record((3.0, 2.0), phard=0.25, ehard=1.0e6 + 1.0), "flat_pass",
                 flat_reading(flat_stone, STONE))
    yield passed(7, [1000.0, 0.25, 0.5, 0.0, 2.0, INF], flat_record() + flat_record(), "flat_pass", flat_reading(None, [INF]))
    yield passed(3, [1000.0, 0.25, 0.5, 1.0, 2.0, 1.0], [], "flat_pass")
    less = passed(2, SAND, flat_record(phase=0.0), "flat_pass", flat_reading(flat_sand, SAND))
    yield from refusals(less)
    yield less.refused(LENGTH, r=record())
    yield from less.lengths("prat")


# ---- tallies by zone: particles now, then untouched, stored, refused and failed so far

def recounted(zones, tallies, added=()):
    """The tallies after a call: particles now afresh, and what happened where each particle then is."""
    out = list(tallies)
    for zone in range(len(tallies) // 5):
        out[5 * zone] = zones.count(zone)
        for kind in range(1, 5):
            out[5 * zone + kind] += sum(1 for z, kinds in zip(zones, added) if z == zone and kind in kinds)
    return out


def zoned(entry, zones, tallies, failed=None):
    """A pass as one by zone: answers tell what happened."""
    codes = entry.after["a"][::2]
    added = [(code + 1, 4) if failed and yes else (code + 1,) for code, yes in zip(codes, failed or codes)]
    before = {**entry.before, "z": zones, "t": tallies}
    return Entry(entry.kind.replace("failure", "failure_by_zone") if failed else "pass_by_zone", 0, before,
                 {"r": entry.after["r"], "a": entry.after["a"], "t": recounted(zones, tallies, added)}, x=entry.numbers[0])


SO_FAR = [9, 10, 20, 30, 40] + [9, 11, 21, 31, 41] + [9, 12, 22, 32, 42]


def full(tallies):
    """Each number so far brought to its end by the particles listed, two in zone 2, one in zone 0, none in zone 1; and past it. The particles now are no
    number so far."""
    for zone, listed, place in ((2, 2, 1), (2, 2, 2), (2, 2, 3), (2, 2, 4), (0, 1, 1), (1, 0, 4)):
        last = with_word(tallies, 5 * zone + place, LAST - listed)
        yield last, 0
        yield with_word(last, 5 * zone + place, LAST - listed + 1), FULL
    yield with_word(tallies, 5, 2 ** 64 - 1), 0
    yield with_word(tallies, 6, 2 ** 64 - 1), FULL


def zone_passes(kind):
    def zoned_pass(records, zones, tallies):
        if kind == "pass_by_zone":
            return zoned(passed(2, SAND, records), zones, tallies)
        failed = list_passed(lambda r: cases.worked_with_failure(2, SAND, LIMITS, LAW, r), records)[2]
        return zoned(judged(2, SAND, LIMITS, LAW, records), zones, tallies, failed)
    # by failure: yes, no, yes, refused, no, no
    records = record((1.2, 1.0, 1.0)) + record((1.3, 1.0, 0.6), ehard=0.01) + record((1.0, 1.0, 0.6)) + WRONG + record(phase=0.0, ehard=1.0) + record((1.01, 1.0, 1.0), ehard=1.0)
    yield zoned_pass(records, [2, 0, 2, 2, 0, 1], SO_FAR)
    yield zoned_pass(sand(), [0, 0, 0, 0, 0, 0], SO_FAR)
    yield zoned_pass(sand(), [255, 0, 255, 254, 1, 255], [7] * 1280)
    three, zones = record((1.2, 1.0, 1.0)) + WRONG + record(phase=0.0), [2, 0, 2]
    for tallies, answer in full(SO_FAR):
        yield zoned_pass(three, zones, SO_FAR).refused(answer, t=tallies) if answer else zoned_pass(three, zones, tallies)
    good = zoned_pass(record(phase=0.0), [1], SO_FAR)
    yield good
    yield good.refused(ZONE, t=[7] * 1285)
    # a number a particle, each below the number of tallies: 12, before 13 and after 8 and 6
    for zones in ([], [1, 0], [3], [2 ** 64 - 1]):
        yield good.refused(ZONE, z=zones)
        yield good.refused(ZONE, z=zones, t=[LAST] * 15)
        yield good.refused(UNKNOWN, z=zones, x=cases.MODELS)
        yield good.refused(LENGTH, z=zones, x=cases.MODELS, t=[LAST] * 14)
    yield from refusals(good)
    if kind != "pass_by_zone":
        yield good.refused(UNKNOWN, c=words([2.0] + LAW[1:]), z=[])
    yield from good.lengths("prat" if kind == "pass_by_zone" else "plcrat")


def clearings():
    def cleared(zones, number):
        return Entry("clear_tallies", 0, {"z": zones, "t": marks(5 * number)}, {"t": recounted(zones, [0] * (5 * number))}, x=len(zones))
    good = cleared([1, 0, 1, 2, 1, 2], 4)
    yield good
    yield cleared([], 3)
    yield cleared([], 0)
    yield cleared([255, 3, 255], 256)
    yield good.refused(ZONE, t=[7] * 1285)
    yield good.refused(LENGTH, t=[7] * 1284)
    yield good.refused(ZONE, z=[4] + good.before["z"][1:])
    yield good.refused(ZONE, z=[0], x=1, t=[])
    for x in (5, 7, 2 ** 64 - 1):
        yield good.refused(ZONE, x=x)
        yield good.refused(LENGTH, x=x, t=marks(19))
    yield from good.lengths("z", ZONE)
    yield from good.lengths("t")


def moves():
    def shifted(zones, particle, zone, tallies):
        after = with_word(zones, particle, zone)
        return Entry("move_particle", 0, {"z": zones, "t": tallies}, {"z": after, "t": recounted(after, tallies)}, x=len(zones), y=particle, w=zone)
    good = shifted([0, 0, 2, 2, 0], 1, 2, SO_FAR)
    yield good
    yield shifted([0, 0, 2, 2, 0], 2, 1, SO_FAR)
    yield shifted([0, 0, 2, 2, 0], 4, 0, SO_FAR)
    yield shifted([1, 1], 0, 255, [LAST] * 1280)
    yield good.refused(ZONE, t=[7] * 1285)
    for y, w in ((5, 2), (1, 3), (2 ** 64 - 1, 0), (0, 2 ** 64 - 1), (3, 4), (5, 0)):
        yield good.refused(ZONE, y=y, w=w)
    # a listed zone that is out of range, also the one that the move would replace
    yield good.refused(ZONE, z=[0, 3, 2, 2, 0])
    yield good.refused(ZONE, z=[0, 0, 2, 2, 3])
    yield good.refused(LENGTH, y=9, w=9, t=SO_FAR[:-1])
    yield from good.lengths("z", ZONE)
    yield from good.lengths("t")


# ---- sheets

def sheet_of(model, p, records):
    n = cases.floats_of(model)
    return cases.number(model) + struct.pack("<%dQ" % len(p), *p) + cases.number(len(records) // FLOATS) + b"".join(
        struct.pack("<%dQ" % n, *records[k:k + n]) for k in range(0, len(records), FLOATS))


def header(model, p, records):
    count = len(records) // FLOATS
    return [model, *p, *[0] * (8 - len(p)), count, len(sheet_of(model, p, records)) - 8 * cases.floats_of(model) * count]


def len_of(model):
    return len(cases.TABLE.models[cases.TABLE.law_of[model][0]].parameters)


def faulty():
    """Sheets that are refused, each with its number: too short, not spelled shortest, a model or a flag unknown, too many or too long."""
    good = sheet_of(6, words(SAND), record(phase=0.0))
    for cut in (0, 1, 40, 65, 66, 67, 100, len(good) - 1):
        yield good[:cut], 4
    yield b"\x86\0" + good[1:], 5
    yield b"\x86\x80\1" + good[1:], 5
    yield good[:65] + b"\x86\0" + good[66:], 5
    yield cases.number(cases.MODELS) + good[1:], 6
    yield good[:49] + struct.pack("<d", -0.0) + good[57:], 6
    yield good + b"\0", 7
    yield good[:65] + b"\xc9\1" + good[66:], 7


def readings():
    room = marks(8 * FLOATS)
    empty = words([0.0] * FLOATS)
    sheets = [(6, words(SAND), sand()), (0, words(SNOW), record((2.0, 1.0, 0.5)) + with_word(record(), 20, ODD)), (5, words(STONE), WRONG), (3, words([1000.0, 0.25, 0.5, 1.0, 2.0, 1.0]), [])]
    for model, p, records in sheets:
        b = sheet_of(model, p, records)
        before = {"t": marks(11, 1), "r": room, "b": b}
        after = records if model > 3 else [w for k in range(0, len(records), FLOATS) for w in records[k:k + 36] + words([cases.determinant(floats(records[k:k + 9]))])]
        yield Entry("read_sheet", 0, before, {"t": header(model, p, records), "r": after + room[len(after):]})
    # a count of two groups puts the first record a byte further
    b = sheet_of(4, words(SNOW), empty * 130)
    yield Entry("read_sheet", 0, {"t": marks(11, 1), "r": [7] * (130 * FLOATS), "b": b}, {"t": header(4, words(SNOW), empty * 130), "r": empty * 130})
    good = Entry("read_sheet", 0, {"t": marks(11, 1), "r": marks(6 * FLOATS), "b": sheet_of(6, words(SAND), sand())}, {"t": header(6, words(SAND), sand()), "r": sand()})
    yield good
    # a room too short for a good sheet; 8 for the lists by themselves before the sheet is looked at, the sheet's number before a room too short for it
    yield good.refused(LENGTH, r=marks(5 * FLOATS))
    for b, number in faulty():
        yield good.refused(number, b=b, r=[])
    yield good.refused(LENGTH, b=b"\x08", r=marks(36))
    yield good.refused(LENGTH, b=b"\x08", t=marks(10))
    less = {"t": marks(11, 1), "r": marks(FLOATS), "b": sheet_of(6, words(SAND), record())}
    yield from Entry("read_sheet", 0, less).lengths("tr")


def runs():
    def run(model, p, records, room):
        done = passed(model, floats(p), records)
        n = len(records)
        before = {"r": marks(room * FLOATS), "a": marks(2 * room, 1), "t": marks(4, 2), "b": sheet_of(model, p, records)}
        return Entry("run_sheet", 0, before, {"r": done.after["r"] + before["r"][n:], "a": done.after["a"] + before["a"][2 * n // FLOATS:], "t": [n // FLOATS] + done.after["t"]})
    good = run(6, words(SAND), sand(), 6)
    assert good.after["t"] == [6, 3, 2, 1]
    yield good
    yield run(6, words(SAND), sand(), 9)
    yield run(0, words(SNOW), record((2.0, 1.0, 0.5)) + record(), 3)
    yield run(3, words([1000.0, 0.25, 0.5, 1.0, 2.0, 1.0]), [], 0)
    yield good.refused(LENGTH, r=marks(5 * FLOATS), a=marks(10))
    for b, number in faulty():
        yield good.refused(number, b=b, r=[], a=[])
    yield good.refused(LENGTH, b=b"\x08", a=marks(11))
    yield good.refused(LENGTH, b=b"\x08", t=marks(3))
    yield from run(6, words(SAND), record(phase=0.0), 1).lengths("rat")


def writings():
    def written(model, p, records, room):
        b = sheet_of(model, p, records)
        before = {"p": p, "r": records, "b": [90] * room, "t": marks(1)}
        return Entry("write_sheet", 0, before, {"b": list(b) + [90] * (room - len(b)), "t": [len(b)]}, x=model)
    good = written(6, words(SAND), sand(), 2000)
    yield good
    less = written(6, words(SAND), record(), 400)
    yield written(1, words(STONE), WRONG + with_word(record(), 3, ODD), 700)
    yield written(4, words([NAN, 1.0, INF]), sand(), 26 + 6 * 296)
    yield written(3, words([1000.0, 0.25, 0.5, 1.0, 2.0, 1.0]), [], 50)
    yield written(7, words([1000.0, 0.25, 0.5, 0.0, 2.0, 1.0]), [0] * (130 * FLOATS), 38531)
    # 8, 6, 7, 9
    long, short = [0] * (201 * FLOATS), [90] * 3
    bad = with_word(words(SAND), 6, words([-0.0])[0])
    good = less
    yield good.refused(9, b=[90] * (66 + 296 - 1))
    yield good.refused(9, b=[])
    yield good.refused(7, r=long, b=short)
    yield good.refused(UNKNOWN, r=long, b=short, p=bad)
    yield good.refused(UNKNOWN, r=long, b=short, x=cases.MODELS, p=[])
    yield good.refused(LENGTH, r=long + [0], b=short, p=bad)
    yield good.refused(LENGTH, r=long, b=short, p=bad, t=[])
    yield good.refused(LENGTH, r=long, b=short, p=bad + [0])
    yield from good.lengths("prt")


# ---- sheets in parts

class Arrival:
    """How far a sheet has come (RULES, section 7, "A sheet in parts"). The bytes held stand in a room of 296; those that are no longer held stay there until
    others come in their places (parts/specs/Parts: held_with), and what stands before the records is 0 in every place until it is complete."""

    def __init__(self):
        self.refusal, self.head, self.complete, self.kept, self.held = 0, [4, 0, 0, 0] + [0] * 8, 0, 0, bytearray(296)

    def words(self):
        return [self.refusal, *self.head[:4], self.complete, self.kept, *self.head[4:], *struct.unpack("<37Q", self.held)]

    def take(self, byte, records, answers):
        if self.refusal:
            return
        if self.head[0] == 0 and self.complete == self.head[2]:
            self.refusal = 7
            return
        self.held[self.kept] = byte
        self.kept += 1
        if self.head[0]:
            self.preamble(bytes(self.held[:self.kept]))
        elif self.kept == 8 * cases.floats_of(self.head[1]):
            self.record(records, answers)

    def preamble(self, b):
        try:
            cases.read(b)
        except Refused as e:
            number, place = e.args
            model = b[0] % 8
            start = 1 + 8 * len_of(model)
            if number == 4 and (b[0] > 7 or len(b) <= start or b[start] >= 128 and len(b) == start + 1):
                return
            if number != 4:
                self.refusal, self.head, self.kept = number, [number] + [0] * 11, 0
                return
        model, start = b[0], 1 + 8 * len_of(b[0])
        count, at = cases.read_number(b, start)
        p = list(struct.unpack_from("<%dQ" % len_of(model), b, 1))
        self.head, self.kept = [0, model, count, at] + p + [0] * (8 - len(p)), 0

    def record(self, records, answers):
        model, p = self.head[1], floats(self.head[4:4 + len_of(self.head[1])])
        r = list(struct.unpack_from("<%dQ" % cases.floats_of(model), self.held))
        if not cases.TABLE.law_of[model][1]:
            r += words([cases.determinant(floats(r[:9]))])
        after, answer, _ = list_passed(lambda f: cases.worked(model, p, f), r)
        k = self.complete
        records[FLOATS * k:FLOATS * (k + 1)], answers[2 * k:2 * k + 2] = after, answer
        self.complete, self.kept = k + 1, 0


class Line:
    """Parts one after the other, as entries."""

    def __init__(self):
        self.arrival, self.records, self.answers, self.progress = Arrival(), [7] * (MOST * FLOATS), [8] * (2 * MOST), marks(2)

    def lists(self):
        return {"z": self.progress, "r": self.records, "a": self.answers, "t": self.arrival.words()}

    def part(self, b):
        before, ended = {**self.lists(), "b": b}, self.arrival.refusal
        self.records, self.answers = list(self.records), list(self.answers)
        for byte in b:
            self.arrival.take(byte, self.records, self.answers)
        return self.told("part", before, ended, self.arrival.refusal)

    def end(self):
        before, ended = self.lists(), self.arrival.refusal
        short = self.arrival.head[0] or self.arrival.complete < self.arrival.head[2]
        if not ended:
            self.arrival.refusal = 4 if short else 15
        return self.told("end_parts", before, ended, 4 if short and not ended else self.arrival.refusal if ended else 0)

    def told(self, kind, before, ended, answer):
        if ended:
            return Entry(kind, ended, before)
        self.progress = [self.arrival.complete, self.arrival.head[2]]
        return Entry(kind, answer, before, self.lists())


def cut(line, b, places):
    for at, to in zip([0] + places, places + [len(b)]):
        yield line.part(b[at:to])


def parts():
    # three records: before the model, in the middle of what stands before them, at its end, in a record, at its end, over two
    line, b = Line(), sheet_of(6, words(SAND), sand()[:3 * FLOATS])
    yield line.part(b"")
    yield from cut(line, b, [1, 30, 66, 100, 362, 362, 700])
    yield line.end()
    yield line.end()
    yield line.part(b"")
    yield line.part(b"x")
    # bytes after the last, then the fault's own number; the records before it stand
    line = Line()
    yield line.part(sheet_of(0, words(SNOW), record((2.0, 1.0, 0.5)) + record()) + b"\0\0")
    yield line.part(b"\0")
    yield line.end()
    # the end too early: before the count is known, and in the second record of four
    line = Line()
    yield line.part(b[:40])
    yield line.end()
    yield line.part(b[40:])
    line = Line()
    yield line.part(sheet_of(1, words(STONE), (record() + WRONG) * 2)[:2 + 32 + 288 + 17])
    yield line.end()
    yield line.end()
    # a sheet without particles, and each fault of what stands before the records at the byte that decides it
    line = Line()
    yield line.part(sheet_of(3, words([1000.0, 0.25, 0.5, 1.0, 2.0, 1.0]), []))
    yield line.end()
    for b, number in faulty():
        if number in (5, 6) or b[65:67] == b"\xc9\1":
            line = Line()
            entry = line.part(b)
            assert entry.answer == number, (entry.answer, number)
            yield entry
            yield line.end()
    # lists of another length, before a fault's own number and 15 too
    line = Line()
    sheet = sheet_of(6, words(SAND), sand()[:3 * FLOATS])
    line.part(sheet[:300])
    good, end = line.part(sheet[300:500]), line.end()
    for entry in (good, end):
        yield from entry.lengths("zrat")
        for state in (6, 15):
            yield entry.refused(state, t=with_word(entry.before["t"], 0, state))
            yield entry.refused(LENGTH, t=with_word(entry.before["t"], 0, state), z=marks(3))
    yield Entry("begin_parts", 0, {"t": marks(STATE)}, {"t": Arrival().words()})
    yield from Entry("begin_parts", 0, {"t": marks(STATE)}, {"t": Arrival().words()}).lengths("t")


# ---- reports

def column(values):
    """Count, least, greatest and total in whole multiples of 2^-30, how many lie not within 2^20 of zero, how many aren't finite."""
    finite = [Fraction(x) for x in floats(values) if math.isfinite(x)]
    wholes = [math.floor(x * 2 ** 30) for x in finite if abs(x) <= 2 ** 20]
    ends = (min(wholes), max(wholes), sum(wholes)) if wholes else (0, 0, 0)
    return [len(wholes), *(n % 2 ** 64 for n in ends), len(finite) - len(wholes), len(values) - len(finite)]


def reported(records):
    """Plastic hardening, elastic hardening, plastic determinant."""
    return [n for place in (32, 33, 31) for n in column(records[place::FLOATS])]


BOUND = words([2.0 ** 20])[0]
SIGN = 1 << 63


def columns(*rows):
    """Records with these three values (floats or words) in the report's order; a NaN stands in every other place."""
    out = []
    for h, e, d in rows:
        r = [ODD] * FLOATS
        r[32], r[33], r[31] = (x if isinstance(x, int) else words([x])[0] for x in (h, e, d))
        out += r
    return out


NIGHT = columns((0.5, -3.25, 7.0), (2.0 ** -31, -(2.0 ** -31), NAN), (BOUND, BOUND + 1, BOUND | SIGN), (-1.75, INF, -(2.0 ** 20) - 1.0), (ODD, 100.0, SIGN), (1, SIGN | 1, 0.1))


def reports():
    def over(records):
        return Entry("report", 0, {"r": records, "t": marks(18)}, {"t": reported(records)})
    good = over(NIGHT)
    yield good
    yield over([])
    yield over(columns((-1.0, -2.0, -3.0)))
    yield over(columns((INF, 2.0 ** 30, NAN), (-INF, -(2.0 ** 30), ODD)))
    one = words([1.0])[0]
    most = NIGHT + [one] * ((4096 - 6) * FLOATS)
    yield over(most)
    yield over([BOUND | SIGN] * (4096 * FLOATS))
    yield good.refused(LONG, r=most + [one] * FLOATS)
    yield good.refused(LENGTH, r=most + [one] * (FLOATS + 1))
    yield good.refused(LENGTH, r=most + [one] * FLOATS, t=marks(17))
    yield from good.lengths("rt")


def put_together(first, second):
    """Column by column; 16 where the three counts of both pass 4,096."""
    out = []
    for k in (0, 6, 12):
        a, b = first[k:k + 6], second[k:k + 6]
        if sum(c[i] for c in (a, b) for i in (0, 4, 5)) > 4096:
            return None
        ends = [tuple(n - 2 ** 64 if n >= SIGN else n for n in c[1:3]) for c in (a, b) if c[0]]
        least, greatest = (min(e[0] for e in ends), max(e[1] for e in ends)) if ends else (0, 0)
        out += [a[0] + b[0], least % 2 ** 64, greatest % 2 ** 64, (a[3] + b[3]) % 2 ** 64, a[4] + b[4], a[5] + b[5]]
    return out


def joinings():
    def joined(first, second):
        out = put_together(first, second)
        return Entry("join_reports", 0 if out else LONG, {"p": first, "l": second, "t": marks(18)}, {"t": out} if out else None)
    parts = reported(NIGHT[:2 * FLOATS]), reported(NIGHT[2 * FLOATS:])
    good = joined(*parts)
    assert good.after["t"] == reported(NIGHT)
    yield good
    yield joined(*parts[::-1])
    empty, most = [0] * 18, reported([BOUND | SIGN] * (4096 * FLOATS))
    yield joined(most, empty)
    yield joined(empty, most)
    yield joined(empty, parts[0])
    yield joined(empty, empty)
    # each of the three counts of each column counts to 4,096, with the first report's and the second's
    for k in (0, 6, 12):
        for place, other in ((0, 4), (4, 5), (5, 0)):
            one, full = with_word(empty, k + place, 1), with_word(empty, k + other, 4095)
            yield joined(one, full)
            yield joined(full, with_word(one, k + place, 2))
            yield joined(with_word(empty, k + place, 4097), empty)
    yield joined(most, parts[0])
    # entries that no report has: totals modulo 2^64, ends of a column that counts nothing left out
    yield joined([0, 5, 6, SIGN, 1, 2] + [3, SIGN, 7, 2 ** 64 - 1, 0, 0] + [0, 9, 9, 1, 0, 0], [1, 8, 9, SIGN, 3, 4] + [2, 1, SIGN - 1, 2, 0, 0] + [0, 8, 8, 1, 0, 0])
    yield good.refused(LENGTH, p=most, l=parts[0][:-1])
    yield from good.lengths("plt")


def entries():
    made = {kind: [] for kind in KINDS}
    for of in (passes(), factored_passes(), flat_passes(), factor_lists(), determinants(), judged_passes(), judged_factored_passes(), zone_passes("pass_by_zone"),
               zone_passes("pass_with_failure_by_zone"), clearings(), moves(), readings(), runs(), writings(), parts(), reports(), joinings()):
        for entry in of:
            made[entry.kind].append(entry)
    return made


def made():
    """The list's parts, each an entry or a kind's heading; and what the program prints."""
    out, lines, number = [], [], 0
    for k, (kind, of) in enumerate(entries().items()):
        name = kind.encode()
        out.append(spelled(list(name), "B") + struct.pack("<2Q", k, len(of)))
        out += [entry.bytes() for entry in of]
        lines.append("%s: entries %d, differ 0" % (kind, len(of)))
        number += len(of)
    lines.append("all: entries %d, differ 0" % number)
    return out, "\n".join(lines) + "\n"


def write(folder, out, lines):
    (folder / "data").mkdir(parents=True, exist_ok=True)
    (folder / "data" / "list").write_bytes(b"".join(out))
    (folder / "stdout").write_text(lines)


def check(folder, out, lines):
    held, at, failed = (folder / "data" / "list").read_bytes(), 0, 0
    for k, part in enumerate(out):
        if held[at:at + len(part)] != part:
            failed += 1
            print("%s: part %d, at byte %d, is another than tools/list_cases.py makes" % (folder / "data" / "list", k, at))
        at += len(part)
    wrong = [("data/list", "has other bytes after its last entry", held[at:] != b""), ("stdout", "is another", (folder / "stdout").read_text() != lines)]
    for name, told, bad in wrong:
        if bad:
            failed += 1
            print("%s %s" % (folder / name, told))
    print("%d passed, %d failed" % (len(out) + len(wrong) - failed, failed))
    return failed != 0


def work(args):
    return (check if args.check else write)(args.folder, *made())


def main(argv=None):
    about = argparse.ArgumentParser(description=__doc__, formatter_class=argparse.RawDescriptionHelpFormatter, usage=argparse.SUPPRESS)
    about.add_argument("--check", action="store_true")
    about.add_argument("folder", nargs="?", type=pathlib.Path, default=PROGRAM, metavar="FOLDER")
    return shell.run("list_cases.py", work, about.parse_args(argv))


if __name__ == "__main__":
    sys.exit(main())
