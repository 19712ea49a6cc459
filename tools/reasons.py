#!/usr/bin/env python3
"""Why each particle of a sheet moves, or doesn't: a second reading, from docs/RULES.md; and the tables of docs/STEPS.md.

  tools/reasons.py X.sheet...              prints the lines of `slope --why` as the second implementation works them, the numbers as decimals
  tools/reasons.py check [--program PROGRAM] [X.sheet...]
                                           reads samples/rankine.sheet and the sheets of crates/slope_cases and compares with what must be printed: tests, branches,
                                           steps with their words and places exactly, the numbers within 2^-30 of themselves and of 1; and the sheets
                                           (default: samples/ and those of slope_cases) with what the proved program prints with --why, where --program or
                                           PASOLETU_SLOPE names it; and the tables of docs/STEPS.md with what is made; and the
                                           sentences and parameters of crates/why_lines with those here and in calls.toml
  tools/reasons.py page                    writes the tables of docs/STEPS.md between their marks: steps in the program's words (crates/why_lines), branches
"""
import argparse
import functools
import math
import os
import pathlib
import re
import struct
import subprocess
import sys

sys.path.insert(0, str(pathlib.Path(__file__).resolve().parent))
import cases  # noqa: E402
import shell  # noqa: E402
from cases import NAN, divide, floats, moduli, recompose, rust_max, rust_min  # noqa: E402

STORED_DETERMINANT, NEW_DETERMINANT = 40, 41
LOW, HIGH, MOST = 2.0 ** -60, 2.0 ** 60, sys.float_info.max
BITS = "[0-9a-f]{16}"


class Stopped(Exception):
    """A refusal: its number and its step; for 1 also whose place, and the place."""


def stop_unless(good, number, step):
    if not good:
        raise Stopped(number, step)


def numbers(step, *xs):
    stop_unless(all(x == x for x in xs), 3, step)


def results(step, *xs):
    stop_unless(all(map(math.isfinite, xs)), 3, step)


def ask(step, f, low, high, x):
    numbers(step, x)
    stop_unless(low <= x, 2, step)
    stop_unless(x <= high, 10, step)
    return f(x)


def ln(step, x):
    return ask(step, math.log, LOW, HIGH, x)


def exp(step, x):
    return ask(step, math.exp, -700.0, 700.0, x)


def root(step, x):
    return ask(step, math.sqrt, 0.0, MOST, x)


def power(step, x, k):
    return ask(step, lambda x: x ** (k / 3), LOW, HIGH, x)


def squares(e):
    return e[0] * e[0] + e[1] * e[1] + e[2] * e[2]


def bits(x):
    return struct.pack(">d", x)


def snow(p, r):
    def bound(e):
        raised = rust_max(e, 1.0 - p[0])
        new = rust_min(raised, 1.0 + p[1])
        return "upper" if bits(new) != bits(raised) else "lower" if bits(raised) != bits(e) else "neither"
    old = r[18:21]
    new = [rust_min(rust_max(e, 1.0 - p[0]), 1.0 + p[1]) for e in old]
    d = r[31] * divide(old[0] * old[1] * old[2], new[0] * new[1] * new[2])
    h = exp(3, p[2] * (1.0 - d))
    results(4, *recompose(r[9:18], new, r[21:30]), *new, d, h)
    return "bounds", [bound(e) for e in old], new


def rankine(p, r):
    lame, mu, _ = moduli(p[0], p[1])
    results(1, lame, mu)
    e = [ln(2, x) for x in r[18:21]]
    order = sorted(range(3), key=lambda i: e[i])
    c, b, a = (e[i] for i in order)
    total, s, new = e[0] + e[1] + e[2], p[2] - (r[32] - 1.0), list(e)
    numbers(3, s)
    first = lame * total + 2.0 * mu * a
    numbers(4, first)
    if first <= s:
        return (4, True), [first, s], None
    second = (2.0 * mu + lame) * b + lame * (total - a)
    numbers(5, second)
    third = (2.0 * mu + 3.0 * lame) * c
    if second <= s:
        told = (5, True), [second, s]
        new[order[2]] = divide(s - lame * (total - a), 2.0 * mu + lame)
    else:
        numbers(6, third)
        told = (6, third <= s), [third, s]
        if third <= s:
            new[order[2]] = new[order[1]] = divide(s - lame * (total - a - b), 2.0 * mu + 2.0 * lame)
        else:
            new = [divide(s, 2.0 * mu + 3.0 * lame)] * 3
    h = r[32] + p[3] * root(7, squares([x - y for x, y in zip(e, new)]))
    numbers(8, h)
    sigma = [exp(9, x) for x in new]
    results(10, *recompose(r[9:18], sigma, r[21:30]), *sigma, min(h, p[2]))
    return (*told, sigma)


def drucker_prager(p, r):
    h0, h1, h2, h3, lame, mu, flag, correction = p
    if flag and r[30] != 0.0:
        return (1, True), [], None
    q = r[32]
    decay = exp(2, -h2 * q)
    s = ask(3, math.sin, -8.0, 8.0, h0 + (h1 * q - h3) * decay)
    alpha = divide(math.sqrt(2.0 / 3.0) * (2.0 * s), 3.0 - s)
    numbers(5, alpha)
    e = [x + r[34] / 3.0 for x in [ln(6, x) for x in r[18:21]]]
    numbers(7, *e)
    trace = e[0] + e[1] + e[2]
    dev = [x - trace / 3.0 for x in e]
    numbers(7, trace, *dev)
    if dev == [0.0] * 3 or trace > 0.0:
        told = ((8, True), dev) if dev == [0.0] * 3 else ((9, True), [0.0, trace])
        new, dq = [1.0] * 3, root(10, squares(e))
    else:
        n = root(11, squares(dev))
        dq = n + divide(3.0 * lame + 2.0 * mu, 2.0 * mu) * trace * alpha
        numbers(12, dq)
        if dq <= 0.0:
            return (13, True), [dq, 0.0], None
        told = (13, False), [dq, 0.0]
        back = [x - dq * divide(d, n) for x, d in zip(e, dev)]
        numbers(14, *back)
        new = [exp(15, x) for x in back]
    before, after = r[18] * r[19] * r[20], new[0] * new[1] * new[2]
    numbers(16, after - before)
    if not after - before > 0.0:
        after = before + (after - before) * correction
    d = r[31] * divide(before, after)
    numbers(16, after, d)
    gain = r[34] + (ln(17, before) - ln(18, after))
    results(19, *recompose(r[9:18], new, r[21:30]), *new, d, q + dq, gain)
    return (*told, new)


def nacc_alpha(p, r, kappa, p0, pressure, shear, j, alpha):
    """The hardening step: none of its tests is a branch."""
    beta, m = p[2], p[5]
    pc = (1.0 - beta) * p0 / 2.0
    numbers(14, pc)
    x, y = pc - pressure, 0.0 - math.sqrt(1.5) * root(16, squares(shear))
    n = root(17, x * x + y * y)
    u, v = divide(x, n), divide(y, n)
    numbers(18, u, v)
    c = m * m * (pc + beta * p0) * (pc - p0)
    b = m * m * u * (2.0 * pc - p0 + beta * p0)
    a = m * m * u * u + (1.0 + 2.0 * beta) * v * v
    size = root(19, b * b - 4.0 * a * c)
    p1, p2 = pc + divide(-b + size, 2.0 * a) * u, pc + divide(-b - size, 2.0 * a) * u
    numbers(20, p1, p2)
    side = (pressure - pc) * (p1 - pc)
    numbers(21, side)
    jx = root(22, abs(divide(-2.0 * (p1 if side > 0.0 else p2), kappa) + 1.0))
    return alpha + ln(23, divide(j, jx)) if jx > 1.0e-4 else alpha


def nacc(p, r):
    _, mu, kappa = moduli(p[0], p[1])
    results(1, mu, kappa)
    beta, hardens, xi, m = p[2:6]
    alpha, v = r[35], r[18:21]
    p0 = kappa * (1.0e-5 + ask(3, math.sinh, -700.0, 700.0, xi * max(-alpha, 0.0)))
    numbers(4, p0)
    total, j = squares(v), v[0] * v[1] * v[2]
    w = power(5, j, -2)
    shear = [mu * w * (x * x - total / 3.0) for x in v]
    pressure = -(kappa / 2.0 * (j - divide(1.0, j))) * j
    numbers(6, squares(shear), pressure)
    low = -beta * p0
    numbers(8, low) if not p0 < pressure else None
    if p0 < pressure or pressure < low:
        upper = p0 < pressure
        told = ((7, True), [p0, pressure]) if upper else ((8, True), [pressure, low])
        tip = root(10, divide(-2.0 * p0 if upper else 2.0 * beta * p0, kappa) + 1.0)
        sigma = [power(11, tip, 1)] * 3
        if hardens:
            alpha += ln(12, divide(j, tip))
    else:
        y0, y1 = (1.0 + 2.0 * beta) * 1.5, m * m * (pressure + beta * p0) * (pressure - p0)
        y = y0 * squares(shear) + y1
        numbers(9, y)
        if y < 1.0e-4:
            return (9, True), [y, 1.0e-4], None
        told = (9, False), [y, 1.0e-4]
        if hardens and p0 > 1.0e-4 and pressure < p0 - 1.0e-4 and pressure > low + 1.0e-4:
            alpha = nacc_alpha(p, r, kappa, p0, pressure, shear, j, alpha)
        scale = root(24, divide(-y1, y0)) * (divide(power(25, j, 2), mu))
        numbers(26, scale)
        n = root(27, squares(shear))
        spread = [divide(scale * x, n) + total / 3.0 for x in shear]
        numbers(28, *spread)
        sigma = [root(29, x) for x in spread]
    results(30, *recompose(r[9:18], sigma, r[21:30]), *sigma, alpha)
    return (*told, sigma)


LAWS = [globals()[law.name] for law in cases.TABLE.models]

# What the program prints of a test, after "stayed, test N" or "yielded, test N": the words before the first number, between the two, after the second.
WITHIN, OVER = " would be within the softened strength ", " would be over the softened strength "
LEAST = ": were all strains brought down to the least, the stress "
WORDS = {
    (1, 4, True): (": the largest stress ", " is within the softened strength ", "; untouched"),
    (1, 5, True): (": were the largest strain brought down to the next, the largest stress ", WITHIN, "; one strain is returned"),
    (1, 6, True): (LEAST, WITHIN, "; two strains are returned"),
    (1, 6, False): (LEAST, OVER, "; all three strains are returned"),
    (2, 1, True): (": the law acts on failed particles only; untouched",),
    (2, 8, True): (": no shape is left in its strains, ", " ", " ", " are zero; sigma are all ones"),
    (2, 9, True): (": it came apart, ", " is below the sum of its strains ", "; sigma are all ones"),
    (2, 13, True): (": its distance past the cone ", " is at most ", "; untouched"),
    (2, 13, False): (": its distance past the cone ", " is over ", "; returned to the cone"),
    (3, 7, True): (": the largest pressure ", " is below its pressure ", "; returned to the upper tip"),
    (3, 8, True): (": its pressure ", " is below the lowest ", "; returned to the lower tip"),
    (3, 9, True): (": its distance past the ellipse ", " is below ", "; untouched"),
    (3, 9, False): (": its distance past the ellipse ", " is at least ", "; returned to the ellipse"),
}
# The branch of section 5, 0 untouched.
BRANCHES = {(1, 4, True): 0, (1, 5, True): 1, (1, 6, True): 2, (1, 6, False): 3, (2, 1, True): 0, (2, 8, True): 1, (2, 9, True): 1, (2, 13, True): 0,
            (2, 13, False): 2, (3, 7, True): 1, (3, 8, True): 2, (3, 9, True): 0, (3, 9, False): 3}


def reason(model, p, r):
    """(law, test, held) and the numbers compared, or "bounds" and Snow's three; a refusal is Stopped."""
    for whose, of in (("parameter", p), ("float", r)):
        for k, x in enumerate(of):
            if not math.isfinite(x):
                raise Stopped(1, 0, whose, k)
    stop_unless(floats(r[36:]) == floats([cases.determinant(r[:9])]), 11, STORED_DETERMINANT)
    law = cases.TABLE.law_of[model][0]
    test, compared, sigma = LAWS[law](p, r)
    if sigma is not None:
        results(NEW_DETERMINANT, cases.determinant(recompose(r[9:18], sigma, r[21:30])))
    return (test if test == "bounds" else (law, *test)), compared


def branch(model, p, r):
    """The branch's number, nothing where the record is refused."""
    try:
        test, _ = reason(model, p, r)
    except Stopped:
        return None
    return 1 if test == "bounds" else BRANCHES[test]


def titles():
    """The laws by their names on pages, in the table's order."""
    return [law.title for law in cases.TABLE.models]


@functools.lru_cache
def printed():
    """The words of crates/why_lines/src/rows.rt: the record's own steps, the last of theirs, and by law the lines of its sentences, steps and parameters."""
    source = (shell.TOP / "crates" / "why_lines" / "src" / "rows.rt").read_text()

    def text(name):
        words = re.search(r'fn %s\(.*?"([^"]*\\n)",\n' % name, source, re.S)[1]
        return re.sub(r"\\\n *", "", words).split("\\n")[:-1]

    begins = [tuple(map(int, row)) for row in re.findall(r"Row \{\s*sentences: (\d+),\s*steps: (\d+),\s*parameters: (\d+),\s*\}", source)]
    texts = [text("print_test"), text("print_step"), text("print_parameter")]

    def part(law, kind):
        """From where it begins to where another law's does."""
        first = begins[law][kind]
        return texts[kind][first:min([row[kind] for row in begins if row[kind] > first], default=first)]

    own = int(re.search(r"OWN_STEPS: usize = (\d+);", source)[1])
    begins.append((0, own, 0))
    return texts[1][own:], [[part(law, kind) for kind in range(3)] for law in range(len(cases.TABLE.models))]


def bare(lines, mark):
    """The lines without the mark that each begins with."""
    return [line.removeprefix(mark) if line.startswith(mark) else "no mark: " + line for line in lines]


def word_faults():
    """What is wrong with a law's sentences and parameters in the program's source, or None: by branch those of WORDS, and the names of calls.toml."""
    for law, (sentences, _, parameters) in zip(cases.TABLE.models, printed()[1]):
        k = cases.TABLE.models.index(law)
        told = {BRANCHES[test]: list(words) for test, words in WORDS.items() if test[0] == k and len(words) == 3}
        want = [line for branch in sorted(told) for line in told[branch]]
        yield None if sentences == want and sorted(told) == list(range(len(told))) else "crates/why_lines: the sentences of %s are %s, and should be %s" % (law.name, sentences, want)
        want = [parameter.name for parameter in law.parameters]
        yield None if bare(parameters, ", ") == want else "crates/why_lines: the parameters of %s are %s, and should be %s" % (law.name, parameters, want)


@functools.lru_cache
def steps():
    """What is done at each step of each law."""
    record, laws = printed()
    own = {0: "parameters and record are finite", **dict(enumerate(bare(record, ": "), STORED_DETERMINANT))}
    return [{**own, **dict(enumerate(bare(law[1], ": "), 1))} for law in laws]


# ---- the tables of docs/STEPS.md

MADE = re.compile(r"(<!-- made by tools/reasons.py: (\w+) -->\n).*?(<!-- end -->)", re.S)


def branch_cell(law, step, held):
    test = (law, step, held)
    return "branch %d: %s" % (BRANCHES[test], WORDS[test][-1].rpartition("; ")[2]) if test in BRANCHES else ""


def step_rows(law):
    tested = any(test[0] == law for test in BRANCHES)
    head = ["Step", "What is done"] + ["Where it holds", "Where it is the last and doesn't"] * tested
    rows = [[str(step), words] + [branch_cell(law, step, held) for held in (True, False)] * tested for step, words in sorted(steps()[law].items()) if 0 < step < STORED_DETERMINANT]
    return "\n".join("| %s |" % " | ".join(row) for row in [head, *rows]).replace("\n", "\n|" + "---|" * len(head) + "\n", 1)


def page():
    """docs/STEPS.md as it stands and as it is made."""
    text = (shell.TOP / "docs" / "STEPS.md").read_text()
    names = [law.name for law in cases.TABLE.models]
    return text, MADE.sub(lambda m: "%s\n%s\n\n%s" % (m[1], step_rows(names.index(m[2])), m[3]), text)


def page_faults():
    """What is wrong with docs/STEPS.md, or None: each law has its table, and they are what is made."""
    text, made = page()
    named = [name for _, name, _ in MADE.findall(text)]
    yield None if named == [law.name for law in cases.TABLE.models] else "docs/STEPS.md: its made tables are %s" % named
    yield None if text == made else "docs/STEPS.md: its tables are not what the program says: run tools/reasons.py page and commit it"


def write_page(args):
    (shell.TOP / "docs" / "STEPS.md").write_text(page()[1])
    return 0


def name_of(model, whose, place):
    """The name of a float: a parameter's as calls.toml has it, a record's by its part."""
    if whose == "parameter":
        return cases.TABLE.models[cases.TABLE.law_of[model][0]].parameters[place].name
    parts = ["of F"] * 9 + ["of U"] * 9 + ["of sigma"] * 3 + ["of V^T"] * 9
    return [*parts, "phase", "plastic determinant", "plastic hardening", "elastic hardening", "log gain", "alpha", "the stored determinant"][place]


def line(k, model, p, r):
    """The words of record k's line, one more than the numbers that stand between them, and the numbers."""
    try:
        test, compared = reason(model, p, r)
    except Stopped as e:
        number, step, *place = e.args
        told = "%s %d, %s" % (*place, name_of(model, *place)) if place else steps()[cases.TABLE.law_of[model][0]][step]
        return ["%d refused %d at step %d: %s" % (k, number, step, told)], []
    if test == "bounds":
        told = "inside its bounds" if set(compared) == {"neither"} else "clamped, sigma by its bound: " + " ".join(compared)
        return ["%d %s" % (k, told)], []
    first, *rest = WORDS[test]
    return ["%d %s, test %d%s" % (k, "yielded" if BRANCHES[test] else "stayed", test[1], first), *rest], compared


def lines(data):
    try:
        model, p, records = cases.read(data)
    except cases.Refused as e:
        return [(["sheet refused %d" % e.args[0]], [])]
    return [(["particles %d" % len(records)], []), *(line(k, model, p, r) for k, r in enumerate(records)), (["end"], [])]


def near(x, y):
    return x == y or abs(x - y) <= 2.0 ** -30 * max(1.0, abs(x), abs(y))


def alike(told, got):
    words, compared = told
    found = re.fullmatch(("(%s)" % BITS).join(map(re.escape, words)), got)
    if not found:
        return False
    return all(near(x, struct.unpack(">d", bytes.fromhex(w))[0]) for x, w in zip(compared, found.groups()))


def compare(data, answer, name):
    """How many lines are alike, and how many not."""
    want, got = lines(data), answer.split("\n")[:-1]
    bad = [k for k, told in enumerate(want) if k >= len(got) or not alike(told, got[k])]
    bad += range(len(want), len(got))
    for k in bad[:5]:
        print("%s, line %d: %r, and should be like %r" % (name, k + 1, got[k] if k < len(got) else None, want[k] if k < len(want) else None))
    return max(len(want), len(got)) - len(bad), len(bad)


def check(args):
    told = shell.TOP / "tests" / "sheets" / "rankine.why"
    counts = [compare((shell.TOP / "samples" / "rankine.sheet").read_bytes(), told.read_text(), told.name)]
    told = cases.parts()
    counts += [compare(s.read_bytes(), told.get(s.name + " why", "").rstrip("\n") + "\n", "crates/slope_cases " + s.name) for s in cases.SHEETS]
    program = args.program or os.environ.get("PASOLETU_SLOPE")
    if program:
        sheets = [pathlib.Path(s) for s in args.sheets] or sorted((shell.TOP / "samples").glob("*.sheet")) + cases.SHEETS
        for s in sheets:
            data = s.read_bytes()
            answer = subprocess.run([*shell.words(program), "--why"], input=data, stdout=subprocess.PIPE, check=True).stdout.decode()
            counts.append(compare(data, answer, s.name))
    faults = [*page_faults(), *word_faults()]
    for fault in filter(None, faults):
        print(fault)
    counts.append((faults.count(None), len(faults) - faults.count(None)))
    passed, failed = (sum(column) for column in zip(*counts))
    print("%d passed, %d failed" % (passed, failed))
    return failed != 0


def tell(args):
    for s in args.sheets:
        for words, compared in lines(pathlib.Path(s).read_bytes()):
            print(words[0] + "".join("%.3g%s" % (x, w) for x, w in zip(compared, words[1:])))
    return 0


def main(argv=None):
    about = argparse.ArgumentParser(description=__doc__, formatter_class=argparse.RawDescriptionHelpFormatter)
    about.add_argument("sheets", nargs="*", metavar="X.sheet", help="or the word check, and sheets after it, or the word page")
    about.add_argument("--program", help="the proved program slope")
    args = about.parse_args(argv)
    do = {"check": check, "page": write_page}.get(args.sheets[0]) if args.sheets else None
    args.sheets = args.sheets[do is not None:]
    return shell.run("reasons.py", do or tell, args)


if __name__ == "__main__":
    sys.exit(main())
