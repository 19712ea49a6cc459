#!/usr/bin/env python3
"""Draws a run: where each particle of a sheet lay, and where its law put it, against the yield surface.

  tools/draw.py X.sheet OUT.svg [--png] [--program bin/slope | --answers FILE] [--second]
                [--limits PRINCIPAL SHEAR --corotated FLAG CFL LAMBDA MU]
  tools/draw.py --flat LIST.csv OUT.svg --model MODEL [--parameters NAME=VALUE ..] [--png]
  tools/draw.py --flat LIST.json OUT.svg [--png]

A name may be `-`: standard input, or standard output. The plane is chosen by the model, so that a particle is inside exactly where the law
tests that it is:
  Snow            smallest and largest sigma, with the clamp's box
  Rankine         sum and largest of the log strains, with the tensile cut-off
  Drucker-Prager  sum of the strains and norm of their deviatoric part, with the cone
  NACC            pressure p and shear q, with the ellipse
A letter beside a stored particle says which branch of its law it took; of several with one letter that lie close together, the first has it. Where the surface moves with a particle's hardening, some of the surfaces are drawn and the legend says for which. A particle that is refused
by 1, since a float of it or of the law is no number or infinite, has no place in a plane: it is listed, as every refused one, with its
number and why. One that is worked although a sigma of it came as 0 or below is listed too, as pressed flat or turned inside out.

The records after the run are those of the proved library: the file that PASOLETU_LIB names, else the one that the Python package finds
(./install.sh PREFIX makes it). Where there is none, or with --second, they are worked by the second implementation in tools/cases.py, and the
picture says so. --program runs the program on the sheet and takes the outcomes from what it prints; --answers takes them from a file
with such lines. Where they differ from the records' own, the picture and the exit status say so.
--limits and --corotated run the pass with failure (docs/RULES.md, section 7), which the program has not.
--png also writes OUT.png, with rsvg-convert, inkscape or magick.

There is no sheet of flat records (docs/RULES.md, section 7): with --flat a list of them is drawn, of any length, as the proved library's flat
pass leaves it; it has no second implementation here. The list is a table as tools/sheet.py takes it, with F, U and V^T of four entries
(F11 F12 F21 F22; in a JSON four numbers or two rows of two), sigma1 and sigma2, and the six scalars; F alone is not taken. A row of 20
numbers, in a CSV without a row of names, is a record as it stands. The planes:
  Snow            both sigma, with the clamp's box
  Rankine         both log strains, with the tensile cut-off lambda S + 2 mu a = s
  Drucker-Prager  both strains, with the cone
  NACC            pressure p and shear q, with the ellipse
"""
import argparse
import math
import os
import pathlib
import shutil
import struct
import subprocess
import sys
import xml.sax.saxutils

sys.path.insert(0, str(pathlib.Path(__file__).resolve().parent))
import cases  # noqa: E402
import reasons  # noqa: E402
import sheet  # noqa: E402
import shell  # noqa: E402
from shell import Wrong  # noqa: E402

INK, GREY, SURFACE, STORED, REFUSED, FAILED = "#222222", "#777777", "#009e73", "#0072b2", "#d00000", "#9933aa"
LEFT, TOP, WIDE, HIGH = 92, 74, 600, 500
BESIDE = LEFT + WIDE + 26  # where the legend begins
PICTURE = 1000
MOST_SURFACES = 4
LETTERS_APART = 45  # of like letters, in the picture's units
MOST_TOLD = 6  # particles of a refusal that are told one by one
NOT_FINITE, WRONG_DETERMINANT, OUT_OF_RANGE = 1, 11, (2, 10)
SOME_REFUSED = 3  # the command's status where a particle was refused
PROVED, SECOND = "the proved library", "the second implementation in tools/cases.py"


# ---- planes: each law's two coordinates, its surfaces, and what bounds the plane


class Plane:
    """`key` is what the surface of a record depends on, `surface` its points for a key, `key_name` how the legend calls it."""

    branches = ()  # what the law does to a stored particle, from 1 on, where it is one of several (docs/STEPS.md)
    shape, places, of = sheet.SOLID, sheet.PLACES, "sheet"
    floor = False  # whether nothing lies below 0

    def __init__(self, p):
        self.p = p

    def sigma(self, r):
        at = 2 * self.shape.axes ** 2
        return r[at:at + self.shape.axes]

    def scalar(self, r, name):
        return r[self.shape.places.index(name)]

    def key(self, r):
        return 0.0

    def corners(self, shown):
        """Points that the picture is to have in it."""
        return [(0.0, 0.0)]

    def region(self, surface):
        """The points round the inside: the surface, and back along the line that no particle can cross."""
        edge = self.limit()[0]
        return surface + [(x, edge(x)) for x, _ in (surface[-1], surface[0])]


class Snow(Plane):
    title, x_name, y_name, key_name = "Snow", "smallest sigma (no unit)", "largest sigma (no unit)", None

    def point(self, r, after):
        return min(self.sigma(r)), max(self.sigma(r))

    def surface(self, key, box):
        low, high = 1.0 - self.p[0], 1.0 + self.p[1]
        return [(low, low), (low, high), (high, high)]

    def corners(self, shown):
        return self.surface(0.0, None)

    def limit(self):
        """A line that no particle can cross, and its name."""
        return (lambda x: x), "all sigma equal"


class Rankine(Plane):
    branches = "one strain returned", "two strains returned", "all strains returned"
    title, x_name, y_name = "Rankine", "sum of the log strains (no unit)", "largest log strain (no unit)"
    key_name = "s"

    def point(self, r, after):
        e = [math.log(x) for x in self.sigma(r)]
        return e[0] + e[1] + e[2], max(e)

    def key(self, r):
        return self.p[2] - (self.scalar(r, "plastic_hardening") - 1.0)

    def surface(self, s, box):
        lame, mu, _ = cases.moduli(self.p[0], self.p[1])
        corner = s / (lame + 2.0 * mu / 3.0)
        return [(x, (s - lame * x) / (2.0 * mu)) for x in (min(box[0], corner), corner)]

    def limit(self):
        return (lambda x: x / 3.0), "all strains equal"


class DruckerPrager(Plane):
    branches = "sigma all ones", "returned to the cone"
    title, x_name, y_name = "Drucker-Prager", "sum of the strains (no unit)", "norm of the deviatoric strain (no unit)"
    key_name = "plastic hardening"
    floor = True

    def strains(self, r, after):
        gain = 0.0 if after else self.scalar(r, "log_gain")
        return [math.log(x) + gain / self.shape.axes for x in self.sigma(r)]

    def point(self, r, after):
        e = self.strains(r, after)
        t = e[0] + e[1] + e[2]
        return t, math.hypot(*[x - t / 3.0 for x in e])

    def key(self, r):
        return self.scalar(r, "plastic_hardening")

    def slope(self, q):
        """How much of the deviatoric part's norm the cone has for each part of a negative sum."""
        h0, h1, h2, h3, lame, mu = self.p[:6]
        s = math.sin(h0 + (h1 * q - h3) * math.exp(-h2 * q))
        return (self.shape.axes * lame + 2.0 * mu) / (2.0 * mu) * math.sqrt(2.0 / 3.0) * 2.0 * s / (3.0 - s)

    def surface(self, q, box):
        k = self.slope(q)
        return [(x, -k * x) for x in (min(box[0], -1e-9), 0.0)]

    def limit(self):
        return (lambda x: 0.0), None


class Nacc(Plane):
    branches = "upper tip", "lower tip", "returned to the ellipse"
    title, x_name, y_name = "NACC", "pressure p (in the unit of Young's modulus)", "shear q (in the unit of Young's modulus)"
    key_name = "p0"
    floor = True

    def moduli(self):
        _, mu, kappa = cases.moduli(self.p[0], self.p[1])
        return mu, kappa

    def point(self, r, after):
        mu, kappa = self.moduli()
        d = self.shape.axes
        v = [x * x for x in self.sigma(r)]
        j = math.prod(self.sigma(r))
        s = [mu * j ** (-2.0 / d) * (x - sum(v) / d) for x in v]
        return -(kappa / 2.0) * (j - 1.0 / j) * j, math.sqrt((6.0 - d) / 2.0) * math.hypot(*s)

    def key(self, r):
        return self.moduli()[1] * (1.0e-5 + math.sinh(self.p[4] * max(-self.scalar(r, "alpha"), 0.0)))

    def surface(self, p0, box):
        beta, m = self.p[2], self.p[5]
        centre, half = (1.0 - beta) * p0 / 2.0, (1.0 + beta) * p0 / 2.0
        tall = m * half / math.sqrt(1.0 + 2.0 * beta)
        turns = [math.pi * k / 60.0 for k in range(61)]
        return [(centre - half * math.cos(t), tall * math.sin(t)) for t in turns]

    def corners(self, shown):
        return [(0.0, 0.0)] + [x for k in shown for x in self.surface(k, None)]

    def limit(self):
        return (lambda x: 0.0), None


class Flat:
    """What is other of a flat record: two axes, of which the plane has one each, and no branch is told."""

    branches, shape, places, of = (), sheet.FLAT, sheet.FLAT.places, "list"
    floor = False

    def region(self, surface):
        return surface


class FlatSnow(Flat, Snow):
    title, x_name, y_name = "Snow in two axes", "first sigma (no unit)", "second sigma (no unit)"

    def point(self, r, after):
        return tuple(self.sigma(r))

    def surface(self, key, box):
        low, high = 1.0 - self.p[0], 1.0 + self.p[1]
        return [(low, low), (low, high), (high, high), (high, low), (low, low)]

    def limit(self):
        return (lambda x: x), "both sigma equal"


class FlatRankine(Flat, Rankine):
    title, x_name, y_name = "Rankine in two axes", "first log strain (no unit)", "second log strain (no unit)"

    def point(self, r, after):
        return tuple(math.log(x) for x in self.sigma(r))

    def surface(self, s, box):
        """lambda S + 2 mu a = s, first with the second strain as the larger, then with the first."""
        lame, mu, _ = cases.moduli(self.p[0], self.p[1])
        corner = s / (2.0 * mu + 2.0 * lame)
        left, low = min(box[0], corner), min(box[2], corner)
        return [(left, (s - lame * left) / (2.0 * mu + lame)), (corner, corner), ((s - lame * low) / (2.0 * mu + lame), low)]

    def region(self, surface):
        return surface + [(surface[0][0], surface[-1][1])]

    def limit(self):
        return (lambda x: x), "both strains equal"


class FlatDruckerPrager(Flat, DruckerPrager):
    title, x_name, y_name = "Drucker-Prager in two axes", "first strain (no unit)", "second strain (no unit)"

    def point(self, r, after):
        return tuple(self.strains(r, after))

    def surface(self, q, box):
        """The deviatoric part's norm is the strains' difference over root 2."""
        k, t = math.sqrt(2.0) * max(self.slope(q), 0.0), min(box[0] + box[2], -1e-9)
        return [(t * (1.0 - k) / 2.0, t * (1.0 + k) / 2.0), (0.0, 0.0), (t * (1.0 + k) / 2.0, t * (1.0 - k) / 2.0)]

    def limit(self):
        return (lambda x: x), "both strains equal"


class FlatNacc(Flat, Nacc):
    title = "NACC in two axes"
    floor = True


FLAT_PLANES = {"snow": FlatSnow, "rankine": FlatRankine, "drucker_prager": FlatDruckerPrager, "nacc": FlatNacc}
PLANES = {"snow": Snow, "rankine": Rankine, "drucker_prager": DruckerPrager, "nacc": Nacc}


# ---- the run


class Particle:
    """A record before and after its law. `code` is 0 where it is untouched, 1 where it is stored, 2 where it is refused; `value` the amount
    that was stored, or the refusal's number; `branch` the branch that the law took, 0 untouched."""

    def __init__(self, before, after, code, value, failed, branch=None):
        self.before, self.after, self.code, self.value, self.failed, self.branch = before, after, code, value, failed, branch

    def not_finite(self):
        return (self.code, self.value) == (2, NOT_FINITE)

    def places(self, plane):
        """The points before and after, each nothing where there is none."""
        if self.not_finite():
            return None, None
        return place(plane, self.before, False), place(plane, self.after, True)


def by_library(pasoletu, data, failure):
    """The particles of a sheet's bytes as the proved library leaves them, called through its Python package."""
    _, _, records = cases.read(data)
    if failure:
        limits, (split, *law) = failure
        judge = pasoletu.MaximumStressFailure(*limits), pasoletu.CorotatedLinearElasticity(split == 1.0, *law)
        read = pasoletu.read_sheet(data)
        passes = [pasoletu.pass_with_failure(read.model, *judge, [particle]) for particle in read.particles]
        worked = [(particle, passed.outcomes[0], passed.failed == 1) for particle, passed in zip(read.particles, passes)]
    else:
        ran = pasoletu.run(data)
        worked = [(particle, outcome, False) for particle, outcome in zip(ran.particles, ran.passed.outcomes)]

    read = pasoletu.read_sheet(data)

    def branch(particle):
        told = read.model.reason(particle)
        return told.branch if isinstance(told, pasoletu.Tested) else 1 if isinstance(told, pasoletu.Clamped) else None
    came = [branch(particle) for particle in pasoletu.read_sheet(data).particles]
    return [Particle(before, after.floats(), *numbers(pasoletu, outcome), failed, k) for before, (after, outcome, failed), k in zip(records, worked, came)]


def numbers(pasoletu, outcome):
    """An outcome's code, and its amount or refusal."""
    if isinstance(outcome, pasoletu.Stored):
        return 1, outcome.amount
    return (2, outcome.number) if isinstance(outcome, pasoletu.Refused) else (0, 0)


def by_flat_pass(pasoletu, model, p, records):
    """Flat records as the proved library's flat pass leaves them."""
    held = [pasoletu.FlatParticle.from_floats(r) for r in records]
    passed = pasoletu.flat_pass(pasoletu.law(sheet.MODELS.index(model), p), held)
    return [Particle(r, after.floats(), *numbers(pasoletu, outcome), False) for r, after, outcome in zip(records, held, passed.outcomes)]


def by_second(data, failure):
    """The same by the second implementation."""
    def one(model, p, r):
        try:
            failed, amount, after = cases.worked_with_failure(model, p, *failure, r) if failure else (False, *cases.worked(model, p, r))
        except cases.Refused as e:
            return Particle(r, r, 2, e.args[0], False)
        return Particle(r, after, 0, 0, failed, 0) if amount is None else Particle(r, after, 1, amount, failed, reasons.branch(model, p, r))
    model, p, records = cases.read(data)
    return [one(model, p, r) for r in records]


def worked(data, failure, second):
    """The particles after the run, who worked them, and what is to be said where that was not the proved library."""
    if second:
        return by_second(data, failure), SECOND, ["These records are not the proved library's: they are worked by %s, as --second asks." % SECOND]
    try:
        return by_library(shell.package(), data, failure), PROVED, []
    except shell.NoLibrary as e:
        if os.environ.get("PASOLETU_LIB"):
            raise
        why = "is for another processor" if e.other_processor else "is not here (./install.sh PREFIX makes it; PASOLETU_LIB names it)"
    return by_second(data, failure), SECOND, ["The proved library %s: these records are worked by %s." % (why, SECOND)]


def line_of(k, q, second):
    """The line that the program prints for a particle; the amount as a decimal where it is the second implementation's."""
    if q.code == 0:
        return "%d untouched" % k
    if q.code == 2:
        return "%d refused %d" % (k, q.value)
    return "%d stored %s" % (k, repr(q.value) if second else struct.pack(">d", q.value).hex())


def printed(line, k, where):
    """The outcome and its number that particle k's line tells."""
    words = line.split(" ")
    try:
        if words == [str(k), "untouched"]:
            return 0, 0
        if words[:2] == [str(k), "stored"] and len(words) == 3 and len(words[2]) == 16:
            return 1, struct.unpack(">d", bytes.fromhex(words[2]))[0]
        if words[:2] == [str(k), "refused"] and len(words) == 3:
            return 2, int(words[2])
    except ValueError:
        pass
    raise Wrong("%s: line %d is %r, and should be that of particle %d" % (where, k + 2, line, k))


def taken_from(lines, particles, second, where):
    """Gives the particles the outcomes that are printed; the places at which these differ from the particles' own."""
    if lines and lines[0].startswith("sheet refused"):
        raise Wrong("%s: %s: there is no run to draw" % (where, lines[0]))
    if len(lines) < 2 or lines[0] != "particles %d" % len(particles) or lines[-1] != "end" or len(lines) != len(particles) + 2:
        raise Wrong("%s: these are not the whole answers for %d particles: the first line is 'particles %d', the last 'end'" % (where, len(particles), len(particles)))
    differ = []
    for k, (q, line) in enumerate(zip(particles, lines[1:-1])):
        told, own = printed(line, k, where), line_of(k, q, second)
        if not (cases.same(own, line) if second else own == line):
            differ.append(k)
        q.code, q.value = told
    return differ


def answers(args, data):
    """The printed lines, and where they are from; or nothing."""
    if args.answers:
        with shell.reading(args.answers) as stream:
            return stream.read().decode(errors="replace").splitlines(), args.answers
    if args.program:
        try:
            ran = subprocess.run([args.program, args.sheet], input=data, capture_output=True)
        except OSError as e:
            raise Wrong("%s: cannot be run (%s): bin/slope is the program as a command" % (args.program, e.strerror))
        if ran.returncode not in (0, SOME_REFUSED):
            raise Wrong("%s: ended with status %d: %s" % (args.program, ran.returncode, ran.stderr.decode(errors="replace").strip()))
        return ran.stdout.decode(errors="replace").splitlines(), args.program
    return None, None


# ---- the picture


def place(plane, r, after):
    """A record's point in the plane, or nothing where it has none. A float that is not finite comes first: Python's min and max pass it over."""
    if not all(map(math.isfinite, r)):
        return None
    try:
        x, y = plane.point(r, after)
    except (ValueError, ZeroDivisionError, OverflowError):
        return None
    return (x, y) if all(isinstance(v, float) and math.isfinite(v) for v in (x, y)) else None


def span(values):
    """The range shown: all of the values, or nine tenths of them where a few lie far out."""
    values = sorted(values)
    low, high = values[0], values[-1]
    cut = len(values) // 20
    inner = values[len(values) - 1 - cut] - values[cut]
    if inner > 0.0 and high - low > 8.0 * inner:
        low, high = values[cut], values[len(values) - 1 - cut]
    if low == high:
        low, high = low - (abs(low) or 1.0) * 0.1, high + (abs(high) or 1.0) * 0.1
    edge = 0.06 * (high - low)
    return low - edge, high + edge


def ticks(low, high):
    step = 10.0 ** math.floor(math.log10((high - low) / 5.0))
    for m in (5.0, 2.0):
        if (high - low) / (step * m) >= 4.0:
            step *= m
            break
    first = math.ceil(low / step - 1e-9)
    return [k * step for k in range(first, math.floor(high / step + 1e-9) + 1)], step


def tick_text(x, step):
    if x != 0.0 and max(abs(x), step) >= 1e6 or step < 1e-5:
        return "%.3g" % x
    return "%.*f" % (max(0, -math.floor(math.log10(step) + 1e-9)), x + 0.0)


class Canvas:
    def __init__(self, box):
        self.box, self.out, self.labels, self.letters = box, [], [], {}

    def at(self, x, y):
        x0, x1, y0, y1 = self.box
        return LEFT + WIDE * (x - x0) / (x1 - x0), TOP + HIGH * (y1 - y) / (y1 - y0)

    def inside(self, x, y):
        x0, x1, y0, y1 = self.box
        return x0 <= x <= x1 and y0 <= y <= y1

    def add(self, text, *values):
        self.out.append(text % values)

    def text(self, x, y, words, size=12, colour=INK, anchor="start", extra=""):
        self.add('<text x="%.1f" y="%.1f" font-size="%d" fill="%s" text-anchor="%s"%s>%s</text>', x, y, size, colour, anchor, extra, xml.sax.saxutils.escape(words))

    def line(self, x0, y0, x1, y1, colour, width=1.0, extra=""):
        self.add('<line x1="%.1f" y1="%.1f" x2="%.1f" y2="%.1f" stroke="%s" stroke-width="%.1f"%s/>', x0, y0, x1, y1, colour, width, extra)

    def path(self, points, colour, width, extra=""):
        d = "M" + " L".join("%.1f %.1f" % self.at(*p) for p in points)
        self.add('<path d="%s" fill="none" stroke="%s" stroke-width="%.1f" clip-path="url(#plot)"%s/>', d, colour, width, extra)

    def ring(self, x, y, size, colour, fill="none", width=1.4):
        self.add('<circle cx="%.1f" cy="%.1f" r="%.1f" stroke="%s" fill="%s" stroke-width="%.1f"/>', x, y, size, colour, fill, width)

    def cross(self, x, y, colour, size=5.0):
        self.line(x - size, y - size, x + size, y + size, colour, 2.2)
        self.line(x - size, y + size, x + size, y - size, colour, 2.2)

    def square(self, x, y, colour, size=8.0):
        self.add('<rect x="%.1f" y="%.1f" width="%.1f" height="%.1f" fill="none" stroke="%s" stroke-width="1.6"/>', x - size, y - size, 2 * size, 2 * size, colour)

    def letter(self, x, y, letter, colour):
        """A letter beside a point, unless the same one stands near it already."""
        near = self.letters.setdefault(letter, [])
        if all(math.hypot(x - a, y - b) > LETTERS_APART for a, b in near) and self.label(x, y, letter, colour):
            near.append((x, y))

    def label(self, x, y, words, colour):
        """A label beside a point, where it meets no other and stays in the plot; else none, for the list at the right has it. Whether it stands."""
        w = 6.5 * len(words)
        for dx, dy in ((9, 4), (-9 - w, 4), (-w / 2, -10), (-w / 2, 19), (9, -8), (9, 16), (-9 - w, -8), (-9 - w, 16)):
            b = (x + dx, y + dy - 10, x + dx + w, y + dy + 2)
            if b[0] < LEFT or b[2] > LEFT + WIDE or b[1] < TOP or b[3] > TOP + HIGH:
                continue
            if all(b[2] < o[0] or o[2] < b[0] or b[3] < o[1] or o[3] < b[1] for o in self.labels):
                self.labels.append(b)
                self.text(x + dx, y + dy, words, 11, colour)
                return True
        return False


def axes(c, plane):
    x0, x1, y0, y1 = c.box
    c.add('<rect x="%d" y="%d" width="%d" height="%d" fill="white" stroke="%s"/>', LEFT, TOP, WIDE, HIGH, INK)
    for values, step, along in ((*ticks(x0, x1), True), (*ticks(y0, y1), False)):
        for v in values:
            x, y = c.at(v, y0) if along else c.at(x0, v)
            words = tick_text(v, step)
            if along:
                c.line(x, TOP, x, TOP + HIGH, "#e4e4e4")
                c.line(x, y, x, y + 5, INK)
                c.text(x, y + 19, words, 12, INK, "middle")
            else:
                c.line(LEFT, y, LEFT + WIDE, y, "#e4e4e4")
                c.line(x - 5, y, x, y, INK)
                c.text(x - 9, y + 4, words, 12, INK, "end")
    c.text(LEFT + WIDE / 2, TOP + HIGH + 42, plane.x_name, 14, INK, "middle")
    c.text(22, TOP + HIGH / 2, plane.y_name, 14, INK, "middle", ' transform="rotate(-90 22 %d)"' % (TOP + HIGH / 2))


def keys_of(plane, particles):
    """What the surfaces depend on, of all particles that have a surface: every different one, and those that are drawn."""
    found = set()
    for q in particles:
        if plane.key_name and not q.places(plane)[0]:
            continue
        try:
            k = plane.key(q.before)
            if math.isfinite(k) and all(math.isfinite(v) for point in plane.surface(k, (0.0, 1.0, 0.0, 1.0)) for v in point):
                found.add(float("%.9g" % k))
        except (ValueError, ZeroDivisionError, OverflowError):
            pass
    found = sorted(found)
    n = len(found)
    shown = found if n <= MOST_SURFACES else [found[round(k * (n - 1) / (MOST_SURFACES - 1))] for k in range(MOST_SURFACES)]
    return found, shown


def held(c, x, y):
    """A point at the picture's edge for one that lies outside of it."""
    x0, x1, y0, y1 = c.box
    return min(max(x, x0), x1), min(max(y, y0), y1)


def particles_drawn(c, plane, particles):
    """Draws those that have a place, which it gives; and how many of them lie outside the picture."""
    outside = 0
    spots = []
    for k, q in enumerate(particles):
        a, b = q.places(plane)
        if a is None:
            continue
        outside += not c.inside(*a)
        spots.append((k, q, c.at(*held(c, *a)), c.at(*held(c, *b)) if b else None))
    c.labels += [(x - 5, y - 5, x + 5, y + 5) for _, _, a, b in spots for x, y in (a, b or a)]
    for k, q, a, b in spots:
        if q.code == 1 and b and math.hypot(a[0] - b[0], a[1] - b[1]) > 1.0:
            c.line(*a, *b, STORED, 0.9, ' stroke-opacity="0.55"')
    for k, q, a, b in spots:
        if q.code == 0:
            c.ring(*a, 4.2, GREY, GREY)
        elif q.code == 1:
            c.ring(*a, 4.2, STORED, "white")
    for k, q, a, b in spots:
        if q.code == 1 and b:
            c.ring(*b, 2.6, STORED, STORED, 0.5)
        if q.code == 2:
            c.cross(*a, REFUSED)
        if q.failed:
            c.square(*a, FAILED)
    for k, q, a, b in spots:
        if q.code == 2:
            c.label(*a, "%d" % k, REFUSED)
    for k, q, a, b in spots:
        if q.code == 1 and b and q.branch and plane.branches:
            c.letter(*b, "ABC"[q.branch - 1], STORED)
    if particles and not spots:
        c.text(LEFT + WIDE / 2, TOP + HIGH / 2, "No particle of this %s has a place in the plane." % plane.of, 14, REFUSED, "middle")
    return [q for _, q, _, _ in spots], outside


DASHES = ["", "8 4", "3 3", "10 3 2 3"]


def in_sight(c, points):
    """Whether a line through the points comes into the picture."""
    between = ((p, q, k / 32.0) for p, q in zip(points, points[1:]) for k in range(33))
    return any(c.inside(p[0] + (q[0] - p[0]) * t, p[1] + (q[1] - p[1]) * t) for p, q, t in between)


def legend(c, plane, found, shown, spots):
    """What the marks mean, of those that are drawn; the height at which it ends."""
    x, y = BESIDE, TOP + 8
    codes = {q.code for q in spots}

    def entry(draw, words, colour=INK):
        nonlocal y
        draw(x + 9, y)
        c.text(x + 30, y + 4, words, 12, colour)
        y += 21

    for k, dash in zip(shown, DASHES):
        if not in_sight(c, plane.surface(k, c.box)):
            continue
        words = "yield surface" + (", %s = %.4g" % (plane.key_name, k) if plane.key_name else "")
        entry(lambda x, y: c.line(x - 9, y, x + 11, y, SURFACE, 2.0, ' stroke-dasharray="%s"' % dash if dash else ""), words)
    if len(found) > len(shown):
        c.text(x + 30, y, "(%d of %d different ones)" % (len(shown), len(found)), 11, GREY)
        y += 19
    edge, name = plane.limit()
    if name and in_sight(c, [(x, edge(x)) for x in c.box[:2]]):
        entry(lambda x, y: c.line(x - 9, y, x + 11, y, GREY, 1.0, ' stroke-dasharray="1 3"'), name)
    y += 6
    if 0 in codes:
        entry(lambda x, y: c.ring(x, y, 4.2, GREY, GREY), "untouched")

    def moved(x, y):
        c.line(x - 9, y, x + 9, y, STORED, 0.9)
        c.ring(x - 9, y, 4.2, STORED, "white")
        c.ring(x + 9, y, 2.6, STORED, STORED, 0.5)
    if 1 in codes:
        entry(moved, "stored: before, after")
    for letter, words in zip("ABC", plane.branches):
        if c.letters.get(letter):
            c.text(x + 30, y, "%s: %s" % (letter, words), 11, STORED)
            y += 16
    y += 5 if c.letters else 0
    if 2 in codes:
        entry(lambda x, y: c.cross(x, y, REFUSED), "refused (index beside it)")
    if any(q.failed for q in spots):
        entry(lambda x, y: c.square(x, y, FAILED), "failed")
    return y


def ranges(numbers):
    """Rising numbers in short: 1, 4-7."""
    runs = []
    for k in numbers:
        if runs and runs[-1][1] == k - 1:
            runs[-1][1] = k
        else:
            runs.append([k, k])
    return ", ".join("%d" % a if a == b else "%d-%d" % (a, b) for a, b in runs)


def not_finite(names, floats):
    """The floats that are no number or infinite, by name; nothing where all are finite."""
    found = ["%s is %r" % (name, x) for name, x in zip(names, floats) if not math.isfinite(x)]
    return ", ".join(found[:3]) + (" and %d more" % (len(found) - 3) if len(found) > 3 else "")


def why(plane, model, q):
    """What of its inputs a refused particle is refused for, where that can be named."""
    if q.value == WRONG_DETERMINANT:
        return "determinant is %r, that of F %r" % (q.before[cases.BARE], cases.determinant(q.before[:9]))
    if q.value in OUT_OF_RANGE:
        return "sigma " + " ".join("%g" % x for x in plane.sigma(q.before))
    if q.value != NOT_FINITE:
        return ""
    return not_finite(["parameter " + name for name in sheet.PARAMETERS[model]], plane.p) or not_finite(plane.places, q.before)


def refusals(plane, model, particles):
    """Each refusal that there is with its words, each followed by the particles that have it."""
    groups = {}
    for k, q in enumerate(particles):
        if q.code == 2:
            groups.setdefault(q.value, {}).setdefault(why(plane, model, q), []).append(k)
    for number, reasons in sorted(groups.items()):
        yield "refused by %d: %s%s" % (number, sheet.REFUSALS.get(number, "unknown"), "; no place in the plane" if number == NOT_FINITE else "")
        if number in OUT_OF_RANGE and len(reasons) > MOST_TOLD:
            who = sorted(k for those in reasons.values() for k in those)
            sigma = [x for k in who for x in plane.sigma(particles[k].before)]
            reasons = {"sigma from %g to %g" % (min(sigma), max(sigma)): who}
        for reason, who in reasons.items():
            yield whose(who, reason)


def whose(who, words):
    return "particle%s %s%s" % ("" if len(who) == 1 else "s", ranges(who), ": " + words if words else "")


def inside_out(plane, particles):
    """The particles that were worked although a sigma came as 0 or below, by what is to be said of them."""
    groups = {}
    for k, q in enumerate(particles):
        words = sheet.turned(plane.sigma(q.before)) if q.code != 2 else ""
        if words:
            groups.setdefault("%s, but %s" % ("stored" if q.code == 1 else "untouched", words), []).append(k)
    return [whose(who, words) for words, who in groups.items()]


def listed(c, plane, model, particles, y):
    """Writes which particles are refused, and which others have no place, from the height y on; the height at which it ends."""
    lines = [(line, REFUSED) for line in [*refusals(plane, model, particles), *inside_out(plane, particles)]]
    nowhere = [k for k, q in enumerate(particles) if not q.places(plane)[0] and not q.not_finite()]
    if nowhere:
        lines.append(("also without a place: " + ranges(nowhere), GREY))
    y += 10
    for words, colour in lines:
        for k, line in enumerate(wrapped(words, 40)):
            c.text(BESIDE + (12 if k or words.startswith("particle") else 0), y, line, 12, colour)
            y += 16
    return y


def wrapped(words, width):
    lines = [""]
    for w in words.split(" "):
        if lines[-1] and len(lines[-1]) + 1 + len(w) > width:
            lines.append("")
        lines[-1] += (" " if lines[-1] else "") + w
    return lines


def box_of(plane, taken, shown):
    """What the picture shows of the plane."""
    points = [x for q in taken for x in q.places(plane) if x]
    points += [x for x in plane.corners(shown) if all(map(math.isfinite, x))] or [(0.0, 0.0)]
    box = (*span([x for x, _ in points]), *span([y for _, y in points]))
    return box[:2] + (-0.03 * box[3],) + box[3:] if plane.floor else box


def surfaces_drawn(c, plane, shown):
    edge = plane.limit()[0]
    for k in shown:
        c.path(plane.region(plane.surface(k, c.box)), "none", 0.0, ' style="fill: %s; fill-opacity: 0.06"' % SURFACE)
    c.path([(x, edge(x)) for x in c.box[:2]], GREY, 1.0, ' stroke-dasharray="1 3"')
    for k, dash in zip(shown, DASHES):
        c.path(plane.surface(k, c.box), SURFACE, 2.0, ' stroke-dasharray="%s"' % dash if dash else "")


def head_of(name, particles, failure):
    counts = [sum(q.code == k for q in particles) for k in range(3)]
    head = "%s: %d particles, %d untouched, %d stored, %d refused" % (name, len(particles), *counts)
    return head + (", %d failed" % sum(q.failed for q in particles) if failure else "")


def picture(name, plane, model, particles, failure, caption, warnings):
    taken = [q for q in particles if q.code != 2] or particles
    found, shown = keys_of(plane, taken)
    c = Canvas(box_of(plane, taken, shown))
    axes(c, plane)
    surfaces_drawn(c, plane, shown)
    spots, outside = particles_drawn(c, plane, particles)
    if outside:
        caption = caption + ["%d particles lie outside the picture and are drawn at its edge." % outside]
    y = listed(c, plane, model, particles, legend(c, plane, found, shown, spots))
    c.text(LEFT, 30, plane.title, 20, INK, extra=' font-weight="bold"')
    c.text(LEFT, 54, head_of(name, particles, failure), 14)
    low, width = TOP + HIGH + 70, 132 if y < TOP + HIGH + 60 else 90
    for words, colour in [(w, REFUSED) for w in warnings] + [(w, "#444444") for w in caption]:
        for line in wrapped(words, width):
            c.text(LEFT - 60, low, line, 12, colour)
            low += 17
    return svg(c, max(low, y) + 6)


def svg(c, high):
    start = '<svg xmlns="http://www.w3.org/2000/svg" width="%d" height="%d" viewBox="0 0 %d %d" font-family="DejaVu Sans, Arial, sans-serif">' % (PICTURE, high, PICTURE, high)
    clip = '<clipPath id="plot"><rect x="%d" y="%d" width="%d" height="%d"/></clipPath>' % (LEFT, TOP, WIDE, HIGH)
    return "\n".join([start, clip, '<rect width="%d" height="%d" fill="white"/>' % (PICTURE, high), *c.out, "</svg>", ""])


def to_png(svg):
    png = svg[:-4] + ".png"
    for program, arguments in (("rsvg-convert", ["-o", png, svg]), ("inkscape", ["-o", png, svg]), ("magick", [svg, png])):
        if shutil.which(program):
            if subprocess.run([program, *arguments]).returncode:
                raise Wrong("--png: %s did not write %s; the SVG is written" % (program, png))
            return
    raise Wrong("--png: none of rsvg-convert, inkscape and magick is here: install one (Debian: librsvg2-bin); the SVG is written")


# ---- the command


def failure_of(args):
    """The limits and the corotated law of a pass with failure, or nothing."""
    if bool(args.limits) != bool(args.corotated):
        raise Wrong("--limits and --corotated belong together: give both, or neither")
    if not args.limits:
        return None
    if args.program or args.answers:
        raise Wrong("the program has no pass with failure: leave --program and --answers away, or --limits and --corotated")
    if repr(args.corotated[0]) not in ("0.0", "1.0"):
        raise Wrong("--corotated: the flag is 0 or 1")
    return args.limits, args.corotated


def caption_of(plane, model, failure):
    p = plane.p
    lines = ["Parameters: " + ", ".join("%s\u00a0%.6g" % x for x in zip(sheet.PARAMETERS[model], p)) + "."]
    if failure:
        limits, (split, _, lame, mu) = failure
        lines.append("Failure: limits %g (principal) and %g (shear); corotated law: split %g, lambda %.6g, mu %.6g." % (*limits, split, lame, mu))
    if model == "drucker_prager":
        lines.append("Before: log sigma + gain/%d, which the law tests; after: log of the stored sigma, where the law put it." % plane.shape.axes)
    if model == "nacc":
        lines.append("NACC's return keeps the sum of the squares of sigma, not their product: the pressure may change, and a particle end off its ellipse.")
    return lines


def drawn(args, plane, model, particles, failure, caption, warnings):
    name = pathlib.Path(shell.called(args.sheet, "standard input")).name
    shell.write(args.svg, picture(name, plane, model, particles, failure, caption, warnings).encode())
    if args.png:
        to_png(args.svg)


def draw_flat(args):
    if args.second or args.program or args.answers or args.limits or args.corotated:
        raise Wrong("--flat draws the library's flat pass: leave --second, --program, --answers, --limits and --corotated away")
    where = shell.called(args.sheet, "standard input")
    with shell.reading(args.sheet) as stream:
        model, _, p, records = sheet.from_table(stream, args.sheet, args.model, False, sheet.pairs(args.parameters), where, sheet.FLAT)
        records = list(records)
    for flag, x in zip(sheet.PARAMETERS[model], p):
        if flag in sheet.FLAGS and repr(x) not in ("0.0", "1.0"):
            raise Wrong("%s: refused by 6: %s is 0 or 1" % (where, flag))
    plane = FLAT_PLANES[model](p)
    particles = by_flat_pass(shell.package(), model, p, records)
    caption = caption_of(plane, model, None) + ["Flat records, of two axes. Outcomes and the records after the pass: %s." % PROVED]
    drawn(args, plane, model, particles, None, caption, [])


def draw(args):
    if not args.svg.endswith(".svg") and (args.svg != "-" or args.png):
        raise Wrong("%s: the picture's name must end in .svg%s" % (args.svg, "" if args.png else ", or be - for standard output"))
    if args.flat:
        return draw_flat(args)
    if args.model or args.parameters:
        raise Wrong("a sheet says its model and parameters itself: leave --model and --parameters away, or add --flat for a list of flat records")
    failure = failure_of(args)
    data = sheet.read(args.sheet)
    model, _, p, _ = sheet.load(data, args.sheet)
    particles, who, warnings = worked(data, failure, args.second)
    if warnings and not args.second:
        print(shell.named("draw.py: %s" % warnings[0]), file=sys.stderr)
    plane = PLANES[model](p)
    caption = caption_of(plane, model, failure)
    lines, where = answers(args, data)
    differ = []
    if lines is None:
        caption.append("Outcomes and the records after the run: %s." % who)
    else:
        caption.append("Outcomes: %s. Records after the run: %s." % (pathlib.Path(where).name, who))
        differ = taken_from(lines, particles, who == SECOND, where)
    if differ:
        warnings = warnings + ["The outcomes differ from the records' own at particle %s%s." % (", ".join(map(str, differ[:8])), " and others" if len(differ) > 8 else "")]
    drawn(args, plane, model, particles, failure, caption, warnings)
    if differ:
        raise Wrong(warnings[-1] + " The picture says so too.")


def strict(text):
    try:
        return sheet.number(text, "an option's number")
    except Wrong as e:
        raise argparse.ArgumentTypeError(str(e))


def main(argv=None):
    about = argparse.ArgumentParser(description=shell.named(__doc__), formatter_class=argparse.RawDescriptionHelpFormatter, usage=argparse.SUPPRESS)
    about.add_argument("sheet", metavar="X.sheet|LIST|-")
    about.add_argument("svg", metavar="OUT.svg|-")
    about.add_argument("--flat", action="store_true", help="draw a list of flat records")
    about.add_argument("--model")
    about.add_argument("--parameters", nargs="*", default=[], metavar="NAME=VALUE")
    about.add_argument("--png", action="store_true")
    about.add_argument("--second", action="store_true")
    which = about.add_mutually_exclusive_group()
    which.add_argument("--program")
    which.add_argument("--answers", metavar="FILE")
    about.add_argument("--limits", nargs=2, type=strict, metavar=("PRINCIPAL", "SHEAR"))
    about.add_argument("--corotated", nargs=4, type=strict, metavar=("FLAG", "CFL", "LAMBDA", "MU"))
    return shell.run("draw.py", draw, about.parse_args(argv))


if __name__ == "__main__":
    sys.exit(main())
