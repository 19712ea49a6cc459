#!/usr/bin/env python3
"""Makes sheets of particles from a table, and prints a sheet.

  tools/sheet.py make IN.csv OUT.sheet --model MODEL [--determinants] [--parameters NAME=VALUE ..] [--split] [--inside-out] [--replace]
  tools/sheet.py make IN.json OUT.sheet [--split] [--inside-out] [--replace]
  tools/sheet.py print X.sheet [--json]

A name may be `-`: standard input, which is read as a CSV where --model is given and else as a JSON, or standard output.
A sheet takes 200 particles. --split makes as many sheets as the table needs, OUT-00001.sheet, OUT-00002.sheet and so on: particle K of
sheet N is particle 200 (N - 1) + K of the table, counted from 0.
OUT must not be IN. Where it is there it must be a sheet, which is replaced; --replace takes any other file's place too.

MODEL is snow, rankine, drucker_prager or nacc. Its parameters, in the sheet's order:
  snow            min_epsilon (0.025) max_epsilon (0.0045) hardening_coeff (10)
  rankine         young_modulus poisson_ratio tensile_strength softening_rate
  drucker_prager  h0 (35 degrees) h1 (9 degrees) h2 (0.2) h3 (10 degrees) lambda mu only_active_when_failed (0) volume_correction (1);
                  young_modulus and poisson_ratio may stand for lambda and mu
  nacc            young_modulus poisson_ratio cohesion hardening_enabled hardening_factor m
In brackets: what is taken where none is given. The others must be given. Angles are in radians; a flag is 0 or 1.

A sheet keeps 36 floats a particle; the reader fills in F's determinant. --determinants makes a sheet that keeps the determinant too, the
37th float: its model's number is 4 to 7.

A CSV has a row of column names, then a row a particle. A JSON has {"model": .., "determinants": false, "parameters": {..}, "particles": [{..}, ..]},
of which "determinants" may be left out.
A particle has
  F, U, V^T       in a CSV nine columns each, F11 F12 F13 F21 .. F33; in a JSON nine numbers or three rows of three
  sigma           in a CSV sigma1 sigma2 sigma3; in a JSON three numbers
  phase (1)  plastic_determinant (1)  plastic_hardening (1)  elastic_hardening (1)  log_gain (0)  alpha (0)
  determinant     in a sheet that keeps it: that of F where it is left out; another than that is refused by the law (11)
Names are taken exactly as they stand here. An empty cell or a missing name takes the number in brackets; an empty row is no particle. Of the
matrices there may be given
  F alone                  U, sigma and V^T are the library's factors of it, checked exactly (docs/FACTORS.md); where the library isn't
                           at hand they are numpy's (Debian: python3-numpy), and standard error says so
  sigma alone              U and V^T are the identity, F is diagonal
  U, sigma and V^T         F is their product
  all four                 taken as they are, bit for bit
  none                     the identity
A number is spelled as 1.25 or 1e-3, or by its bits, as 0x7ff8000000000000; nan, inf and -inf are taken too (the law refuses such a particle
by 1). An F alone that has one goes out with sigma 1 and the identity for U and V^T, and standard error says which.
A sigma of 0 or below is a particle pressed flat or turned inside out. Snow works it all the same, so it is refused here; --inside-out takes it.
`print --json` writes what `make` (with --inside-out and all) turns into the same bytes again.
"""
# The help's models, parameters and numbers are made by tools/table.
import argparse
import codecs
import csv
import functools
import glob
import io
import itertools
import json
import math
import os
import pathlib
import re
import struct
import sys

sys.path.insert(0, str(pathlib.Path(__file__).resolve().parent))
import cases  # noqa: E402
import shell  # noqa: E402
from making.rows import Table  # noqa: E402
from shell import Wrong  # noqa: E402

TABLE = Table(shell.TOP)
MODELS = [m.name for m in TABLE.models]
PARAMETERS = {m.name: [p.name for p in m.parameters] for m in TABLE.models}
FLAGS = [p.name for m in TABLE.models for p in m.parameters if p.flag]
DEFAULTS = {m.name: {p.name: p.taken for p in m.parameters if p.taken is not None} for m in TABLE.models}
REFUSALS = {r.number: r.what for r in TABLE.refusals}
ELASTIC = ["young_modulus", "poisson_ratio"]
SCALARS = {"phase": 1.0, "plastic_determinant": 1.0, "plastic_hardening": 1.0, "elastic_hardening": 1.0, "log_gain": 0.0, "alpha": 0.0}
DETERMINANT = "determinant"


class Shape:
    """Of a record in so many axes: how many entries each of its matrices has, the names of its floats but the determinant, the identity."""

    def __init__(self, axes):
        square = axes * axes
        self.axes, self.entries = axes, {"F": square, "U": square, "sigma": axes, "V^T": square}
        self.columns = {name: [name + ("%d%d" % (k // axes + 1, k % axes + 1) if n == square else "%d" % (k + 1)) for k in range(n)] for name, n in self.entries.items()}
        self.places = [place for places in self.columns.values() for place in places] + [*SCALARS]
        self.identity = [float(k % (axes + 1) == 0) for k in range(square)]


SOLID, FLAT = Shape(3), Shape(2)
ENTRIES, COLUMNS, IDENTITY = SOLID.entries, SOLID.columns, SOLID.identity
PLACES = [*SOLID.places, DETERMINANT]
MOST = 200
MOST_BYTES = 2 + 8 * 8 + 2 + MOST * 8 * (cases.BARE + 1)
LONGEST_CELL = 1100  # a double's longest exact decimal has 1,077 characters
LONGEST_FIELD = 1 << 24  # of the CSV reader, so that an over-long cell is still read and its column told

DECIMAL = re.compile(r"[+-]?([0-9]+\.?[0-9]*|\.[0-9]+)([eE][+-]?[0-9]+)?")
NOT_FINITE = re.compile(r"[+-]?(nan|inf|infinity)", re.IGNORECASE)
BITS = re.compile(r"0[xX][0-9a-fA-F]{16}")
BITS_OR_DECIMAL = re.compile("|".join("(%s)" % x.pattern for x in (BITS, DECIMAL, NOT_FINITE)), re.IGNORECASE)


# ---- numbers


def number(given, where):
    """The float that a text spells, or that is given."""
    if isinstance(given, float):
        return given
    text = given.strip(" \t") if isinstance(given, str) else ""
    if len(text) > LONGEST_CELL:
        raise Wrong("%s: %d characters are no number" % (where, len(text)))
    if BITS.fullmatch(text):
        return struct.unpack(">d", bytes.fromhex(text[2:]))[0]
    if NOT_FINITE.fullmatch(text):
        return float(text)
    if not DECIMAL.fullmatch(text):
        raise Wrong("%s: %s is no number: write it as 1.25, 1e-3, nan, inf or by its bits as 0x3ff0000000000000" % (where, shown(given)))
    if not math.isfinite(float(text)):
        raise Wrong("%s: %s is beyond the largest double: write inf where you mean that" % (where, shown(given)))
    return float(text)


def shown(given):
    text = repr(given)
    return text if len(text) <= 60 else text[:60] + ".."


def spelled(x):
    """A float so that reading gives its bits again: shortest decimal, or the bits where it is not finite."""
    return x if math.isfinite(x) else "0x%016x" % struct.unpack("<Q", struct.pack("<d", x))


# ---- records


@functools.lru_cache(maxsize=None)
def library():
    """The Python package with its library, or None and why."""
    try:
        return shell.package(), None
    except shell.NoLibrary as e:
        return None, str(e)


@functools.lru_cache(maxsize=None)
def say_once(words):
    sys.stderr.write(words)


def decompose(f, where="F"):
    """U, sigma, V^T with U sigma V^T = F; the identity and ones where F has a NaN or an infinity, by which the law refuses the particle."""
    if not all(map(math.isfinite, f)):
        sys.stderr.write(shell.named("sheet.py: ") + "%s: F has a NaN or an infinity, so it has no factors: it goes out as it is, with sigma 1, and its law refuses it by 1\n" % where)
        return IDENTITY, [1.0] * 3, IDENTITY
    package, missing = library()
    if package:
        return own(package, f, where)
    factors = numpys(f, where)
    say_once(shell.named("sheet.py: ") + "the factors of F are numpy's, unchecked, and not the library's: %s\n" % missing)
    return factors


def own(package, f, where):
    """The library's."""
    particle = package.Particle(deformation_gradient=[f[0:3], f[3:6], f[6:9]])
    try:
        particle.factor()
    except package.Refused as e:
        what = "F's determinant is not finite" if e.number == 1 else REFUSALS[e.number]
        raise Wrong("%s: the factors of F are refused by %d (%s): give U, sigma and V^T too" % (where, e.number, what))
    r = particle.floats()
    return r[9:18], r[18:21], r[21:30]


def numpys(f, where):
    """numpy's, unchecked."""
    try:
        import numpy
    except ImportError:
        raise Wrong("%s: F alone has to be decomposed, and neither the library nor numpy is here: install one (Debian: python3-numpy), or give U, sigma and V^T too" % where)
    try:
        u, sigma, vt = numpy.linalg.svd(numpy.array(f).reshape(3, 3))
    except numpy.linalg.LinAlgError as e:
        raise Wrong("%s: numpy does not decompose F (%s): give U, sigma and V^T too" % (where, e))
    return u.ravel().tolist(), sigma.tolist(), vt.ravel().tolist()


def matrices(given, where, shape):
    """The floats F, U, sigma, V^T from those that are given."""
    have, identity, n = sorted(given), shape.identity, shape.axes
    if have == ["F", "U", "V^T", "sigma"]:
        f, u, s, vt = given["F"], given["U"], given["sigma"], given["V^T"]
    elif have == ["F"] and shape is FLAT:
        raise Wrong("%s: F alone has no factors here, since the library works none of two axes: give U, sigma and V^T too" % where)
    elif have == ["F"]:
        f = given["F"]
        u, s, vt = decompose(f, where)
    elif have == ["sigma"]:
        s = given["sigma"]
        f, u, vt = [s[k // n] if k % (n + 1) == 0 else 0.0 for k in range(n * n)], identity, identity
    elif have == ["U", "V^T", "sigma"]:
        u, s, vt = given["U"], given["sigma"], given["V^T"]
        f = cases.recompose(u, s, vt)
    elif not have:
        f, u, s, vt = identity, identity, [1.0] * n, identity
    else:
        alone = "" if shape is FLAT else "F alone, "
        raise Wrong("%s: of the matrices only %s: give %ssigma alone, U sigma V^T, all four, or none" % (where, ", ".join(have), alone))
    return list(f) + list(u) + list(s) + list(vt)


def record(given, scalars, where, shape=SOLID):
    """The 37 floats; the determinant is that of F where it isn't given. Of a flat record the 20."""
    r = matrices(given, where, shape) + [scalars.get(name, SCALARS[name]) for name in SCALARS]
    if shape is FLAT:
        return r
    r = cases.completed(r)
    return r[:cases.BARE] + [scalars.get(DETERMINANT, r[cases.BARE])]


# ---- the law


def model_of(name, where):
    if name not in MODELS:
        raise Wrong("%s: unknown model %s: it is one of %s" % (where, shown(name), ", ".join(MODELS)))
    return name


def parameters(model, given, where):
    """The model's parameters in order, from names to numbers; what is not given is the law's default."""
    names = PARAMETERS[model]
    known = names + ELASTIC if model == "drucker_prager" else names
    unknown = [name for name in given if name not in known]
    if unknown:
        raise Wrong("%s: %s has no parameter %s: its parameters are %s" % (where, model, shown(unknown[0]), ", ".join(names)))
    have = {name: number(value, "%s, parameter %s" % (where, name)) for name, value in given.items()}
    if model == "drucker_prager":
        have = with_moduli(have, where)
    have = DEFAULTS[model] | have
    missing = [n for n in names if n not in have]
    if missing:
        raise Wrong("%s: %s needs %s: add %s" % (where, model, ", ".join(missing), " ".join(n + "=VALUE" for n in missing)))
    return [have[n] for n in names]


def with_moduli(have, where):
    """Parameters with lambda and mu in place of Young's modulus and Poisson's ratio."""
    elastic = [have[n] for n in ELASTIC if n in have]
    if not elastic:
        return have
    if len(elastic) < 2 or "lambda" in have or "mu" in have:
        raise Wrong("%s: give lambda and mu, or young_modulus and poisson_ratio" % where)
    lame, mu, _ = cases.moduli(*elastic)
    return {n: x for n, x in have.items() if n not in ELASTIC} | {"lambda": lame, "mu": mu}


# ---- tables: each gives the law, whether the sheet keeps determinants, its parameters, and the records one by one as they are asked for


def from_table(stream, name, model, kept, given, where, shape=SOLID):
    if name.endswith(".csv") or name == "-" and model:
        return from_csv(stream, model, kept, given, where, shape)
    if name.endswith(".json") or name == "-":
        if model or given or kept:
            raise Wrong("%s: a JSON says its model, determinants and parameters itself: leave --model, --determinants and --parameters away" % where)
        return from_json(text_of(stream, where), where, shape)
    raise Wrong("%s: the name must end in .csv or .json, or be - for standard input" % where)


def from_json(text, where, shape=SOLID):
    whole = parsed(text, where)
    if not isinstance(whole, dict) or "model" not in whole or not isinstance(whole.get("particles"), list) or not isinstance(whole.get("parameters", {}), dict):
        raise Wrong('%s: a JSON sheet is {"model": .., "parameters": {..}, "particles": [..]}' % where)
    names = ["model", *(["determinants"] if shape is SOLID else []), "parameters"]
    unknown = sorted(whole.keys() - {*names, "particles"})
    if unknown:
        raise Wrong("%s: unknown name %s beside %s and particles" % (where, shown(unknown[0]), ", ".join(names)))
    kept = whole.get("determinants", False)
    if not isinstance(kept, bool):
        raise Wrong("%s: determinants is %s, and should be true or false" % (where, shown(kept)))
    model = model_of(whole["model"], where)
    records = (json_record(p, kept, "%s, particle %d" % (where, k), shape) for k, p in enumerate(whole["particles"]))
    return model, kept, parameters(model, whole.get("parameters", {}), where), records


def parsed(text, where):
    """A JSON with its numbers as they are spelled."""
    def once(pairs):
        out = {}
        for name, value in pairs:
            if name in out:
                raise Wrong("%s: the name %s stands twice in one object" % (where, shown(name)))
            out[name] = value
        return out
    try:
        return json.loads(text, parse_float=str, parse_int=str, parse_constant=str, object_pairs_hook=once)
    except json.JSONDecodeError as e:
        raise Wrong("%s, line %d, column %d: this is no JSON (%s)" % (where, e.lineno, e.colno, e.msg))
    except RecursionError:
        raise Wrong("%s: this is no JSON of a sheet: it has lists in lists without end" % where)


def json_record(particle, kept, where, shape=SOLID):
    if shape is FLAT and isinstance(particle, list):
        return numbers(particle, len(shape.places), where)
    if not isinstance(particle, dict):
        raise Wrong("%s: a particle is an object with names such as sigma and phase" % where)
    given, scalars = {}, {}
    for name, value in particle.items():
        if name in SCALARS or kept and name == DETERMINANT:
            scalars[name] = number(value, "%s, %s" % (where, name))
        elif name in shape.entries:
            given[name] = entries(name, value, "%s, %s" % (where, name), shape)
        elif name == DETERMINANT and shape is SOLID:
            raise Wrong('%s: this sheet keeps no determinants: add "determinants": true beside its model' % where)
        else:
            raise Wrong("%s: unknown name %s: the names are %s" % (where, shown(name), ", ".join([*shape.entries, *SCALARS])))
    return record(given, scalars, where, shape)


def entries(name, value, where, shape):
    """The numbers of a list, or of its rows."""
    rows = value if isinstance(value, list) else [value]
    in_rows = all(isinstance(row, list) and len(row) == shape.axes for row in rows)
    return numbers([x for row in rows for x in row] if in_rows else rows, shape.entries[name], where)


def numbers(given, count, where):
    if len(given) != count:
        raise Wrong("%s: %d numbers, not %d" % (where, len(given), count))
    return [number(x, "%s entry %d" % (where, k + 1)) for k, x in enumerate(given)]


def from_csv(stream, model, kept, given, where, shape=SOLID):
    if model is None:
        raise Wrong("%s: a CSV has no place for the model: add --model snow, or one of %s" % (where, ", ".join(MODELS[1:])))
    model = model_of(model, "--model")
    return model, kept, parameters(model, given, "--parameters"), csv_records(stream, kept, where, shape)


def told_utf16(stream, where):
    """The stream, unless it begins as a spreadsheet's UTF-16 does."""
    if isinstance(stream, io.BufferedReader) and stream.peek(2)[:2] in (codecs.BOM_UTF16_LE, codecs.BOM_UTF16_BE):
        raise Wrong("%s: this is text in UTF-16: save it as UTF-8" % where)
    return stream


def with_cells(given, rows, where):
    """The rows that have a cell. It is said once where an empty one stands between them, since the particles' numbers then part from the rows'."""
    empty = None
    for row in given:
        if row and empty:
            sys.stderr.write(shell.named("sheet.py: ") + "%s: row %d is empty and no particle: from there on a particle's number is another than its row tells\n" % (where, empty))
            empty = 0
        if row:
            yield row
        elif empty is None:
            empty = rows.line_num


def csv_records(stream, kept, where, shape=SOLID):
    csv.field_size_limit(LONGEST_FIELD)
    with io.TextIOWrapper(told_utf16(stream, where), encoding="utf-8-sig", newline="") as text:
        rows = csv.reader(text, strict=True)
        try:
            top = next(rows, [])
            bare = shape is FLAT and len(top) == len(shape.places) and BITS_OR_DECIMAL.fullmatch(top[0].strip(" \t"))
            names = shape.places if bare else header(top, kept, "%s, row 1" % where, shape)
            particles = with_cells(itertools.chain([top] if bare else [], rows), rows, where)
            first = next(particles, None)
            if first is None:
                raise Wrong("%s: the table is a row of column names alone: write a row below it for each particle" % where)
            for row in itertools.chain([first], particles):
                yield csv_record(names, row, "%s, row %d" % (where, rows.line_num), shape)
        except csv.Error as e:
            raise Wrong("%s, row %d: this is no CSV (%s)" % (where, rows.line_num, e))
        except UnicodeDecodeError:
            raise Wrong("%s, after row %d: this is no text in UTF-8" % (where, rows.line_num))


def header(names, kept, where, shape):
    if not names:
        raise Wrong("%s: it is empty, and should name the columns" % where)
    if len(names) == 1 and ";" in names[0]:
        raise Wrong("%s: the columns are parted by semicolons: part them by commas, and write decimals with a point" % where)
    if len(names) == 1 and "\t" in names[0].strip():
        raise Wrong("%s: the columns are parted by tabs: part them by commas" % where)
    for k, name in enumerate(names):
        if name == DETERMINANT and shape is SOLID and not kept:
            raise Wrong("%s, column %d: this sheet keeps no determinants: add --determinants" % (where, k + 1))
        if name not in shape.places and not (kept and name == DETERMINANT):
            near = ": take the space away" if name.strip() in shape.places else ""
            raise Wrong("%s, column %d: unknown column %s%s: columns are, letter by letter, %s, %s"
                        % (where, k + 1, shown(name), near, ", ".join("%s .. %s" % (places[0], places[-1]) for places in shape.columns.values()), ", ".join(SCALARS)))
        if name in names[:k]:
            raise Wrong("%s, column %d: column %s stands there twice" % (where, k + 1, shown(name)))
    return names


def csv_record(names, row, where, shape):
    if len(row) != len(names):
        raise Wrong("%s: %d cells under %d columns" % (where, len(row), len(names)))
    cells = {name: number(cell, "%s, column %d (%s)" % (where, k + 1, name)) for k, (name, cell) in enumerate(zip(names, row)) if cell.strip(" \t")}
    if not cells:
        raise Wrong("%s: every cell is empty: give a number, or take the row away" % where)
    given = {}
    for name, places in shape.columns.items():
        missing = [place for place in places if place not in cells]
        if 0 < len(missing) < len(places):
            raise Wrong("%s: %s has %d of its %d entries: %s is missing" % (where, name, len(places) - len(missing), len(places), ", ".join(missing)))
        if not missing:
            given[name] = [cells[place] for place in places]
    return record(given, cells, where, shape)


# ---- sheets


def turned(sigma):
    """In words what sigma of 0 or below say of a particle, or nothing."""
    if not any(x <= 0.0 for x in sigma):
        return ""
    return "%s: sigma %s" % ("turned inside out" if min(sigma) < 0.0 else "pressed flat", " ".join("%g" % x for x in sorted(sigma) if x <= 0.0))


def upright(records, where):
    """The records, as long as none is turned inside out."""
    for k, r in enumerate(records):
        words = turned(r[18:21])
        if words:
            raise Wrong("%s, particle %d: it is %s, and Snow works such a particle without a word: correct it, or add --inside-out to send it as it is" % (where, k, words))
        yield r


def chunks(records, split, where):
    """The records of one sheet; with `split`, of as many as are needed."""
    records = iter(records)
    chunk = list(itertools.islice(records, MOST))
    while True:
        yield chunk
        chunk = list(itertools.islice(records, MOST if split else 1))
        if not chunk:
            return
        if not split:
            raise Wrong("%s: over %d particles, and a sheet takes %d: add --split to make several sheets" % (where, MOST, MOST))


def number_of(model, kept):
    """A model's number in a sheet that keeps determinants, or one that doesn't."""
    law = TABLE.models[MODELS.index(model)]
    return law.whole if kept else law.number


def written(model, kept, values, records, where):
    """The sheet's bytes. Refuses what a reader would refuse."""
    b = cases.sheet(records, values, number_of(model, kept))
    try:
        cases.read(b)
    except cases.Refused as e:
        flags = [n for n in PARAMETERS[model] if n in FLAGS]
        raise Wrong("%s: the sheet would be refused by %d (%s)%s" % (where, e.args[0], REFUSALS[e.args[0]], ": look at " + flags[0] if flags else ""))
    return b


def read(name):
    """A sheet file's bytes; of a longer file no more than what makes it too long."""
    with shell.reading(name) as stream:
        return stream.read(MOST_BYTES + 1)


def load(b, name):
    """Law, whether determinants are kept, parameters and records of a sheet's bytes."""
    try:
        model, values, records = cases.read(b)
    except cases.Refused as e:
        raise Wrong("%s: sheet refused %d at byte %d: %s" % (shell.called(name, "standard input"), e.args[0], e.args[1], REFUSALS[e.args[0]]))
    law, kept = TABLE.law_of[model]
    return MODELS[law], kept, values, records


# ---- printing


def parts(r, kept):
    """A record's floats by name, as its sheet has them."""
    out, at = {}, 0
    for name, n in ENTRIES.items():
        out[name] = r[at:at + n]
        at += n
    return out | dict(zip([*SCALARS, *([DETERMINANT] if kept else [])], r[30:]))


def as_json(model, kept, values, records):
    def spell(x):
        return [spelled(y) for y in x] if isinstance(x, list) else spelled(x)
    lines = [json.dumps({n: spell(x) for n, x in parts(r, kept).items()}) for r in records]
    head = {n: spelled(x) for n, x in zip(PARAMETERS[model], values)}
    told = json.dumps(model) + (',\n "determinants": true' if kept else "")
    return '{"model": %s,\n "parameters": %s,\n "particles": [\n  %s\n ]}\n' % (told, json.dumps(head), ",\n  ".join(lines))


def short(x):
    return repr(x) if math.isfinite(x) else "%r (%s)" % (x, spelled(x))


def as_text(model, kept, values, records):
    lines = ["model %d: %s%s" % (number_of(model, kept), model, ", with determinants" if kept else "")]
    lines += ["  %-24s %s" % (n, short(x)) for n, x in zip(PARAMETERS[model], values)]
    lines.append("particles %d" % len(records))
    for k, r in enumerate(records):
        lines.append("particle %d" % k)
        for name, x in parts(r, kept).items():
            if name in ("F", "U", "V^T"):
                lines += ["  %-20s %s" % (name if i == 0 else "", "  ".join("%-22s" % short(y) for y in x[3 * i:3 * i + 3]).rstrip()) for i in range(3)]
            elif name == "sigma":
                lines.append("  %-20s %s" % (name, "  ".join("%-22s" % short(y) for y in x).rstrip()))
            else:
                lines.append("  %-20s %s" % (name.replace("_", " "), short(x)))
    return "\n".join(lines) + "\n"


# ---- the commands


def pairs(given):
    out = {}
    for p in given:
        name, equals, value = p.partition("=")
        if not equals:
            raise Wrong("--parameters: %r is not NAME=VALUE" % p)
        if name in out:
            raise Wrong("--parameters: %s stands there twice" % name)
        out[name] = value
    return out


def make(args):
    where = shell.called(args.table, "standard input")
    check_place(args)
    with shell.reading(args.table) as stream:
        *law, records = from_table(stream, args.table, args.model, args.determinants, pairs(args.parameters), where)
        (make_several if args.split else make_one)(*law, records if args.inside_out else upright(records, where), args.sheet, where)


def check_place(args):
    """Nothing that is no sheet is lost by writing the new one."""
    place = pathlib.Path(args.sheet)
    if args.sheet == "-" or not place.is_file():
        return
    if args.table != "-" and os.path.exists(args.table) and place.samefile(args.table):
        raise Wrong("%s: the sheet would take the place of its own table: give it another name" % args.sheet)
    if not args.replace and not is_sheet(place):
        raise Wrong("%s is there and is no sheet: give another name, or add --replace to write over it" % args.sheet)


def is_sheet(place):
    """Whether a file is one, or holds nothing."""
    data = read(str(place))
    try:
        return not data or cases.read(data) is not None
    except cases.Refused:
        return False


def text_of(stream, where):
    try:
        return stream.read().decode("utf-8-sig")
    except UnicodeDecodeError as e:
        raise Wrong("%s: this is no text in UTF-8 (byte %d)" % (where, e.start))


def particles(count):
    return "%d particle%s" % (count, "" if count == 1 else "s")


def make_one(model, kept, values, records, name, where):
    [chunk] = chunks(records, False, where)
    b = written(model, kept, values, chunk, where)
    shell.write(name, b)
    told = "%s: %s, %s, %d bytes\n" % (shell.called(name, "standard output"), model, particles(len(chunk)), len(b))
    if name == "-":
        sys.stderr.write(told)
    else:
        shell.say(told)


def make_several(model, kept, values, records, name, where):
    if name == "-":
        raise Wrong("--split makes several sheets, and - is one output: give a name such as OUT.sheet")
    path = pathlib.Path(name)
    earlier = sorted(path.parent.glob("%s-[0-9][0-9][0-9][0-9][0-9]%s" % (glob.escape(path.stem), path.suffix)))
    if earlier:
        raise Wrong("%s is there from an earlier split, and the two might be taken for one: remove those sheets, or give another name" % earlier[0])
    count = 0
    with shell.Together() as files:
        for n, chunk in enumerate(chunks(records, True, where), 1):
            last = path.with_name("%s-%05d%s" % (path.stem, n, path.suffix))
            files.add(last, written(model, kept, values, chunk, where))
            count += len(chunk)
    shell.say("%s is the last of %d sheet%s: %s, %s\n" % (last, n, "" if n == 1 else "s", model, particles(count)))


def show(args):
    told = load(read(args.sheet), args.sheet)
    shell.say((as_json if args.json else as_text)(*told))


def main(argv=None):
    about = argparse.ArgumentParser(description=shell.named(__doc__), formatter_class=argparse.RawDescriptionHelpFormatter, usage=argparse.SUPPRESS)
    commands = about.add_subparsers(dest="command", required=True, metavar="make | print", prog=shell.named("tools/sheet.py"))
    m = commands.add_parser("make", help="a sheet from a CSV or a JSON")
    m.add_argument("table", metavar="IN.csv|IN.json|-")
    m.add_argument("sheet", metavar="OUT.sheet|-")
    m.add_argument("--model")
    m.add_argument("--determinants", action="store_true", help="keep each particle's determinant in the sheet")
    m.add_argument("--parameters", nargs="*", default=[], metavar="NAME=VALUE")
    m.add_argument("--split", action="store_true", help="make several sheets of at most %d particles" % MOST)
    m.add_argument("--inside-out", action="store_true", help="take a sigma of 0 or below")
    m.add_argument("--replace", action="store_true", help="write over OUT.sheet also where it is no sheet")
    m.set_defaults(work=make)
    p = commands.add_parser("print", help="a sheet, readable")
    p.add_argument("sheet", metavar="X.sheet|-")
    p.add_argument("--json", action="store_true", help="as a JSON that make turns into the same bytes")
    p.set_defaults(work=show)
    args = about.parse_args(argv)
    return shell.run("sheet.py", args.work, args)


if __name__ == "__main__":
    sys.exit(main())
