#!/usr/bin/env python3
"""Prints the morning table of sheets: what their particles hold, in whole numbers, with the same digits on every machine.

  tools/report.py [--updated] [--second] FOLDER_OR_SHEET ..

Of plastic hardening, elastic hardening and plastic determinant it prints how many values are counted, the least, the greatest and the total,
how many lie not within 2^20 of zero, and how many are NaN or infinite. Each counted value is taken down, towards minus infinity, to the next
whole multiple of 2^-30; least, greatest and total are told as whole numbers of 2^-30 and as the decimals that these are, exactly.

A folder is every *.sheet below it, by name. A report takes 4096 particles: of sheets that have more all are told together, and then the parts, each
of whole sheets in their order. A sheet that is refused stands in no table and is named.

--updated   the records as their laws leave them, which the proved library alone works; without it as they stand in the sheets
--second    by Python's whole numbers, not by the proved library

The numbers are those of the proved library: the file that PASOLETU_LIB names, else the one that the Python package finds. Where there is
none Python's whole numbers work them, to the same digits, and it is said on standard error.
Exit status: 0 all well; 3 a sheet was refused; 1 something is wrong; 2 there is no sheet, or the command was misspelled.
"""
import math
import os
import pathlib
import struct
import sys
from typing import NamedTuple

sys.path.insert(0, str(pathlib.Path(__file__).resolve().parent))
import shell  # noqa: E402
from night_sheets import TABLE  # noqa: E402
from shell import Wrong  # noqa: E402

PLACE = {part.field: part.at for part in TABLE.RECORD}
MOST = TABLE.REPORT_MOST
COLUMNS = {"plastic hardening": "plastic_hardening", "elastic hardening": "elastic_hardening", "plastic determinant": "plastic_deformation_gradient_det"}
UNIT = 30  # the whole numbers are of 2^-30
BOUND = 2**20
NO_SHEET, SOME_REFUSED = 2, 3


class Column(NamedTuple):
    """A column: least, greatest and total are whole numbers of 2^-30."""

    count: int = 0
    least: int = 0
    greatest: int = 0
    total: int = 0
    outside: int = 0
    not_finite: int = 0


class Page(NamedTuple):
    """Sheets that are told together: how many, how many particles, and the three columns."""

    sheets: int
    particles: int
    columns: tuple


EMPTY = Page(0, 0, (Column(),) * len(COLUMNS))


# ---- the second reading, from the ticket's words


def column_of(values):
    """A float times 2^30 is that number exactly, as all that are counted lie within 2^20 of zero."""
    wholes = [math.floor(x * 2.0**UNIT) for x in values if -BOUND <= x <= BOUND]
    ends = (min(wholes), max(wholes), sum(wholes)) if wholes else (0, 0, 0)
    finite = sum(map(math.isfinite, values))
    return Column(len(wholes), *ends, finite - len(wholes), len(values) - finite)


def put_together(a, b):
    """Two columns; one that counts nothing adds nothing to least and greatest."""
    counted = [c for c in (a, b) if c.count]
    least, greatest = (min(c.least for c in counted), max(c.greatest for c in counted)) if counted else (0, 0)
    return Column(a.count + b.count, least, greatest, a.total + b.total, a.outside + b.outside, a.not_finite + b.not_finite)


def records_of(data, count):
    """The floats of a sheet of so many particles where they stand, and how many a particle has; nothing where it has other particles."""
    law, whole = TABLE.LAW_OF[data[0]]
    parameters = len(TABLE.MODELS[law].parameters)
    floats = TABLE.SHEET_FLOATS + whole
    front = 1 + 8 * parameters + (1 if count < 128 else 2)
    fits = len(data) == front + 8 * floats * count
    return (memoryview(data)[front:].cast("d") if fits else None), floats


class SheetRefused(Exception):
    """The number by which a whole sheet is refused."""


class Second:
    """Reports by Python's whole numbers."""

    library = None

    def of_sheet(self, data, updated=False):
        """How many particles a sheet has, and its columns. Raises SheetRefused."""
        import cases  # only here: it reads the gate's sheets

        if updated:
            raise Wrong("--updated: the records after the laws are those of the proved library, which is not here (./install.sh PREFIX makes it; PASOLETU_LIB names it)")
        try:
            count = len(cases.read(data)[2])
        except cases.Refused as e:
            raise SheetRefused(e.args[0]) from None
        return count, self.of_worked(data, count)

    def of_worked(self, data, count):
        """The columns of a sheet of so many particles; nothing where it has others."""
        records, floats = records_of(data, count)
        if records is None:
            return None
        return tuple(column_of(records[PLACE[field]::floats].tolist()) for field in COLUMNS.values())

    def joined(self, a, b):
        return tuple(map(put_together, a, b))


class Proved:
    """Reports by the proved library."""

    def __init__(self, pasoletu):
        self.pasoletu = pasoletu

    @property
    def library(self):
        """The library's file."""
        return self.pasoletu.raw.file()

    def of_sheet(self, data, updated=False):
        try:
            sheet = self.pasoletu.run(data) if updated else self.pasoletu.read_sheet(data)
        except self.pasoletu.Refused as e:
            raise SheetRefused(e.number) from None
        return len(sheet), self._columns(self.pasoletu.report(sheet.records))

    def of_worked(self, data, count):
        try:
            told, columns = self.of_sheet(data)
        except SheetRefused:
            return None
        return columns if told == count else None

    def joined(self, a, b):
        one, other = (self.pasoletu.Report(*(self.pasoletu.Column(*c) for c in columns)) for columns in (a, b))
        return self._columns(one.joined(other))

    def _columns(self, report):
        return tuple(Column(c.count, c.least, c.greatest, c.total, c.outside, c.not_finite)
                     for c in (report.plastic_hardening, report.elastic_hardening, report.plastic_determinant))


def worker(second):
    """Who works the reports, and what is to be said where it is not the proved library."""
    if second:
        return Second(), None
    try:
        return Proved(shell.package()), None
    except shell.NoLibrary as e:
        if os.environ.get("PASOLETU_LIB"):
            raise
        why = "is for another processor" if e.other_processor else "is not here (./install.sh PREFIX makes it; PASOLETU_LIB names it)"
        return Second(), "the proved library %s: the numbers are worked by Python's whole numbers, to the same digits" % why


# ---- sheets into pages

ENTRIES = len(Column._fields)
PACKED = struct.Struct("<%dq" % (2 + len(COLUMNS) * ENTRIES))


def entries(columns):
    """A sheet's columns as one list of whole numbers."""
    return [entry for column in columns for entry in column]


def columns_of(told):
    return tuple(Column(*told[k:k + ENTRIES]) for k in range(0, len(told), ENTRIES))


def added(total, page):
    """A page added to all before it: over MOST particles this is no report of the library, but the same whole numbers are added."""
    return Page(total.sheets + page.sheets, total.particles + page.particles, tuple(map(put_together, total.columns, page.columns)))


class Pages:
    """The pages of sheets that come in their order, each of at most MOST particles, and lines of what is in no table. They stand in files without a
    name: a night of any length takes no more memory."""

    def __init__(self, by):
        import tempfile  # only here: a night's job has no use for it

        self.by, self.page, self.total, self.count = by, EMPTY, EMPTY, 0
        self.pages, self.left_out = tempfile.TemporaryFile(), tempfile.TemporaryFile("w+", errors="surrogateescape", newline="")

    def __enter__(self):
        return self

    def __exit__(self, *_):
        self.pages.close()
        self.left_out.close()

    def add(self, particles, columns):
        if self.page.particles + particles > MOST:
            self._over()
        self.page = Page(self.page.sheets + 1, self.page.particles + particles, self.by.joined(self.page.columns, columns))

    def leave_out(self, line):
        self.left_out.write(line)

    def _over(self):
        self.pages.write(PACKED.pack(self.page.sheets, self.page.particles, *entries(self.page.columns)))
        self.total, self.page, self.count = added(self.total, self.page), EMPTY, self.count + 1

    def end(self):
        if self.page.sheets or not self.count:
            self._over()

    def told(self):
        """The whole table: all together, lines of what is in no table, then the parts."""
        yield self.whole()
        yield from self.lines_left_out()
        yield from self.parts()

    def whole(self):
        return text(self.total, "the night in whole numbers")

    def lines_left_out(self):
        self.left_out.seek(0)
        for k, line in enumerate(self.left_out):
            yield line if k else "\n" + line

    def parts(self):
        self.pages.seek(0)
        for k in range(1, self.count + 1 if self.count > 1 else 1):
            sheets, particles, *told = PACKED.unpack(self.pages.read(PACKED.size))
            yield "\n" + text(Page(sheets, particles, columns_of(told)), "part %d of %d" % (k, self.count))


# ---- words


def decimal(k):
    """k times 2^-30 as a decimal, exactly: 2^-30 has 30 places."""
    digits = str(abs(k) * 5**UNIT).rjust(UNIT + 1, "0")
    places = digits[-UNIT:].rstrip("0")
    return ("-" if k < 0 else "") + digits[:-UNIT] + ("." + places if places else "")


def counted(n, what):
    return "%d %s%s" % (n, what, "" if n == 1 else "s")


def lines(column):
    """A column's lines: what, the whole number of 2^-30 or nothing, and the number that is told."""
    for what, k in (("least", column.least), ("greatest", column.greatest), ("total", column.total)):
        yield what, "%d/2^%d" % (k, UNIT), decimal(k)


def text(page, title):
    out = ["%s: %s, %s" % (title, counted(page.sheets, "sheet"), counted(page.particles, "particle"))]
    for name, column in zip(COLUMNS, page.columns):
        told = list(lines(column))
        width = max(len(k) for _, k, _ in told)
        out.append(name)
        out.append("  counted                  %d" % column.count)
        out += ["  %-9s %s = %s" % (what, k.rjust(width), value) for what, k, value in told]
        out.append("  not within 2^20 of zero  %d" % column.outside)
        out.append("  NaN or infinite          %d" % column.not_finite)
    return "\n".join(out) + "\n"


def refused_line(name, number):
    return "%s: refused %d, in no table: %s\n" % (name, number, TABLE.REFUSALS[number].what)


# ---- the command


class NoSheet(Exception):
    """There is no sheet to tell of."""


def files_of(names):
    """The sheets that the names stand for."""
    for name in names:
        path = pathlib.Path(name)
        found = sorted(p for p in path.rglob("*.sheet") if p.is_file()) if path.is_dir() else [path]
        if not found:
            raise NoSheet("there is no file *.sheet in or below %s" % name)
        yield from found


def read(path):
    """A sheet file's bytes; of a longer file no more than what makes it too long."""
    with shell.reading(str(path)) as stream:
        return stream.read(TABLE.SHEET_BYTES + 1)


def morning(args):
    by, note = worker(args.second)
    refused = 0
    with Pages(by) as pages:
        for path in files_of(args.names):
            try:
                pages.add(*by.of_sheet(read(path), args.updated))
            except SheetRefused as e:
                pages.leave_out(refused_line(path, e.args[0]))
                refused += 1
        pages.end()
        if note:
            print("report.py: " + note, file=sys.stderr)
        for part in pages.told():
            shell.say(part)
    return SOME_REFUSED if refused else 0


def main(argv=None):
    import argparse  # only here: a night's job has no use for it

    about = argparse.ArgumentParser(description=shell.named(__doc__), formatter_class=argparse.RawDescriptionHelpFormatter, usage=argparse.SUPPRESS)
    about.add_argument("names", nargs="+", metavar="FOLDER_OR_SHEET")
    about.add_argument("--updated", action="store_true")
    about.add_argument("--second", action="store_true")
    args = about.parse_args(argv)
    try:
        return shell.run("report.py", morning, args)
    except NoSheet as e:
        print("report.py: %s" % e, file=sys.stderr)
        return NO_SHEET


if __name__ == "__main__":
    sys.exit(main())
