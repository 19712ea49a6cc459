"""The sheets of a night: found below a folder, read once each, and what each came to, as a line of JSON."""
import hashlib
import importlib.util
import json
import os
import re
import stat
from typing import NamedTuple, Optional

DIGITS = 16  # of the digest in a name
LISTED = 1000  # of a kind that are kept by name; all stand in summary.csv


def _table():
    """The table's module by itself: the package would look for the library."""
    here = os.path.dirname(os.path.dirname(os.path.realpath(__file__)))
    spec = importlib.util.spec_from_file_location("pasoletu_table", os.path.join(here, "bindings", "python", "pasoletu", "_table.py"))
    module = importlib.util.module_from_spec(spec)
    spec.loader.exec_module(module)
    return module


TABLE = _table()
LONGEST = TABLE.SHEET_BYTES
SIGMA = next(part.at for part in TABLE.RECORD if part.field == "singular_values")


class First:
    """The first of many, and how many there are."""

    def __init__(self, most=LISTED):
        self.most, self.kept, self.count = most, [], 0

    def add(self, one):
        self.count += 1
        if len(self.kept) < self.most:
            self.kept.append(one)


# ---- what there is to work


def mark(folder):
    """What tells a folder from every other, whatever it is called; nothing where it is not there."""
    try:
        told = os.stat(folder)
    except OSError:
        return None
    return told.st_dev, told.st_ino


def passed_over(name):
    """Why a file that is no *.sheet is named; nothing where a hidden file is none of a sheet's."""
    if name.startswith(".") and ".sheet" not in name.lower():
        return None
    return "its name does not end in .sheet"


def is_folder(entry):
    try:
        return entry.is_dir()
    except OSError:
        return False  # then it cannot be read either


def find(folder, out, passed):
    """The names of the sheets in and below a folder, in their order, links followed; a link back to a folder above it is not, and the night's own
    folder is left alone. A folder that cannot be read stands among the sheets: nobody knows what lies in it. What is passed over is added to `passed`."""

    def look(path, prefix, above):
        try:
            with os.scandir(path) as entries:
                names = sorted(entry.name + "/" * is_folder(entry) for entry in entries)  # a folder's names stand where its own stands with its stroke
        except OSError:
            yield prefix
            return
        for name in names:
            if not name.endswith("/"):
                if name.endswith(".sheet"):
                    yield prefix + name
                elif passed_over(name):
                    passed.add((prefix + name, passed_over(name)))
                continue
            below = os.path.join(path, name)
            here = mark(below)
            if here is not None and here == mark(out):
                continue
            if here in above:
                passed.add((prefix + name[:-1], "a link to a folder that it lies in"))
                continue
            if name.endswith(".sheet/"):
                passed.add((prefix + name[:-1], "a folder; what lies in it is worked"))
            yield from look(below, prefix + name, above | {here})

    return look(folder, "", {mark(folder)})


def size(path):
    """The bytes that a sheet's batch is counted by; of one that cannot be read 0."""
    try:
        told = os.stat(path)
        return min(told.st_size, LONGEST + 1) if stat.S_ISREG(told.st_mode) else 0
    except OSError:
        return 0


class Unreadable(Exception):
    """Why a sheet has no bytes to work."""


def read(path):
    """The bytes of a sheet, of a longer file one more than the longest sheet has, and the SHA-256 of all of them."""
    try:
        file = os.open(path, os.O_RDONLY | os.O_NONBLOCK | os.O_CLOEXEC)
    except FileNotFoundError:
        raise Unreadable("is a link to nothing" if os.path.islink(path) else "has gone since the night began") from None
    except OSError as e:
        raise Unreadable("cannot be read (%s)" % e.strerror) from None
    try:
        before = os.fstat(file)
        if not stat.S_ISREG(before.st_mode):
            raise Unreadable("is no plain file (a pipe, a socket or a device)")
        data = b""
        while len(data) <= LONGEST:
            piece = os.read(file, LONGEST + 1 - len(data))
            if not piece:
                break
            data += piece
        digest, count = hashlib.sha256(data), len(data)
        while count > LONGEST:
            piece = os.read(file, 1 << 20)
            if not piece:
                break
            digest.update(piece)
            count += len(piece)
        after = os.fstat(file)
        if (after.st_size, after.st_mtime_ns, count) != (before.st_size, before.st_mtime_ns, before.st_size):
            raise Unreadable("changed while it was read: it may still be coming")
        return data, digest.hexdigest()
    except OSError as e:
        raise Unreadable("cannot be read (%s)" % e.strerror) from None
    finally:
        os.close(file)


# ---- what a sheet came to


def law(number):
    """The law that a model's number names, with determinants or without; nothing for an unknown one."""
    return TABLE.MODELS[TABLE.LAW_OF[number][0]] if number in TABLE.LAW_OF else None


class Sheet(NamedTuple):
    """A sheet: its name below the folder of sheets, the SHA-256 of its bytes, its first byte, which names the law."""

    name: str
    digest: str
    number: Optional[int]

    @property
    def model(self):
        return law(self.number)

    def _file(self, folder, ending):
        """A file of this sheet's bytes. Its characters need no quoting anywhere; of two sheets that share it the bytes are the same."""
        plain = re.sub(r"[^A-Za-z0-9._-]", "_", self.name[:-len(".sheet")])[-150:]
        return "%s/%s.%s.%s" % (folder, plain, self.digest[:DIGITS], ending)

    @property
    def answer(self):
        return self._file("answers", "txt")

    @property
    def picture(self):
        return self._file("pictures", "svg")


class Result(NamedTuple):
    """What a sheet came to. `answered`: there is a whole answer. `sheet_refused`: the number by which the whole sheet was refused.
    `refused`: which particles by each number. `why`: why there is no answer. `failed`: how many failed, where they were judged.
    `columns`: its part of the report, in the order of tools/report.py's entries. `turned`: particles that were worked although a sigma of theirs
    came as 0 or below: their numbers and those sigmas. `before`: the answer was there before this run."""

    sheet: Sheet
    answered: bool
    sheet_refused: Optional[int] = None
    particles: int = 0
    untouched: int = 0
    stored: int = 0
    refused: dict[int, list[int]] = {}
    why: str = ""
    failed: int = 0
    columns: tuple = ()
    turned: tuple = ()
    before: bool = False

    @property
    def refused_particles(self):
        return sum(map(len, self.refused.values()))

    @property
    def worked(self):
        return self.answered and self.sheet_refused is None

    @property
    def well(self):
        return self.worked and not self.refused_particles

    def line(self, place):
        """This and its place in a batch as a line."""
        return json.dumps([place, self.sheet, *self[1:6], list(self.refused.items()), *self[7:]]) + "\n"


def of_line(line):
    """A place in a batch and the result there."""
    place, sheet, *counts, refused, why, failed, columns, turned, before = json.loads(line)
    return place, Result(Sheet(*sheet), *counts, dict(refused), why, failed, columns, tuple(map(tuple, turned)), before)


WHOLE = re.compile(rb"particles (0|[1-9][0-9]*)\n((?:[0-9]+ (?:untouched|stored [0-9a-f]{16}|refused [0-9]+)\n)*)end\n")
SHEET_REFUSED = re.compile(rb"sheet refused ([0-9]+)\n")
PARTICLE_REFUSED = re.compile(rb"^([0-9]+) refused ([0-9]+)$", re.M)


def is_whole(answer):
    """Whether an answer is whole: the count, as many lines and `end`; or one line that the sheet is refused."""
    told = WHOLE.fullmatch(answer)
    return int(told.group(1)) == told.group(2).count(b"\n") if told else bool(SHEET_REFUSED.fullmatch(answer))


def result(sheet, answer):
    """A whole answer, counted."""
    told = SHEET_REFUSED.fullmatch(answer)
    if told:
        return Result(sheet, True, int(told.group(1)))
    refused = {}
    if b" refused " in answer:
        for particle, number in PARTICLE_REFUSED.findall(answer):
            refused.setdefault(int(number), []).append(int(particle))
    return Result(sheet, True, None, answer.count(b"\n") - 2, answer.count(b" untouched\n"), answer.count(b" stored "), refused)


def turned_in(records, floats, r):
    """The worked particles that came turned inside out or pressed flat: Snow works them all the same."""
    sigmas = [records[SIGMA + k::floats].tolist() for k in range(3)]
    if all(min(column, default=1.0) > 0.0 for column in sigmas):
        return ()
    refused = {k for particles in r.refused.values() for k in particles}
    return tuple((k, tuple(sorted(x for x in sigma if x <= 0.0))) for k, sigma in enumerate(zip(*sigmas)) if min(sigma) <= 0.0 and k not in refused)


def turned_words(particle, sigmas):
    return "particle %d is worked, but %s: sigma %s" % (particle, "turned inside out" if sigmas[0] < 0.0 else "pressed flat", " ".join("%g" % x for x in sigmas))
