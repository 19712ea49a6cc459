"""The table: calls.toml and VERSION as rows, checked for sense."""
import math
import re
import tomllib
from dataclasses import dataclass
from functools import cached_property

# the scalars of a record that a law may write, with the names that crates/plasticity's proofs have for them
WRITABLE = {"PLASTIC_DETERMINANT": "determinant", "PLASTIC_HARDENING": "hardening", "ELASTIC_HARDENING": "elastic", "LOG_GAIN": "gain", "ALPHA": "alpha"}
ARGUMENT = re.compile(r"(?P<name>[a-z_0-9]+)(?P<list>\[(?P<length>\d*)\])?(: (?P<kind>u8|u32|u64))?")


class BadTable(Exception):
    """A row of the table makes no sense; the text says which and why."""


@dataclass(frozen=True)
class Argument:
    """An argument of a call. `length` is None for no list, 0 for a list whose length is not always the same."""

    name: str
    kind: str
    length: int | None
    written: bool

    @property
    def is_list(self):
        return self.length is not None


@dataclass(frozen=True)
class Call:
    """A call of the library. `flag` is the place of a flag among its inputs, `beside` its number in beside/ and tests/replay or "lists" or None,
    `replay` its number where tests/replay alone has one."""

    name: str
    text: str
    arguments: tuple
    beside: int | str | None
    flag: int | None
    replay: int | None

    @property
    def taken(self):
        return [a for a in self.arguments if not a.written]

    @property
    def written(self):
        return [a for a in self.arguments if a.written]

    @property
    def numbered(self):
        return isinstance(self.beside, int)

    @property
    def for_every_model(self):
        """Whether a number stands for each model of it."""
        return (self.numbered or self.replay is not None) and self.arguments[0].name == "model"


@dataclass(frozen=True)
class Section:
    """Calls that stand together in the header."""

    title: str
    text: str
    calls: tuple


@dataclass(frozen=True)
class Refusal:
    """Why something is refused, and what to do about it: in a few words; exactly; for a dispatcher, who sees not all of them; for a host's programmer."""

    number: int
    name: str
    what: str
    remedy: str
    when: str
    host: str
    desk: str = ""


@dataclass(frozen=True)
class Parameter:
    """A parameter of a model. `left_out` is what tools/sheet.py takes where one without a default isn't given."""

    name: str
    flag: bool
    default: float | None
    meaning: str
    left_out: float | None

    @property
    def taken(self):
        """What tools/sheet.py takes where it isn't given, or None."""
        return self.left_out if self.default is None else self.default


@dataclass(frozen=True)
class Model:
    """A plastic law. `whole` is its number in sheets whose records end with the determinant, `amount` what stands beside `stored`, `written` the scalars of
    the record that an update writes, `arguments_of` the function that works the law out of the parameters, `beside` whether the Rust has the law, `instead`
    what tools/sheet.py takes in place of some."""

    number: int
    whole: int
    name: str
    title: str
    amount: str
    written: tuple
    arguments_of: str
    beside: bool
    instead: str
    parameters: tuple

    @property
    def flag_at(self):
        """The place of its flag among the parameters, or None. No model has two."""
        return next((k for k, p in enumerate(self.parameters) if p.flag), None)

    @property
    def variant(self):
        """Its name as the crates' enums have it."""
        return self.name.title().replace("_", "")

    @property
    def moduli(self):
        """Whether its moduli are worked out of the parameters."""
        return bool(self.arguments_of)


@dataclass(frozen=True)
class Part:
    """A part of the record: `at` is its first place."""

    name: str
    field: str
    shape: tuple
    meaning: str
    at: int

    @property
    def length(self):
        return math.prod(self.shape)

    @property
    def places(self):
        """The name of each of its floats, as Rust and Python spell them."""
        if not self.shape:
            return [self.field]
        if len(self.shape) == 1:
            return [f"{self.field}[{k}]" for k in range(self.shape[0])]
        return [f"{self.field}[{r}][{c}]" for r in range(self.shape[0]) for c in range(self.shape[1])]


@dataclass(frozen=True)
class Constant:
    """A number with a name."""

    name: str
    value: int | float
    meaning: str


@dataclass(frozen=True)
class Constants:
    """Constants that stand together in the header."""

    title: str
    rows: tuple


def argument(spelled, written, where):
    match = ARGUMENT.fullmatch(spelled.strip())
    if match is None:
        raise BadTable(f"{where}: the argument {spelled.strip()!r} is not spelled as the head of calls.toml says")
    length = None if match["list"] is None else int(match["length"] or 0)
    return Argument(match["name"], match["kind"] or "f64", length, written)


def call(row):
    where = f"call {row.get('name', '(without a name)')}"
    for key in ("name", "takes", "writes", "text"):
        if key not in row:
            raise BadTable(f"{where}: it lacks {key!r}")
    taken = [argument(a, False, where) for a in row["takes"].split(",") if a.strip()]
    written = [argument(a, True, where) for a in row["writes"].split(",")]
    if not all(a.is_list for a in written):
        raise BadTable(f"{where}: only lists can be written")
    made = Call(row["name"], row["text"], tuple(taken + written), row.get("beside"), row.get("flag"), row.get("replay"))
    if made.beside not in (None, "lists") and not made.numbered:
        raise BadTable(f"{where}: beside is {made.beside!r}, which is neither a number nor \"lists\"")
    if made.numbered and not made.for_every_model and 0 in (a.length for a in made.arguments):
        raise BadTable(f"{where}: a call with a number tells the lengths of all its lists; leave `beside` out")
    return made


def refusal(row):
    lacking = {"number", "name", "what", "remedy", "when", "host"} - row.keys()
    if lacking:
        raise BadTable(f"refusal {row.get('number', '(without a number)')}: it lacks {', '.join(sorted(lacking))}")
    return Refusal(**row)


def model(row):
    parameters = (
        Parameter(p["name"], p.get("flag", False), p.get("default"), p.get("meaning", ""), p.get("left_out")) for p in row["parameters"]
    )
    lacking = {"number", "whole", "name", "title", "amount", "written"} - row.keys()
    if lacking:
        raise BadTable(f"model {row.get('name', '(without a name)')}: it lacks {', '.join(sorted(lacking))}")
    told = row["number"], row["whole"], row["name"], row["title"], row["amount"], tuple(row["written"])
    return Model(*told, row.get("arguments_of", ""), row.get("beside", True), row.get("instead", ""), tuple(parameters))


def record(rows):
    at = 0
    for row in rows:
        part = Part(row["name"], row["field"], tuple(row.get("shape", ())), row.get("meaning", ""), at)
        at += part.length
        yield part


def unique(what, values):
    values = list(values)
    twice = sorted({str(x) for x in values if values.count(x) > 1})
    if twice:
        raise BadTable(f"{what} stands twice: {', '.join(twice)}")


def consecutive(what, numbers, first):
    if sorted(numbers) != list(range(first, first + len(numbers))):
        raise BadTable(f"{what} are not {first} and on without a gap: {sorted(numbers)}")


def rising(what, numbers, first):
    if numbers[:1] != [first] or any(a >= b for a, b in zip(numbers, numbers[1:])):
        raise BadTable(f"{what} do not rise from {first}: {numbers}")


class Table:
    """What calls.toml and VERSION say."""

    def __init__(self, top):
        rows = tomllib.loads((top / "calls.toml").read_text())
        self.version = (top / "VERSION").read_text().strip()
        self.refusals = [refusal(row) for row in rows["refusal"]]
        self.reserved = rows.get("reserved", [])
        self.retired = rows.get("retired", [])
        self.models = [model(row) for row in rows["model"]]
        self.record = list(record(rows["record"]))
        self.constants = [
            Constants(group["title"], tuple(Constant(c["name"], c["value"], c.get("meaning", "")) for c in group["rows"]))
            for group in rows["constants"]
        ]
        self.sections = [
            Section(s["title"], s.get("text", ""), tuple(call(c) for c in s["call"])) for s in rows["section"]
        ]
        self.check()

    @cached_property
    def calls(self):
        return [c for section in self.sections for c in section.calls]

    @cached_property
    def law_of(self):
        """Of each model's number its law, by its place in the table, and whether the records of its sheets end with the determinant."""
        unique("a model's number", (n for m in self.models for n in (m.number, m.whole)))
        return {n: (k, n == m.whole) for k, m in enumerate(self.models) for n in (m.number, m.whole)}

    @cached_property
    def part_of(self):
        """Of each part of the record its place among them."""
        return {part.name: k for k, part in enumerate(self.record)}

    @property
    def floats(self):
        return sum(part.length for part in self.record)

    @property
    def most_parameters(self):
        return max(len(m.parameters) for m in self.models)

    @property
    def numbered(self):
        """The calls of beside/ by number: (number, call, model or None)."""
        return self.rows((c.beside, c) for c in self.calls if c.numbered)

    @property
    def replayed(self):
        """The calls that tests/replay alone has a number for, likewise."""
        return self.rows((c.replay, c) for c in self.calls if c.replay is not None)

    def rows(self, calls):
        rows = []
        for number, c in calls:
            laws = [m for m in self.models if m.beside]
            rows += [(number + k, c, m) for k, m in enumerate(laws)] if c.for_every_model else [(number, c, None)]
        return sorted(rows, key=lambda row: row[0])

    def check(self):
        if not re.fullmatch(r"\d+\.\d+\.\d+", self.version):
            raise BadTable(f"VERSION: {self.version!r} is not three numbers with points between")
        for m in self.models:
            if sum(p.flag for p in m.parameters) > 1:
                raise BadTable(f"model {m.name}: it has two flags, and beside/ and fuzz/ know only one")
            unique(f"a scalar that {m.name} writes", m.written)
            for name in sorted(set(m.written) - WRITABLE.keys()):
                raise BadTable(f"model {m.name}: it writes {name!r}, which is none of {', '.join(WRITABLE)}")
        unique("a refusal's name", (r.name for r in self.refusals))
        rising("the refusals' numbers", [r.number for r in self.refusals], 1)
        consecutive("the models' numbers", self.law_of, 0)
        unique("a call's name", (c.name for c in self.calls))
        numbers = [number for number, _, _ in self.numbered] + self.retired
        consecutive("the numbers of beside/", sorted(numbers), 0)
        consecutive("the numbers of tests/replay", sorted(number for number, _, _ in self.replayed), len(numbers))
        for c in self.calls:
            unique(f"an argument of {c.name}", (a.name for a in c.arguments))
