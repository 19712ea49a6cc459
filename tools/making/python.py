"""bindings/python/pasoletu/_table.py."""

HEAD = '''"""Made by tools/table from calls.toml and VERSION: edit those, not this file."""
import ctypes
from typing import NamedTuple, Optional


class Refusal(NamedTuple):
    """A refusal's name, what it means and what to do about it."""

    name: str
    what: str
    remedy: str


class Model(NamedTuple):
    """A plastic law: its name, the amount that stands beside `stored`, its parameters in order, which of them are flags, and
    the defaults of those that have one."""

    name: str
    title: str
    amount: str
    parameters: tuple[str, ...]
    flags: tuple[str, ...]
    defaults: dict[str, float]


class Part(NamedTuple):
    """A part of the record: its first place and its shape, () for one float."""

    field: str
    at: int
    shape: tuple[int, ...]


class Argument(NamedTuple):
    """An argument of a call. kind: f64, u8, u32 or u64. length: None for no list, 0 for a list whose length is not always the
    same. written: a list that the call may write."""

    name: str
    kind: str
    length: Optional[int]
    written: bool

    @property
    def argtypes(self) -> tuple[type, ...]:
        """As ctypes has it: a list is a pointer and a length."""
        return (KINDS[self.kind],) if self.length is None else (ctypes.c_void_p, ctypes.c_size_t)


KINDS = {"f64": ctypes.c_double, "u8": ctypes.c_uint8, "u32": ctypes.c_uint32, "u64": ctypes.c_uint64}
'''


def tuple_of(items):
    items = list(items)
    return "(%s%s)" % (", ".join(items), "," if len(items) == 1 else "")


def refusals(table):
    yield "# The refusals' numbers."
    for r in table.refusals:
        yield f"{r.name} = {r.number}"
    yield "REFUSALS: dict[int, Refusal] = {"
    for r in table.refusals:
        yield f"    {r.number}: Refusal("
        yield from (f"        {quoted(text)}," for text in (r.name, r.what, r.remedy))
        yield "    ),"
    yield "}"


def quoted(text):
    return '"%s"' % text.replace("\\", "\\\\").replace('"', '\\"')


def model_row(m):
    names = tuple_of(quoted(p.name) for p in m.parameters)
    flags = tuple_of(quoted(p.name) for p in m.parameters if p.flag)
    defaults = ", ".join(f"{quoted(p.name)}: {p.default!r}" for p in m.parameters if p.default is not None)
    yield f"    {m.number}: Model("
    yield from (f"        {quoted(text)}," for text in (m.name, m.title, m.amount))
    yield f"        {names},"
    yield f"        {flags},"
    yield f"        {{{defaults}}},"
    yield "    ),"


def models(table):
    yield "# The models' numbers."
    for m in table.models:
        yield f"{m.name.upper()} = {m.number}"
    yield "MODELS: dict[int, Model] = {"
    for m in table.models:
        yield from model_row(m)
    yield "}"
    yield "# Of each number of a sheet's model the law's own, and whether the sheet's records end with the determinant; and the way back."
    yield "LAW_OF: dict[int, tuple[int, bool]] = {%s}" % ", ".join(f"{n}: ({table.models[k].number}, {whole})" for n, (k, whole) in sorted(table.law_of.items()))
    yield "WHOLE: dict[int, int] = {%s}" % ", ".join(f"{m.number}: {m.whole}" for m in table.models)


def record(table):
    yield f"FLOATS = {table.floats}"
    yield "RECORD: tuple[Part, ...] = ("
    for part in table.record:
        shape = tuple_of(map(str, part.shape))
        yield f"    Part({quoted(part.field)}, {part.at}, {shape}),"
    yield ")"


def constants(table):
    for group in table.constants:
        yield f"# {group.title}"
        for c in group.rows:
            yield f"{c.name} = {c.value!r}" + (f"  # {c.meaning}" if c.meaning else "")


def argument_row(a):
    return f"Argument({quoted(a.name)}, {quoted(a.kind)}, {a.length}, {a.written})"


def calls(table):
    yield "# The calls by name, without pasoletu_; each answers a ctypes.c_uint8, 0 or the refusal's number."
    yield "CALLS: dict[str, tuple[Argument, ...]] = {"
    for c in table.calls:
        yield f"    {quoted(c.name)}: ("
        for a in c.arguments:
            yield f"        {argument_row(a)},"
        yield "    ),"
    yield "}"
    yield "ARGTYPES: dict[str, tuple[type, ...]] = {"
    yield "    name: sum((a.argtypes for a in arguments), ()) for name, arguments in CALLS.items()"
    yield "}"


def made(table):
    """The whole file."""
    parts = [[f'VERSION = "{table.version}"'], refusals(table), models(table), record(table), constants(table), calls(table)]
    return HEAD + "\n\n" + "\n\n".join("\n".join(part) for part in parts) + "\n"
