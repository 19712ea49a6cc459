"""Holds the proved crates to the table: crates/answers' refusals, crates/model's parameters, flags, scalars and moduli, the calls of crates/host,
crates/host_passes and crates/host_sheets and their exports in crates/host_c. They are written by hand, since their contracts are; here they are only read."""
import collections
import re

HOSTS = ("host", "host_passes", "host_sheets")
KINDS = {"f64": "f64", "u8": "u8", "u32": "u32", "u64": "u64", "&[u8]": "u8[]", "&[u64]": "[]", "&mut [u8]": "u8[] written", "&mut [u64]": "[] written"}
REFUSAL = re.compile(r"pub const (\w+): u8 = (\d+);")
ROW = re.compile(r"^row_of (\w+) =\s+record \{\s+kinds = ((?:(?:true|false) ∷ )+)\[\];\s+written = ((?:\d+ ∷ )*)\[\];", re.M)
NUMBERS_OF = re.compile(r"^    \(?cond \(either (\d+) (\d+) number\) (\w+)$", re.M)
READY_OF = re.compile(r"^law_ready \(models\.(\w+) \w\) = (ready\.)?", re.M)
CALL = re.compile(r"pub fn pasoletu_(\w+)\((.*?)\)\s*->\s*u8(.*?)\n\{\n", re.S)
EXPORT = re.compile(r'#\[unsafe\(no_mangle\)\]\npub extern "C" fn pasoletu_(\w+)\((.*?)\)\s*->\s*u8(.*?)\n\{\n(.*?)\n\}\n', re.S)


def spelled(a):
    """An argument as the hosts' crates have it: floats of lists are words."""
    if not a.is_list:
        return a.kind
    return ("u8" if a.kind == "u8" else "") + ("[] written" if a.written else "[]")


def refusals(top, table):
    there = {name: int(number) for name, number in REFUSAL.findall((top / "crates/answers/src/lib.rt").read_text())}
    for r in table.refusals:
        found = there.get(r.name)
        yield f"crates/answers: {r.name}", None if found == r.number else f"is {found}, in the table {r.number}"
    for name in sorted(there.keys() - {r.name for r in table.refusals}):
        yield f"crates/answers: {name}", None if there[name] in table.reserved else "is not in calls.toml: add its row"
    for number in sorted({r.number for r in table.refusals} & set(table.reserved)):
        yield f"crates/answers: {number}", "has its row in calls.toml now: take it off `reserved`"


def models(top, table):
    """A model's two numbers, how many parameters it has and which are flags, the parts of a record that it writes, and whether moduli are worked before it is
    ready: crates/model/specs/Rows alone says it in the crates."""
    text = (top / "crates/model/specs/Rows.antt").read_text()
    there, numbers = ROW.findall(text), {name: (int(a), int(b)) for a, b, name in NUMBERS_OF.findall(text)}
    worked = {name: not at_once for name, at_once in READY_OF.findall(text)}
    yield "crates/model: the models", None if len(there) == len(table.models) else f"are {len(there)}, in the table {len(table.models)}"
    for m, (name, kinds, parts) in zip(table.models, there):
        wanted = m.name.replace("_", ""), (m.number, m.whole), [p.flag for p in m.parameters]
        found = name.lower(), numbers.get(name), [kind == "true" for kind in re.findall("true|false", kinds)]
        yield f"crates/model: {name}", None if found == wanted else f"is {found}, in the table {wanted}"
        wanted, found = [table.part_of[part] for part in m.written], [int(part) for part in re.findall(r"\d+", parts)]
        yield f"crates/model: {name}", None if found == wanted else f"writes the parts {found}, in the table {wanted}"
        wanted, found = m.moduli, worked.get(name)
        yield f"crates/model: {name}", None if found == wanted else f"has moduli to be worked: {found}, in the table {wanted}"


def kinds(arguments):
    types = [part.split(":", 1)[1].strip() for part in arguments.split(",") if ":" in part]
    return [KINDS.get(t, t) for t in types]


def sources(top, *crates):
    return [file for crate in crates for file in sorted((top / "crates" / crate / "src").glob("*.rt"))]


def host_calls(top):
    """Each call of a crate of the hosts, with its crate, its arguments, and its clauses."""
    for file in sources(top, *HOSTS):
        for name, arguments, clauses in CALL.findall(file.read_text()):
            yield name, file.parts[-3], kinds(arguments), clauses.split()


def exports(top):
    """Each call that the archive exports, with its arguments and clauses, and the crate whose call of that name it makes, of the same arguments; else None."""
    for file in sources(top, "host_c"):
        for name, arguments, clauses, body in EXPORT.findall(file.read_text()):
            given = r",\s*".join(part.split(":", 1)[0].strip() for part in arguments.split(",") if ":" in part)
            called = re.fullmatch(rf"\s*(\w+)::(?:\w+::)?pasoletu_{name}\(\s*{given},?\s*\)\s*", body)
            yield name, called and called[1], kinds(arguments), clauses.split()


def host(top, table):
    """Each call of the table stands in one of the three crates, once, and the archive's crate exports it as it is."""
    there = collections.defaultdict(list)
    for name, crate, takes, clauses in host_calls(top):
        there[name].append((f"crates/{crate}", takes, clauses))
    out = collections.defaultdict(list)
    for name, crate, takes, clauses in exports(top):
        out[name].append((f"crates/{crate}", takes, clauses))
    for c in table.calls:
        wanted, found = [spelled(a) for a in c.arguments], there.pop(c.name, [("crates/host*", None, None)])
        crate, takes, _ = found[0]
        if takes is None or len(found) > 1:
            wrong = "has no such call" if takes is None else f"stands in {found[1][0]} too"
        else:
            wrong = None if takes == wanted else f"takes ({', '.join(takes)}), the table ({', '.join(wanted)})"
        yield f"{crate}: pasoletu_{c.name}", wrong
        yield f"crates/host_c: pasoletu_{c.name}", None if out.pop(c.name, []) == found else f"is not exported as {crate} has it"
    for name, found in [*sorted(there.items()), *sorted(out.items())]:
        yield f"{found[0][0]}: pasoletu_{name}", "is not in calls.toml: add its row"


def held(top, table):
    """Each thing that is held, with what is wrong with it or None."""
    yield from refusals(top, table)
    yield from models(top, table)
    yield from host(top, table)
