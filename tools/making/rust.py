"""bindings/rust/src/table.rs, beside/table.rs, and the version in the crate's manifests."""
import re

from .text import filled, sentence

CRATE_HEAD = """\
//! Made by tools/table from calls.toml and VERSION: edit those, not this file.
use crate::Refusal;

/// A model's number and the names of its parameters.
pub struct Law {
    pub number: u64,
    pub names: &'static [&'static str],
}
"""
BESIDE_HEAD = """\
// Made by tools/table from calls.toml: edit that, not this file.
use super::{c, Call, GAMMA, NUMBER};
"""
EXTERNS_HEAD = """\
// Made by tools/table from calls.toml: edit that, not this file.
// The C calls, with every float of a list as its bits.
"""


def quoted(text):
    return '"%s"' % text.replace("\\", "\\\\").replace('"', '\\"')


def camel(name):
    return "".join(word.capitalize() for word in name.split("_"))


def typed(value):
    return f"f64 = {value!r}" if isinstance(value, float) else f"usize = {value}"


def refusals(table):
    yield "impl Refusal {"
    for r in table.refusals:
        yield f"    /// {sentence(r.what)}"
        yield f"    pub const {r.name}: u8 = {r.number};"
    yield "}"
    yield ""
    yield "/// What a refusal's number means, and what to do about it."
    yield "pub fn words(number: u8) -> Option<(&'static str, &'static str)> {"
    yield "    Some(match number {"
    for r in table.refusals:
        yield f"        {r.number} => ({quoted(r.what)}, {quoted(r.remedy)}),"
    yield "        _ => return None,"
    yield "    })"
    yield "}"


def laws(table):
    for m in table.models:
        names = ", ".join(quoted("the law's " + p.name) for p in m.parameters)
        yield f"pub const {m.name.upper()}: Law = Law {{ number: {m.number}, names: &[{names}] }};"
        for p in m.parameters:
            if p.default is not None:
                meaning = f" // {p.meaning}" if p.meaning else ""
                yield f"pub const {m.name.upper()}_{p.name.upper()}: {typed(p.default)};{meaning}"
    names = ", ".join(sorted(camel(m.name) + "Plasticity" for m in table.models if m.beside))
    yield "/// The laws that the Rust has too, by its names."
    yield f"pub mod plastic {{\n    pub use crate::{{{names}}};\n}}"
    yield "/// Of each law its number, and that of sheets whose records end with the determinant."
    yield f"pub const NUMBERS: [(u64, u64); {len(table.models)}] = [%s];" % ", ".join(f"({m.number}, {m.whole})" for m in table.models)
    yield "/// The parameters of the model that has most."
    yield f"pub const MOST_PARAMETERS: usize = {table.most_parameters};"


def record(table):
    yield f"pub const FLOATS: usize = {table.floats};"
    yield "/// The name of each float of a record."
    yield "pub const PLACES: [&str; FLOATS] = ["
    for part in table.record:
        yield from filled([quoted(place) for place in part.places], "    ", ",")
    yield "];"


def constants(table):
    for group in table.constants:
        yield f"// {group.title}"
        for c in group.rows:
            yield f"pub const {c.name}: {typed(c.value)};"


def argument(a, floats):
    """An argument in Rust's words; `floats` is the type of a list's floats."""
    if not a.is_list:
        return f"{a.name}: {a.kind}"
    kind = floats if a.kind == "f64" else a.kind
    return f"{a.name}: *{'mut' if a.written else 'const'} {kind}, {a.name}_length: usize"


def externs(table, floats):
    yield 'extern "C" {'
    for c in table.calls:
        yield f"    pub fn pasoletu_{c.name}({', '.join(argument(a, floats) for a in c.arguments)}) -> u8;"
    yield "}"


def crate(table):
    """The whole of bindings/rust/src/table.rs."""
    parts = [refusals(table), laws(table), record(table), constants(table), externs(table, "f64")]
    return CRATE_HEAD + "\n" + "\n\n".join("\n".join(part) for part in parts) + "\n"


def versioned(manifest, table):
    """A Cargo.toml or Cargo.lock with the table's version as that of the package pasoletu."""
    package = re.compile(r'^(name = "pasoletu"\nversion = ").*(")$', re.M)
    if not package.search(manifest):
        raise ValueError('it has no line version = "..." after name = "pasoletu"')
    return package.sub(rf"\g<1>{table.version}\g<2>", manifest)


def beside_name(c, m):
    return c.name if m is None else f"{c.name} {m.name}"


def beside_argument(a):
    if a.is_list:
        return str(a.length)
    return "NUMBER" if a.kind == "f64" else "GAMMA"


def beside_row(c, m):
    """The inputs are the words of the arguments that are given, a lent record too; the outputs what is written; and the place of
    a flag among the inputs, or None."""
    if m is None:
        return [beside_argument(a) for a in c.taken], sum(a.length for a in c.written), c.flag
    lengths = [a.length for a in c.written]
    return [str(len(m.parameters)), str(lengths[0])], sum(lengths), m.flag_at


def some(place):
    return "None" if place is None else f"Some({place})"


def beside_line(c, m):
    inputs, _, flag = beside_row(c, m)
    lists = [str(a.length) for a in c.written]
    return f"    c({quoted(beside_name(c, m))}, &[{', '.join(inputs)}], &[{', '.join(lists)}], {some(flag)}),"


def beside(table):
    """The whole of beside/table.rs."""
    rows = table.numbered
    lines = ["// The numbers of the calls, as tests/replay has them too; of an update, one for each model."]
    lines += [f"pub const {beside_name(c, m).upper().replace(' ', '_')}: usize = {n};" for n, c, m in rows]
    lines += ["", "// Numbers that tests/replay alone has; of a call with a model, the first of one for each."]
    lines += [f"pub const REPLAYED_{c.name.upper()}: usize = {c.replay};" for c in sorted((c for c in table.calls if c.replay), key=lambda c: c.replay)]
    told = {c.name: c.value for group in table.constants for c in group.rows}
    lines += ["", "// Floats of a record, and those before the determinant. Models from LAWS up name the same laws, for sheets whose records have all."]
    lines += [f"pub const FLOATS: usize = {table.floats};", f"pub const BARE: usize = {told['SHEET_FLOATS']};"]
    lines += [f"pub const LAWS: usize = {told['WITH_DETERMINANT']};"]
    lines += ["", "// The first number that names no law, of the Rust's or not.", f"pub const NO_MODEL: u64 = {len(table.law_of)};"]
    lines += ["", "// How many parameters each model has."]
    lines += [f"pub const PARAMETERS: [usize; {len(table.models)}] = {[len(m.parameters) for m in table.models]};"]
    lines += ["", "// By number: name, arguments, the lengths of the lists that come out, the place of a flag. A number whose call is retired has no name."]
    lines += [f"pub const CALLS: [Call; {len(rows) + len(table.retired)}] = ["]
    written = {n: beside_line(c, m) for n, c, m in rows} | {n: '    c("", &[], &[], None),' for n in table.retired}
    lines += [written[n] for n in sorted(written)]
    lists = [c.name for c in table.calls if c.beside == "lists"]
    lines += ["];", "", "// The calls on lists of particles and on sheets, which have no number."]
    lines += [f"pub const LISTS: [&str; {len(lists)}] = [{', '.join(map(quoted, lists))}];"]
    return BESIDE_HEAD + "\n" + "\n".join(lines) + "\n"


def beside_externs(table):
    """The whole of beside/externs.rs."""
    return EXTERNS_HEAD + "\n".join(externs(table, "u64")) + "\n"
