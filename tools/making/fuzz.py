"""fuzz/calls.h: the calls on records, sheets and tallies, the floats of their lists as words."""
from .header import TYPES
from .text import filled

HEAD = """\
// Made by tools/table from calls.toml: edit that, not this file.
// The C calls that are fuzzed, with every float of a list as its bits.
#include <stddef.h>
#include <stdint.h>
"""
FUZZED = ("record", "records", "state", "tallies")


def declared(a):
    if not a.is_list:
        return [f"{TYPES[a.kind]} {a.name}"]
    kind = TYPES["u64" if a.kind == "f64" else a.kind]
    return [f"{'' if a.written else 'const '}{kind} *{a.name}", f"size_t {a.name}_length"]


def prototype(c):
    return filled([part for a in c.arguments for part in declared(a)], f"uint8_t pasoletu_{c.name}(", ");")


def made(table):
    """The whole file."""
    told = {c.name: c.value for group in table.constants for c in group.rows}
    rows = [table.law_of[n] for n in sorted(table.law_of)]
    laws = [table.models[k] for k, _ in rows]
    lines = [f"#define FLOATS {table.floats}", f"#define FLAT_FLOATS {told['FLAT_FLOATS']}", f"#define MOST {told['SHEET_MOST']}"]
    lines += ["// Of each model's number its law, and whether the records of its sheets have all floats; else they have BARE."]
    lines += [f"#define LAWS {len(table.models)}", f"#define MODELS {len(laws)}", f"#define BARE {told['SHEET_FLOATS']}"]
    lines += ["static const char *const NAMES[LAWS] = {%s};" % ", ".join(f'"{m.name}"' for m in table.models)]
    lines += ["static const uint64_t LAW_OF[MODELS] = {%s};" % ", ".join(str(k) for k, _ in rows)]
    lines += ["static const int WHOLE[MODELS] = {%s};" % ", ".join(str(int(whole)) for _, whole in rows)]
    lines += ["// How many parameters each model has, and the place of its flag or -1."]
    lines += ["static const size_t FIELDS[MODELS] = {%s};" % ", ".join(str(len(m.parameters)) for m in laws)]
    lines += ["static const int FLAG[MODELS] = {%s};" % ", ".join(str(-1 if m.flag_at is None else m.flag_at) for m in laws), ""]
    for c in table.calls:
        if any(a.name in FUZZED for a in c.arguments):
            lines += prototype(c)
    return HEAD + "\n" + "\n".join(lines) + "\n"
