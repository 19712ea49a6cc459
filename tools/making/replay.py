"""tests/calls.h, the calls that the lists below tests/ are replayed through, and tests/replay/numbers.h, those by number with the words of each."""
from .fuzz import prototype
from .rust import beside_name, beside_row
from .text import filled

CALLS_HEAD = """\
// Made by tools/table from calls.toml: edit that, not this file.
// The C calls, with every float of a list as its bits.
#include <stddef.h>
#include <stdint.h>
"""
NUMBERS_HEAD = """\
// Made by tools/table from calls.toml: edit that, not this file.
// The calls of the replayed lists by number. A number whose call is retired has none, and no words.
"""
# How an argument that is no list is read off the word at a place of the inputs.
READ = {"f64": "NUMBER(%d)", "u32": "(uint32_t)WORD(%d)", "u64": "WORD(%d)"}


def words_in(c, m):
    return sum(1 if word in ("NUMBER", "GAMMA") else int(word) for word in beside_row(c, m)[0])


def list_words(a, m, floats):
    """The words of an argument of a call on one record."""
    lengths = {"parameters": len(m.parameters) if m else 0, "records": floats, "answers": 2}
    return 1 if not a.is_list else a.length or lengths[a.name]


def lengths_of(c, m, floats):
    """How many words go in, with a lent record last, come out, and are that record's."""
    written = [list_words(a, m, floats) for a in c.written]
    lent = written[0] if c.written[0].name in ("record", "records") else 0
    return sum(list_words(a, m, floats) for a in c.taken) + lent, sum(written), lent


def lengths(table):
    """The same of each number. The inputs of an update have no model: its number says it."""
    rows = {n: (words_in(c, m), beside_row(c, m)[1], table.floats if m else 0) for n, c, m in table.numbered}
    return rows | {n: lengths_of(c, m, table.floats) for n, c, m in table.replayed} | {n: (0, 0, 0) for n in table.retired}


def spelled(c, m, floats, of_number):
    """The arguments of a number's call; `of_number` where the number says the model."""
    given = out = 0
    for a in c.arguments:
        n = list_words(a, m, floats)
        if a.written:
            yield f"OUT({out}, {n})"
            out += n
        elif a.name == "model" and of_number:
            yield str(m.number)
        else:
            yield f"GIVEN({given}, {n})" if a.is_list else READ[a.kind] % given
            given += n


def case(number, c, m, table):
    yield f"    case {number}: // {beside_name(c, m)}"
    yield from filled(list(spelled(c, m, table.floats, number in {n for n, _, _ in table.numbered})), f"        return pasoletu_{c.name}(", ");")


def numbers(table):
    """The whole of tests/replay/numbers.h."""
    rows = lengths(table)
    columns = [[rows[n][k] for n in sorted(rows)] for k in range(3)]
    lists = max(len([a for a in of if a.is_list]) for _, c, _ in table.numbered + table.replayed for of in (c.taken, c.written))
    lines = [f"#define KINDS {len(rows)}", f"#define MOST_IN {max(columns[0])}", f"#define MOST_OUT {max(columns[1])}", f"#define MOST_LISTS {lists}"]
    lines += ["// How many words go into each call, how many come out, and how many of the last that go in are a record that is lent: what comes out begins with it."]
    for name, column in zip(("INPUTS", "OUTPUTS", "LENT"), columns):
        lines += filled(list(map(str, column)), f"static const uint8_t {name}[KINDS] = {{", "};")
    lines += ["", "// A number's call: its refusal or 0. NUMBER and WORD are the word at a place of the inputs, GIVEN a list there and OUT one of what comes out, each of"]
    lines += ["// so many words from a place on.", "static uint8_t called(unsigned number) {", "    switch (number) {"]
    lines += [line for n, c, m in sorted(table.numbered + table.replayed, key=lambda row: row[0]) for line in case(n, c, m, table)]
    lines += ["    default:", "        return 255;", "    }", "}"]
    return NUMBERS_HEAD + "\n" + "\n".join(lines) + "\n"


def calls(table):
    """The whole of tests/calls.h."""
    return CALLS_HEAD + "\n" + "\n".join(line for c in table.calls for line in prototype(c)) + "\n"
