"""The tables of README.md, docs/GUIDE.md, docs/RULES.md and docs/STEPS.md, and the numbers, laws and amounts of man/slope.1, that repeat calls.toml, each
between its marks; README's amounts stand within a line."""
import re

from .text import either

MARKED = re.compile(r"(<!-- made by tools/table: (\w+) -->\n).*?(<!-- end -->)", re.S)
WITHIN = re.compile(r"(<!-- made by tools/table: (\w+) -->)[^\n]*?(<!-- end -->)")


def capital(text):
    return text[0].upper() + text[1:]


def rows(head, lines):
    yield "| " + " | ".join(head) + " |"
    yield "|" + "---|" * len(head)
    yield from ("| " + " | ".join(str(cell) for cell in line) + " |" for line in lines)


def refusals(head, cells):
    """A table with a row for each refusal of which `cells` tells something."""
    return lambda table: rows(head, filter(None, map(cells, table.refusals)))


def record(table):
    """The record's parts, each with its first place."""
    return rows(("place", "doubles", "C", "Rust and Python", ""), ((p.at, p.length, f"`PASOLETU_{p.name}`", f"`{p.field}`", p.meaning) for p in table.record))


def reason(table):
    """The words of a reason, which calls.toml has as constants."""
    words = [c for group in table.constants for c in group.rows if c.name.startswith("REASON_")]
    ends = [c.value for c in words[1:]] + [next(c.value for group in table.constants for c in group.rows if c.name == "REASON")]
    return rows(("Word", "Holds"), ((c.value if end == c.value + 1 else f"{c.value} to {end - 1}", c.meaning) for c, end in zip(words, ends)))


TABLES = {
    "numbers": refusals(("R", "why", "what to do"), lambda r: (r.number, r.what, r.remedy)),
    "when": refusals(("No", "When, and only then"), lambda r: (r.number, r.when)),
    "desk": refusals(("Number", "What is wrong", "Who mends it, and how"), lambda r: r.desk and (r.number, capital(r.what), r.desk)),
    "host": refusals(("number", "what", "what to do"), lambda r: (r.number, r.what, r.host)),
    "record": record,
    "reason": reason,
}
PHRASES = {"amounts": lambda table: ", ".join(f"{m.title}: {m.amount}" for m in table.models)}
WITHIN_PAGES = {"README.md": ["amounts"]}
PAGES = {"README.md": ["numbers"], "docs/RULES.md": ["when"], "docs/GUIDE.md": ["desk", "record", "host"], "docs/STEPS.md": ["reason"]}


def made(page):
    """How a page is made anew: a function of its text and the table."""

    def renewed(text, table):
        for marks, names, what in ((MARKED, PAGES[page], "tables"), (WITHIN, WITHIN_PAGES.get(page, []), "phrases")):
            found = [m.group(2) for m in marks.finditer(text)]
            if found != names:
                raise ValueError(f"its marked {what} are {found}, not {names}")
        text = WITHIN.sub(lambda m: m.group(1) + PHRASES[m.group(2)](table) + m.group(3), text)
        return MARKED.sub(lambda m: "{}\n{}\n\n{}".format(m.group(1), "\n".join(TABLES[m.group(2)](table)), m.group(3)), text)

    return renewed


ROFF = re.compile(r'(^\.\\" made by tools/table: (\w+)\n).*?(^\.\\" end$)', re.S | re.M)
MANUAL = {
    "laws": lambda table: f"({either([m.title for m in table.models])})\n",
    "amounts": lambda table: ", ".join(f"{m.amount} ({m.title})" for m in table.models) + ".\n",
    "numbers": lambda table: "".join(f".TP\n.B {r.number}\n{r.what}: {r.remedy}\n" for r in table.refusals if r.desk),
}


def manual(text, table):
    """The manual's page with the laws, their amounts and the refusals that a dispatcher sees."""
    found = [m.group(2) for m in ROFF.finditer(text)]
    if found != [*MANUAL]:
        raise ValueError(f"its marked parts are {found}, not {[*MANUAL]}")
    return ROFF.sub(lambda m: m.group(1) + MANUAL[m.group(2)](table) + m.group(3), text)
