#!/usr/bin/env python3
"""What must be believed: the definitions that the public contracts and the theorems of docs/PROMISES.md reach.

  tools/believe.py               writes docs/BELIEVE.md
  tools/believe.py --check       holds the page to the sources, and specs/ to definitions. The last line is 'N passed, M failed'
  tools/believe.py --of NAME     the definitions that a crate's public calls reach, with their places and lines
  tools/believe.py --lemmas      what stands below specs/ and is reached by none of them, by crate: definitions of inner contracts, and lemmas

A contract that a reader cites names definitions; these name others, to the end. A theorem is believed by its type, so that of a lemma only the type is followed, and of
a definition its type and its body. Lines are those of the declarations, without blank ones and comments. The kit's own library is not counted.
"""
import argparse
import collections
import functools
import pathlib
import re
import sys

import calls

TOP = pathlib.Path(__file__).resolve().parent.parent
PAGE = TOP / "docs" / "BELIEVE.md"
CARRIED = ("walk/specs/Axes", "walk/specs/Matrix")  # pages whose lemmas definitions carry (`Body`)
LAWS = [name for name, _ in calls.crates(TOP) if name.startswith("plasticity_")]
NAME = r"[^\s(){}\[\],;.«»]+"
DECLARED = re.compile(rf"^( *)((?:(?:abbrev|unfoldable|pub) )*)(record |data )?({NAME})((?: [({{][^=]*?)?) :(?: |$)")
USE = re.compile(rf"^ *(pub )?use (Rattle\.\S+?)(?:\.\{{([^}}]*)\}}| as ({NAME}))$", re.M)
WORD = re.compile(r"[^\s(){}\[\],;λ«»]+")


class Declared:
    """A declaration: its place, its text, and whether it is a definition, whose body is believed too."""

    def __init__(self, place, name, kind, first, lines):
        self.place, self.name, self.first, self.lines = place, name, first, lines
        self.definition = bool(kind)

    def size(self):
        return sum(1 for line in self.lines if line.strip() and not line.strip().startswith("--"))

    def read(self):
        """The text that is believed: all of a definition, of a lemma its type."""
        text = "\n".join(line for line in self.lines if not line.strip().startswith("--"))
        if self.definition:
            return text
        clause = re.search(rf"^ *(?:unfolding .*\n *)?{re.escape(self.name)}\b[^\n:]*=", text, re.M)
        return text[: clause.start()] if clause else text


class Page:
    """A file of specs/ or proofs/: what it declares, and what its names mean."""

    def __init__(self, crate, place, text):
        self.crate, self.place = crate, place
        self.declared, self.names, self.modules, self.handed_on = {}, {}, {}, []
        for public, module, listed, alias in USE.findall(text):
            target = page_of(module)
            if not target:
                continue
            if alias:
                self.modules[alias] = target
            else:
                for item in filter(None, (i.strip() for i in listed.split(","))):
                    there, _, here = item.partition(" as ")
                    self.names[here or there] = (target, there)
                    if public:
                        self.handed_on.append(here or there)
        self.scan(text.split("\n"))

    def scan(self, lines):
        """Declarations, each to the next one of its depth or less."""
        starts = []
        for k, line in enumerate(lines):
            m = DECLARED.match(line)
            if m and not line.lstrip().startswith("--"):
                inside = [s for s in starts if s[1] < len(m.group(1)) and s[3]]
                if inside and inside[-1][3] == "body" and not m.group(2) and not m.group(3):
                    continue  # a field or a local declaration
                starts.append((k, len(m.group(1)), m.group(4), "body", (m.group(2) + (m.group(3) or "")).replace("pub ", "").strip()))
            elif re.match(r"^ *module _", line):
                starts.append((k, len(line) - len(line.lstrip()), None, None, ""))
        ends = {}
        for n, (k, depth, name, _, kind) in enumerate(starts):
            end = next((j for j in range(k + 1, len(lines)) if lines[j].strip() and not lines[j].lstrip().startswith("--") and len(lines[j]) - len(lines[j].lstrip()) <= depth and (DECLARED.match(lines[j]) or re.match(r"^ *(module _|use |pub use )", lines[j]) or (len(lines[j]) - len(lines[j].lstrip()) < depth))), len(lines))
            ends[n] = end
            if name and name not in self.declared:
                self.declared[name] = Declared((self.crate, self.place), name, kind, k + 1, lines[k:end])


def page_of(module):
    """The file that a module's name means, below crates/; nothing for declared types and the kit's own."""
    m = re.match(r"Rattle\.(?!std\.)(\w+)\.(specs|proofs)((?:\.\w+)+)$", module)
    if not m or m.group(3).startswith(".declared"):
        return None
    return m.group(1), m.group(2) + m.group(3).replace(".", "/")


@functools.lru_cache(maxsize=None)
def page(place):
    crate, file = place
    path = TOP / "crates" / crate / (file + ".antt")
    return Page(crate, file, path.read_text(encoding="utf-8")) if path.exists() else None


def resolved(at, word):
    """The declaration that a word of a page means."""
    p = page(at)
    if p is None:
        return None
    head, dot, rest = word.partition(".")
    if dot and head in p.modules and rest:
        return found(p.modules[head], rest.split(".")[0])
    return found(at, head) or (found(at, word) if dot else None)


def found(at, name):
    p = page(at)
    if p is None:
        return None
    if name in p.declared:
        return p.declared[name]
    if name in p.names:
        target, there = p.names[name]
        return found(target, there) if target != at else None
    return None


def reached(roots):
    """All declarations that these reach."""
    seen, todo = {}, list(roots)
    while todo:
        d = todo.pop()
        if d is None or (d.place, d.name) in seen:
            continue
        seen[d.place, d.name] = d
        for word in set(WORD.findall(d.read())):
            for part in {word, word.lstrip(".")}:
                other = resolved(d.place, part)
                if other is not None:
                    todo.append(other)
    return seen


def contract_roots(crate):
    """What the public contracts of a crate name."""
    for call in calls.calls_of(TOP, crate):
        for name, place in call.definitions.items():
            home, _, file = place.partition("/")
            d = found((home, file), name)
            if d is not None:
                yield d


def theorem_roots():
    """The theorems that PROMISES names."""
    for crate, place, names in calls.CITED.findall((TOP / "docs" / "PROMISES.md").read_text(encoding="utf-8")):
        for name in filter(None, re.split(r", ", names)) if place != "must-fail" else ():
            d = found((crate, place), name)
            if d is not None:
                yield d


def everything():
    crates = [name for name, _ in calls.crates(TOP)]
    return reached([d for c in crates for d in contract_roots(c)] + list(theorem_roots()))


def by_crate(seen):
    rows = collections.defaultdict(list)
    for (place, _), d in seen.items():
        rows[place[0]].append(d)
    return rows


def written():
    """The page."""
    seen = everything()
    definitions = {k: d for k, d in seen.items() if d.definition}
    theorems = {k: d for k, d in seen.items() if not d.definition}
    lines = sum(d.size() for d in definitions.values())
    out = ["# What must be believed", "", "Made by `tools/believe.py` and not by hand: the definitions that the public contracts and the theorems of [PROMISES.md](PROMISES.md) reach, and those that these reach, to the end. What stands",
           "below `specs/` beside them is lemmas and what only inner contracts name.", "",
           f"**{lines:,} lines** in {len(definitions):,} definitions; {len(theorems):,} theorems are believed by their types.", "",
           "| A reader of one law alone | definitions | lines |", "|---|---|---|"]
    for law in LAWS:
        own = {k: d for k, d in reached(contract_roots(law)).items() if d.definition}
        mine = [d for (place, _), d in own.items() if place[0] == law]
        out.append(f"| `{law}` | {len(own)}, of them {len(mine)} its own | {sum(d.size() for d in own.values())}, of them {sum(d.size() for d in mine)} its own |")
    out += ["", "| Crate | definitions | lines | pages |", "|---|---|---|---|"]
    rows = by_crate(definitions)
    for name, _ in calls.crates(TOP):
        if rows[name]:
            pages = collections.Counter()
            for d in rows[name]:
                pages[d.place[1].split("/", 1)[1]] += d.size()
            told = ", ".join(f"{p} {n}" for p, n in sorted(pages.items()))
            out.append(f"| `{name}` | {len(rows[name])} | {sum(d.size() for d in rows[name])} | {told} |")
    return "\n".join(out) + "\n"


def pages():
    """Each page below specs/, with its crate."""
    for name, _ in calls.crates(TOP):
        for path in sorted((TOP / "crates" / name / "specs").rglob("*.antt")):
            yield name, page((name, str(path.relative_to(TOP / "crates" / name))[:-5]))


def proved(p):
    """The lemmas of a page: what is no definition, nor a field of one."""
    inside = [range(d.first + 1, d.first + len(d.lines)) for d in p.declared.values() if d.definition]
    return [d for d in p.declared.values() if not d.definition and not any(d.first in r for r in inside)]


def lemmas():
    """What stands below specs/ and is not reached, with its lines: definitions, and lemmas."""
    seen, inner, rest = everything(), collections.Counter(), collections.Counter()
    for name, p in pages():
        rest[name] += sum(d.size() for d in proved(p))
        inner[name] += sum(d.size() for d in p.declared.values() if d.definition and (d.place, d.name) not in seen)
    return inner, rest


def main():
    about = argparse.ArgumentParser(description=__doc__, formatter_class=argparse.RawDescriptionHelpFormatter)
    about.add_argument("--check", action="store_true")
    about.add_argument("--of")
    about.add_argument("--lemmas", action="store_true")
    args = about.parse_args()
    if args.of:
        for (place, name), d in sorted(reached(contract_roots(args.of)).items()):
            print(f"{place[0]}/{place[1]}: {name} ({d.size()} lines{'' if d.definition else ', a theorem'})")
        return 0
    if args.lemmas:
        inner, rest = lemmas()
        for name in sorted(inner, key=lambda name: -inner[name] - rest[name]):
            if inner[name] or rest[name]:
                print(f"{name}: {inner[name]} lines of definitions, {rest[name]} of lemmas")
        return 0
    if args.check:
        told = [None if PAGE.exists() and PAGE.read_text(encoding="utf-8") == written() else "docs/BELIEVE.md is stale: tools/believe.py makes it"]
        for name, p in pages():
            found_here = [d.name for d in proved(p)] if f"{name}/{p.place}" not in CARRIED else []
            told.append(f"{name}/{p.place}: {', '.join(found_here)}: a lemma stands below proofs/" if found_here else None)
        failed = list(filter(None, told))
        print("\n".join([*failed, f"{len(told) - len(failed)} passed, {len(failed)} failed"]))
        return 1 if failed else 0
    PAGE.write_text(written(), encoding="utf-8")
    return 0


if __name__ == "__main__":
    sys.exit(main())
