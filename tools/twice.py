#!/usr/bin/env python3
"""Statements that stand twice: in a crate of two axes and, but for names, in its crate of three.

  tools/twice.py            lists them; the last line is 'N passed, M failed' (a crate is one), and the status is 1 on a failure
  tools/twice.py --lines    how many lines of specs/, proofs/ and src/ each of the crates has

What holds over the number of axes is proved once (document 02, ticket 13): two and three axes are instances of a statement over their number. A
crate fails where it has more equal statements than MOST says. A statement is a lemma's type or a definition with its body, under the parameters of
the modules around it; names of bound variables, of the crates and of the numbers 2 and 3 are levelled, and so is the statement's own name. In a
lemma the names of the axes are too (in_two, two_axes); a definition that names them, or hands 2 to one over n (`u_over 2`), is an instance, and equals
none of three. Functions' proofs (Answers.antt, Proof.antt) are left out: the code is a copy a type.
"""
import argparse
import pathlib
import re
import sys

HERE = pathlib.Path(__file__).resolve().parent.parent

# a crate of two axes: those of three that it could repeat
PAIRS = {
    "flat": ["tensor", "plasticity", "walk"],
    "flat_particles": ["record", "particles"],
    "flat_surface": ["rankine_surface"],
}
PAIRS |= {law.name.replace("plasticity", "flat"): [law.name] for law in sorted((HERE / "crates").glob("plasticity_*"))}

# and how many statements it repeats today, where it does
MOST = {
    # floats: `whole (widths n)` at 2, and at 3
    "flat_particles": 1,
}

WORD = r"[^\s(){}.,;«»]+"
DECLARED = re.compile(rf"^( *)((?:abbrev |unfoldable |pub )*)(record |data )?({WORD})((?: [({{].*)?) :(?: |$)(.*)$")
MODULE = re.compile(r"^( *)module _(.*)$")
BOUND = re.compile(r"[({]([^(){}:]+) : |λ \(?([^.:()]+)[.:]")
# the same thing in two axes and in three
LEVELLED = [
    (r"\bflat_(\w+)", r"\1"),
    (r"\bplasticity_(\w+)", r"\1"),
    (r"\.?\b(flat|walk|plasticity|tensor)\b", ""),
    (r"\b(pair|three)(?=\b|_)", "row"),
]
# and in a lemma
AXES = (r"\b(in_two|in_three|two_axes|three_axes)\b", "AXES")
# the numbers 2 and 3; in a definition not where they are handed to one over their number, as in `u_over 2`
NUMBERS = {True: (r"(?<!over )\b[23]\b", "n"), False: (r"\b[23]\b", "n")}


def statements(path):
    """(name, whether it is a definition, text) of each lemma and definition of a file; the text has the parameters of its modules before it."""
    lines = path.read_text().split("\n")
    modules, local, i = [], None, 0
    while i < len(lines):
        line = lines[i]
        depth = len(line) - len(line.lstrip())
        i += 1
        if not line.strip() or line.lstrip().startswith(("--", "use ", "pub use ", "unfolding ")):
            continue
        if local is not None and depth > local:
            continue
        local = None
        if line.strip() == "where":
            local = depth
            continue
        while modules and modules[-1][0] >= depth:
            modules.pop()
        opened = MODULE.match(line)
        if opened:
            words = opened[2]
            while not words.rstrip().endswith("where"):
                words += " " + lines[i].strip()
                i += 1
            modules.append((depth, words.rstrip()[:-len("where")]))
            continue
        found = DECLARED.match(line)
        if not found:
            continue
        marks, kind, name, params, text = found[2], found[3], found[4], found[5], found[6]
        while i < len(lines) and len(lines[i]) - len(lines[i].lstrip()) > depth + 2 and lines[i].strip():
            text += " " + lines[i].strip()
            i += 1
        body = []
        if kind or "abbrev" in marks or "unfoldable" in marks:
            while i < len(lines) and lines[i].strip():
                body.append(lines[i].strip())
                i += 1
        text = " ".join([words for _, words in modules] + [params, text])
        yield name, bool(body), " ".join([text] + body) if body else re.sub(*AXES, text)


def levelled(name, defined, text):
    """The statement with its names levelled."""
    text = re.sub(rf"(?<![^\s(){{}}]){re.escape(name)}(?![^\s(){{}}])", "IT", text)
    names = []
    for found in BOUND.finditer(text):
        names += [n for n in (found[1] or found[2]).split() if n not in names]
    for k, n in enumerate(names):
        text = re.sub(rf"(?<![^\s(){{}}.,]){re.escape(n)}(?![^\s(){{}}.,;])", f"v{k}", text)
    for was, now in [NUMBERS[defined]] + LEVELLED:
        text = re.sub(was, now, text)
    # a module's parameters have no arrow after them
    text = re.sub(r"(?<=[)}])\s*→\s*", " ", text)
    return re.sub(r"\s+", " ", text).strip()


def files(crate):
    for part in ("specs", "proofs"):
        for path in sorted((HERE / "crates" / crate / part).glob("*.antt")):
            if path.name != "Lib.antt":
                yield f"{crate}/{part}/{path.stem}", path


def table(crates):
    """levelled statement: where it stands"""
    found = {}
    for crate in crates:
        for place, path in files(crate):
            for name, defined, text in statements(path):
                found.setdefault(levelled(name, defined, text), f"{place}: {name}")
    return found


def count_lines():
    total = {}
    for crate in list(PAIRS) + sorted({c for cs in PAIRS.values() for c in cs}):
        counts = [sum(len(p.read_text().splitlines()) for p in (HERE / "crates" / crate / part).rglob("*") if p.suffix in (".antt", ".rt"))
                  for part in ("specs", "proofs", "src")]
        side = "two axes" if crate in PAIRS else "three axes"
        total[side] = [a + b for a, b in zip(total.get(side, [0, 0, 0]), counts)]
        print(f"{crate}: {counts[0]} specs, {counts[1]} proofs, {counts[2]} src")
    for side, counts in total.items():
        print(f"{side}: {counts[0]} specs, {counts[1]} proofs, {counts[2]} src")


def main(arguments):
    parser = argparse.ArgumentParser(description=__doc__, formatter_class=argparse.RawDescriptionHelpFormatter)
    parser.add_argument("--lines", action="store_true", help="count lines instead")
    if parser.parse_args(arguments).lines:
        count_lines()
        return 0
    failed, equal = 0, 0
    for crate, others in PAIRS.items():
        three = table(others)
        twice = [(place, three[text]) for text, place in table([crate]).items() if text in three]
        for here, there in twice:
            print(f"{here} = {there}")
        equal += len(twice)
        if len(twice) > MOST.get(crate, 0):
            print(f"{crate}: {len(twice)} statements stand twice, and {MOST.get(crate, 0)} did: state them over the number of axes")
            failed += 1
        elif len(twice) < MOST.get(crate, 0):
            print(f"{crate}: {len(twice)} statements stand twice: write it into MOST of tools/twice.py for {MOST.get(crate, 0)}")
    print(f"{equal} statements of two axes stand in three axes too")
    print(f"{len(PAIRS) - failed} passed, {failed} failed")
    return 1 if failed else 0


if __name__ == "__main__":
    sys.exit(main(sys.argv[1:]))
