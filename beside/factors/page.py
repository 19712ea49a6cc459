#!/usr/bin/env python3
"""Writes the tables of docs/FACTORS.md, each between its two marks, from what the programs of `run` printed.

  page.py FOLDER PAGE

FOLDER has factors.txt, exact.txt, stresses.txt and, where nalgebra was at hand, values.txt; without it that table stays as it is.
"""
import pathlib
import re
import sys

ENTRY = "entry by entry"
GROUPS = [
    ("uniform from -1 to 1; each entry 2^-20, 1 or 2^20 in size; rows, or columns, 40 binades apart", range(1, 5)),
    ("rank one; rank two; nearly singular, values down to 2^-60", range(5, 8)),
    ("a rotation or reflection times a size; two values equal; values apart by 2^-1 to 2^-52", range(8, 11)),
    ("near the identity; whole numbers from -3 to 3; symmetric; skew; triangular; half of the entries 0", range(11, 17)),
    ("exponents -300 to 300; 900 to 1022; -1022 to -900", range(17, 20)),
    ("any bits that are finite", [20]),
    ("up to 2^52 units of 2^-1074, each entry's digits drawn", [21]),
    ("exponent 1023", [22]),
]


def read(path, what):
    """The rows that a program printed: family, words, numbers."""
    rows = [[cell.strip() for cell in line.split("|")] for line in path.read_text().splitlines() if line.startswith(what + " |")]
    return [(int(r[1]), r[2:]) for r in rows]


def grouped(rows):
    """The rows of family 0, one by one, then those of each group."""
    return [r for family, r in rows if family == 0], [(title, [r for family, r in rows if family in families]) for title, families in GROUPS]


def whole(n):
    return f"{n:,}"


def total(rows, place):
    return sum(int(r[place]) for r in rows)


def worst(rows, place, text="{:,.4f}"):
    return text.format(max(float(r[place]) for r in rows))


def table(head, rows):
    return ["| " + " | ".join(head) + " |", "|" + "---|" * len(head)] + ["| " + " | ".join(row) + " |" for row in rows]


def found(folder):
    of_f, of_identity = re.search(r"worst of F (\S+), of the identity (\S+) of", (folder / "exact.txt").read_text()).groups()
    first, groups = grouped(read(folder / "factors.txt", "factors"))

    def row(title, rows, distances=None):
        drawn, accepted = total(rows, 1), total(rows, 2)
        told = distances or ((worst(rows, 8), worst(rows, 9)) if accepted else ("", ""))
        return [title, whole(drawn), whole(accepted), whole(total(rows, 3)), whole(total(rows, 4)), whole(total(rows, 5)), whole(total(rows, 6)), *told]
    rows = [row(f"{ENTRY}, sizes 2^-20 to 2^20, exact", first[:1], (f"{float(of_f):.4f}", f"{float(of_identity):.4f}")), row("the same, more", first[1:])]
    rows += [row(title, group) for title, group in groups]
    return table(["Family", "Drawn", "Accepted", "14", "Other refusals", "Named", "Of these refused", "Worst of F", "Worst of the identity"], rows)


def stresses(folder):
    first, groups = grouped(read(folder / "stresses.txt", "stresses"))

    def row(title, law, phase, rows):
        return [title, law, phase, *(whole(total(rows, k)) for k in (3, 4, 7, 6))]
    rows = []
    for k, title in ((0, f"{ENTRY}, the 10,000 F"), (6, "the same, more")):
        rows += [row(title if n == 0 else "", r[1], r[2], [r]) for n, r in enumerate(first[k:k + 6])]
    rows += [row(title, "both", "all three", group) for title, group in groups]
    every = first + [r for _, group in groups for r in group]
    wrong, far, gave_up = (total(every, k) for k in (8, 9, 10))
    told = [f"Verdicts wrong: {whole(wrong)}. nalgebra's eigenvalues further than m / 2^37 from the third's: {whole(far)}; stresses on which it gave up: {whole(gave_up)}."]
    return table(["Family", "Law", "Phase", "Stresses asked", "Given", "Of these named", "14"], rows) + [""] + told


def values(folder):
    text = (folder / "values.txt").read_text()
    digits = re.search(r"long double has (\d+)", text)[1]
    first, groups = grouped(read(folder / "values.txt", "values"))

    def row(title, rows):
        if not total(rows, 2):
            return [title, "none", "", "", "", ""]
        return [title, whole(total(rows, 2)), whole(total(rows, 5)), *(worst(rows, k) for k in (6, 7, 8))]
    rows = [row(ENTRY, first)] + [row(title, group) for title, group in groups]
    every = first + [r for _, group in groups for r in group]
    told = [f"In all {whole(total(every, 2))} F are compared, and {whole(total(every, 5))} of them lie more than 1 apart. {whole(total(every, 3))} with m outside 2^-500 to 2^500 are left out, since their squares aren't floats, and "
            f"{whole(total(every, 4))} that the call refuses. A long double has {digits} binary digits on the machine of this run."]
    return table(["Family", "Compared", "More than 1 apart", "Ours from nalgebra's", "Ours from the third", "nalgebra's from the third"], rows) + [""] + told


def between(text, mark, lines):
    pattern = re.compile(rf"(<!-- made by beside/factors/run: {mark} -->\n).*?(<!-- end -->)", re.S)
    text, n = pattern.subn(lambda m: m[1] + "\n".join(lines) + "\n" + m[2], text)
    if n != 1:
        sys.exit(f"page.py: the page has {n} places for {mark}")
    return text


def main():
    folder, page = map(pathlib.Path, sys.argv[1:])
    text = page.read_text()
    for mark, make in (("found", found), ("stresses", stresses), ("values", values)):
        if mark != "values" or (folder / "values.txt").is_file():
            text = between(text, mark, make(folder))
    page.write_text(text)


main()
