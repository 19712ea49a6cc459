#!/usr/bin/env python3
"""Makes docs/SPEED.md and docs/speed.svg from what beside/speed --page has measured.

  beside/page.py WORK       WORK holds speed.tsv and libours.a
"""
import pathlib
import platform
import subprocess
import sys

BYTES_BEFORE = 131_252
WAYS = ["Rust's `parallel`", "Python's threads"]
DOCS = pathlib.Path(__file__).resolve().parent.parent / "docs"
LAWS = [("snow", "Snow"), ("rankine", "Rankine"), ("drucker_prager", "Drucker-Prager"), ("nacc", "NACC")]
TITLES = dict(LAWS)
TARGET = 1.2

HEAD = """# Speed

Made by `beside/speed --page` and not by hand: ours beside the Rust in one run on one machine. Instructions are counted (callgrind) and stay; times sway
with the machine's load, {load} here. {processor}. [beside/README.md](../beside/README.md) says what is timed.{other}

**The fair rival** is the Rust less its SVD with the duties of ours around each update: 1 over parameters and all 37 floats, 11, the record put back where a result
isn't finite, the determinant of the new F stored, answers and counts written (`beside/timing/src/fair.rs`). The untouched Rust tests nothing.
It is timed twice: with the processor's root, and with ours, since the office asks for a root worked one digit at a time and names no time for it. The second tells what
ours costs apart from that; the target, 1.2 in time and instructions, is of it.

![ours over the fair rival](speed.svg)
"""

LIMITS = """
## What limits the rest
- **The root by digits.** 54 binary digits, three steps of the processor each, no division, no multiplication, no table; NACC takes two to three roots a record on average here and eight on its surface, Drucker-Prager and Rankine up to one. The two tables of the laws differ by it.
- **Waiting.** A record's logarithms, return, exponentials, F and determinant follow each other. A load that takes bytes of two recent stores is held until both have left the processor, and so are the records behind it: `beside/waits` lists those of each law.
- std's logarithm and exponential multiply and add in one instruction where the processor has it; ours are for plain x86-64.
- **What the rival leaves out**: the ranges and NaNs inside an update, whether a record is untouched, the new sigma.
- **Factors**: the check is exact over whole numbers, nalgebra's SVD is not checked.
"""


def read(file):
    rows, grown, hosts, night, load = {}, [], {}, {}, "unknown"
    for line in file.read_text().splitlines():
        words = line.split("\t")
        if words[0] == "load":
            load = words[1]
        elif words[0] == "hosts":
            hosts.setdefault((words[2], int(words[3])), {})[words[1]] = float(words[4])
        elif words[0] == "night":
            night.setdefault(int(words[2]), {})[words[1]] = tuple(map(float, words[3:]))
        elif words[0] == "grown":
            grown.append((words[1], int(words[2]), int(words[3]), float(words[4]), float(words[5])))
        else:
            number = [None if w == "-" else float(w) for w in words[2:4]]
            rows.setdefault(words[0], {})[words[1]] = number
    return rows, grown, hosts, night, load


def over(a, b, places=2):
    return "left out" if a is None or b is None else f"{a / b:.{places}f}"


def figure(x, places=0):
    return "left out" if x is None else f"{x:,.{places}f}"


def table(heads, lines):
    out = ["| " + " | ".join(heads) + " |", "|" + "---|" * len(heads)]
    return "\n".join(out + ["| " + " | ".join(line) + " |" for line in lines]) + "\n"


def beside(rows, name, other):
    ours, theirs = rows[name]["ours"], rows[name].get(other, [None, None])
    return [figure(ours[0]), figure(theirs[0]), over(ours[0], theirs[0]), figure(ours[1]), figure(theirs[1]), over(ours[1], theirs[1])]


def heads(other):
    return ["ns: ours", other, "ours over it", "instructions: ours", other, "ours over it"]


def laws(rows):
    for key, title in LAWS:
        row = rows[f"{key}, 4096"]
        yield [title, *beside(rows, f"{key}, 4096", "fair"), over(row["ours"][0], row.get("Rust", [None])[0])]


def rooted(rows):
    """The same beside the rival with our root, which build 4 times together with ours once more."""
    for key, title in LAWS:
        row = rows[f"{key}, 4096"]
        again = {"again": {"ours": row["ours, again"], "fair": row["our root"]}}
        yield [title, *beside(again, "again", "fair"), f"{TARGET}"]


def principal(row):
    """What the stress with its verdict takes more than the stress alone, beside nalgebra's principal values of that stress."""
    ours = [None if None in (a, b) else a - b for a, b in zip(row["ours"], row["stress"])]
    rows = {"principal": {"ours": ours, "nalgebra": row["nalgebra"]}}
    return ["stress and verdict less the stress", *beside(rows, "principal", "nalgebra")]


def first_factored(rows):
    for key, title in LAWS:
        yield [title, *beside(rows, f"factored {key}, 4096", "Rust")]
    active = next(name for name in rows if name.startswith("factored drucker_prager, active"))
    yield ["Drucker-Prager, the active alone", *beside(rows, active, "Rust")]


def by_hosts(hosts):
    for (law, count), speeds in hosts.items():
        cells = [f"{speeds[way] / 1e6:.2f}" if way in speeds else "left out" for way in WAYS]
        yield [TITLES[law], f"{count:,}", *cells]


NIGHT_WAYS = ["tools/night", "plain script", "copy"]


def nights(night):
    """A row a way: seconds, CPU seconds, the CPU of tools/night over it, and megabytes."""
    for count, ways in sorted(night.items()):
        for way in NIGHT_WAYS:
            figures = ways.get(way)
            ours = ways.get("tools/night")
            yield [f"{count:,}", way, *(["left out"] * 4 if figures is None else
                   [figure(figures[0], 1), figure(figures[1], 1), over(ours and ours[1], figures[1]), figure(figures[3])])]


def nights_told(night):
    if not night:
        return "Left out: it was not timed.\n"
    return table(["full sheets of 200 records", "by", "seconds", "CPU seconds", "CPU of tools/night over it", "MB of the largest process"], nights(night)) + (
        "\nWithout pictures. The plain script (`beside/plain_night`) works the same sheets by the Python package and writes the same answer files, and no page, report or table (target: 3). "
        "The copy reads and writes the sheets' bytes, on one processor. 10,000 sheets are to take at most 15 seconds on two processors.\n")


def growth(grown):
    for law, count, threads, ours, copied in grown:
        yield [TITLES[law], f"{count:,}", str(threads), f"{ours / 1e6:.2f}", f"{copied / 1e6:.1f}", f"{ours * 296 / 1e9:.2f}", f"{copied * 296 / 1e9:.1f}"]


def processor():
    for line in pathlib.Path("/proc/cpuinfo").read_text().splitlines():
        if line.startswith("model name"):
            return "Processor: " + line.split(":", 1)[1].strip()
    return "Processor: " + platform.machine()


def other_processor():
    """What is said where the library, which is for x86-64, was timed elsewhere."""
    if platform.machine() == "x86_64":
        return ""
    return (f"\n\nThe library is for x86-64. What is timed here is its own proved code, as the toolchain hands it to the compiler, compiled for {platform.machine()}: "
            "the ratios are of this processor, and the bytes at the end are too.")


def code_bytes(archive):
    told = subprocess.run(["size", "-t", archive], capture_output=True, text=True)
    return int(told.stdout.splitlines()[-1].split()[0]) if told.returncode == 0 else None


def picture(rows):
    """A pair of bars a law: ours over the fair rival with our root, in time and in instructions, and the target as a line."""
    parts, high = [], TARGET
    bars = []
    for key, title in LAWS:
        row = rows[f"{key}, 4096"]
        ratios = [None if None in (a, b) else a / b for a, b in zip(row["ours, again"], row["our root"])]
        bars.append((title, ratios))
        high = max([high] + [r for r in ratios if r is not None])
    scale, base = 200 / high, 240
    for k, (title, ratios) in enumerate(bars):
        left = 60 + 130 * k
        for n, (ratio, colour) in enumerate(zip(ratios, ["#2c6e9b", "#9bbcd1"])):
            if ratio is not None:
                tall = ratio * scale
                parts.append(f'<rect x="{left + 40 * n}" y="{base - tall:.1f}" width="36" height="{tall:.1f}" fill="{colour}"/>')
                parts.append(f'<text x="{left + 40 * n + 18}" y="{base - tall - 4:.1f}" text-anchor="middle">{ratio:.2f}</text>')
        y = base - TARGET * scale
        parts.append(f'<line x1="{left - 8}" x2="{left + 84}" y1="{y:.1f}" y2="{y:.1f}" stroke="#b03a2e" stroke-dasharray="5 3"/>')
        parts.append(f'<text x="{left + 38}" y="{base + 18}" text-anchor="middle">{title}</text>')
    legend = '<text x="60" y="285">ours over the fair rival with our root: time dark, instructions light, the target dashed</text>'
    body = "\n".join(parts + [f'<line x1="40" x2="580" y1="{base}" y2="{base}" stroke="#333"/>', legend])
    return f'<svg xmlns="http://www.w3.org/2000/svg" width="600" height="300" font-family="sans-serif" font-size="12">\n<rect width="600" height="300" fill="white"/>\n{body}\n</svg>\n'


def main():
    work = pathlib.Path(sys.argv[1])
    rows, grown, hosts, night, load = read(work / "speed.tsv")
    text = HEAD.format(load=load, processor=processor(), other=other_processor())
    text += "\n## A record of a law's pass, factors given, beside the fair rival with our root\n"
    text += table(["", *heads("fair"), "target"], rooted(rows))
    text += "\n## The same beside the fair rival with the processor's root\n"
    text += table(["", *heads("fair"), "ns over the untouched Rust's"], laws(rows))
    text += "\n## Factors worked here and checked, beside nalgebra's SVD, unchecked\n"
    text += table(["", *heads("nalgebra")], ([t, *beside(rows, f"factors of {k}, 4096", "nalgebra")] for k, t in LAWS))
    text += "\n## Principal values worked here and checked, beside nalgebra's, unchecked (target 2)\n"
    text += table(["", *heads("nalgebra")], [principal(rows["stress and verdict, 4096"])])
    text += "\n## A record of the pass that factors first, beside the untouched Rust's update (target 1.5)\n"
    text += table(["", *heads("Rust")], first_factored(rows))
    text += "\nOf Drucker-Prager's records that its flag leaves, a quarter, the Rust works no factors; ours writes them into every record. The last row is without those.\n"
    text += "\n## A call of an elementary function, beside std's\n"
    functions = [name for name, sides in rows.items() if "std" in sides]
    text += table(["", *heads("std")], ([f, *beside(rows, f, "std")] for f in functions))
    text += "\n## A record of a full sheet of 200\n"
    sheets = [name for name in rows if name.startswith(("read_sheet", "run_sheet"))]
    text += table(["", "ns", "instructions"], ([s, figure(rows[s]["ours"][0], 1), figure(rows[s]["ours"][1])] for s in sheets))
    text += "\n## How it grows: by the clock, the best of a few turns\n"
    text += table(["", "records", "threads", "million records a second", "copied, the same", "GB a second", "copied"], growth(grown))
    text += "\n## The same by the hosts' own ways, over all processors: million records a second\n"
    text += table(["", "records", *WAYS], by_hosts(hosts)) if hosts else "Left out: neither rayon nor numpy is there.\n"
    text += "\n## A night\n"
    text += nights_told(night)
    text += "\n## The library's code\n"
    text += f"{figure(code_bytes(work / 'libours.a'))} bytes (`size`); {BYTES_BEFORE:,} before the passes were made faster.\n"
    (DOCS / "SPEED.md").write_text(text + LIMITS)
    (DOCS / "speed.svg").write_text(picture(rows))
    print("beside: docs/SPEED.md and docs/speed.svg are made")


main()
