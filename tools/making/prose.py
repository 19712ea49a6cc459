"""Holds the pages that are written by hand: what stands in a code span is there, a line shown as printed is printed, numbers of things are right, and
there are not more words than can be read before a landing; the records of runs in docs/landings have a limit of their own.

Words are counted as `wc -w` counts them, bars of tables, code and shown output too; only what stands between the marks of a command that makes it is left
out (`<!-- made by COMMAND .. -->` to `<!-- end -->`; in a man page the same as comments), and pages that are made whole.
"""
import functools
import os
import pathlib
import re
import struct

MADE_PAGES = ("docs/BELIEVE.md", "docs/CALLS.md", "docs/SPEED.md", "docs/TOOLS.md")
# What was moved, renamed, written anew and looked at again on the way to today's Rattle: they name what is gone, at whatever length.
MOVED = ("docs/PORT.md", "docs/DESIGN-PASS.md", "docs/LOOK-BACK.md")
# Pages of which only the length is held here.
BESIDE = ("beside/README.md", "beside/factors/README.md", "bindings/README.md", "bindings/python/README.md", "bindings/rust/README.md", "fuzz/README.md", "man/slope.1")
# Notes of their day, and what a user of an older version sees: they name what is gone.
HISTORY = ("CHANGELOG.md", "docs/LANDINGS.md")
MOST = {"README.md lines": 90, "docs/LANDINGS.md words": 6000, "all words": 25000, "docs/landings words": 6000}
SOURCES = ("crates", "bindings", "tools", "beside", "fuzz", "bin", "tests", "include", "packaging", "man", ".ci", "samples")
FILES = ("calls.toml", "crates.txt", "install.sh", "VERSION", ".gitignore")
TEXT = {".rt", ".antt", ".edit", ".rs", ".py", ".c", ".h", ".toml", ".lock", ".md", ".1", ".txt", ".in", ".cmake", ".pc", ".sh", ".hpp", ".cpp", ""}
# Of the Rust: what was left behind, and what only it calls so.
RUST = set(
    "ElasticitySoundSpeedTimestepBound ActiveTimestepBounds active_timestep_bounds min_componentwise_quadratic_solve Option bool powf serde cuda svd_unordered"
    " Matrix Real DIM abs b_e_n1".split()
)
# Names of versions before, where a page says what takes their place.
GONE = set("pasoletu_failed kirchhoff_stress_of".split())
# Programs and options of others, and words of a shell or of a language.
OTHERS = set("rt ssh alarm cargo pip cc mypy numpy nan inf sh PATH DESTDIR parallel rsync distributed qemu-user -ffast-math apt-get x86-64 crontab".split())

BLOCK = re.compile(r"<!-- (made by|held by) ([^\s:]+)[^\n]*?-->\n(.*?)<!-- end -->", re.S)
MADE = re.compile(r"^(<!-- |\.\\\" )made by [^\n]*\n.*?^\1end\b[^\n]*|<!-- made by [^\s:]+: \w+ -->[^\n]*?<!-- end -->", re.S | re.M)
FENCE = re.compile(r"^```([^\n]*)\n(.*?)^```$", re.M | re.S)
TRIED = re.compile(r"\brun$|\bprints$|\bpart of |\bof the night\b")
SPAN = re.compile(r"`([^`\n]+)`")
CITED = re.compile(r"`\w+/(?:(?:specs|proofs)/[\w/]+|must-fail)(?:: [^`]+)?`")
COUNT = re.compile(r"(<!-- count: (\w+) -->)(.*?)(<!-- -->)")
PRINTED = re.compile(r"^    ((?:\d+ (?:stored|untouched|refused|yielded|stayed|clamped|inside)\b.*)|particles \d+)$", re.M)
NAME = re.compile(r"[A-Za-z_][\w-]*")
TOLD = re.compile(r"\b(?:[a-z][a-z0-9]*(?:_[a-z0-9]+)+|[A-Z][A-Z0-9]*(?:_[A-Z0-9]+)+|[a-z]+[a-z0-9]*[A-Z]\w*|[A-Z][a-z0-9]+[A-Z]\w*)\b")


def pages(top):
    """The pages of the repository by name, but for those that are made whole."""
    named = ["README.md", "CONTRIBUTING.md", "CHANGELOG.md"] + sorted("docs/" + p.name for p in (top / "docs").glob("*.md"))
    return {name: (top / name).read_text() for name in named if name not in (*MADE_PAGES, *MOVED) and (top / name).exists()}


def kept(top):
    """Every page that is kept by hand."""
    return {**pages(top), **{name: (top / name).read_text() for name in BESIDE if (top / name).exists()}}


def words_in(text):
    """How many words of a page no command makes, as `wc -w` counts."""
    return len(MADE.sub("", text).split())


def words(top):
    return {name: words_in(text) for name, text in kept(top).items()}


def landing_words(top):
    """How many words the records of runs have, which aren't among the pages."""
    return sum(words_in(path.read_text()) for path in (top / "docs/landings").glob("*.md"))


def told_words(top):
    """The table of --words."""
    counted_words = words(top)
    for name, number in counted_words.items():
        yield "%6d %s" % (number, name)
    yield "%6d in all, of at most %d; docs/LANDINGS.md of at most %d; README.md has %d lines of at most %d" % (
        sum(counted_words.values()), MOST["all words"], MOST["docs/LANDINGS.md words"], lines_of_readme(top), MOST["README.md lines"])
    yield "%6d in docs/landings, of at most %d" % (landing_words(top), MOST["docs/landings words"])


def lines_of_readme(top):
    return len((top / "README.md").read_text().splitlines()) if (top / "README.md").exists() else 0


def length_faults(top):
    of = words(top)
    for what, number in (("README.md lines", lines_of_readme(top)), ("docs/LANDINGS.md words", of.get("docs/LANDINGS.md", 0)), ("all words", sum(of.values())),
                         ("docs/landings words", landing_words(top))):
        yield None if number <= MOST[what] else "%s kept by hand: %d, over %d (tools/calls.py --words)" % (what, number, MOST[what])


def held_faults(top):
    """A part that is marked as held names a test that reads its page, and one that is marked as made a command that is there."""
    for name, text in pages(top).items():
        for kind, by, _ in BLOCK.findall(text):
            reader = top / by
            if kind == "made by":
                yield None if reader.is_file() else "%s: %s, which is said to make a part of it, is not there" % (name, by)
                continue
            if kind == "held by" and not (reader.is_file() and name.rsplit("/")[-1].partition(".")[0] in reader.read_text()):
                yield "%s: %s, which is said to hold a part of it, does not read it" % (name, by)
            else:
                yield None


def link_faults(top):
    """Every link of a page, made or not, leads to a file."""
    for path in [top / "README.md", top / "CONTRIBUTING.md", top / "CHANGELOG.md", *sorted((top / "docs").glob("*.md")), *sorted((top / "docs/landings").glob("*.md"))]:
        for link in re.findall(r"\]\(([^)#\s]+)", path.read_text() if path.exists() else ""):
            if not re.match(r"[a-z]+:", link):
                yield None if (path.parent / link).exists() else "%s: the link to %s leads nowhere" % (path.relative_to(top), link)


# ---- names in code spans


@functools.lru_cache(maxsize=None)
def sources(top):
    """The text of each source by its path below the top: what is not a page, nor the test of this, which has wrong names."""
    found = {}
    for folder in SOURCES:
        for here, folders, names in os.walk(top / folder, followlinks=True):
            folders[:] = [name for name in folders if name not in ("target", "out", "corpus", "__pycache__")]
            for path in (pathlib.Path(here, name) for name in names if name != "test_table.py"):
                if path.suffix in TEXT and path.stat().st_size < 2000000:
                    try:
                        found[str(path.relative_to(top))] = path.read_text()
                    except UnicodeDecodeError:
                        pass
    for name in FILES:
        if (top / name).is_file():
            found[name] = (top / name).read_text()
    return found


@functools.lru_cache(maxsize=None)
def known(top):
    """Every name that a source has."""
    names = set()
    for path, text in sources(top).items():
        names.update(re.findall(r"[A-Za-z_][\w-]*|--[\w-]+", text))
        names.update(re.findall(r"[A-Za-z_]\w*", text))
        names.update(part for part in re.split(r"[/.]", path))
        names.add(path.rsplit("/", 1)[-1])
    return names | RUST | GONE | OTHERS


@functools.lru_cache(maxsize=None)
def crate_text(top, crate):
    return "\n".join(text for path, text in sources(top).items() if path.startswith("crates/%s/src/" % crate))


def declared_in(text, name):
    return re.search(r"\b(?:fn|struct|enum|const|mod|type|trait) %s\b|^ *%s(?:,|\(|$)" % (re.escape(name), re.escape(name)), text, re.M)


def path_fault(top, span):
    """Of a span that begins with a path below the top, or below crates/."""
    first, *rest = span.split()
    path = re.split(r"[:=,;]", first)[0].rstrip("/")
    if re.search(r"(?:^|/)[A-Z]{2,}(?:$|/|\.(?!md))", path):
        return None  # a placeholder
    head = path.lstrip("./").split("/")[0] if not path.startswith(".ci") else ".ci"
    for base in (top, top / "crates"):
        if head and (base / head).exists() and "/" in path.strip("./"):
            there = any(base.glob(path.lstrip("./") if head != ".ci" else path)) or any(base.glob(path.lstrip("./") + ".*"))
            if not there:
                return "there is no %s" % path
            file = base / path
            text = file.read_text(errors="replace") if file.is_file() else ""
            for option in (w.partition("=")[0] for w in rest if w.startswith("--")):
                if text and option not in text and option not in known(top):
                    return "%s has no option %s" % (path, option)
            return None
    return None


def called_fault(top, crates, span):
    """Of a span with `::` in it."""
    for path in re.findall(r"\w+(?:::\w+)+", span):
        first, *_, last = path.split("::")
        if first in crates:
            if not declared_in(crate_text(top, first), last):
                return "crates/%s declares no %s" % (first, last)
        elif not {first, last} <= known(top):
            return "no source has %s" % path
    return None


def span_fault(top, crates, span):
    """What a code span names and isn't there, or nothing."""
    fault = path_fault(top, span) or called_fault(top, crates, span)
    if fault:
        return fault
    if NAME.fullmatch(span) and len(span) > 1:
        return None if span in known(top) else "no source has `%s`" % span
    for name in TOLD.findall(span):
        if name not in known(top):
            return "no source has `%s`" % name
    return None


def name_faults(top, crates):
    """For each code span of each page, its fault or nothing."""
    for page, text in pages(top).items():
        if page in HISTORY:
            continue
        tried = " ".join(m.group(2) for m in FENCE.finditer(text) if TRIED.search(m.group(1)))
        for span in SPAN.findall(CITED.sub("", FENCE.sub("", text))):
            fault = None if span in tried else span_fault(top, crates, span)
            yield fault and "%s: %s" % (page, fault)


def request_faults(top):
    """Every ticket that a source names is one of docs/REQUESTS.md's, and these are numbered without a gap."""
    told = [int(n) for n in re.findall(r"^(\d+)\. \*\*", pages(top).get("docs/REQUESTS.md", ""), re.M)]
    yield None if told and told == list(range(1, len(told) + 1)) else "docs/REQUESTS.md's numbers are not 1 and on: %s" % told
    for path, text in sources(top).items():
        if path.startswith("crates/"):
            for number in set(re.findall(r"\b[Tt]icket (\d+)", text)):
                yield None if int(number) in told else "%s names ticket %s, which docs/REQUESTS.md does not tell" % (path, number)


# ---- shown lines


@functools.lru_cache(maxsize=None)
def printed(top):
    paths = [*sorted((top / "crates").glob("*/stdout")), *sorted((top / "tests" / "sheets").glob("*.why"))]
    return {line for path in paths for line in path.read_text(errors="replace").splitlines()}


SHORT = re.compile(r"(\S+) \(([0-9a-f]{16})\)")


def printed_faults(top):
    """A line that a page shows as the program's stands in what a program of the gate prints; the command puts a number in short before its bits."""
    for page, text in pages(top).items():
        for line in PRINTED.findall(text):
            right = all("%.3g" % struct.unpack(">d", bytes.fromhex(bits))[0] == short for short, bits in SHORT.findall(line))
            yield None if right and SHORT.sub(r"\2", line) in printed(top) else "%s: no program of the gate prints %r" % (page, line)


# ---- numbers of things


def counts(top, crates, c_calls):
    """Numbers that pages tell, by name, as they are written."""
    replayed = re.search(r"replayed (\d+)", (top / "tests/replay/stdout").read_text()) if (top / "tests/replay/stdout").exists() else None
    return {
        "replayed": "{:,}".format(int(replayed.group(1))) if replayed else "?",
        "crates": str(len(crates)),
        "program": str(len(closure(crates, "slope"))),
        "calls": str(c_calls),
    }


def closure(crates, name):
    seen, todo = set(), [name]
    while todo:
        crate = todo.pop()
        if crate in crates and crate not in seen:
            seen.add(crate)
            todo += crates[crate]
    return seen


def counted(text, numbers):
    """A page with its numbers of things written anew."""
    return COUNT.sub(lambda m: m.group(1) + numbers.get(m.group(2), "?") + m.group(4), text)


def count_faults(top, numbers):
    for page, text in pages(top).items():
        for _, name, told, _ in COUNT.findall(text):
            if name not in numbers:
                yield "%s: there is no number %r: name it in counts of tools/making/prose.py" % (page, name)
            else:
                yield None if told == numbers[name] else "%s tells %s (%s), and it is %s: run tools/calls.py" % (page, told, name, numbers[name])
