"""What a night of sheets came to: the answers counted as they come, the summary as a CSV, and the page for the morning. The words are those of
calls.toml. Of a night of any length no more is held than the page shows."""
import base64
import bisect
import collections
import csv
import html
import io
import re
import time
from typing import NamedTuple

from night_sheets import LISTED, TABLE, First, turned_words

EMBEDDED = 100  # pictures that the page holds itself; it leads to the files of the others
NAMED = 6  # refused particles of a sheet that the page names
SHOWN = 100  # rows of a table that stand open; up to LISTED are folded away below them
PARTS = 100  # parts of the report that the page folds away; more stand in report.txt alone
NUMBERS = sorted(TABLE.REFUSALS)


def badness(result):
    """Worst first: no answer, the whole sheet refused, many particles refused, a larger part of them; then by name."""
    share = result.refused_particles / max(1, result.particles)
    return result.answered, result.sheet_refused is None, -result.refused_particles, -share, result.sheet.name


class Worst:
    """The worst of many results, the worst first; all where no number is given."""

    def __init__(self, most=None):
        self.most, self.held = most, []

    def add(self, r):
        key = badness(r)
        if self.most is None or len(self.held) < self.most or (self.most and key < self.held[-1][0]):
            bisect.insort(self.held, (key, r))
            if self.most is not None:
                del self.held[self.most:]

    def results(self):
        return [r for _, r in self.held]


class Totals(NamedTuple):
    sheets: int
    unanswered: int
    sheets_refused: collections.Counter
    particles: int
    untouched: int
    stored: int
    refused: collections.Counter
    sheets_with: collections.Counter  # sheets with particles refused by each number
    turned: int  # particles that were worked although they came turned inside out

    def status(self):
        if self.unanswered:
            return 1
        return 3 if self.refused or self.sheets_refused else 0

    def in_words(self):
        words = "%s, %s: %s and %s refused" % (counted(self.sheets, "sheet"), counted(self.particles, "particle"),
                                               counted(sum(self.sheets_refused.values()), "sheet"), counted(sum(self.refused.values()), "particle"))
        return words + ("; %s without an answer: run this again" % counted(self.unanswered, "sheet") if self.unanswered else "")

    @property
    def not_worked(self):
        return self.unanswered + sum(self.sheets_refused.values())


class Folder:
    """What the sheets of a folder, an outpost's, came to; of those with nothing refused also by themselves."""

    __slots__ = ("sheets", "unanswered", "sheets_refused", "particles", "refused", "well", "well_particles", "untouched", "stored")

    def __init__(self):
        for name in self.__slots__:
            setattr(self, name, 0)

    def add(self, r):
        self.sheets += 1
        self.unanswered += not r.answered
        self.sheets_refused += r.sheet_refused is not None
        self.particles += r.particles
        self.refused += r.refused_particles
        if r.well:
            self.well += 1
            self.well_particles += r.particles
            self.untouched += r.untouched
            self.stored += r.stored

    @property
    def badness(self):
        return self.unanswered, self.sheets_refused, self.refused


class Counting:
    """A night's results, counted as they come in the order of their names. `pictures`: how many of the worst sheets are to be drawn; all where it is none."""

    def __init__(self, pictures=0):
        self.sheets = self.unanswered = self.particles = self.untouched = self.stored = self.turned_particles = self.before = 0
        self.sheets_refused, self.refused, self.sheets_with = collections.Counter(), collections.Counter(), collections.Counter()
        self.bad, self.worst, self.drawable, self.every_picture = 0, Worst(LISTED), Worst(pictures), pictures is None
        self.well, self.turned, self.lost, self.folders = First(), First(), First(), collections.defaultdict(Folder)

    def add(self, r):
        self.sheets += 1
        self.unanswered += not r.answered
        self.particles += r.particles
        self.untouched += r.untouched
        self.stored += r.stored
        self.before += r.before
        if r.sheet_refused:
            self.sheets_refused[r.sheet_refused] += 1
        for number, particles in r.refused.items():
            self.refused[number] += len(particles)
            self.sheets_with[number] += 1
        self.turned_particles += len(r.turned)
        for one in r.turned:
            self.turned.add((r.sheet.name, turned_words(*one)))
        if not r.answered:
            self.lost.add((r.sheet.name, r.why))
        self.folders[r.sheet.name.rpartition("/")[0]].add(r)
        if r.well:
            self.well.add(r)
        else:
            self.bad += 1
            self.worst.add(r)
        if r.particles and (self.every_picture or r.refused):
            self.drawable.add(r)

    @property
    def totals(self):
        return Totals(self.sheets, self.unanswered, self.sheets_refused, self.particles, self.untouched, self.stored, self.refused, self.sheets_with, self.turned_particles)


def counted(n, what):
    return "%s %s%s" % (grouped(n), what, "" if n == 1 else "s")


def several(n, what):
    """As counted, behind `the`: of one no number."""
    return what if n == 1 else counted(n, what)


def grouped(n):
    return "{:,}".format(n)


class Summary:
    """The CSV, written as the results come. `refused_N` counts particles; `sheet_refused` is the number by which the whole sheet was refused. A sheet
    without an answer has empty cells."""

    def __init__(self, file):
        self.lines = csv.writer(file, lineterminator="\n")
        self.lines.writerow(["sheet", "model", "particles", "untouched", "stored", *("refused_%d" % n for n in NUMBERS), "sheet_refused", "answer"])

    def add(self, r):
        counts = [r.particles, r.untouched, r.stored, *(len(r.refused.get(n, ())) for n in NUMBERS), r.sheet_refused or "", r.sheet.answer]
        model = r.sheet.model
        self.lines.writerow([r.sheet.name, model.name if model else "", *(counts if r.answered else [""] * len(counts))])


ZONE_LINE = re.compile(r"\s*([0-9]+)\s*[\s,]\s*(\S.*?)\s*")


def zones_of(text):
    """The zone of each sheet: a line each, a zone number and the sheet's name, with blanks, a tab or a comma between them."""
    held = {}
    for k, line in enumerate(text.splitlines(), 1):
        if not line.strip():
            continue
        told = ZONE_LINE.fullmatch(line)
        if not told:
            raise ValueError("line %d is no zone number and a sheet's name: %s" % (k, line))
        zone, name = int(told.group(1)), told.group(2)
        if len(name) > 1 and name[0] == name[-1] == '"':
            name = name[1:-1].replace('""', '"')
        if held.setdefault(name, zone) != zone:
            raise ValueError("line %d: %s stands in zone %d already" % (k, name, held[name]))
    return held


NOT_JUDGED = "not judged"


class ByZone:
    """The table for the phone: a line a zone, with what its sheets came to. A sheet that is in no zone stands under an empty one;
    `not_worked` are sheets refused whole or without an answer, `never_came` those that are not there; `failed` is told where it was judged."""

    def __init__(self, zones, judged=False):
        self.left, self.judged = dict(zones), judged
        self.rows = collections.defaultdict(lambda: [0] * 8)

    def add(self, r):
        row = self.rows[self.left.pop(r.sheet.name, "")]
        for k, n in enumerate([1, r.particles, r.untouched, r.stored, r.refused_particles, r.failed, 0] if r.worked else [1, 0, 0, 0, 0, 0, 1]):
            row[k] += n

    def never_came(self):
        """The sheets of the zones that are not there: zone and name."""
        return sorted((zone, name) for name, zone in self.left.items())

    def table(self):
        for zone, _ in self.never_came():
            self.rows[zone][7] += 1
        out = io.StringIO()
        lines = csv.writer(out, lineterminator="\n")
        lines.writerow(["zone", "sheets", "particles", "untouched", "stored", "refused", "failed", "not_worked", "never_came"])
        for zone in sorted(self.rows, key=lambda z: (z == "", z)):
            *counts, failed, not_worked, missing = self.rows[zone]
            lines.writerow([zone, *counts, failed if self.judged else NOT_JUDGED, not_worked, missing])
        return out.getvalue()


# ---- the page

STYLE = """
:root { color-scheme: light dark; --ink: #1a1a1a; --paper: #ffffff; --faint: #5c5c5c; --line: #d4d4d4; --bad: #b00020; --good: #1b6e3c; --wait: #8a5a00; --soft: #f4f4f4 }
@media (prefers-color-scheme: dark) { :root { --ink: #ececec; --paper: #161616; --faint: #a8a8a8; --line: #3c3c3c; --bad: #ff8a80; --good: #7fd6a0; --wait: #f0c060; --soft: #222222 } }
body { margin: 0 auto; max-width: 76rem; padding: 1.5rem; font: 16px/1.5 system-ui, "DejaVu Sans", sans-serif; color: var(--ink); background: var(--paper) }
h1 { font-size: 1.2rem; margin: 0; color: var(--faint); font-weight: normal }
h2 { font-size: 1.25rem; margin: 2rem 0 .5rem }
#verdict { font-size: 2rem; font-weight: bold; line-height: 1.25; margin: .25rem 0 .5rem }
#verdict time { display: block; font-size: 1.2rem }
#rest { font-size: 1.2rem; margin: 0 0 1.25rem }
.bad { color: var(--bad) } .good { color: var(--good) } .wait { color: var(--wait) } .faint { color: var(--faint) }
dl { display: flex; flex-wrap: wrap; gap: .75rem; margin: 0 }
dl div { background: var(--soft); border-radius: .4rem; padding: .5rem 1rem; min-width: 7rem }
dt { color: var(--faint); font-size: .9rem } dd { margin: 0; font-size: 1.5rem; font-variant-numeric: tabular-nums }
table { border-collapse: collapse; width: 100% }
th, td { text-align: left; padding: .35rem .75rem .35rem 0; border-bottom: 1px solid var(--line); vertical-align: top }
th { font-weight: 600; border-bottom-width: 2px } td.n, th.n { text-align: right; font-variant-numeric: tabular-nums }
td.name, li { overflow-wrap: anywhere } td.name { min-width: 19rem } th, td.short { white-space: nowrap }
.picture { display: none; position: fixed; inset: 0; overflow: auto; background: rgba(0, 0, 0, .8); text-align: center; padding: 1rem }
.picture:target { display: block } .picture img { max-width: 100%; background: white }
pre { overflow-x: auto; font-variant-numeric: tabular-nums }
summary { cursor: pointer; font-size: 1.1rem; margin-top: 2rem }
@media (max-width: 48rem) {
  body { padding: 1rem } #verdict { font-size: 1.5rem } dl div { min-width: 5rem; padding: .4rem .7rem }
  table, tbody, tr { display: block } thead { display: none }
  tr { border-bottom: 1px solid var(--line); padding: .5rem 0 } td, td.n { display: flex; gap: .5rem; border: 0; padding: .1rem 0; text-align: left }
  td::before { content: attr(data-head); flex: 0 0 7rem; color: var(--faint); font-weight: normal } td.name { font-weight: 600; min-width: 0 } td.short { white-space: normal } td.zero { display: none }
}
"""


def cell(text, kind=""):
    return "<td%s>%s</td>" % (' class="%s"' % kind if kind else "", text)


def shown(name):
    """A file's name as it can be read, also where it holds a line end or bytes that are no text."""
    return html.escape(printable(name))


def printable(name):
    return name if name.isprintable() else repr(name)


def table(identity, heads, rows):
    """Heads that begin with # are those of numbers. On a narrow screen each cell stands under its head."""
    head = "".join('<th scope="col"%s>%s</th>' % (' class="n"' if h.startswith("#") else "", h.lstrip("#")) for h in heads)
    body = "\n".join("<tr>%s</tr>" % "".join(c.replace("<td", '<td data-head="%s"' % h.lstrip("#"), 1) for h, c in zip(heads, row)) for row in rows)
    return '<table id="%s"><thead><tr>%s</tr></thead><tbody>\n%s\n</tbody></table>' % (identity, head, body)


def now():
    return time.strftime("%A %d %B %Y, %H:%M")


def verdict_line(kind, when, words):
    return '<p id="verdict" class="%s"><time>%s:</time> %s</p>' % (kind, when, html.escape(words))


def verdict(t, passed, missing):
    bad = [counted(n, what) + " " + told for n, what, told in (
        (t.unanswered, "sheet", "without an answer"), (sum(t.sheets_refused.values()), "sheet", "refused"), (sum(t.refused.values()), "particle", "refused")) if n]
    over = "".join(", %s %s" % (counted(n, what), told) for n, what, told in (
        (t.turned, "particle", "turned inside out"), (missing.count, "sheet", "never came"), (passed.count, "file", "passed over")) if n)
    if not bad:
        return verdict_line("wait" if t.turned or missing.count else "good", now(), "%s: nothing was refused" % ("All that came is well" if missing.count else "All well") + over)
    return verdict_line("bad", now(), ", ".join(bad) + over)


def rest(t, missing):
    """Whether what is not refused may go out, in one sentence."""
    worked = t.sheets - t.not_worked
    if t.unanswered:
        return "Not all of it is worked: run the night again before anything goes out."
    if t.turned:
        return "Look first at the %s that came turned inside out and %s worked all the same; then the rest may go out." % (
            several(t.turned, "particle"), "was" if t.turned == 1 else "were")
    if not (t.refused or t.not_worked):
        return "All that came may go out; what never came is in none of these numbers." if missing.count else "All of it may go out."
    if t.particles == sum(t.refused.values()):
        return "Nothing may go out: every particle and every sheet is refused."
    without = ["the refused particles"] * bool(t.refused) + ["the %s refused whole" % several(t.not_worked, "sheet")] * bool(t.not_worked)
    return "The rest, %s of %s, may go out without %s: put no number in their place." % (
        counted(t.particles - sum(t.refused.values()), "particle"), counted(worked, "sheet"), " and ".join(without))


def figures(t):
    shown = (("sheets", t.sheets), ("sheets not worked", t.not_worked), ("particles", t.particles), ("untouched", t.untouched), ("stored", t.stored),
             ("refused", sum(t.refused.values())))
    left = '<p class="faint">The particles of the %s not worked are in none of these numbers.</p>' % several(t.not_worked, "sheet") if t.not_worked else ""
    return '<dl id="figures">%s</dl>%s' % ("".join("<div><dt>%s</dt><dd>%s</dd></div>" % (name, grouped(n)) for name, n in shown), left)


def folded(identity, heads, rows, more):
    """A table: the first rows open, those up to LISTED folded away below them, and a sentence where there are still more. `rows` is as many as there
    are in all, and the first of them."""
    count, first = rows
    if not count:
        return ""
    below = table(identity + "-more", heads, first[SHOWN:LISTED]) if len(first) > SHOWN else ""
    left = '<p class="faint">and %s more: %s</p>' % (grouped(count - LISTED), more) if count > LISTED else ""
    if below:
        below = "<details><summary>The next %s</summary>\n%s%s\n</details>" % (grouped(min(count, LISTED) - SHOWN), below, left)
    return table(identity, heads, first[:SHOWN]) + (below or left)


IN_SUMMARY = 'they stand in <a href="summary.csv">summary.csv</a>'


def folders(held):
    """A row for each folder, an outpost's, in which something is not well, the worst first; nothing where all sheets lie in one."""
    if len(held) < 2:
        return ""
    bad = sorted((name for name, f in held.items() if any(f.badness)), key=lambda name: ([-n for n in held[name].badness], name))
    rows = [[cell(shown(name or "."), "name"), *(cell(grouped(n), "n" if n else "n zero") for n in (f.sheets, f.unanswered, f.sheets_refused, f.particles, f.refused))]
            for name, f in ((name, held[name]) for name in bad[:LISTED])]
    listed = folded("folders", ["folder", "#sheets", "#without an answer", "#sheets refused", "#particles", "#refused"], (len(bad), rows), IN_SUMMARY)
    well = len(held) - len(bad)
    more = '<p class="faint">Nothing is refused in %s.</p>' % ("the other " + several(well, "folder") if bad else "any of the " + counted(well, "folder")) if well else ""
    return "<h2>By folder</h2>\n%s%s" % (listed, more)


def named_list(identity, title, entries):
    """Files with what is to be said of each."""
    if not entries.count:
        return ""
    items = ["<li>%s: %s</li>" % (shown(name), html.escape(why)) for name, why in entries.kept]
    left = '<p class="faint">and %s more</p>' % grouped(entries.count - len(items)) if entries.count > len(items) else ""
    below = items[SHOWN:]
    if below:
        left = "<details><summary>The next %s</summary>\n<ul>\n%s\n</ul>%s</details>" % (grouped(len(below)), "\n".join(below), left)
    return '<h2>%s</h2>\n<ul id="%s">\n%s\n</ul>%s' % (title, identity, "\n".join(items[:SHOWN]), left)


def reasons(t):
    """A row for each number that something was refused by."""
    for n in NUMBERS:
        for count, what, sheets in ((t.sheets_refused[n], "sheet", t.sheets_refused[n]), (t.refused[n], "particle", t.sheets_with[n])):
            if count:
                refusal = TABLE.REFUSALS[n]
                yield [cell(str(n), "n"), cell(counted(count, what), "short"), cell(grouped(sheets), "n"), cell(html.escape(refusal.what)), cell(html.escape(refusal.remedy))]


def named(number, particles):
    """The particles that are refused by a number, the first by their own."""
    more = len(particles) - NAMED
    return "by %d: particle%s %s%s" % (number, "s" if more > 1 - NAMED else "", ", ".join(map(str, particles[:NAMED])), " and %s more" % grouped(more) if more > 0 else "")


def why(r):
    """What is to be said of a sheet that is not well."""
    if not r.answered:
        ours = r.why.startswith("has no")  # and nothing that whoever sent it can mend
        return "%s: %s" % (html.escape(r.why), "run the night again; joblog beside this page tells what was worked where" if ours else "mend that or have it sent again, then run the night again")
    if r.sheet_refused:
        return "the sheet is refused by %d: %s" % (r.sheet_refused, html.escape(TABLE.REFUSALS[r.sheet_refused].what))
    if r.refused_particles == r.particles and len(r.refused) == 1:
        return "by %d: every particle, so look at the law's parameters first" % next(iter(r.refused))
    return "; ".join(named(n, r.refused[n]) for n in NUMBERS if n in r.refused)


def held(results, out):
    """The pictures that the page holds itself: the sheets' places in it by their file."""
    drawn = [r.sheet.picture for r in results if (out / r.sheet.picture).exists()]
    return {file: "picture-%d" % k for k, file in enumerate(dict.fromkeys(drawn[:EMBEDDED]), 1)}


def boxes(held_pictures, out):
    """A click on a picture, or the way back, closes it."""
    for file, place in held_pictures.items():
        data = base64.b64encode((out / file).read_bytes()).decode()
        yield '<a class="picture" id="%s" href="#" title="back"><img alt="%s" src="data:image/svg+xml;base64,%s"></a>' % (place, file, data)


class Rows:
    """The rows of the sheets, with ways to their pictures and answers."""

    def __init__(self, out, held_pictures):
        self.out, self.held = out, held_pictures

    def links(self, r):
        picture = r.sheet.picture
        if picture in self.held:
            yield '<a href="#%s">picture</a>' % self.held[picture]
        elif (self.out / picture).exists():
            yield '<a href="%s">picture</a>' % picture
        if r.answered:
            yield '<a href="%s">answer</a>' % r.sheet.answer

    def row(self, r, *more):
        law = r.sheet.model.title if r.sheet.model else "-" if r.sheet.number is None else "unknown"
        return [cell(shown(r.sheet.name), "name"), cell(law, "short"), cell(grouped(r.particles) if r.worked else "-", "n"), *more, cell(" ".join(self.links(r)), "short")]

    def worst(self, count, bad):
        rows = [self.row(r, cell(grouped(r.refused_particles) if r.worked else "all" if r.answered else "-", "n"), cell(why(r))) for r in bad]
        return "<h2>Sheets to look at, the worst first</h2>\n" + folded("worst", ["sheet", "law", "#particles", "#refused", "why", ""], (count, rows), IN_SUMMARY)

    def well(self, good, folders_held):
        """The sheets with nothing refused, folded away: each by itself, or by folder where they are many."""
        if good.count <= LISTED:
            rows = [self.row(r, cell(grouped(r.untouched), "n"), cell(grouped(r.stored), "n")) for r in good.kept]
            listed = table("well", ["sheet", "law", "#particles", "#untouched", "#stored", ""], rows)
        else:
            named = sorted(name for name, f in folders_held.items() if f.well)
            rows = [[cell(shown(name or "."), "name"), *(cell(grouped(n), "n") for n in (f.well, f.well_particles, f.untouched, f.stored))]
                    for name, f in ((name, folders_held[name]) for name in named[:LISTED])]
            listed = folded("well", ["folder", "#sheets", "#particles", "#untouched", "#stored"], (len(named), rows), IN_SUMMARY)
            listed += '<p class="faint">One by one %s.</p>' % IN_SUMMARY
        return "<details><summary>%s with nothing refused</summary>\n%s\n</details>" % (counted(good.count, "sheet"), listed)


def whole_numbers(pages, note):
    """The night in whole numbers: the total, then its parts, folded."""
    lines = First()
    for line in pages.lines_left_out():
        lines.add(line)
    yield '<h2>The night in whole numbers</h2>\n<pre id="report">%s%s</pre>' % (html.escape(pages.whole()), html.escape("".join(lines.kept)))
    if lines.count > len(lines.kept):
        yield '<p class="faint">and %s more that are in no table: they stand in <a href="report.txt">report.txt</a></p>' % counted(lines.count - len(lines.kept), "sheet")
    if note:
        yield '<p class="faint">%s</p>' % html.escape(note[0].upper() + note[1:])
    if 1 < pages.count <= PARTS:
        yield '<details><summary>Its %d parts</summary>\n<pre id="parts">%s</pre></details>' % (pages.count, html.escape("".join(pages.parts()).lstrip("\n")))
    elif pages.count > 1:
        yield '<p>Its %s parts stand in <a href="report.txt">report.txt</a>.</p>' % grouped(pages.count)


def document(parts):
    head = '<meta charset="utf-8"><meta name="viewport" content="width=device-width, initial-scale=1"><title>The night\'s sheets</title><style>%s</style>' % STYLE
    yield '<!DOCTYPE html>\n<html lang="en"><head>%s</head><body>\n' % head
    for part in parts:
        if part:
            yield part + "\n"
    yield "</body></html>\n"


def unfinished(kind, words, what_next):
    """The page of a night that has not come to its end, so that no earlier one is taken for it."""
    return document(["<h1>The night's sheets</h1>", verdict_line(kind, now(), words), '<p id="rest">%s</p>' % html.escape(what_next),
                     '<p class="faint">The other files in this folder may still be those of an earlier night.</p>'])


def page(night, out, pages, note, passed, missing, drawing=0):
    """The page of a night that is counted, part after part, with the night in whole numbers last. It needs no other file but for the answers and for
    pictures beyond the first. `passed`: files that were passed over and why; `missing`: sheets of the zones that never came."""
    return document(page_parts(night, out, pages, note, passed, missing, drawing))


def page_parts(night, out, pages, note, passed, missing, drawing):
    t = night.totals
    worst = night.worst.results()
    held_pictures = held(worst + night.well.kept, out)
    rows = Rows(out, held_pictures)
    told = list(reasons(t))
    yield "<h1>The night's sheets</h1>"
    yield verdict(t, passed, missing)
    yield '<p id="rest">%s</p>' % html.escape(rest(t, missing))
    yield figures(t)
    if drawing:
        yield '<p class="faint">%s being drawn; this page is then made once more.</p>' % ("A picture is" if drawing == 1 else "%s pictures are" % grouped(drawing))
    if told:
        yield "<h2>What was refused, and why</h2>\n" + table("why", ["#number", "how many", "#in sheets", "why", "what to do"], told)
    yield folders(night.folders)
    if worst:
        yield rows.worst(night.bad, worst)
    yield named_list("turned", "Worked, but turned inside out or pressed flat", night.turned)
    yield named_list("passed", "Passed over", passed)
    yield named_list("missing", "Sheets of the zones that never came", missing)
    if night.well.count:
        yield rows.well(night.well, night.folders)
    yield ('<p class="faint">A refused particle keeps every bit that it had: leave it out of the field, put no number in its place. '
           'Every sheet stands in <a href="summary.csv">summary.csv</a>; a picture of one that has none: <code>tools/draw.py X.sheet OUT.svg</code>.</p>')
    yield from whole_numbers(pages, note)
    yield from boxes(held_pictures, out)
