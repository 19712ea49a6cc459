#!/usr/bin/env python3
"""Tests of tools/night: tests/test_night.py (the page is opened in headless Chromium where that is installed, and the machines are sshd of the
test's own where Debian's openssh-server is)

Most sheets here hold their answer as text after the model's byte, and a small program prints it and notes that it did. The pictures are tried
with the proved program (PASOLETU_SLOPE, or `tools/built program`). No test holds to a clock: lines of progress, which come every ten seconds, are
left out of what is compared.
"""
import collections
import contextlib
import csv
import hashlib
import html
import io
import json
import os
import re
import shutil
import signal
import socket
import struct
import subprocess
import sys
import time
import unittest
import unittest.mock

from test_command import TOP, InFolder, proved_program, script

sys.path.insert(0, str(TOP / "tools"))
import night_job  # noqa: E402
import night_sheets  # noqa: E402
import night_work  # noqa: E402
import shell  # noqa: E402

NIGHT = TOP / "tools" / "night"
WELL = "particles 2\n0 untouched\n1 stored 3ff0000000000000\nend\n"
CHROMIUM = shutil.which("chromium")
PATIENCE = 1200  # seconds after which a night is taken for one that never ends, on however slow a machine


def library_here():
    try:
        return shell.package()
    except shell.NoLibrary:
        return None


# Appended to a copy of the page: what a browser makes of it.
REPORT = """
<script>
addEventListener("error", e => report.errors.push(String(e.message)), true);
const report = { errors: [] };
addEventListener("load", async () => {
    const rows = id => [...document.querySelectorAll(`#${id} tbody tr`)].map(row => [...row.cells].map(c => c.innerText.trim()));
    report.verdict = document.getElementById("verdict").innerText;
    report.figures = [...document.querySelectorAll("#figures dd")].map(d => d.innerText);
    report.rest = document.getElementById("rest").innerText;
    report.wide = document.documentElement.scrollWidth - innerWidth;
    report.remedy = document.querySelector("#why tbody tr td:last-child").getBoundingClientRect().right <= innerWidth;
    report.total = document.getElementById("report").innerText.split("\\n")[0];
    report.why = rows("why");
    report.worst = rows("worst");
    const link = document.querySelector("#worst a[href^='#picture']");
    const box = document.querySelector(link.getAttribute("href"));
    const shown = () => getComputedStyle(box).display;
    report.before = shown();
    link.click();
    await new Promise(done => setTimeout(done, 100));
    report.clicked = shown();
    report.width = box.querySelector("img").naturalWidth;
    box.click();
    await new Promise(done => setTimeout(done, 100));
    report.back = shown();
    report.outside = performance.getEntriesByType("resource").map(r => r.name).filter(n => !n.startsWith("data:"));
    document.body.dataset.report = JSON.stringify(report);
    parent.postMessage(document.body.dataset.report, "*");
});
</script>
"""

# A page that shows another in a narrow frame, as a telephone does, and takes its report.
NARROW = """<!DOCTYPE html><body><iframe width="420" height="900" src="%s"></iframe>
<script>addEventListener("message", e => { document.body.dataset.report = e.data; });</script></body>"""


class Night(InFolder):
    def setUp(self):
        super().setUp()
        if not shutil.which("parallel"):
            self.skipTest("there is no GNU parallel: on Debian: apt-get install -y parallel")
        self.sheets, self.out, self.worked = self.folder / "in", self.folder / "out", self.folder / "worked"
        self.hold = self.folder / "hold"  # while it is there, no more sheets are worked than it says
        self.sheets.mkdir()
        self.program = script(self.folder / "program", """\
            #!%(python)s
            import contextlib, hashlib, os, struct, sys, time
            def held():
                with contextlib.suppress(FileNotFoundError):
                    return len(open(%(worked)r).readlines()) > int(open(%(hold)r).read())
            number = 0
            while True:
                head = sys.stdin.buffer.read(8)
                if not head:
                    break
                sheet = sys.stdin.buffer.read(struct.unpack("<Q", head)[0])
                if sheet:
                    with open(%(worked)r, "a") as worked:
                        worked.write(hashlib.sha256(sheet).hexdigest() + "\\n")
                    time.sleep(float(os.environ.get("PAUSE", "0")))
                    while held():
                        time.sleep(0.02)
                answer = sheet[1:] or b"sheet refused 4\\n"
                if answer == b"fall":
                    os.abort()
                sys.stdout.buffer.write(b"==> %%d <==\\n%%b" %% (number, answer))
                sys.stdout.buffer.flush()
                number += 1
            """ % {"python": sys.executable, "worked": str(self.worked), "hold": str(self.hold)})

    def sheet(self, name, answer=WELL):
        """A sheet with this answer."""
        path = self.sheets / name
        path.parent.mkdir(parents=True, exist_ok=True)
        path.write_bytes(b"\0" + answer.encode())
        return path

    def numbered(self, count):
        """Sheets of which no two are the same."""
        for k in range(count):
            self.sheet("s%04d.sheet" % k, "particles 1\n0 stored %016x\nend\n" % k)

    def night(self, *words, **environment):
        return self.run_command(NIGHT, *words, self.sheets, self.out, **{"PASOLETU_SLOPE": self.program, **environment})

    def begun(self, *words, **environment):
        """A night that goes on beside the test, as a session of its own."""
        return subprocess.Popen([NIGHT, *words, self.sheets, self.out], stderr=subprocess.DEVNULL, start_new_session=True,
                                env={**self.environment, "PASOLETU_SLOPE": str(self.program), **environment})

    def summary(self):
        return {row["sheet"]: row for row in csv.DictReader(io.StringIO((self.out / "summary.csv").read_text()))}

    def times_worked(self):
        """How often each sheet's bytes were worked."""
        return collections.Counter(self.worked.read_text().split()) if self.worked.exists() else collections.Counter()

    def digests(self):
        return [hashlib.sha256(path.read_bytes()).hexdigest() for path in self.sheets.rglob("*.sheet")]

    def said(self, ran):
        """The lines on standard error but for those of progress."""
        return [line for line in ran.stderr.decode().splitlines() if not re.fullmatch(r"night: \d+ of \d+", line)]

    def jobs(self):
        """The jobs of the last run: machine, sheets and answers of each."""
        return [(machine, int(sheets), int(answers)) for _, machine, _, _, sheets, answers, _ in (line.split("\t") for line in (self.out / "joblog").read_text().splitlines()[1:])]

    def page(self):
        return (self.out / "index.html").read_text()

    def verdict(self):
        """The verdict's line without its marks."""
        return html.unescape(re.sub("<[^>]*>", "", re.search(r'<p id="verdict".*?</p>', self.page()).group()))

    def wait_until(self, told):
        until = time.monotonic() + PATIENCE
        while not told():
            self.assertLess(time.monotonic(), until, "the night does not get on")
            time.sleep(0.02)

    def wait_for(self, count):
        self.wait_until(lambda: sum(self.times_worked().values()) >= count)

    def holds_every_answer(self):
        for name, row in self.summary().items():
            self.assertEqual((self.out / row["answer"]).read_bytes(), (self.sheets / name).read_bytes()[1:], name)
        self.assertEqual(len(self.summary()), len(self.digests()))
        self.assertEqual(len(list((self.out / "answers").iterdir())), len(set(self.digests())))


class Answers(Night):
    def test_all_well(self):
        self.sheet("a.sheet")
        self.sheet("deep/er/b c'd.sheet", "particles 0\nend\n")
        ran = self.ended(self.night(), 0, "", "2 sheets, 2 particles: 0 sheets and 0 particles refused")
        self.assertIn("All well", (self.out / "index.html").read_text())
        self.holds_every_answer()
        self.assertEqual(len(self.said(ran)), 2 if library_here() else 3)

    def test_the_summary_counts(self):
        self.sheet("some.sheet", "particles 5\n0 untouched\n1 refused 1\n2 refused 2\n3 refused 10\n4 stored 3ff0000000000000\nend\n")
        self.sheet("cut.sheet", "sheet refused 4\n")
        self.ended(self.night(), 3, says="2 sheets, 5 particles: 1 sheet and 3 particles refused")
        some, cut = self.summary()["some.sheet"], self.summary()["cut.sheet"]
        self.assertEqual([some[k] for k in ("model", "particles", "untouched", "stored", "refused_1", "refused_2", "refused_3", "refused_10", "sheet_refused")],
                         ["snow", "5", "1", "1", "1", "1", "0", "1", ""])
        self.assertEqual([cut[k] for k in ("particles", "refused_4", "sheet_refused")], ["0", "0", "4"])

    def zones_told(self):
        return (self.out / "zones.csv").read_text().splitlines()

    def test_nobody_is_judged_by_itself(self):
        self.sheet("a.sheet")
        (self.folder / "zones").write_text("7 a.sheet\n")
        self.ended(self.night("--zones", self.folder / "zones"), 0)
        self.assertEqual(self.zones_told(), ["zone,sheets,particles,untouched,stored,refused,failed,not_worked,never_came", "7,1,2,1,1,0,not judged,0,0"])

    def test_a_sheet_of_the_zones_that_never_came(self):
        self.sheet("a.sheet")
        (self.folder / "zones").write_text("7,a.sheet\n3\tnosuch.sheet\n")
        self.ended(self.night("--zones", self.folder / "zones"), 0, says="--zones: nosuch.sheet of zone 3 never came")
        self.assertEqual(self.zones_told()[1:], ["3,0,0,0,0,0,not judged,0,1", "7,1,2,1,1,0,not judged,0,0"])
        self.assertIn("<li>nosuch.sheet: zone 3</li>", self.page())
        self.assertTrue(self.verdict().endswith(": All that came is well: nothing was refused, 1 sheet never came"), self.verdict())
        self.assertIn("All that came may go out; what never came is in none of these numbers.", self.page())

    def test_jobs_that_are_no_number(self):
        self.sheet("a.sheet")
        for jobs in ("x", "0", "-1", "50%"):
            self.assertEqual(len(self.ended(self.night("--jobs=" + jobs), 2, "", "--jobs: %r is no number of jobs" % jobs).stderr.splitlines()), 1)

    def test_limits_that_are_no_two_numbers(self):
        self.sheet("a.sheet")
        (self.folder / "zones").write_text("7 a.sheet\n")
        zones = ["--zones", self.folder / "zones"]
        for words in (["--limits", "1,2"], ["--corotated", "1000,0.25", *zones], [*zones, "--limits", "1", "--corotated", "1000,0.25"], [*zones, "--limits", "1,nan", "--corotated", "1000,0.25"]):
            self.ended(self.night(*words), 2, says="--limits")

    @unittest.skipUnless(library_here() and proved_program(), "there is no proved library and program: name them by PASOLETU_LIB and PASOLETU_SLOPE, or run install.sh")
    def test_who_failed_by_zone(self):
        """A sheet of three stretched particles, one of which bears nothing, and one at rest; another sheet at rest."""
        pasoletu = shell.package()
        stretched, rest = pasoletu.Particle.stretched([1.3, 1.0, 1.0]), pasoletu.Particle()
        law = pasoletu.RankinePlasticity.new(1000.0, 0.25, 1.0e9, 1.0)
        (self.sheets / "ridge.sheet").write_bytes(pasoletu.write_sheet(law, [stretched, stretched, rest, pasoletu.Particle.stretched([float("nan"), 1.0, 1.0])]))
        (self.sheets / "valley.sheet").write_bytes(pasoletu.write_sheet(law, [rest]))
        self.sheet("cut.sheet", "sheet refused 4\n")
        (self.folder / "zones").write_text("7 ridge.sheet\n300 valley.sheet\n7 cut.sheet\n")
        self.program = proved_program()
        self.ended(self.night("--zones", self.folder / "zones", "--limits", "10,1e9", "--corotated", "1000,0.25"), 3)
        self.assertEqual([line.split(",")[6] for line in self.zones_told()], ["failed", "2", "0"])

    def test_what_is_done_is_skipped(self):
        self.numbered(5)
        self.ended(self.night(), 0)
        self.ended(self.night(), 0, says="5 sheets, 5 of them done before")
        self.assertEqual(set(self.times_worked().values()), {1})
        self.holds_every_answer()

    def test_changed_new_and_lost(self):
        self.numbered(5)
        self.ended(self.night(), 0)
        self.sheet("s0001.sheet", "sheet refused 6\n")
        self.sheet("early.sheet", "sheet refused 5\n")
        next((self.out / "answers").glob("s0003.*")).unlink()
        self.ended(self.night(), 3, says="6 sheets, 3 of them done before")
        self.assertEqual(sum(self.times_worked().values()), 8)
        self.assertEqual(self.summary()["s0001.sheet"]["sheet_refused"], "6")
        (self.sheets / "early.sheet").unlink()
        self.sheet("s0001.sheet", "particles 1\n0 stored %016x\nend\n" % 1)
        self.ended(self.night(), 0, says="5 sheets, 5 of them done before")

    def test_no_whole_answer(self):
        """One sheet gives none: it is tried three times, alone, and no other twice."""
        self.numbered(9)
        for name, answer in (("s0004x.sheet", "particles 1\n"), ("s0006x.sheet", "fall")):
            with self.subTest(name):
                bad = self.sheet(name, answer)
                self.worked.unlink(missing_ok=True)
                shutil.rmtree(self.out, ignore_errors=True)
                self.ended(self.night("--jobs", "1"), 1, says="1 sheet without an answer")
                self.assertEqual(self.summary()[name]["particles"], "")
                self.assertEqual(list((self.out / "answers").glob(name[:6] + "*")), [])
                self.assertIn("has no whole answer on this machine", self.page())
                self.assertIn("Not all of it is worked", self.page())
                worked = self.times_worked()
                self.assertEqual(worked.pop(hashlib.sha256(bad.read_bytes()).hexdigest()), 3)
                self.assertLessEqual(max(worked.values()), 2)  # those behind it in its batch, where the program went on
                self.assertEqual(sum(sheets == 1 and not answers for _, sheets, answers in self.jobs()), 2)
                bad.unlink()

    def test_a_batch_is_one_process(self):
        self.numbered(500)
        self.ended(self.night("--jobs", "2"), 0)
        self.assertLessEqual(len(self.jobs()), 20)
        self.assertEqual(self.times_worked(), collections.Counter(self.digests()))

    def test_batches_are_by_bytes_and_the_last_ones_short(self):
        longest = night_sheets.LONGEST
        batches = list(night_work.batches([longest] * 10000, 4))
        self.assertEqual(sum(batches), 10000)
        self.assertLessEqual(max(batches) * longest, night_work.MOST_BYTES)
        self.assertGreater(batches[0], 200)
        self.assertLess(batches[-1], 30)
        self.assertLess(len(batches), 100)
        self.assertEqual(list(night_work.batches([longest, 0, 0, 2 * night_work.MOST_BYTES, 1, 1], 1)), [3, 1, 2])
        self.assertEqual(list(night_work.batches([], 3)), [])

    def test_sheets_are_found_in_the_order_of_their_names(self):
        names = ["a.sheet", "a/b.sheet", "a/b/c.sheet", "a-b/x.sheet", "a.d/x.sheet", "ab.sheet", "a0.sheet", "\u00e9/z.sheet", "Z.sheet", "a b/c.sheet"]
        for name in names:
            self.sheet(name)
        found = list(night_sheets.find(self.sheets, self.out, night_sheets.First()))
        self.assertEqual(found, sorted(names))

    def test_answers_are_told_apart_wherever_they_are_cut(self):
        answers = [WELL.encode(), b"sheet refused 4\n", b"particles 1\n", b"particles 0\nend\n"]
        text = b"".join(b"==> %d <==\n%b" % one for one in enumerate(answers))
        for size in (1, 2, 3, 7, 1000):
            told = night_job.Answers()
            taken = [one for at in range(0, len(text), size) for one in told.of(text[at:at + size])] + told.last()
            self.assertEqual(taken, list(enumerate(answers)))
        told = night_job.Answers()
        self.assertEqual(told.of(b"") + told.last(), [])
        self.assertEqual(told.of(b"no heading\n") + told.last(), [])

    def test_a_line_that_a_job_was_ended_at(self):
        """A batch that is tried again takes over the whole lines of the try before."""
        here = os.getcwd()
        os.chdir(self.folder)
        self.addCleanup(os.chdir, here)
        lines = [night_sheets.result(night_sheets.Sheet("\udcff%d.sheet" % k, "00", 0), answer).line(k)
                 for k, answer in enumerate([b"particles 2\n0 refused 3\n1 untouched\nend\n", b"sheet refused 6\n"])]
        (self.folder / "rows.0").write_text("".join(lines) + lines[0][:20])
        with unittest.mock.patch.object(night_job, "tell"):
            rows = night_job.Rows(0)
            self.addCleanup(rows.file.close)
            self.assertEqual(rows.done, {0, 1})
            rows.write([night_sheets.Result(night_sheets.Sheet("c.sheet", "", None), False, why="x").line(2)])
        (first, one), (_, other), (_, third) = map(night_sheets.of_line, (self.folder / "rows.0").read_text().splitlines())
        self.assertEqual((first, one.sheet.name, one.refused, one.untouched, one.sheet.model.name), (0, "\udcff0.sheet", {3: [0]}, 1, "snow"))
        self.assertEqual((other.sheet_refused, third.why, third.answered), (6, "x", False))

    def test_no_gnu_parallel(self):
        self.numbered(1)
        for name in ("sh", "bash", "env", "readlink", "python3", "uname", "dirname"):
            (self.folder / "path" / name).parent.mkdir(exist_ok=True)
            (self.folder / "path" / name).symlink_to(shutil.which(name) if name != "python3" else sys.executable)
        self.ended(self.night(PATH=self.folder / "path"), 1, says="GNU parallel is missing: on Debian: apt-get install -y parallel")
        self.assertIn("not finished: GNU parallel is missing", self.verdict())
        other = script(self.folder / "path" / "parallel", "#!/bin/sh\necho parallel: there is no such option >&2\nexit 1\n")
        self.ended(self.night(PATH=other.parent), 1, says="GNU parallel worked nothing (on Debian: apt-get install -y parallel): parallel: there is no such option")

    def test_a_folder_of_any_name(self):
        self.sheets, self.out = self.folder / "in \"d' {} $HOME", self.folder / "out 'e\" {} $HOME"
        self.numbered(40)
        self.ended(self.night(), 0)
        self.holds_every_answer()

    def held_of(self, count):
        """The most bytes that a morning of so many sheets holds: counted, written and told as a page."""
        ran = self.run_command(sys.executable, "-c", """if True:
            import io, pathlib, sys, tracemalloc
            sys.path.insert(0, %r)
            import night_page, night_sheets, report
            class Nowhere(io.TextIOBase):
                def write(self, text):
                    return len(text)
            def results():
                for k in range(%d):
                    sheet = night_sheets.Sheet("outpost%%02d/%%06d.sheet" %% (k %% 50, k), "%%064x" %% k, k %% 4)
                    if k %% 5 == 0:
                        yield night_sheets.Result(sheet, True, 4)
                    elif k %% 5 == 1:
                        yield night_sheets.Result(sheet, False, why="has no answer")
                    else:
                        refused = {1: list(range(k %% 7))} if k %% 5 == 2 else {}
                        yield night_sheets.Result(sheet, True, None, 200, 100, 100 - k %% 7, refused, columns=[200, 1, 2, 300, 0, 0] * 3, turned=((3, (-0.5,)),) * (k %% 5 == 3))
            tracemalloc.start()
            night, pages = night_page.Counting(100), report.Pages(report.Second())
            summary = night_page.Summary(Nowhere())
            for r in results():
                night.add(r)
                summary.add(r)
                pages.add(r.particles, report.columns_of(r.columns)) if r.columns else pages.leave_out(r.sheet.name + "\\n")
            pages.end()
            first = night_sheets.First()
            size = sum(map(len, night_page.page(night, pathlib.Path("/none"), pages, None, first, first)))
            for part in pages.told():
                pass
            print(tracemalloc.get_traced_memory()[1], size, night.sheets, pages.total.particles)
            """ % (str(TOP / "tools"), count))
        held, size, sheets, particles = map(int, self.ended(ran, 0).stdout.split())
        self.assertEqual((sheets, particles), (count, 200 * (count * 3 // 5)))
        return held, size

    def test_a_longer_night_takes_no_more_memory(self):
        (held, size), (more, larger) = self.held_of(6000), self.held_of(30000)
        self.assertLess(more, 1.05 * held + 100000)
        self.assertLess(larger, 1.05 * size)

    def test_the_page_of_a_long_night_is_folded(self):
        for k in range(1101):
            self.sheet("outpost%d/%04d.sheet" % (k % 2, k), "particles 1\n0 untouched\nend\n")
        for k in range(150):
            self.sheet("north/%04d.sheet" % k, "particles 1\n0 refused 1\nend\n")
        self.ended(self.night("--pictures", "0"), 3)
        rows = {name: [re.findall(r"<td[^>]*>(.*?)</td>", row) for row in re.findall("<tr>(.*?)</tr>", self.page().split('id="%s"' % name)[1].split("</table>")[0])][1:]
                for name in ("well", "worst", "worst-more", "folders")}
        self.assertEqual(rows["well"], [["outpost0", "551", "551", "551", "0"], ["outpost1", "550", "550", "550", "0"]])
        self.assertEqual([len(rows[name]) for name in ("worst", "worst-more", "folders")], [100, 50, 1])
        self.assertIn("<details><summary>The next 50</summary>", self.page())

    def test_an_answer_that_is_not_whole_is_worked_again(self):
        """Emptied, cut, with a line too few, with other words."""
        self.numbered(8)
        self.ended(self.night(), 0)
        spoiled = (b"", b"particles 1\n", b"particles 1\n0 stored", b"particles 2\n0 untouched\nend\n", b"particles 1\n0 lost\nend\n", b"sheet refused 4", b"\0" * 40)
        for k, data in enumerate(spoiled):
            next((self.out / "answers").glob("s%04d.*" % k)).write_bytes(data)
        self.ended(self.night(), 0, says="8 sheets, 1 of them done before")
        self.holds_every_answer()
        self.assertEqual(sum(self.times_worked().values()), 8 + len(spoiled))

    def test_links_are_followed_and_what_is_passed_over_is_named(self):
        self.sheet("a.sheet")
        elsewhere = self.folder / "elsewhere"
        elsewhere.mkdir()
        (elsewhere / "c.sheet").write_bytes(b"\0" + WELL.encode())
        (self.sheets / "outpost").symlink_to(elsewhere)
        (self.sheets / "up").symlink_to(self.sheets)
        for name in ("b.SHEET", "d.sheet.gz", ".e.sheet.Ab12", ".hidden"):
            (self.sheets / name).write_bytes(b"")
        ran = self.ended(self.night(), 0, says="2 sheets, 4 particles")
        self.assertEqual(sorted(self.summary()), ["a.sheet", "outpost/c.sheet"])
        for name in ("b.SHEET", "d.sheet.gz", ".e.sheet.Ab12", "up"):
            self.assertIn("night: passed over: %s: " % name, ran.stderr.decode())
            self.assertIn("<li>%s: " % name, self.page())
        self.assertNotIn(".hidden", self.page() + ran.stderr.decode())
        self.assertTrue(self.verdict().endswith(": All well: nothing was refused, 4 files passed over"), self.verdict())

    def test_bad_input_among_them(self):
        """Each has a clear line, and the others are worked."""
        self.numbered(3)
        (self.sheets / "empty.sheet").write_bytes(b"")
        (self.sheets / "folder.sheet").mkdir()
        self.sheet("folder.sheet/inside.sheet")
        (self.sheets / "long.sheet").write_bytes(b"\0sheet refused 7\n" + bytes(3000000))
        os.mkfifo(self.sheets / "pipe.sheet")
        (self.sheets / "dangling.sheet").symlink_to("nowhere")
        self.sheet("closed.sheet").chmod(0)
        self.sheet("shut/in.sheet").parent.chmod(0)
        self.addCleanup((self.sheets / "shut").chmod, 0o700)
        words = ["setpriv", "--bounding-set=-dac_override,-dac_read_search"] if os.geteuid() == 0 else []
        ran = self.ended(self.run_command(*words, NIGHT, self.sheets, self.out, PASOLETU_SLOPE=self.program), 1, says="5 sheets without an answer")
        for line in ("pipe.sheet is no plain file", "dangling.sheet is a link to nothing", "closed.sheet cannot be read (Permission denied)", "shut/ cannot be read (Permission denied)", "passed over: folder.sheet: a folder"):
            self.assertIn("night: " + line, ran.stderr.decode())
        self.assertIn("is a link to nothing: mend that or have it sent again, then run the night again", self.page())
        summary = self.summary()
        self.assertEqual({name: row["sheet_refused"] for name, row in summary.items() if row["sheet_refused"]}, {"empty.sheet": "4"})
        self.assertEqual([name for name, row in summary.items() if not row["answer"]], ["closed.sheet", "dangling.sheet", "long.sheet", "pipe.sheet", "shut/"])
        self.assertEqual(summary["folder.sheet/inside.sheet"]["particles"], "2")

    def test_the_folder_of_answers_among_the_sheets(self):
        self.sheet("a.sheet")
        self.out = self.sheets / "out"
        for _ in range(2):
            ran = self.ended(self.night(), 0)
            self.assertNotIn("passed over", ran.stderr.decode())

    def test_two_names_of_one_answer(self):
        self.sheet("a b.sheet")
        self.sheet("a_b.sheet")
        self.ended(self.night(), 0, says="2 sheets, 4 particles")
        self.assertEqual(len(list((self.out / "answers").iterdir())), 1)

    def test_answers_are_synced_before_their_names_stand(self):
        seen = []
        answers = self.folder / "answers"
        answers.mkdir()
        with unittest.mock.patch.object(night_job, "sync", lambda folder: seen.append(sorted(path.name.split(".")[-1] for path in answers.iterdir()))):
            night_job.keep(str(self.folder), {"answers/a.txt": b"x", "answers/b.txt": b"y"})
        self.assertEqual(seen, [["part", "part"]])
        self.assertEqual({path.name: path.read_bytes() for path in answers.iterdir()}, {"a.txt": b"x", "b.txt": b"y"})
        night_job.sync(self.folder)
        with unittest.mock.patch.object(night_job, "sync", unittest.mock.Mock(side_effect=OSError)), self.assertRaises(OSError):
            night_job.keep(str(self.folder), {"answers/c.txt": b"z"})
        self.assertEqual(sorted(path.name for path in answers.iterdir()), ["a.txt", "b.txt"])

    def test_a_sheet_that_changes_while_it_is_read(self):
        path, asked = self.sheet("a.sheet"), []
        really = os.read

        def growing(file, count):
            if not asked:
                with open(path, "ab") as grown:
                    grown.write(b"more")
            asked.append(count)
            return really(file, count)

        with unittest.mock.patch.object(os, "read", growing), self.assertRaisesRegex(night_sheets.Unreadable, "changed while it was read"):
            night_sheets.read(path)
        data, digest = night_sheets.read(path)
        self.assertEqual((data, digest), (path.read_bytes(), hashlib.sha256(path.read_bytes()).hexdigest()))
        path.write_bytes(bytes(200000))
        data, digest = night_sheets.read(path)
        self.assertEqual((len(data), digest), (night_sheets.LONGEST + 1, hashlib.sha256(bytes(200000)).hexdigest()))

    def test_the_page_of_a_night_that_is_worked(self):
        """Yesterday's page does not stand while tonight's is worked, nor where that fails."""
        self.sheet("a.sheet")
        self.ended(self.night(), 0)
        self.assertRegex(self.verdict(), r"^\w+day \d\d \w+ \d{4}, \d\d:\d\d: All well")
        self.numbered(2)
        night = self.begun(PAUSE="600")
        self.wait_for(2)
        self.assertRegex(self.verdict(), r"^\w+day .*: being worked since \d\d:\d\d, not finished$")
        self.assertNotIn("All well", self.page())
        night.terminate()
        self.assertEqual(night.wait(), 1)
        self.assertRegex(self.verdict(), r"begun at \d\d:\d\d and not finished: it was ended$")
        self.ended(self.night(PASOLETU_SLOPE=self.folder / "none"), 1, says="there is no program to run")
        self.assertRegex(self.verdict(), r"not finished: there is no program to run")
        self.ended(self.night(), 0)
        self.assertIn("All well", self.verdict())

    def test_a_program_that_gives_nothing(self):
        """It is asked a few times and not once a sheet."""
        self.numbered(40)
        self.program = script(self.folder / "mute", "#!/bin/sh\necho asked >>'%s'\n" % self.worked)
        self.ended(self.night("--jobs", "1"), 1, says="40 sheets without an answer")
        self.assertLessEqual(len(self.worked.read_text().splitlines()), 4)
        self.assertIn("no machine was left to work it", self.page())

    def test_the_page_by_folder(self):
        self.sheet("north/a.sheet", "particles 2\n0 untouched\n1 refused 2\nend\n")
        self.sheet("south/b.sheet", "sheet refused 4\n")
        self.sheet("west/c.sheet")
        self.ended(self.night("--pictures", "0"), 3)
        text = re.sub("<[^>]*>", " ", self.page().split("<body>")[1])
        rows = [re.findall(r"<td[^>]*>(.*?)</td>", row) for row in re.findall("<tr>(.*?)</tr>", self.page().split('id="folders"')[1].split("</table>")[0])][1:]
        self.assertEqual(rows, [["south", "1", "0", "1", "0", "0"], ["north", "1", "0", "0", "2", "1"]])
        self.assertIn("Nothing is refused in the other folder.", text)
        worst = [re.findall(r"<td[^>]*>(.*?)</td>", row)[2:4] for row in re.findall("<tr>(.*?)</tr>", self.page().split('id="worst"')[1].split("</table>")[0])][1:]
        self.assertEqual(worst, [["-", "all"], ["2", "1"]])
        self.assertIn("The rest, 3 particles of 2 sheets, may go out without the refused particles and the sheet refused whole", text)
        self.assertIn("The particles of the sheet not worked are in none of these numbers.", text)

    def test_left_over_parts_are_removed(self):
        self.numbered(1)
        (self.out / "answers").mkdir(parents=True)
        (self.out / "answers" / "s0000.0.txt.17.part").write_text("particles")
        self.ended(self.night(), 0)
        self.holds_every_answer()

    def test_nothing_to_do(self):
        self.ended(self.night(), 2, "", "there is no file *.sheet")
        self.assertFalse(self.out.exists())
        self.sheets.rmdir()
        self.ended(self.night(), 2, "", "is no folder")
        self.ended(self.night("--pictures", "many"), 2, "", "neither a number nor 'all'")

    def test_no_program(self):
        self.numbered(1)
        clone = self.folder / "clone"
        for part in ("tools", "bin", "bindings/python", "crates/slope/src"):
            shutil.copytree(TOP / part, clone / part)
        for part in ("crates.txt", "VERSION", "calls.toml"):
            shutil.copy(TOP / part, clone / part)
        ran = self.run_command(clone / "tools" / "night", self.sheets, self.out)
        self.ended(ran, 1, "", "install.sh PREFIX")

    def test_help_answers_at_once(self):
        self.assertIn(b"tools/night [OPTION] IN OUT", self.ended(self.run_command(NIGHT, "--help"), 0).stdout)


class Ended(Night):
    """Nights that are ended in the middle and begun again."""

    COUNT = 60

    def done(self):
        return {path.name for path in (self.out / "answers").glob("*.txt")}

    def goes_on(self, done):
        """The same command works what has no answer, and nothing that has one."""
        self.assertTrue(0 < len(done) < self.COUNT)
        before = self.times_worked()
        self.ended(self.night(), 0, says="%d sheets, %d of them done before" % (self.COUNT, len(done)))
        again = {digest for digest, times in self.times_worked().items() if times > before[digest] > 0}
        self.assertLessEqual(again, {digest for digest in before if not any(digest[:16] in name for name in done)})
        self.assertEqual(set(self.times_worked()), set(self.digests()))
        self.holds_every_answer()

    def begun_and_ended(self, end):
        """A night that is ended once a batch has its answers; those of two cores are four, of which two are held."""
        self.numbered(self.COUNT)
        self.hold.write_text("%d" % (self.COUNT * 2 // 3))
        night = self.begun("--jobs", "2")
        self.wait_until(self.done)
        end(night)
        night.wait()
        self.hold.unlink()
        self.wait_until(lambda: not of_session(night.pid))  # its jobs end with it

    def test_ended_by_force(self):
        self.begun_and_ended(lambda night: night.kill())
        self.assertIn("being worked since", self.verdict())
        self.goes_on(self.done())

    def test_ended_politely(self):
        self.begun_and_ended(lambda night: night.terminate())
        self.assertIn("not finished: it was ended", self.verdict())
        self.goes_on(self.done())

    def test_all_its_processes_ended(self):
        """As where the machine goes down."""
        self.begun_and_ended(lambda night: kill_session(night.pid))
        self.goes_on(self.done())

    def test_two_at_a_time(self):
        self.numbered(20)
        first = self.begun(PAUSE="0.05")
        self.wait_for(2)
        self.ended(self.patient(), 0, says="20 sheets, 20 of them done before")
        self.assertEqual(first.wait(), 0)
        self.assertEqual(self.times_worked(), collections.Counter(self.digests()))

    def patient(self):
        """A night that waits for the other one of its folder however long that takes."""
        words = ("import importlib.machinery, importlib.util, sys; there = importlib.machinery.SourceFileLoader('night', sys.argv[1]); "
                 "night = importlib.util.module_from_spec(importlib.util.spec_from_loader('night', there)); there.exec_module(night); "
                 "night.PATIENCE = int(sys.argv[2]); sys.exit(night.main(sys.argv[3:]))")
        return self.run_command(sys.executable, "-B", "-c", words, NIGHT, PATIENCE, self.sheets, self.out, PASOLETU_SLOPE=self.program)


def of_session(session):
    """The living processes of a session."""
    listed = subprocess.run(["ps", "-s", str(session), "-o", "pid=,stat="], capture_output=True, text=True).stdout.splitlines()
    return [int(line.split()[0]) for line in listed if not line.split()[1].startswith("Z")]


def kill_session(session):
    """Kills the processes of a session, at first those that begin others."""
    while of_session(session):
        for process in sorted(of_session(session)):
            with contextlib.suppress(ProcessLookupError):
                os.kill(process, signal.SIGKILL)


class Machines(Night):
    """Two machines that a stand-in for ssh runs commands on, each in a folder of its own."""

    def machine(self, name, text):
        """A list's line: a command that is given a machine's name and the words to run there."""
        return "%s %s" % (script(self.folder / name, text), name)

    def ssh(self, name):
        home = self.folder / "homes" / name
        home.mkdir(parents=True)
        script(home / "bin" / "slope", "#!/bin/sh\nPASOLETU_SLOPE='%s' exec '%s' \"$@\"\n" % (self.program, TOP / "bin" / "slope"))
        return self.machine("ssh-" + name, """\
            #!/bin/sh
            shift
            cd '%s'
            exec env -i HOME="$PWD" PATH="$PWD"/bin:/usr/bin:/bin PAUSE="$PAUSE" sh -c "$*"
            """ % home)

    def listed(self, *lines):
        (self.folder / "machines").write_text("# the machines\n\n%s\n" % "\n".join(lines))
        return self.folder / "machines"

    def left_there(self):
        return [str(path) for path in (self.folder / "homes").rglob("*") if path.is_file() and path.parent.name != "bin"]

    def test_sheets_go_to_the_machines_and_answers_come_back(self):
        one, two = self.ssh("one"), self.ssh("two")
        self.numbered(99)
        self.sheet("a b/c d.sheet", "sheet refused 7\n")
        self.ended(self.night("--machines", self.listed("1/" + one, two, "1/:"), "--jobs", "2", PAUSE="0.05"), 3)
        self.holds_every_answer()
        self.assertEqual({machine for machine, _, _ in self.jobs()}, {"this machine", one, two})
        self.assertEqual(self.left_there(), [])
        self.assertEqual(self.times_worked(), collections.Counter(self.digests()))

    def test_a_machine_that_does_not_answer(self):
        self.numbered(20)
        dead, old = self.machine("dead", "#!/bin/sh\necho no route >&2\nexit 255\n"), self.machine("old", "#!/bin/sh\necho there is no option --frames >&2\nexit 2\n")
        ran = self.ended(self.night("--machines", self.listed("2/" + dead, old, "1/:")), 0)
        self.assertIn("%s does not answer and is left out: no route" % dead, ran.stderr.decode())
        self.assertIn("%s does not answer and is left out: there is no option --frames" % old, ran.stderr.decode())
        self.holds_every_answer()
        self.ended(self.night("--machines", self.listed(dead)), 1, says="no machine answers")
        self.assertIn("not finished: --machines", self.verdict())

    def test_a_list_that_is_none(self):
        self.numbered(1)
        for line in ("0/there", "2/", "'"):
            self.ended(self.night("--machines", self.listed(line)), 2, "", "--machines ")


SSHD = shutil.which("sshd") or shutil.which("sshd", path="/usr/sbin:/sbin")


@unittest.skipUnless(SSHD and shutil.which("ssh-keygen"), "there is no sshd: on Debian: apt-get install -y openssh-server")
class RealMachines(Night):
    """Two sshd of the test's own on the loopback address, with keys and folders of their own."""

    def key(self, name):
        subprocess.run(["ssh-keygen", "-q", "-t", "ed25519", "-N", "", "-f", self.folder / name], check=True, stdin=subprocess.DEVNULL)
        return self.folder / name

    def port(self):
        with socket.create_server(("127.0.0.1", 0)) as held:
            return held.getsockname()[1]

    def sshd(self, name):
        """Starts one; the line of a list that leads to it."""
        home, port = self.folder / "homes" / name, self.port()
        script(home / "bin" / "slope", "#!/bin/sh\nPAUSE=0.02 PASOLETU_SLOPE='%s' exec '%s' \"$@\"\n" % (self.program, TOP / "bin" / "slope"))
        (self.folder / name).write_text("".join(line + "\n" for line in (
            "Port %d" % port, "ListenAddress 127.0.0.1", "HostKey %s" % self.host, "AuthorizedKeysFile %s.pub" % self.user, "PidFile none", "UsePAM no",
            "StrictModes no", "PasswordAuthentication no", "KbdInteractiveAuthentication no", "PermitRootLogin prohibit-password",
            "SetEnv PATH=%s/bin:/usr/bin:/bin TMPDIR=%s" % (home, home))))
        with open(home / "bin" / "log", "w") as log:
            server = subprocess.Popen([SSHD, "-D", "-e", "-f", self.folder / name], stderr=log, stdin=subprocess.DEVNULL, start_new_session=True)
        self.addCleanup(server.wait)
        self.addCleanup(kill_session, server.pid)
        self.servers[name] = server

        def listens():
            self.assertIsNone(server.poll(), (home / "bin" / "log").read_text())
            with contextlib.suppress(OSError), socket.create_connection(("127.0.0.1", port), 5):
                return True

        self.wait_until(listens)
        return "1/ssh -p %d -i %s -o IdentitiesOnly=yes -o StrictHostKeyChecking=no -o UserKnownHostsFile=/dev/null -o LogLevel=ERROR 127.0.0.1" % (port, self.user)

    def setUp(self):
        super().setUp()
        if os.geteuid() == 0:
            os.makedirs("/run/sshd", exist_ok=True)  # sshd asks for it
        self.servers, self.host, self.user = {}, self.key("host"), self.key("user")
        self.lines = {name: self.sshd(name) for name in ("one", "two")}
        (self.folder / "machines").write_text("".join(line + "\n" for line in self.lines.values()))

    def there(self):
        """What the machines hold but for what they were given, and the programs that run there."""
        files = [str(path) for path in (self.folder / "homes").rglob("*") if path.is_file() and path.parent.name != "bin"]
        return files + [line for line in subprocess.run(["ps", "-e", "-o", "args="], capture_output=True, text=True).stdout.splitlines()
                        if str(self.program) in line or str(self.folder / "homes") in line]

    def by(self, name):
        return [answers for machine, _, answers in self.jobs() if "-p %s " % self.lines[name].split()[2] in machine]

    def test_both_work(self):
        self.numbered(200)
        self.ended(self.night("--machines", self.folder / "machines"), 0)
        self.holds_every_answer()
        self.assertTrue(sum(self.by("one")) and sum(self.by("two")), self.jobs())
        self.assertEqual(sum(self.by("one")) + sum(self.by("two")), 200)
        self.assertEqual(self.there(), [])

    def test_one_is_ended_in_the_middle(self):
        """Its sheets are worked by the other, and nothing is left on either."""
        self.numbered(300)
        night = self.begun("--machines", str(self.folder / "machines"))
        self.wait_until(lambda: (self.out / "joblog").exists() and sum(self.by("one")))
        kill_session_of(self.servers["one"])
        self.assertEqual(night.wait(), 0)
        self.holds_every_answer()
        self.assertLess(sum(self.by("one")), 300)
        self.assertEqual(sum(self.by("one")) + sum(self.by("two")), 300)
        self.wait_until(lambda: not self.there())


def kill_session_of(server):
    """Ends a server and every process that it has begun; those of its connections are in sessions of their own."""
    listed = subprocess.run(["ps", "-e", "-o", "pid=,ppid="], capture_output=True, text=True).stdout.split()
    children = collections.defaultdict(list)
    for process, parent in zip(map(int, listed[::2]), map(int, listed[1::2])):
        children[parent].append(process)
    below = [server.pid]
    for process in below:
        below += children[process]
    for process in below:
        with contextlib.suppress(ProcessLookupError):
            os.kill(process, signal.SIGKILL)


@unittest.skipUnless(proved_program(), "there is no proved program: name it by PASOLETU_SLOPE, or run install.sh")
class Frames(InFolder):
    """`slope --frames`, by which a job works its sheets."""

    CASES = TOP / "crates" / "slope_cases"

    def framed(self, payload, *words):
        return self.run_command(TOP / "bin" / "slope", "--frames", *words, sheet=payload, PASOLETU_SLOPE=proved_program())

    def test_every_kind_of_sheet_in_one_run(self):
        told = re.findall(r"-- (\d\d)\n(.*?)(?=-- \d\d|\Z)", (self.CASES / "stdout").read_text(), re.S)
        want = "".join("==> %d <==\n%s" % (k, answer) for k, (_, answer) in enumerate(told))
        sheets = [(self.CASES / "data" / name).read_bytes()[:night_sheets.LONGEST + 1] for name, _ in told]  # as the night reads them
        self.ended(self.framed(b"".join(map(night_job.frame, sheets))), 0, want)

    def test_no_frame(self):
        self.assertEqual(self.ended(self.framed(b""), 0, "").stderr, b"")

    def test_a_frame_that_is_cut_or_too_long(self):
        first = (TOP / "crates" / "slope" / "stdin").read_bytes()
        answer = "==> 0 <==\n" + (TOP / "crates" / "slope" / "stdout").read_text()
        whole = night_job.frame(first)
        too_long = night_job.frame(bytes(night_sheets.LONGEST + 2))
        for rest in (b"\0", whole[:7], whole[:8], whole[:-1], too_long, b"\xff" * 16):
            self.ended(self.framed(whole + rest + whole), 0, answer, "standard input: this is no whole frame") if rest == too_long else None
            self.ended(self.framed(whole + rest), 0, answer, "standard input: this is no whole frame")

    def test_it_goes_alone(self):
        for words in (["a.sheet"], ["--why"], ["--explain"], ["-o", "b.sheet"]):
            self.ended(self.framed(b"", *words), 2, "", "--frames goes alone")


@unittest.skipUnless(proved_program(), "there is no proved program: name it by PASOLETU_SLOPE, or run install.sh")
class Page(Night):
    """The samples, a sheet of which every particle is refused, and one that ends early."""

    def setUp(self):
        super().setUp()
        self.program = proved_program()
        for path in (TOP / "samples").glob("*.sheet"):
            shutil.copy(path, self.sheets)
        shutil.copy(TOP / "crates" / "slope_cases" / "data" / "03", self.sheets / "a <b> & c.sheet")
        (self.sheets / "cut.sheet").write_bytes((TOP / "samples" / "nacc.sheet").read_bytes()[:200])

    def test_pictures(self):
        self.ended(self.night("--pictures", "2"), 3)
        self.assertEqual(len(list((self.out / "pictures").iterdir())), 2)
        self.ended(self.night("--pictures", "all"), 3, says="drawing 7 sheets")
        self.assertEqual(len(list((self.out / "pictures").glob("*.svg"))), 9)
        self.ended(self.night("--pictures", "all"), 3)

    def test_a_sheet_that_cannot_be_drawn(self):
        (self.out / "pictures").mkdir(parents=True)
        for path in self.sheets.glob("nacc.sheet"):
            digest = hashlib.sha256(path.read_bytes()).hexdigest()[:16]
            (self.out / "pictures" / ("nacc.%s.svg" % digest)).symlink_to("/none/of/it.svg")
        self.ended(self.night(), 3, says="1 sheet could not be drawn")
        self.assertNotEqual((self.out / "pictures.err").read_text(), "")

    def in_a_browser(self, page):
        ran = self.run_command(CHROMIUM, "--headless", "--no-sandbox", "--disable-gpu", "--virtual-time-budget=20000", "--dump-dom", page.as_uri(), HOME=self.folder)
        return json.loads(html.unescape(re.search(r'data-report="([^"]*)"', ran.stdout.decode()).group(1)))

    @unittest.skipUnless(CHROMIUM, "there is no chromium: on Debian: apt-get install -y chromium")
    def test_in_a_browser(self):
        self.ended(self.night(), 3)
        page = self.out / "tried.html"
        page.write_text(self.page() + REPORT)
        report = self.in_a_browser(page)
        self.assertEqual(report["errors"], [])
        self.assertRegex(report["verdict"], r"^\w+day .*\d\d:\d\d:\s+1 sheet refused, 17 particles refused$")
        self.assertEqual(report["rest"], "The rest, 194 particles of 9 sheets, may go out without the refused particles and the sheet refused whole: put no number in their place.")
        self.assertEqual(report["figures"], ["10", "1", "211", "85", "109", "17"])
        self.assertEqual(report["total"], "the night in whole numbers: 9 sheets, 211 particles")
        self.assertEqual([row[:3] for row in report["why"]], [["1", "9 particles", "7"], ["2", "4 particles", "4"], ["4", "1 sheet", "1"], ["10", "1 particle", "1"], ["11", "3 particles", "2"]])
        self.assertEqual([row[0] for row in report["worst"]],
                         ["cut.sheet", "rankine_determinants.sheet", "a <b> & c.sheet", "overflow.sheet", "zero_signs.sheet", "drucker_prager.sheet", "nacc.sheet",
                          "rankine.sheet", "snow_slope.sheet"])
        self.assertEqual(report["worst"][0][1:5], ["NACC", "-", "all", "the sheet is refused by 4: the sheet ends early"])
        self.assertEqual(report["worst"][1][1:5:3], ["Rankine", "by 1: particle 12; by 2: particle 27; by 11: particle 31"])
        self.assertIn("every particle, so look at the law's parameters first", report["worst"][2][4])
        self.assertEqual(report["worst"][5][4], "by 1: particle 12; by 2: particle 27")
        self.assertEqual((report["before"], report["clicked"], report["back"]), ("none", "block", "none"))
        self.assertEqual(report["width"], 1000)
        self.assertEqual(report["outside"], [], "the page asks for nothing outside itself")
        (self.out / "narrow.html").write_text(NARROW % "tried.html")
        narrow = self.in_a_browser(self.out / "narrow.html")
        self.assertEqual((narrow["errors"], narrow["remedy"]), ([], True))
        self.assertLessEqual(narrow["wide"], 0, "at 420 pixels all stands within the screen")
        self.assertEqual([row[:5] for row in narrow["worst"]], [row[:5] for row in report["worst"]])

    def test_the_last_part_is_the_night_in_whole_numbers(self):
        self.ended(self.night("--pictures", "0"), 3)
        told = (self.out / "report.txt").read_text()
        printed = subprocess.run([TOP / "tools" / "report.py", self.sheets], stdout=subprocess.PIPE, stderr=subprocess.DEVNULL, cwd=self.folder).stdout.decode()
        self.assertEqual(told, printed.replace(str(self.sheets) + "/", ""))
        self.assertTrue(told.startswith("the night in whole numbers: 9 sheets, "), told)
        self.assertIn("cut.sheet: refused 4, in no table", told)
        self.assertIn('<pre id="report">%s</pre>' % html.escape(told), self.page())
        self.assertLess(self.page().index("summary.csv"), self.page().index('id="report"'))

    def test_the_total_stands_before_the_parts(self):
        for k in range(110):
            shutil.copy(TOP / "samples" / "rankine.sheet", self.sheets / ("r%03d.sheet" % k))
        self.ended(self.night("--pictures", "0"), 3)
        told = (self.out / "report.txt").read_text()
        heads = [line.split(":")[0] for line in told.splitlines() if " sheets, " in line]
        self.assertEqual(heads, ["the night in whole numbers", "part 1 of 2", "part 2 of 2"])
        self.assertIn("<details><summary>Its 2 parts</summary>", self.page())
        self.assertLess(self.page().index("the night in whole numbers"), self.page().index("part 1 of 2"))

    def test_particles_that_came_turned_inside_out(self):
        """Snow works them, and the page names them."""
        data = bytearray((TOP / "crates" / "slope" / "stdin").read_bytes())
        struct.pack_into("<d", data, len(data) - 8 * (36 - 18), -0.9)
        shutil.rmtree(self.sheets)
        self.sheets.mkdir()
        (self.sheets / "odd.sheet").write_bytes(data)
        told = "odd.sheet: particle 0 is worked, but turned inside out: sigma -0.9"
        self.ended(self.night(), 0, says="night: " + told)
        self.assertIn("<li>%s</li>" % told, self.page())
        self.assertTrue(self.verdict().endswith("nothing was refused, 1 particle turned inside out"), self.verdict())
        self.assertIn("Look first at the particle that came turned inside out and was worked all the same", self.page())

    def test_the_answers_are_those_of_the_command(self):
        self.ended(self.night("--pictures", "0"), 3)
        for name, row in self.summary().items():
            ran = self.run_command(TOP / "bin" / "slope", self.sheets / name, PASOLETU_SLOPE=self.program)
            self.assertEqual((self.out / row["answer"]).read_bytes(), ran.stdout, name)

    def test_the_guides_summary(self):
        shutil.rmtree(self.sheets)
        shutil.copytree(TOP / "samples", self.sheets)
        ran = self.ended(self.night(), 3)
        guide = (TOP / "docs" / "GUIDE.md").read_text()
        self.assertEqual((self.out / "summary.csv").read_text(), re.search(r"```csv of the night of samples\n(.*?)```", guide, re.S).group(1))
        shown = guide.split("    $ tools/night samples answers/tonight\n")[1].split("\n\n")[0]
        said = [line.replace(str(self.out), "answers/tonight") for line in self.said(ran) if "the proved library" not in line]
        self.assertEqual(said, [line.strip() for line in shown.split("\n")])

    def test_every_link_leads_somewhere(self):
        self.ended(self.night(), 3)
        text = (self.out / "index.html").read_text()
        for link in re.findall(r'href="([^"]+)"', text):
            if link.startswith("#"):
                self.assertTrue(link == "#" or 'id="%s"' % link[1:] in text, link)
            else:
                self.assertTrue((self.out / link).is_file(), link)


if __name__ == "__main__":
    unittest.main()
