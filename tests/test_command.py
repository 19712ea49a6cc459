#!/usr/bin/env python3
"""Tests of the command bin/slope and of tools/built: tests/test_command.py

The command is tried with the proved program where PASOLETU_SLOPE names it or `tools/built program` has it, and with small programs that
answer what a test needs. What tools/built does is tried in a repository of two crates with a toolchain that only copies.
"""
import os
import pathlib
import random
import re
import shutil
import struct
import subprocess
import tempfile
import textwrap
import tomllib
import unittest

TOP = pathlib.Path(__file__).resolve().parent.parent
SLOPE = TOP / "bin" / "slope"
ANSWER = "particles 1\n0 stored 3ff0000000000000\nend\n"
READY = ("PASOLETU_SLOPE", "PASOLETU_ARCHIVE", "PASOLETU_EMULATOR")


def proved_program():
    """The path of the proved program, or nothing."""
    asked = subprocess.run([TOP / "tools" / "built", "program"], capture_output=True, text=True)
    return asked.stdout.strip() or None


def script(path, text):
    path.parent.mkdir(parents=True, exist_ok=True)
    path.write_text(textwrap.dedent(text))
    path.chmod(0o755)
    return path


class InFolder(unittest.TestCase):
    def setUp(self):
        folder = tempfile.TemporaryDirectory()
        self.addCleanup(folder.cleanup)
        self.folder = pathlib.Path(folder.name)
        self.environment = {name: value for name, value in os.environ.items() if name not in READY}

    def run_command(self, *words, sheet=None, **environment):
        return subprocess.run([str(w) for w in words], input=sheet, capture_output=True, cwd=self.folder,
                              env={**self.environment, **{k: str(v) for k, v in environment.items()}})

    def ended(self, ran, status, out=None, says=""):
        """Holds the run to its status, all it printed, and a part of what it said."""
        self.assertEqual(ran.returncode, status, ran.stderr.decode())
        if out is not None:
            self.assertEqual(ran.stdout.decode(), out)
        self.assertIn(says, ran.stderr.decode())
        return ran


class Command(InFolder):
    """The command round a program that prints what a test needs."""

    def setUp(self):
        super().setUp()
        self.sheet = self.folder / "a.sheet"
        self.sheet.write_bytes(b"\0")

    def slope(self, *words, answer=ANSWER, sheet=b""):
        (self.folder / "answer").write_text(answer)
        program = script(self.folder / "program", "#!/bin/sh\ncat >/dev/null\ncat '%s'\n" % (self.folder / "answer"))
        return self.run_command(SLOPE, *words, sheet=sheet, PASOLETU_SLOPE=program)

    def test_all_well(self):
        self.ended(self.slope(self.sheet), 0, ANSWER)

    def test_a_refused_particle_is_told_by_the_status(self):
        answer = "particles 2\n0 untouched\n1 refused 2\nend\n"
        self.ended(self.slope(self.sheet, answer=answer), 3, answer)

    def test_a_refused_sheet_is_told_by_the_status(self):
        self.ended(self.slope(self.sheet, answer="sheet refused 4\n"), 3, "sheet refused 4\n")

    def test_no_whole_answer(self):
        for cut in ("", "particles 1\n", "particles 1\n0 stored 3ff0000000000000\n", "sheet refused \n", "sheet refused 12\n"):
            self.ended(self.slope(self.sheet, answer=cut), 1, "", "no whole answer for %s" % self.sheet)

    def test_no_such_sheet(self):
        self.ended(self.slope(self.folder / "none.sheet"), 2, "", "none.sheet is not a file")
        self.ended(self.slope(self.folder), 2, "", "directory")
        self.ended(self.slope("--why", "5", self.sheet), 2, None, "5 is not a file that can be read (a directory, or not there); of particle 5 alone: --why=5\n")

    def test_standard_input_holds_one_sheet(self):
        self.ended(self.slope("-", "-"), 2, "", "standard input is named twice")

    def test_standard_input(self):
        self.ended(self.slope(), 0, ANSWER)
        self.ended(self.slope("-"), 0, ANSWER)

    def test_several_sheets_have_headings(self):
        self.ended(self.slope(self.sheet, "-"), 0, "==> %s <==\n%s==> standard input <==\n%s" % (self.sheet, ANSWER, ANSWER))

    def test_the_others_are_worked_where_one_is_not_there(self):
        ran = self.ended(self.slope(self.sheet, "none.sheet", answer="sheet refused 5\n"), 2, says="none.sheet")
        self.assertEqual(ran.stdout.decode(), "==> %s <==\nsheet refused 5\n" % self.sheet)

    def test_a_name_is_no_refusal(self):
        name = self.folder / "x refused 3"
        name.write_bytes(b"")
        ran = self.ended(self.slope(name, self.sheet, "--explain"), 0)
        self.assertEqual(ran.stderr, b"")

    def test_explain_has_the_words_of_the_table(self):
        for refusal in tomllib.loads((TOP / "calls.toml").read_text())["refusal"]:
            words = "refused by %(number)d: %(what)s: %(remedy)s\n" % refusal
            ran = self.slope("--explain", self.sheet, answer="particles 1\n0 refused %d\nend\n" % refusal["number"])
            self.ended(ran, 3, says="slope: %s: particle 0 is %s" % (self.sheet, words))
            if refusal["number"] <= 8:  # no sheet is refused by a later one
                ran = self.slope("--explain", self.sheet, answer="sheet refused %d\n" % refusal["number"])
                self.ended(ran, 3, says="slope: %s: the sheet is %s" % (self.sheet, words))

    def explained(self, answer):
        """What --explain says of the particles, behind the command's and the sheet's name."""
        ran = self.ended(self.slope("--explain", self.sheet, answer=answer), 3, answer)
        return [line.removeprefix("slope: %s: " % self.sheet) for line in ran.stderr.decode().splitlines()]

    def test_explain_tells_a_number_once(self):
        rows = {row["number"]: row for row in tomllib.loads((TOP / "calls.toml").read_text())["refusal"]}

        def line(who, number, remedy=None):
            return "%s refused by %d: %s: %s" % (who, number, rows[number]["what"], remedy or rows[number]["remedy"])
        all_of = "particles 200\n" + "".join("%d refused %%d\n" % k for k in range(200)) + "end\n"
        self.assertEqual(self.explained(all_of % ((3,) * 200)), [line("particles 0 to 199 (every one) are", 3, "look at the law's parameters")])
        self.assertEqual(self.explained(all_of % ((11,) * 200)), [line("particles 0 to 199 (every one) are", 11)])
        some = "particles 9\n0 refused 10\n1 untouched\n2 refused 1\n3 refused 1\n4 refused 1\n5 stored 3ff0000000000000\n6 refused 1\n7 refused 2\n8 refused 1\nend\n"
        self.assertEqual(self.explained(some), [line("particles 2 to 4, 6, 8 are", 1), line("particle 7 is", 2), line("particle 0 is", 10)])
        self.assertEqual(self.explained("particles 1\n0 refused 3\nend\n"), [line("particle 0 is", 3)])

    def test_explain_names_what_is_turned_inside_out(self):
        """A worked particle that came with a sigma of 0 or below; with determinants or without, and not one that is refused."""
        sigmas = [(1.0, 1.0, 1.0), (-0.9, 1.0, 1.0), (0.0, 1.0, -0.0), (-1.0, 0.5, -0.25), (-2.0, 1.0, 1.0), (0.0, -3.0, 1.0)]
        answer = "particles 6\n0 untouched\n1 stored 3ff0000000000000\n2 stored 3ff0000000000000\n3 untouched\n4 refused 2\n5 stored 3ff0000000000000\nend\n"
        for model, floats in ((0, 36), (4, 37)):
            records = b"".join(struct.pack("<%dd" % floats, *[-7.0] * 18, *sigma, *[-7.0] * (floats - 21)) for sigma in sigmas)
            self.sheet.write_bytes(bytes([model]) + struct.pack("<3d", 0.025, 0.0045, 10.0) + bytes([6]) + records)
            self.assertEqual(self.explained(answer)[1:], [
                "particle 1 is stored, but turned inside out: sigma -0.9", "particle 2 is stored, but pressed flat: sigma 0 -0",
                "particle 3 is untouched, but turned inside out: sigma -1 -0.25", "particle 5 is stored, but turned inside out: sigma -3 0"])

    def test_explain_ends_where_the_sheet_does_not(self):
        """No more is read than what makes a sheet too long."""
        program = script(self.folder / "program", "#!/bin/sh\necho \"sheet refused 7\"\nwc -c >'%s'\n" % (self.folder / "read"))
        self.sheet.write_bytes(bytes(300000))
        self.ended(self.run_command(SLOPE, "--explain", self.sheet, PASOLETU_SLOPE=program), 3, "sheet refused 7\n", "the sheet is refused by 7")
        self.assertEqual((self.folder / "read").read_text(), "59268\n")

    def test_nothing_is_said_without_explain(self):
        self.assertEqual(self.slope(self.sheet, answer="sheet refused 4\n").stderr, b"")

    def test_why_tells_each_float_in_short(self):
        d = random.Random(8)
        odd = [0, 1 << 63, 1, 0x000fffffffffffff, 0x0010000000000000, 0x7fefffffffffffff, 0x7ff0000000000000, 0xfff0000000000000, 0x7ff8000000000001,
               0x3ff0000000000000, 0x3f1a36e2eb1c432d, 0x408f400000000000, 0x412e848000000000, 0x800fffffffffffff]
        pairs = [(x, d.getrandbits(64)) for x in odd] + [(d.getrandbits(64), d.getrandbits(64)) for _ in range(150)]

        def short(bits):
            x = struct.unpack("<d", struct.pack("<Q", bits))[0]
            return "%s (%016x)" % ("nan" if x != x else "%.3g" % x, bits)
        line = "%d yielded, test 5: were the largest strain brought down to the next, the largest stress %s would be within the softened strength %s; one strain is returned\n"
        given, want = ("particles %d\n%send\n" % (len(pairs), "".join(line % (k, spell(a), spell(b)) for k, (a, b) in enumerate(pairs)))
                       for spell in ("{:016x}".format, short))
        self.ended(self.slope("--why", self.sheet, answer=given), 0, want)
        zeros = "particles 1\n0 yielded, test 8: no shape is left in its strains, %s%s %s are zero; sigma are all ones\nend\n"
        self.ended(self.slope("--why", self.sheet, answer=zeros % ("0" * 16, " 8" + "0" * 15, "0" * 16)), 0, zeros % ("0 (%s)" % ("0" * 16), " -0 (8%s)" % ("0" * 15), "0 (%s)" % ("0" * 16)))

    def test_why_leaves_other_lines_alone(self):
        answer = "particles 2\n0 clamped, sigma by its bound: neither lower upper\n1 refused 1 at step 0: float 20, of sigma\nend\n"
        self.ended(self.slope("--why", self.sheet, answer=answer), 3, answer)
        self.ended(self.slope("--why", "--explain", self.sheet, answer=answer), 3, answer, "particle 1 is refused by 1: ")
        self.ended(self.slope("--why", self.sheet, answer="sheet refused 4\n"), 3, "sheet refused 4\n")

    def test_why_of_one_particle(self):
        program = script(self.folder / "program", "#!/bin/sh\ncat >/dev/null\nprintf 'particles 9\\n%s said\\nend\\n' \"$*\"\n")
        for words, handed in (("--why", "--why"), ("--why=7", "--why 7"), ("--why=0", "--why 0"), ("--why=0070", "--why 70"), ("--why=000", "--why 0")):
            ran = self.run_command(SLOPE, words, self.sheet, PASOLETU_SLOPE=program)
            self.assertEqual(ran.stdout.decode(), "particles 9\n%s said\nend\n" % handed)
        line = "particles 9\n7 stayed, test 1: the law acts on failed particles only; untouched\nend\n"
        self.assertEqual(self.ended(self.slope("--why=7", self.sheet, answer=line), 0, line).stderr, b"")
        self.ended(self.slope("--why=9", self.sheet, answer="particles 9\nno particle 9\nend\n"), 2, "particles 9\nno particle 9\nend\n", "%s has no particle 9: it has 9, counted from 0" % self.sheet)
        self.assertEqual(self.ended(self.slope("--why=9", self.sheet, answer="sheet refused 4\n"), 3).stderr, b"")
        for words in ("--why=", "--why=x", "--why=-1"):
            self.ended(self.slope(words, self.sheet), 2, "", "--why=N needs a particle's number")
        self.ended(self.slope("--why", "-o", "new.sheet", self.sheet), 2, "", "leave --why out")

    def writes(self, *words, updated=b"\7", answer=ANSWER, sheet=b""):
        """The command round a program that writes `updated` where it is asked for the sheet."""
        (self.folder / "answer").write_text(answer)
        (self.folder / "updated").write_bytes(updated)
        program = script(self.folder / "program", """\
            #!/bin/sh
            cat >/dev/null
            [ "$*" = -o ] && exec cat '%s'
            cat '%s'
            """ % (self.folder / "updated", self.folder / "answer"))
        return self.run_command(SLOPE, *words, sheet=sheet, PASOLETU_SLOPE=program)

    def left(self):
        """What stands in the folder but for a test's own files."""
        return sorted(p.name for p in self.folder.iterdir() if p.name not in ("answer", "updated", "program", "a.sheet"))

    def test_the_updated_sheet_is_written(self):
        new = self.folder / "new.sheet"
        for words in (("-o", new, self.sheet), ("-o%s" % new, self.sheet), (self.sheet, "-o", new)):
            self.ended(self.writes(*words), 0, ANSWER)
            self.assertEqual(new.read_bytes(), b"\7")
            new.unlink()
        self.ended(self.writes("-o", new, sheet=b"\0"), 0, ANSWER)
        self.assertEqual((new.read_bytes(), self.left()), (b"\7", ["new.sheet"]))

    def test_it_may_take_the_place_of_the_sheet(self):
        self.ended(self.writes("-o", self.sheet, self.sheet), 0, ANSWER)
        self.assertEqual(self.sheet.read_bytes(), b"\7")

    def test_refused_particles_stand_in_it(self):
        answer = "particles 1\n0 refused 1\nend\n"
        self.ended(self.writes("-o", "new.sheet", self.sheet, answer=answer), 3, answer)
        self.assertEqual((self.folder / "new.sheet").read_bytes(), b"\7")

    def test_a_refused_sheet_is_not_written(self):
        (self.folder / "new.sheet").write_bytes(b"old")
        self.ended(self.writes("-o", "new.sheet", self.sheet, answer="sheet refused 4\n"), 3, "sheet refused 4\n", "new.sheet was not written")
        self.assertEqual((self.folder / "new.sheet").read_bytes(), b"old")

    def test_no_part_of_a_sheet_is_written(self):
        (self.folder / "new.sheet").write_bytes(b"old")
        for part in (b"", b"\7\7"):
            self.ended(self.writes("-o", "new.sheet", self.sheet, updated=part), 1, ANSWER, "new.sheet was not written")
        self.assertEqual(((self.folder / "new.sheet").read_bytes(), self.left()), (b"old", ["new.sheet"]))
        self.ended(self.writes("-o", "none/new.sheet", self.sheet), 1, ANSWER, "none/new.sheet was not written")

    def test_only_a_plain_file_is_written(self):
        """A folder and a pipe stay what they are, and nothing is worked for them; so does a device, which no test risks."""
        (self.folder / "folder").mkdir()
        os.mkfifo(self.folder / "pipe")
        os.symlink("pipe", self.folder / "link")
        os.symlink("loop", self.folder / "loop")
        before = self.left()
        for name in ("folder", "pipe", "link"):
            self.ended(self.writes("-o", name, self.sheet), 2, "", "-o %s: this is a folder, a device or a pipe" % name)
        self.ended(self.writes("-o", "loop", self.sheet), 2, "", "this link leads nowhere")
        self.assertEqual((self.left(), list((self.folder / "folder").iterdir())), (before, []))
        self.assertTrue((self.folder / "pipe").is_fifo() and (self.folder / "link").is_symlink())

    def test_mode_and_link_stay(self):
        new, link, dangling = self.folder / "new.sheet", self.folder / "link", self.folder / "dangling"
        new.write_bytes(b"old")
        new.chmod(0o600)
        link.symlink_to("new.sheet")
        dangling.symlink_to("later.sheet")
        for name in ("new.sheet", "link", "dangling"):
            self.ended(self.writes("-o", name, self.sheet), 0, ANSWER)
        self.assertEqual((new.read_bytes(), new.stat().st_mode & 0o777, os.readlink(link)), (b"\7", 0o600, "new.sheet"))
        self.assertEqual((os.readlink(dangling), (self.folder / "later.sheet").read_bytes()), ("later.sheet", b"\7"))
        self.assertEqual(self.left(), ["dangling", "later.sheet", "link", "new.sheet"])

    def test_the_new_sheet_is_on_the_disk_before_its_name_stands(self):
        """Held by the order in which the command asks for it."""
        for name in ("sync", "mv"):
            script(self.folder / "kit" / name, "#!/bin/sh\necho %s >>'%s'\nexec %s \"$@\"\n" % (name, self.folder / "kit" / "asked", shutil.which(name)))
        self.environment["PATH"] = "%s:%s" % (self.folder / "kit", self.environment["PATH"])
        self.ended(self.writes("-o", "new.sheet", self.sheet), 0, ANSWER)
        self.assertEqual((self.folder / "kit" / "asked").read_text(), "sync\nmv\n")

    def test_o_is_for_one_sheet_and_needs_a_name(self):
        for words in (("-o", "new.sheet", self.sheet, self.sheet), (self.sheet, "-o"), ("-o", "-", self.sheet), ("-o", "", self.sheet), ("-o=new.sheet", self.sheet)):
            self.ended(self.writes(*words), 2, "", "slope: -o ")
        self.assertEqual(self.left(), [])

    def test_options(self):
        self.ended(self.slope("--no-such"), 2, "", "there is no option --no-such")
        self.assertTrue(self.ended(self.slope("-h"), 0).stdout.startswith(b"usage: slope [OPTION] [SHEET...]\n"))
        version = (TOP / "VERSION").read_text().strip()
        self.assertRegex(self.ended(self.slope("-V"), 0).stdout.decode(), r"^slope %s \(commit [0-9a-z-]+\)\n$" % version)
        dashed = self.folder / "-V"
        dashed.write_bytes(b"")
        self.ended(self.slope("--", "-V"), 0, ANSWER)

    def test_output_that_cannot_be_written(self):
        program = script(self.folder / "program", "#!/bin/sh\ncat >/dev/null\nprintf 'sheet refused 4\\n'\n")
        with open("/dev/full", "wb") as full:
            ran = subprocess.run([SLOPE, self.sheet], stdout=full, stderr=subprocess.PIPE, env={**self.environment, "PASOLETU_SLOPE": str(program)})
        self.assertEqual(ran.returncode, 1)

    def test_no_program(self):
        self.ended(self.run_command(SLOPE, self.sheet, PASOLETU_SLOPE="none"), 1, "", "install.sh PREFIX")


@unittest.skipUnless(proved_program(), "there is no proved program: name it by PASOLETU_SLOPE, or run install.sh")
class Proved(InFolder):
    """The command round the proved program."""

    def test_every_sheet_of_the_gate(self):
        sheets = sorted((TOP / "crates" / "slope_cases" / "data").iterdir())
        expected = (TOP / "crates" / "slope_cases" / "stdout").read_text()
        for path in sheets:
            want = expected.split("-- %s\n" % path.name)[1].split("-- ")[0]
            ran = self.run_command(SLOPE, sheet=path.read_bytes(), PASOLETU_SLOPE=proved_program())
            self.ended(ran, 3 if "refused" in want else 0, want)

    def test_updated_sheets(self):
        """A sheet's head stands, and so does every record that is not stored; the updated sheet is one that the program reads, and no stored
        determinant is wrong in it but those that were."""
        for path in sorted((TOP / "crates" / "slope_cases" / "data").iterdir()):
            given = path.read_bytes()
            ran = self.run_command(SLOPE, "-o", "new.sheet", sheet=given, PASOLETU_SLOPE=proved_program())
            lines = ran.stdout.decode().splitlines()
            if lines[0].startswith("sheet"):
                self.assertFalse((self.folder / "new.sheet").exists())
                continue
            size = 8 * (36 if given[0] < 4 else 37)
            new, first = (self.folder / "new.sheet").read_bytes(), len(given) - size * (len(lines) - 2)
            self.assertEqual((len(new), new[:first]), (len(given), given[:first]))
            for k, line in enumerate(lines[1:-1]):
                at = slice(first + size * k, first + size * (k + 1))
                self.assertTrue(new[at] == given[at] or " stored " in line, (path.name, line))
            again = self.run_command(SLOPE, "new.sheet", PASOLETU_SLOPE=proved_program())
            told = again.stdout.decode().splitlines()
            self.assertEqual(told[0], lines[0])
            self.assertEqual([line for line in told if line.endswith(" refused 11")], [line for line in lines if line.endswith(" refused 11")])
            (self.folder / "new.sheet").unlink()

    def program(self, *words, sheet):
        """What the program itself writes on both outputs."""
        emulator = os.environ.get("PASOLETU_EMULATOR", "").split()
        ran = self.run_command(*emulator, proved_program(), *words, sheet=sheet.read_bytes())
        return ran.stdout, ran.stderr.decode()

    def test_the_program_to_the_last_byte(self):
        sheets = TOP / "tests" / "sheets"
        self.assertEqual(self.program("-o", sheet=sheets / "before.sheet"), ((sheets / "after.sheet").read_bytes(), ""))
        self.assertEqual(self.program("--why", sheet=TOP / "samples" / "rankine.sheet"), ((sheets / "rankine.why").read_bytes(), ""))

    def test_the_program_takes_no_other_argument(self):
        for word in ("--whx", "--who", "xxwxx", "--wh", "--why=5", "-O", "-ox", "--frame", "-", ""):
            out, told = self.program(word, sheet=TOP / "samples" / "rankine.sheet")
            self.assertEqual((out, told), (b"", "slope: the argument is none of --why, -o, --frames\n"), word)

    def test_why(self):
        """Of each sample, a line a particle that says what its answer does; that of one particle alone is the same line."""
        outcomes = {"stayed,": "untouched", "yielded,": "stored", "clamped,": "stored", "inside": "stored", "refused": "refused"}
        for path in sorted((TOP / "samples").glob("*.sheet")):
            answers, told = (self.run_command(SLOPE, *words, path, PASOLETU_SLOPE=proved_program()) for words in ((), ("--why",)))
            self.assertEqual((answers.returncode, b""), (told.returncode, told.stderr), path.name)
            answers, told = answers.stdout.decode().splitlines(), told.stdout.decode().splitlines()
            self.assertEqual((answers[0], answers[-1], len(answers)), (told[0], told[-1], len(told)), path.name)
            for answer, line in zip(answers[1:-1], told[1:-1]):
                number, outcome = answer.split()[:2]
                self.assertEqual((line.split()[0], outcomes[line.split()[1]]), (number, outcome), path.name)
                if outcome == "refused":
                    self.assertTrue(line.startswith(answer + " at step "), (answer, line))
            one = self.run_command(SLOPE, "--why=%d" % (len(told) - 3), path, PASOLETU_SLOPE=proved_program())
            self.assertEqual(one.stdout.decode().splitlines(), [told[0], told[-2], told[-1]], path.name)

    def test_snow_works_what_is_turned_inside_out_and_it_is_told(self):
        given = bytearray((TOP / "samples" / "snow.sheet").read_bytes())
        given[-36 * 8 + 18 * 8:-36 * 8 + 19 * 8] = struct.pack("<d", -0.9)
        ran = self.run_command(SLOPE, "--explain", sheet=bytes(given), PASOLETU_SLOPE=proved_program())
        self.ended(ran, 0, "particles 1\n0 stored 41aaccad8523d10b\nend\n", "slope: standard input: particle 0 is stored, but turned inside out: sigma -0.9\n")

    def test_the_guides_reason(self):
        """GUIDE's block under `--why=5` is what is printed."""
        guide = (TOP / "docs" / "GUIDE.md").read_text()
        shown = re.search(r"`bin/slope --why=5 samples/rankine.sheet` answers.*?\n\n((?:    .*\n)+)", guide)[1]
        want = "".join(line[4:] + "\n" for line in shown.splitlines())
        self.ended(self.run_command(SLOPE, "--why=5", TOP / "samples" / "rankine.sheet", PASOLETU_SLOPE=proved_program()), 0, want)

    def test_the_documents_example(self):
        sheet = TOP / "samples" / "snow.sheet"
        self.ended(self.run_command(SLOPE, sheet, PASOLETU_SLOPE=proved_program()), 0, ANSWER)


class Built(InFolder):
    """A repository of two crates; its toolchain takes the source for the program."""

    def setUp(self):
        super().setUp()
        self.top = self.folder / "repository"
        for part in ("bin/slope", "tools/built", "tools/prove", "tools/jobs", "calls.toml", "VERSION"):
            (self.top / part).parent.mkdir(parents=True, exist_ok=True)
            shutil.copy(TOP / part, self.top / part)
        (self.top / "crates.txt").write_text("numbers:   # a crate\nslope: numbers io # the program\nhost: numbers\nhost_c staticlib: host\nother:\n")
        for crate in ("numbers", "host", "host_c", "other"):
            script(self.top / "crates" / crate / "src" / "lib.rt", self.program("sheet refused 4"))
        script(self.top / "crates" / "slope" / "src" / "main.rt", self.program("sheet refused 4"))
        self.sheet = self.top / "a.sheet"
        self.sheet.write_bytes(b"")
        self.environment["PATH"] = "%s:%s" % (self.folder / "kit", self.environment["PATH"])
        self.toolchain()

    def program(self, answer):
        return "#!/bin/sh\ncat >/dev/null\necho '%s'\n" % answer

    def toolchain(self, before=":"):
        script(self.folder / "kit" / "rt", """\
            #!/bin/sh
            here=$(basename "$PWD")
            [ "$1" != all ] || here=$(sed 's/:.*//' crates.txt | tr '\\n' ' ')
            echo "$*" $here >>'%s'
            %s
            for line in $(seq 400); do echo "note: $line"; done
            case $1 in
            all) for crate in $here; do printf '== %%s\\nlogic=proved functions=1\\n' $crate; done ;;
            check)
                mkdir -p out/rlib/lang/src
                echo made >out/rlib/lang/src/lib.rt
                echo 'logic=proved functions=1'
                ;;
            lib)
                mkdir -p out
                ar rcs out/lib$here.a src/lib.rt
                ;;
            run)
                mkdir -p out
                cp src/main.rt out/$here
                echo known >out/$here.stamp
                ;;
            esac
            """ % (self.folder / "asked", before))

    def asked(self):
        """What the toolchain was asked for."""
        path = self.folder / "asked"
        return path.read_text().splitlines() if path.exists() else []

    def proofs(self):
        """How often the program was proved."""
        return self.asked().count("check slope")

    def slope(self):
        return self.run_command(self.top / "bin" / "slope", self.sheet)

    def built(self, *words):
        return self.run_command(self.top / "tools" / "built", *words)

    def test_the_first_run_proves_and_shows_each_crate_once(self):
        ran = self.ended(self.slope(), 3, "sheet refused 4\n", "[ 1/2] numbers proved\n[ 2/2] slope proved\n")
        self.assertIn("2 crates, about ", ran.stderr.decode())
        self.assertEqual(len(ran.stderr.decode().splitlines()), 3)
        self.assertEqual(self.slope().stderr, b"")
        self.assertEqual([re.sub(r"--jobs \d+", "", line) for line in self.asked()], ["all check  numbers", "check slope", "run slope"])

    def test_a_changed_source_is_proved_anew(self):
        self.slope()
        script(self.top / "crates" / "slope" / "src" / "main.rt", self.program("sheet refused 5"))
        self.ended(self.slope(), 3, "sheet refused 5\n")
        (self.top / "crates" / "numbers" / "proofs").mkdir()
        (self.top / "crates" / "numbers" / "proofs" / "a.antt").write_text("")
        self.slope()
        self.assertEqual(self.proofs(), 3)

    def test_the_sources_are_read_once_a_change(self):
        """Also where a change keeps size and time of writing."""
        script(self.folder / "kit" / "sha256sum", "#!/bin/sh\n[ $# -eq 0 ] || echo read >>'%s'\nexec %s \"$@\"\n" % (self.folder / "read", shutil.which("sha256sum")))

        def reads():
            path = self.folder / "read"
            count = path.read_text().count("read") if path.exists() else 0
            path.unlink(missing_ok=True)
            return count
        self.slope()
        self.assertGreater(reads(), 0)
        for _ in range(100):  # what was written in the same tick of the clock is not taken for known: the next call reads it once more
            self.slope()
            if not reads():
                break
        self.ended(self.slope(), 3, "sheet refused 4\n")
        self.assertEqual(reads(), 0)
        source = self.top / "crates" / "slope" / "src" / "main.rt"
        times = source.stat()
        source.write_text(source.read_text().replace("refused 4", "refused 5"))
        os.utime(source, ns=(times.st_atime_ns, times.st_mtime_ns))
        self.ended(self.slope(), 3, "sheet refused 5\n")
        self.assertGreater(reads(), 0)
        (self.top / "crates" / "numbers" / "src" / "more.rt").write_text("")
        self.slope()
        self.assertEqual((reads() > 0, self.proofs()), (True, 3))

    def test_an_installation_has_its_own_parts(self):
        (self.top / "crates.txt").unlink()
        share = self.folder / "prefix" / "share" / "pasoletu" / "tools"
        share.mkdir(parents=True)
        shutil.copy(TOP / "tools" / "built", share)
        for part in ("program", "archive", "library"):
            self.ended(self.run_command(share / "built", "--prove", part), 1, "", "the %s is not installed" % part)
        for part, name in (("program", "libexec/pasoletu/slope"), ("archive", "lib/libpasoletu.a"), ("library", "lib/libpasoletu.so")):
            script(self.folder / "prefix" / name, "")
            self.ended(self.run_command(share / "built", part), 0, "%s\n" % (self.folder / "prefix" / name).resolve())
        self.assertEqual(self.asked(), [])

    def test_what_does_not_go_in_is_left_alone(self):
        self.slope()
        (self.top / "crates" / "other" / "src" / "lib.rt").write_text("")
        (self.top / "crates" / "slope" / "stdout").write_text("")
        lines = (self.top / "crates.txt").read_text()
        (self.top / "crates.txt").write_text(lines.replace("a crate", "another word of it"))
        self.slope()
        self.assertEqual(self.proofs(), 1)

    def test_the_gate_may_empty_what_rt_keeps(self):
        self.slope()
        shutil.rmtree(self.top / "crates" / "slope" / "out")
        self.ended(self.slope(), 3, "sheet refused 4\n")
        self.assertEqual(self.proofs(), 1)

    def test_nothing_is_proved_unasked(self):
        for part in ("program", "archive", "library"):
            self.ended(self.built(part), 1, "", "install.sh PREFIX")
        self.slope()
        (self.top / "crates" / "slope" / "src" / "main.rt").write_text("changed")
        self.ended(self.built("program"), 1, "", "of other sources")
        self.assertEqual(self.proofs(), 1)

    def test_the_archive_is_proved_once(self):
        path = self.top / ".built" / "libpasoletu.a"
        self.ended(self.built("--prove", "archive"), 0, "%s\n" % path, "[ 3/3] host_c")
        self.ended(self.built("--prove", "archive"), 0, "%s\n" % path)
        self.ended(self.built("archive"), 0, "%s\n" % path)
        self.assertEqual([re.sub(r"--jobs \d+", "", line) for line in self.asked()], ["all check  numbers host", "lib host_c"])
        objects = subprocess.run(["ar", "t", path], capture_output=True, text=True).stdout.split()
        self.assertEqual(objects, ["lib.rt"])

    def test_what_is_needed_is_proved_first_many_at_a_time(self):
        (self.top / "crates.txt").write_text("low:\nnumbers: low\nlong: low io\nhigh: long\nbeside: low\nslope: numbers high beside\nother: low\n")
        for crate in ("low", "numbers", "long", "high", "beside"):
            script(self.top / "crates" / crate / "src" / "lib.rt", "")
        self.ended(self.run_command(self.top / "tools" / "prove", "slope", RT_JOBS="1"), 0)
        self.assertEqual(self.asked(), ["all check --jobs 1 low numbers long high beside", "check slope", "run slope"])
        (self.folder / "asked").unlink()
        self.ended(self.run_command(self.top / "tools" / "prove", "high", "beside", RT_JOBS="3"), 0)
        self.assertEqual(self.asked(), ["all check --jobs 3 low long", "check high", "check beside"])
        self.ended(self.run_command(self.top / "tools" / "prove"), 2, "", "tools/prove [--archive] NAME")
        self.ended(self.run_command(self.top / "tools" / "prove", "none"), 2, "", "no crate none")

    def test_without_a_toolchain(self):
        (self.folder / "kit" / "rt").unlink()
        paths = [p for p in self.environment["PATH"].split(":") if not (pathlib.Path(p) / "rt").exists()]
        self.environment["PATH"] = ":".join(paths)
        self.ended(self.slope(), 1, "", "no Rattle toolchain")

    def test_a_proof_that_fails(self):
        self.toolchain("[ $1 = all ] || { echo 'why it failed'; exit 1; }")
        self.ended(self.slope(), 1, "", "\nslope NOT PROVED\n")
        self.ended(self.slope(), 1, "", "slope.log")
        self.assertEqual(self.proofs(), 2)

    def test_nothing_is_proved_above_a_proof_that_fails(self):
        self.toolchain("printf '== numbers\\nlogic=not-proved\\n'; exit 1")
        self.ended(self.slope(), 1, "", "\nnumbers NOT PROVED\n")
        self.assertEqual([re.sub(r"--jobs \d+", "", line) for line in self.asked()], ["all check  numbers"])

    def test_sources_that_change_meanwhile(self):
        self.toolchain("[ $1 = all ] || echo >>src/main.rt")
        self.ended(self.slope(), 1, "", "the sources changed while")

    def test_ready_parts(self):
        for part, variable in (("archive", "PASOLETU_ARCHIVE"), ("program", "PASOLETU_SLOPE")):
            ask = self.top / "tools" / "built", part
            self.ended(self.run_command(*ask, **{variable: self.sheet}), 0, "%s\n" % self.sheet)
            self.ended(self.run_command(*ask, **{variable: "none"}), 1, "", "%s names none" % variable)

    def test_no_sheet_proves_nothing(self):
        self.ended(self.run_command(self.top / "bin" / "slope", "none.sheet"), 2)
        self.ended(self.run_command(self.top / "bin" / "slope", "--help"), 0)
        self.assertEqual(self.asked(), [])


if __name__ == "__main__":
    unittest.main()
