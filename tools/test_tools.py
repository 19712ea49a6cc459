#!/usr/bin/env python3
"""Tests of the tools for people: tools/test_tools.py. They need the standard library alone; those of the proved library and the program run where
these are found (PASOLETU_LIB, PASOLETU_SLOPE), those of numpy's factors where numpy is."""
import contextlib
import fractions
import importlib.util
import io
import json
import math
import os
import pathlib
import platform
import random
import resource
import shutil
import struct
import subprocess
import sys
import tempfile
import unittest
import unittest.mock
import xml.etree.ElementTree

HERE = pathlib.Path(__file__).resolve().parent
sys.path.insert(0, str(HERE))
import believe  # noqa: E402
import cases  # noqa: E402
import draw  # noqa: E402
import night_page  # noqa: E402
import night_sheets  # noqa: E402
import no_division  # noqa: E402
import report  # noqa: E402
import samples  # noqa: E402
import sheet  # noqa: E402
import shell  # noqa: E402
import twice  # noqa: E402
import vectors  # noqa: E402

SHEETS = cases.SHEETS
SAMPLES = sorted((HERE.parent / "samples").glob("*.sheet"))
LINES = (HERE.parent / "crates" / "slope_cases" / "stdout").read_text()
TOOLS = [HERE / name for name in ("sheet.py", "draw.py", "samples.py", "cases.py", "faults.py", "no_division.py", "report.py", "arrive.py", "list_cases.py", "measure/accuracy.py", "measure/surface.py", "measure/replayed.py", "vectors.py")]
NUMPY = importlib.util.find_spec("numpy")
NOT_FINITE = (math.nan, math.inf, -math.inf)
OF_SAMPLES = {model: sheet.parameters(model, given, name) for name, (model, given, _) in samples.LAWS.items()}  # each law's parameters
PATIENCE = 1200  # seconds after which a tool is taken for one that never ends, on however slow a machine


def found(look, named):
    """A ready part, or nothing where none is named and none is found."""
    try:
        return look()
    except shell.Wrong:
        if os.environ.get(named):
            raise
        return None


LIBRARY = found(shell.package, "PASOLETU_LIB")
PROGRAM = found(shell.program, "PASOLETU_SLOPE")


def readable(path):
    try:
        cases.read(path.read_bytes())
        return True
    except cases.Refused:
        return False


def quiet(main, *arguments):
    """The exit status, what was printed, and what was said of errors."""
    out, err = io.StringIO(), io.StringIO()
    with contextlib.redirect_stdout(out), contextlib.redirect_stderr(err):
        status = main([str(a) for a in arguments])
    return status, out.getvalue(), err.getvalue()


def ran(tool, *arguments, **how):
    """A tool as its own process; its output is bytes."""
    how = {"stdout": subprocess.PIPE, "stderr": subprocess.PIPE, "timeout": PATIENCE} | how
    return subprocess.run([sys.executable, HERE / tool, *map(str, arguments)], **how)


class InFolder(unittest.TestCase):
    def setUp(self):
        folder = tempfile.TemporaryDirectory()
        self.addCleanup(folder.cleanup)
        self.folder = pathlib.Path(folder.name)

    def file(self, name, text):
        path = self.folder / name
        path.write_text(text)
        return path

    def made(self, name, text, *options):
        """The sheet's bytes from a table."""
        out = self.folder / "out.sheet"
        status, _, err = quiet(sheet.main, "make", self.file(name, text), out, *options)
        self.assertEqual((status, err), (0, ""))
        return out.read_bytes()

    def refused(self, words, name, text, *options):
        out = self.folder / "never.sheet"
        status, _, err = quiet(sheet.main, "make", self.file(name, text), out, *options)
        self.assertEqual(status, 1)
        self.assertIn(words, err)
        self.assertEqual(err.count("\n"), 1, "an error is one sentence")
        self.assertFalse(out.exists(), "a refused table must leave no sheet")

    def one_sentence(self, process, words):
        """A process that ended with status 1 and said why."""
        self.assertEqual(process.returncode, 1, process)
        self.assertIn(words, process.stderr.decode())
        self.assertEqual(process.stderr.decode().count("\n"), 1, process)


class Twice(InFolder):
    """What tools/twice.py counts, of a file in flat_snow and one in plasticity_snow."""

    def counted(self, two, three):
        for crate, text in (("flat_snow", two), ("plasticity_snow", three)):
            (self.folder / "crates" / crate / "proofs").mkdir(parents=True, exist_ok=True)
            self.file(f"crates/{crate}/proofs/Laws.antt", text)
        with unittest.mock.patch.object(twice, "HERE", self.folder), unittest.mock.patch.dict(twice.MOST, {c: 0 for c in twice.MOST}):
            status, out, _ = quiet(twice.main)
        last = out.splitlines()[-1]
        self.assertEqual((status, last), (1, "6 passed, 1 failed") if status else (0, "7 passed, 0 failed"))
        return int(out.splitlines()[-2].split()[0])

    def test_a_lemma_under_other_names(self):
        two = "pub flat_law : (p : Law) (s : State) → length s.sigma ≡ 2 → run in_two p s ≡ s\nflat_law p s h = refl\n"
        three = "module _ (q : Law) where\n  pub law : (t : State) → length t.sigma ≡ 3\n      → run in_three q t ≡ t\n  law t h = cc\n"
        self.assertEqual(self.counted(two, three), 1)
        self.assertEqual(self.counted(two, three.replace("≡ t", "≡ q")), 0)

    def test_an_instance_is_none(self):
        two = "abbrev pub run_of : State → State\nrun_of s = over.run in_two s\n"
        self.assertEqual(self.counted(two, two.replace("in_two", "in_three")), 0)
        self.assertEqual(self.counted(two.replace("over.run in_two s", "s"), two.replace("over.run in_two s", "s")), 1)
        by_number = "abbrev pub u_at : List → List\nu_at r = u_over 2 r\n"
        self.assertEqual(self.counted(by_number, by_number.replace("u_over 2", "u_over 3")), 0)
        lemma = "pub law : (r : List) → u_over 2 r ≡ r\nlaw r = refl\n"
        self.assertEqual(self.counted(lemma, lemma.replace("u_over 2", "u_over 3")), 1)

    def test_a_local_lemma_is_none(self):
        text = "pub {0} : {1}\n{0} = go\n  where\n    go : (x : ℕ) → x ≡ x\n    go x = refl\n"
        self.assertEqual(self.counted(text.format("a", "A"), text.format("b", "B")), 0)


class Believed(unittest.TestCase):
    """Of a page below specs/, what tools/believe.py takes for a lemma."""

    def lemmas(self, text):
        return [d.name for d in believe.proved(believe.Page("a", "specs/Page", text))]

    def test_a_lemma_is_told(self):
        self.assertEqual(self.lemmas("abbrev pub two : ℕ\ntwo = 2\n\npub even : two ≡ 2\neven = refl\n"), ["even"])
        self.assertEqual(self.lemmas("module _ (n : ℕ) where\n  abbrev pub m : ℕ\n  m = n\n\n  pub same : m ≡ n\n  same = refl\n"), ["same"])

    def test_a_field_is_none(self):
        self.assertEqual(self.lemmas("pub record Near (n : ℕ) : Type 0 where\n  pub fine : n ≡ n\n\n  -- and\n  pub low : 0 ≤ n\n\nunfoldable pub one : ℕ\none = 1\n"), [])


class Vectors(InFolder):
    def checked(self, change):
        """What vectors.py says of the list with a change in its bytes."""
        there, said = pathlib.Path(self.folder) / "data", io.StringIO()
        shutil.copytree(vectors.DATA, there)
        (there / "readings").write_bytes(change((there / "readings").read_bytes()))
        with unittest.mock.patch.object(vectors, "DATA", there), contextlib.redirect_stdout(said):
            status = vectors.check(None)
        return status, said.getvalue().splitlines()[-1]

    def test_the_list_as_it_stands(self):
        status, last = self.checked(lambda data: data)
        self.assertFalse(status)
        self.assertRegex(last, "^[0-9]+ passed, 0 failed$")

    def test_a_wrong_word(self):
        widths, at, places = vectors.lengths(), 0, {}
        for e in vectors.read((vectors.DATA / "readings").read_bytes(), widths):
            end = at + len(vectors.spelled(e))
            places.setdefault(e.call, at + 1 if e.refusal else end - 8)
            at = end
        self.assertEqual(len(places), 11)
        for place in places.values():
            with self.subTest(place=place):
                status, last = self.checked(lambda data: data[:place] + bytes([data[place] ^ 4]) + data[place + 1:])
                self.assertTrue(status)
                self.assertNotRegex(last, " 0 failed$")
                shutil.rmtree(pathlib.Path(self.folder) / "data")


class Tables(InFolder):
    def test_round_trip_of_every_sheet(self):
        seen = set()
        for path in SHEETS + SAMPLES:
            if readable(path):
                status, text, err = quiet(sheet.main, "print", path, "--json")
                self.assertEqual((status, err), (0, ""))
                self.assertEqual(self.made("a.json", text, "--inside-out"), path.read_bytes(), path.name)
                told = json.loads(text)
                seen.add((told["model"], told.get("determinants", False)))
        self.assertEqual(seen, {(model, kept) for model in sheet.MODELS for kept in (False, True)})

    def test_bits_of_odd_floats(self):
        odd = [0x7ff0000000000001, 0xfff8000000000123, 0x8000000000000000, 1, 0x7fefffffffffffff, 0x7ff0000000000000]
        record = cases.record()
        record[:6] = struct.unpack("<6d", struct.pack("<6Q", *odd))
        b = cases.sheet([record])
        (self.folder / "odd.sheet").write_bytes(b)
        text = quiet(sheet.main, "print", self.folder / "odd.sheet", "--json")[1]
        self.assertEqual(self.made("a.json", text), b)

    def test_example_of_the_document(self):
        want = (HERE.parent / "samples" / "snow.sheet").read_bytes()
        self.assertEqual(self.made("a.json", '{"model": "snow", "particles": [{}]}'), want)
        self.assertEqual(self.made("a.csv", "phase\n1\n", "--model", "snow"), want)

    def test_csv(self):
        text = "sigma1,sigma2,sigma3,log_gain,plastic_hardening\n1.1,0.9,1,0.25,\n,,,,3\n"
        b = self.made("a.csv", text, "--model", "rankine", "--parameters", "young_modulus=1e5", "poisson_ratio=0.3", "tensile_strength=500", "softening_rate=2")
        model, p, records = cases.read(b)
        self.assertEqual((model, p), (1, [1e5, 0.3, 500.0, 2.0]))
        self.assertEqual(records[0], cases.record((1.1, 0.9, 1.0), gain=0.25, f=[1.1, 0, 0, 0, 0.9, 0, 0, 0, 1.0]))
        self.assertEqual(records[1], cases.record(phard=3.0))

    def test_csv_of_all_of_them(self):
        """36, and the determinant is filled in; 37, and it stays as it is given."""
        record = [float(k) + 0.5 for k in range(37)]
        names = ["%s%d%d" % (m, i, j) for m in "FU" for i in (1, 2, 3) for j in (1, 2, 3)] + ["sigma1", "sigma2", "sigma3"]
        names += ["V^T%d%d" % (i, j) for i in (1, 2, 3) for j in (1, 2, 3)] + list(sheet.SCALARS)
        text = ",".join(names) + "\n" + ",".join(map(repr, record[:36])) + "\n"
        self.assertEqual(cases.read(self.made("a.csv", text, "--model", "snow"))[::2], (0, [record[:36] + [cases.determinant(record[:9])]]))
        self.assertEqual(cases.read(self.made("a.csv", text, "--model", "snow", "--determinants"))[::2], (4, [record[:36] + [cases.determinant(record[:9])]]))
        text = ",".join([*names, "determinant"]) + "\n" + ",".join(map(repr, record)) + "\n"
        self.assertEqual(cases.read(self.made("a.csv", text, "--model", "snow", "--determinants"))[::2], (4, [record]))
        self.refused("row 1, column 37: this sheet keeps no determinants: add --determinants", "a.csv", text, "--model", "snow")

    def test_determinants_of_a_json(self):
        rest, wrong = {"model": "snow", "determinants": True, "particles": [{}]}, {"determinant": 2}
        self.assertEqual(cases.read(self.made("a.json", json.dumps(rest)))[::2], (4, [cases.record()]))
        self.assertEqual(cases.read(self.made("a.json", json.dumps(rest | {"particles": [wrong]})))[2][0], cases.broken(36, 2.0))
        self.refused('particle 0: this sheet keeps no determinants: add "determinants": true', "a.json", json.dumps({"model": "snow", "particles": [wrong]}))
        self.refused("determinants is '1', and should be true or false", "a.json", json.dumps(rest | {"determinants": 1}))
        made = ran("sheet.py", "make", self.file("b.json", json.dumps(rest)), self.folder / "b.sheet", "--determinants")
        self.one_sentence(made, "a JSON says its model, determinants and parameters itself")

    def test_defaults_are_the_laws(self):
        text = (HERE.parent / "crates" / "plasticity_drucker_prager" / "src" / "lib.rt").read_text()
        for name in ("h0", "h1", "h2", "h3"):
            self.assertIn("const %s: f64 = %r;" % (name.upper(), sheet.DEFAULTS["drucker_prager"][name]), text)
        b = self.made("a.json", '{"model": "drucker_prager", "parameters": {"young_modulus": 1e5, "poisson_ratio": 0.3}, "particles": []}')
        self.assertEqual(cases.read(b)[1][4:], [1e5 * 0.3 / (1.3 * 0.4), 1e5 / 2.6, 0.0, 1.0])

    F = [1.0, 0.2, -0.1, 0.05, 0.9, 0.3, 0.0, -0.2, 1.1]

    def only_f(self):
        """What is said of a table with F alone, twice."""
        sheet.say_once.cache_clear()
        table = self.file("a.json", json.dumps({"model": "snow", "particles": [{"F": [self.F[:3], self.F[3:6], self.F[6:]]}] * 2}))
        status, _, err = quiet(sheet.main, "make", table, self.folder / "f.sheet")
        self.assertEqual(status, 0, err)
        for r in cases.read((self.folder / "f.sheet").read_bytes())[2]:
            self.assertEqual(r[:9], self.F)
            self.check_factors(self.F, r[9:18], r[18:21], r[21:30])
        return err

    @unittest.skipUnless(LIBRARY, "the library is not here")
    def test_only_f(self):
        with unittest.mock.patch.dict(sys.modules, {"numpy": None}):
            self.assertEqual(self.only_f(), "")
            self.refused("particle 0: the factors of F are refused by 1 (F's determinant is not finite): give U, sigma and V^T too", "a.json",
                         json.dumps({"model": "snow", "particles": [{"F": [1e200, 0, 0, 0, 1e200, 0, 0, 0, 1]}]}))
            self.refused("particle 0: the factors of F are refused by 14 (the factors or the principal values worked out miss their check)", "a.json",
                         json.dumps({"model": "snow", "particles": [{"F": [1.7e308, 1.7e308, 0, 0, 0, 0, 0, 0, 0]}]}))

    @unittest.skipUnless(NUMPY, "numpy is not here")
    def test_only_f_without_the_library(self):
        """It is said once whose the factors are."""
        with unittest.mock.patch.object(sheet, "library", lambda: (None, "no library is here.")):
            self.assertEqual(self.only_f(), "sheet.py: the factors of F are numpy's, unchecked, and not the library's: no library is here.\n")

    def test_without_library_and_numpy(self):
        """Only a table with F alone asks for one of them."""
        with unittest.mock.patch.dict(sys.modules, {"numpy": None}), unittest.mock.patch.object(sheet, "library", lambda: (None, "none")):
            self.made("a.csv", "sigma1,sigma2,sigma3\n1,1,1\n", "--model", "snow")
            f = ",".join(sheet.COLUMNS["F"]) + "\n1,0,0,0,1,0,0,0,1\n"
            words = "row 2: F alone has to be decomposed, and neither the library nor numpy is here: install one (Debian: python3-numpy)"
            self.refused(words, "a.csv", f, "--model", "snow")

    def check_factors(self, f, u, s, vt):
        m = max(map(abs, f))
        for x, y in zip(cases.recompose(u, s, vt), f):
            self.assertLessEqual(abs(x - y), m * 2.0 ** -45)
        for a in (u, vt):
            for i in range(3):
                for j in range(3):
                    self.assertLessEqual(abs(sum(a[3 * i + k] * a[3 * j + k] for k in range(3)) - (i == j)), 2.0 ** -45)
        self.assertGreaterEqual(min(s), 0.0)

    @unittest.skipUnless(LIBRARY, "the library is not here")
    def test_own_factors(self):
        self.check_decompose()
        self.assertEqual(sheet.decompose([3.0, 0, 0, 0, 0.0, 0, 0, 0, 0.5])[1], [3.0, 0.0, 0.5])

    @unittest.skipUnless(NUMPY, "numpy is not here")
    def test_numpys_factors(self):
        with unittest.mock.patch.object(sheet, "library", lambda: (None, "none")), contextlib.redirect_stderr(io.StringIO()):
            self.check_decompose()
            self.assertEqual(sheet.decompose([3.0, 0, 0, 0, 0.0, 0, 0, 0, 0.5])[1], [3.0, 0.5, 0.0])

    def check_decompose(self):
        draw_from = random.Random(1)
        for k in range(300):
            f = [draw_from.uniform(-1, 1) * 2.0 ** draw_from.randint(-20, 20) for _ in range(9)]
            if k % 3 == 1:
                f[6:] = [2.0 * x for x in f[:3]]
            if k % 7 == 2:
                f[3:] = [0.0] * 6
            self.check_factors(f, *sheet.decompose(f))
        self.check_factors([0.0] * 9, *sheet.decompose([0.0] * 9))

    def test_errors_say_what_and_where(self):
        good = '{"model": "snow", "particles": [{}, %s]}'
        self.refused("a.json, line 1, column 2: this is no JSON", "a.json", "{")
        self.refused("this is no JSON of a sheet", "a.json", "[" * 100000)
        self.refused("unknown model 'ice'", "a.json", '{"model": "ice", "particles": []}')
        self.refused("unknown name 'particle'", "a.json", '{"model": "snow", "particles": [], "particle": []}')
        self.refused("the name 'phase' stands twice", "a.json", good % '{"phase": 1, "phase": 0}')
        self.refused("particle 1: unknown name 'sigm'", "a.json", good % '{"sigm": [1, 1, 1]}')
        self.refused("particle 1, sigma: 2 numbers, not 3", "a.json", good % '{"sigma": [1, 1]}')
        self.refused("particle 1, phase: 'x' is no number", "a.json", good % '{"phase": "x"}')
        self.refused("particle 1: of the matrices only F, sigma", "a.json", good % '{"F": [1,0,0,0,1,0,0,0,1], "sigma": [1, 1, 1]}')
        self.refused("rankine needs tensile_strength", "a.csv", "phase\n1\n", "--model", "rankine", "--parameters", "young_modulus=1", "poisson_ratio=0", "softening_rate=1")
        self.refused("has no parameter 'young'", "a.csv", "phase\n1\n", "--model", "rankine", "--parameters", "young=1")
        self.refused("min_epsilon stands there twice", "a.csv", "phase\n1\n", "--model", "snow", "--parameters", "min_epsilon=1", "min_epsilon=2")
        self.refused("parted by semicolons", "a.csv", "phase;alpha\n1;0\n", "--model", "snow")
        self.refused("parted by tabs: part them by commas", "a.csv", "phase\talpha\n1\t0\n", "--model", "snow")
        self.refused("row 3: 1 cells under 2 columns", "a.csv", "phase,alpha\n1,0\n1\n", "--model", "snow")
        self.refused("row 2: sigma has 1 of its 3 entries: sigma2, sigma3", "a.csv", "sigma1\n1\n", "--model", "snow")
        self.refused("row 3: every cell is empty", "a.csv", "phase,alpha\n1,0\n,\n", "--model", "snow")
        self.refused("add --model", "a.csv", "phase\n1\n")
        self.refused("refused by 6", "a.csv", "phase\n1\n", "--model", "drucker_prager", "--parameters", "lambda=1", "mu=1", "only_active_when_failed=0.5")
        self.refused("must end in .csv or .json", "a.txt", "")

    def test_columns_are_named_exactly(self):
        for name in ("-sigma1", "sigma2 (%)", "sigma1 [%]", " sigma1", "Sigma1", "sigma_1", "log gain", "Vt11", "F44", ""):
            self.refused("row 1, column 2: unknown column %r" % name, "a.csv", "phase,%s\n1,1\n" % name, "--model", "snow")
        self.refused("unknown column ' sigma1': take the space away: ", "a.csv", "phase, sigma1\n1,1\n", "--model", "snow")
        self.refused("row 1, column 2: column 'phase' stands there twice", "a.csv", "phase,phase\n1,1\n", "--model", "snow")

    def test_names_are_exact(self):
        for name in ("Phase", "log gain", "v_t", "-phase"):
            self.refused("particle 0: unknown name %r" % name, "a.json", json.dumps({"model": "snow", "particles": [{name: 1}]}))
        for model in ("Snow", "drucker-prager", 0):
            self.refused("unknown model", "a.json", json.dumps({"model": model, "particles": []}))
        self.refused("has no parameter 'Min_Epsilon'", "a.csv", "phase\n1\n", "--model", "snow", "--parameters", "Min_Epsilon=1")

    def test_numbers_are_strict(self):
        for cell in ("1_0", "0x10", "0x3ff00000_00000000", "\uff11", "\u0661", "1d3", "1e", ".", "--1", "1.0.0", "true", "infinit", "nan1", "1 0"):
            self.refused("row 3, column 2 (alpha): %r is no number" % cell, "a.csv", "phase,alpha\n1,0\n1,%s\n" % cell, "--model", "snow")
        self.refused("row 2, column 1 (phase): '-1e400' is beyond the largest double", "a.csv", "phase\n-1e400\n", "--model", "snow")
        self.refused("parameter max_epsilon: '1_0' is no number", "a.csv", "phase\n1\n", "--model", "snow", "--parameters", "max_epsilon=1_0")
        for value in ("true", "null", "[1]", "{}"):
            self.refused("particle 0, phase", "a.json", '{"model": "snow", "particles": [{"phase": %s}]}' % value)
        self.refused("particle 0, phase: '1e400' is beyond", "a.json", '{"model": "snow", "particles": [{"phase": 1e400}]}')

    def test_numbers_that_are_taken(self):
        spelled = {"1": 1.0, "-1.5e-3": -0.0015, "+.5": 0.5, "5.": 5.0, " 2 ": 2.0, "0x3ff8000000000000": 1.5, "inf": math.inf, "-Infinity": -math.inf, "1e-400": 0.0}
        for cell, x in spelled.items():
            self.assertEqual(cases.read(self.made("a.csv", "alpha\n%s\n" % cell, "--model", "snow"))[2][0][35], x, cell)
        self.assertTrue(math.isnan(cases.read(self.made("a.csv", "alpha\nNaN\n", "--model", "snow"))[2][0][35]))

    def test_a_table_without_particles(self):
        for text in ("phase,alpha\n", "phase,alpha", "phase\n\n\n"):
            self.refused("a row of column names alone", "a.csv", text, "--model", "snow")
        for text in ("", "\nphase\n1\n"):
            self.refused("row 1: it is empty", "a.csv", text, "--model", "snow")

    def test_an_over_long_cell(self):
        self.refused("row 2, column 2 (alpha): 140000 characters", "a.csv", "phase,alpha\n1,%s\n" % ("1" * 140000), "--model", "snow")
        self.refused("row 1, column 1: unknown column", "a.csv", "p" * 140000, "--model", "snow")
        self.refused("row 3: this is no CSV", "a.csv", 'phase\n1\n"1', "--model", "snow")
        with unittest.mock.patch.object(sheet, "LONGEST_FIELD", 1000):
            self.refused("row 2: this is no CSV (field larger", "a.csv", 'phase\n%s' % ("1" * 1001), "--model", "snow")

    def test_no_text(self):
        (self.folder / "a.csv").write_bytes(b"phase\n\xff\n")
        (self.folder / "a.json").write_bytes(b"\xff")
        for options in (("a.csv", "b.sheet", "--model", "snow"), ("a.json", "b.sheet")):
            self.one_sentence(ran("sheet.py", "make", *options, cwd=self.folder), "no text in UTF-8")

    def test_a_spreadsheets_utf_16(self):
        for coding in ("utf-16-le", "utf-16-be"):
            (self.folder / "a.csv").write_bytes("\ufeffphase\n1\n".encode(coding))
            self.one_sentence(ran("sheet.py", "make", "a.csv", "b.sheet", "--model", "snow", cwd=self.folder), "a.csv: this is text in UTF-16: save it as UTF-8")

    def test_what_is_turned_inside_out(self):
        """Refused, of every law and however sigma came to be, unless told."""
        columns = "sigma1,sigma2,sigma3\n1,1,1\n%s\n"
        for row, words in (("-0.9,1,1", "turned inside out: sigma -0.9"), ("0,1,1", "pressed flat: sigma 0"), ("1,-0,-2", "turned inside out: sigma -2 -0")):
            for options in (("--model", "snow"), ("--model", "snow", "--split"), ("--model", "nacc", "--parameters", "young_modulus=1", "poisson_ratio=0", "cohesion=0", "hardening_enabled=1", "hardening_factor=1", "m=1")):
                self.refused("particle 1: it is %s, and Snow works such" % words, "a.csv", columns % row, *options)
        b = self.made("a.csv", columns % "-0.9,1,1", "--model", "snow", "--inside-out")
        self.assertEqual(cases.read(b)[2][1][18:21], [-0.9, 1.0, 1.0])
        self.made("b.csv", columns % "nan,1,1", "--model", "snow")

    def test_an_empty_row_between_particles_is_said(self):
        for text, said in (("phase\n1\n\n\n0\n\n1\n", 1), ("phase\n1\n0\n\n\n", 0)):
            status, _, err = quiet(sheet.main, "make", self.file("a.csv", text), self.folder / "rows.sheet", "--model", "snow")
            self.assertEqual((status, err.count("a.csv: row 3 is empty and no particle"), err.count("\n")), (0, said, said), err)

    def test_f_that_is_no_number(self):
        """It goes out with the factors of the identity, its law refuses it alone, and it is said; no library is asked for it."""
        names = ",".join(sheet.COLUMNS["F"])
        for given, place in (("1,nan,0,0,1,0,0,0,1", 1), ("1,0,0,0,1,0,0,0,-inf", 8)):
            with unittest.mock.patch.object(sheet, "library", lambda: (None, "none")):
                status, _, err = quiet(sheet.main, "make", self.file("a.csv", "%s\n%s\n" % (names, given)), self.folder / "nan.sheet", "--model", "snow")
            self.assertEqual((status, err.count("\n")), (0, 1), err)
            self.assertIn("a.csv, row 2: F has a NaN or an infinity", err)
            [r] = cases.read((self.folder / "nan.sheet").read_bytes())[2]
            self.assertEqual((r[9:18], r[18:21], r[21:30], math.isfinite(r[place])), (cases.I, [1.0] * 3, cases.I, False))
            self.assertEqual([k for k in range(36) if not math.isfinite(r[k])], [place])
            with self.assertRaises(cases.Refused) as refused:
                cases.worked(0, cases.SNOW, r)
            self.assertEqual(refused.exception.args[0], 1)

    def test_a_refused_sheet_is_told(self):
        for path in SHEETS:
            want = LINES.split("-- %s\n" % path.name)[1].split("\n")[0]
            status, out, err = quiet(sheet.main, "print", path)
            if want.startswith("sheet refused"):
                self.assertEqual(status, 1)
                self.assertIn(want, err)
            else:
                self.assertEqual(status, 0)
                self.assertIn(want + "\n", out)


class Sheets(InFolder):
    """How many particles, and where the bytes go."""

    ROWS = "alpha\n" + "".join("%d\n" % k for k in range(401))

    def alphas(self, name):
        return [r[35] for r in cases.read((self.folder / name).read_bytes())[2]]

    def test_too_many_are_refused_before_they_are_worked(self):
        rows = "phase\n" + "1\n" * 20000
        particles = '{"model": "snow", "particles": [%s]}' % ",".join(["{}"] * 20000)
        for name, text, options in (("a.csv", rows, ("--model", "snow")), ("a.json", particles, ())):
            with unittest.mock.patch.object(sheet, "record", wraps=sheet.record) as record:
                self.refused("over 200 particles, and a sheet takes 200: add --split", name, text, *options)
            self.assertLessEqual(record.call_count, 201)

    def test_the_most_is_taken(self):
        self.assertEqual(len(cases.read(self.made("a.csv", "phase\n" + "1\n" * 200, "--model", "snow"))[2]), 200)

    def test_a_table_is_not_written_over(self):
        """Neither the sheet's own table, by whatever name, nor another file that is no sheet; unless told, and the own table not even then."""
        text = "phase\n1\n"
        same, other, empty = self.file("same.csv", text), self.file("other.txt", "notes"), self.file("empty", "")
        (self.folder / "link.csv").symlink_to("same.csv")
        for options in ((), ("--replace",)):
            for out in ("same.csv", "link.csv"):
                self.one_sentence(ran("sheet.py", "make", "same.csv", out, "--model", "snow", *options, cwd=self.folder), "would take the place of its own table")
        self.one_sentence(ran("sheet.py", "make", "same.csv", "other.txt", "--model", "snow", cwd=self.folder), "other.txt is there and is no sheet")
        self.assertEqual((same.read_text(), other.read_text()), (text, "notes"))
        for out, options in ((other, ("--replace",)), (empty, ()), (empty, ())):
            made = ran("sheet.py", "make", "same.csv", out, "--model", "snow", *options, cwd=self.folder)
            self.assertEqual((made.returncode, made.stderr), (0, b""))
            self.assertEqual(made.stdout.decode(), "%s: snow, 1 particle, %d bytes\n" % (out, out.stat().st_size))
            self.assertEqual(cases.read(out.read_bytes())[2], [cases.record()])

    def test_split(self):
        status, out, err = quiet(sheet.main, "make", self.file("a.csv", self.ROWS), self.folder / "n.sheet", "--model", "snow", "--split")
        self.assertEqual((status, err), (0, ""))
        self.assertIn("n-00003.sheet is the last of 3 sheets: snow, 401 particles", out)
        self.assertEqual(sorted(p.name for p in self.folder.iterdir()), ["a.csv", "n-00001.sheet", "n-00002.sheet", "n-00003.sheet"])
        parts = [self.alphas("n-%05d.sheet" % n) for n in (1, 2, 3)]
        self.assertEqual([len(p) for p in parts], [200, 200, 1])
        self.assertEqual(sum(parts, []), [float(k) for k in range(401)])

    def test_split_of_a_json(self):
        particles = [{"alpha": k} for k in range(201)]
        self.file("a.json", json.dumps({"model": "snow", "particles": particles}))
        self.assertEqual(quiet(sheet.main, "make", self.folder / "a.json", self.folder / "n.sheet", "--split")[0], 0)
        self.assertEqual(self.alphas("n-00002.sheet"), [200.0])

    def test_an_earlier_split_stays(self):
        self.file("n-00009.sheet", "")
        status, _, err = quiet(sheet.main, "make", self.file("a.csv", self.ROWS), self.folder / "n.sheet", "--model", "snow", "--split")
        self.assertEqual(status, 1)
        self.assertIn("n-00009.sheet is there from an earlier split", err)
        self.assertFalse((self.folder / "n-00001.sheet").exists())

    def test_a_split_that_is_refused_leaves_nothing(self):
        self.refused("row 403, column 1 (alpha): 'x' is no number", "a.csv", self.ROWS + "x\n", "--model", "snow", "--split")
        self.assertEqual([p.name for p in self.folder.iterdir()], ["a.csv"])

    def test_a_full_disk(self):
        table = self.file("a.csv", self.ROWS[:400])
        whole = self.folder / "a.sheet"
        make = ("make", table, whole, "--model", "snow")
        self.one_sentence(ran("sheet.py", "make", table, "/dev/full", "--model", "snow"), "/dev/full: cannot be written (No space left on device)")
        with open("/dev/full", "wb") as full:
            for arguments in (make, ("make", table, "-", "--model", "snow"), ("print", whole), ("print", whole, "--json")):
                self.one_sentence(ran("sheet.py", *arguments, stdout=full), "standard output: cannot be written (No space left on device)")
        before = whole.read_bytes()

        def limited():
            resource.setrlimit(resource.RLIMIT_FSIZE, (1024, 1024))
        for arguments in (make, (*make, "--split")):
            self.one_sentence(ran("sheet.py", *arguments, preexec_fn=limited), "cannot be written (File too large)")
        self.assertEqual(sorted(p.name for p in self.folder.iterdir()), ["a.csv", "a.sheet"])
        self.assertEqual(whole.read_bytes(), before, "what was there stays where the new one cannot be written whole")

    def test_a_closed_stream(self):
        for closed, arguments, words in ((0, ("print", "-"), "standard input is closed"), (1, ("print", SAMPLES[0]), "standard output is closed")):
            self.one_sentence(ran("sheet.py", *arguments, preexec_fn=lambda: os.close(closed)), words)

    def test_standard_input_and_output(self):
        want = SAMPLES[0].read_bytes()
        how = {"cwd": self.folder}
        text = ran("sheet.py", "print", "-", "--json", input=want, **how).stdout
        self.assertEqual(ran("sheet.py", "make", "-", "-", "--inside-out", input=text, **how).stdout, want)
        made = ran("sheet.py", "make", "-", "-", "--model", "snow", input=b"phase\n1\n", **how)
        self.assertEqual(made.stdout, (HERE.parent / "samples" / "snow.sheet").read_bytes())
        self.assertEqual(made.stderr, b"standard output: snow, 1 particle, 314 bytes\n")
        self.one_sentence(ran("sheet.py", "make", "-", "-", "--model", "snow", "--split", input=b"phase\n1\n", **how), "- is one output")
        self.one_sentence(ran("sheet.py", "make", "-", "-", "--model", "snow", input=b"phase\n1_0\n", **how), "standard input, row 2, column 1 (phase)")
        self.assertEqual(list(self.folder.iterdir()), [], "no file is called -")

    def test_a_name_that_cannot_be_read_or_written(self):
        self.one_sentence(ran("sheet.py", "print", "no/such.sheet"), "no/such.sheet: cannot be read (No such file or directory)")
        self.one_sentence(ran("sheet.py", "print", self.folder), "cannot be read (Is a directory)")
        table = self.file("a.csv", "phase\n1\n")
        for out in (self.folder, self.folder / "no" / "such.sheet"):
            self.one_sentence(ran("sheet.py", "make", table, out, "--model", "snow"), "cannot be written")

    def test_an_endless_sheet(self):
        self.one_sentence(ran("sheet.py", "print", "/dev/zero"), "/dev/zero: sheet refused 7")


class Drawn(InFolder):
    def drawn(self, path, *options, by=("--second",)):
        out = self.folder / "out.svg"
        out.unlink(missing_ok=True)
        status, _, err = quiet(draw.main, path, out, *options, *by)
        return status, err, xml.etree.ElementTree.parse(out).getroot() if out.exists() else None

    def drawn_of(self, *sheet_of, options=()):
        """The picture of a sheet that is made here."""
        path = self.folder / "in.sheet"
        path.write_bytes(cases.sheet(*sheet_of))
        status, err, root = self.drawn(path, *options)
        self.assertEqual((status, err), (0, ""))
        return root

    def said(self, root):
        return [e.text for e in root.iter("{http://www.w3.org/2000/svg}text")]

    def told(self, root):
        """All that the picture says, as one line."""
        return " ".join(self.said(root))

    def crosses(self, root):
        """How many particles are marked as refused, less the mark in the legend."""
        marks = sum(e.get("stroke") == draw.REFUSED for e in root.iter("{http://www.w3.org/2000/svg}line")) // 2
        return marks - self.said(root).count(self.LEGEND[2])

    def rings(self, root):
        marks = sum(e.get("stroke") in (draw.GREY, draw.STORED) for e in root.iter("{http://www.w3.org/2000/svg}circle"))
        return marks - self.said(root).count(self.LEGEND[0]) - 2 * self.said(root).count(self.LEGEND[1])  # in the legend

    LEGEND = "untouched", "stored: before, after", "refused (index beside it)", "failed"


class Pictures(Drawn):
    def test_samples_are_those_of_the_script(self):
        for name in samples.SAMPLES:
            self.assertEqual((HERE.parent / "samples" / (name + ".sheet")).read_bytes(), samples.sample(name), name)

    def test_every_sheet_can_be_drawn(self):
        for path in SHEETS + SAMPLES:
            if readable(path):
                status, err, root = self.drawn(path)
                self.assertEqual((status, err), (0, ""), path.name)

    def test_nothing_leaves_the_picture(self):
        for path in SHEETS + SAMPLES:
            if readable(path):
                root = self.drawn(path)[2]
                for e in root.iter("{http://www.w3.org/2000/svg}circle"):
                    self.assertTrue(0 <= float(e.get("cx")) <= draw.PICTURE and 0 <= float(e.get("cy")) <= float(root.get("height")))

    def test_a_nan_has_no_place(self):
        """A NaN in sigma2 or sigma3 was passed over by min and max, and stood as a cross inside the box."""
        self.file("a.csv", "sigma1,sigma2,sigma3\n0.98,nan,1\n")
        made = self.folder / "a.sheet"
        self.assertEqual(quiet(sheet.main, "make", self.folder / "a.csv", made, "--model", "snow")[0], 0)
        status, err, root = self.drawn(made)
        self.assertEqual((status, err, self.crosses(root), self.rings(root)), (0, "", 0, 0))
        self.assertIn("refused by 1: an input is NaN or infinite; no place in the plane particle 0: F22 is nan, sigma2 is nan, determinant is nan", self.told(root))

    def test_nothing_that_is_not_finite_has_a_place(self):
        self.assertEqual([*OF_SAMPLES], sheet.MODELS)
        for model, p in OF_SAMPLES.items():
            plane = draw.PLANES[model](p)
            self.assertIsNotNone(draw.place(plane, cases.record((0.98, 0.99, 1.0)), False))
            for place in range(37):
                for x in NOT_FINITE:
                    for after in (False, True):
                        self.assertIsNone(draw.place(plane, cases.broken(place, x), after), (model, place, x))
            broken = [cases.broken(place, x) for place in range(37) for x in NOT_FINITE]
            root = self.drawn_of([cases.record((0.98, 0.99, 1.0))] + broken, p, sheet.number_of(model, True))
            self.assertEqual(self.crosses(root), 0, model)
            for place, name in enumerate(sheet.PLACES):
                self.assertIn("particle %d: %s is nan" % (1 + 3 * place, name), self.told(root), model)

    def test_a_parameter_that_is_not_finite(self):
        root = self.drawn_of([cases.record((0.98, 0.99, 1.0))] * 5, [0.025, math.nan, 10.0])
        self.assertEqual((self.crosses(root), self.rings(root)), (0, 0))
        self.assertIn("particles 0-4: parameter max_epsilon is nan", self.told(root))
        self.assertIn("No particle of this sheet has a place in the plane.", self.said(root))

    def test_answers_that_refuse_by_1_take_the_place(self):
        answers = self.file("answers", "particles 1\n0 refused 1\nend\n")
        path = HERE.parent / "samples" / "snow.sheet"
        status, _, root = self.drawn(path, "--answers", answers)
        self.assertEqual((status, self.crosses(root), self.rings(root)), (1, 0, 0))
        self.assertIn("refused by 1: an input is NaN or infinite; no place in the plane particle 0", self.told(root))

    def test_outcomes_are_marked(self):
        for path in SAMPLES:
            particles = draw.by_second(path.read_bytes(), None)
            codes = [q.code for q in particles]
            status, _, root = self.drawn(path)
            grey = [e for e in root.iter("{http://www.w3.org/2000/svg}circle") if e.get("fill") == draw.GREY]
            self.assertEqual(len(grey), codes.count(0) + (0 in codes), path.name)  # one in the legend
            self.assertEqual("refused by" in self.told(root), 2 in codes)
            if 2 in codes and len(codes) > 4:
                self.assertIn("particle 12: phase is nan", self.told(root))
                number, side = (10, "above") if path.stem == "snow_slope" else (2, "below")
                self.assertRegex(self.told(root), "refused by %d: a function would get an argument %s its range .* particle 27" % (number, side))

    def test_the_legend_names_what_is_drawn(self):
        for path in SAMPLES:
            plane = draw.PLANES[sheet.load(path.read_bytes(), path)[0]](sheet.load(path.read_bytes(), path)[2])
            particles = draw.by_second(path.read_bytes(), None)
            drawn = {q.code for q in particles if q.places(plane)[0]}
            said = self.said(self.drawn(path)[2])
            self.assertEqual([words in said for words in self.LEGEND], [0 in drawn, 1 in drawn, 2 in drawn, False], path.name)
            for k, words in enumerate(plane.branches):
                self.assertEqual("%s: %s" % ("ABC"[k], words) in said, "ABC"[k] in said, (path.name, words))
        out_of_sight = draw.Canvas((0.0, 1.0, 0.0, 1.0))
        self.assertEqual([draw.in_sight(out_of_sight, line) for line in ([(-1.0, -1.0), (2.0, 2.0)], [(-1.0, 3.0), (3.0, 3.0)])], [True, False])

    def test_letters_do_not_pile_up(self):
        """200 particles that one branch returned to nearly one place, and as many of another beside them."""
        near = [cases.record((1.2 + 0.001 * (k % 14), 1.0, 1.0 - 0.001 * (k // 14))) for k in range(100)]
        wide = [cases.record((1.3, 1.3, 1.0 - 0.002 * k)) for k in range(100)]
        root = self.drawn_of(near + wide, [1e5, 0.3, 500.0, 2.0], 1)
        letters = [e for e in root.iter("{http://www.w3.org/2000/svg}text") if e.text in ("A", "B", "C")]
        self.assertGreater(len(letters), 1)
        places = [(e.text, float(e.get("x")), float(e.get("y"))) for e in letters]
        for k, (a, x, y) in enumerate(places):
            for b, u, v in places[:k]:
                self.assertGreater(math.hypot(x - u, y - v), 12.0, "two letters on each other")
                self.assertTrue(a != b or math.hypot(x - u, y - v) > draw.LETTERS_APART - 36, "two like letters beside each other")
        self.assertLess(len(letters), 40)

    def test_what_is_turned_inside_out_is_told(self):
        sigmas = (1.0, 1.0, 1.0), (-0.9, 1.0, 1.0), (0.0, 1.0, 1.0), (-0.9, 1.0, 1.0)
        told = self.told(self.drawn_of([cases.record(sigma) for sigma in sigmas]))
        self.assertIn("particles 1, 3: stored, but turned inside out: sigma -0.9", told)
        self.assertIn("particle 2: stored, but pressed flat: sigma 0", told)
        self.assertNotIn("inside out", self.told(self.drawn_of([cases.record((-0.9, 1.0, 1.0))], [1e5, 0.3, 500.0, 2.0], 1)), "it is refused by 2")

    def test_sigma_out_of_range_are_told(self):
        few = self.told(self.drawn_of([cases.record(), cases.record((1e-30, 1.0, 2.0))], [1e5, 0.3, 500.0, 2.0], 1))
        self.assertIn("particle 1: sigma 1e-30 1 2", few)
        many = self.told(self.drawn_of([cases.record((1e-30 * (k + 1), 1.0, 2.0)) for k in range(9)], [1e5, 0.3, 500.0, 2.0], 1))
        self.assertIn("particles 0-8: sigma from 1e-30 to 2", many)

    def test_a_wrong_determinant_is_told(self):
        root = self.drawn(HERE.parent / "samples" / "zero_signs.sheet")[2]
        self.assertIn("refused by 11: the record's stored determinant is not that of its F", self.told(root))
        self.assertIn("particle 1: determinant is -0.0, that of F 0.0 particle 3: determinant is 0.0, that of F -0.0", self.told(root))
        root = self.drawn(HERE.parent / "samples" / "overflow.sheet")[2]
        self.assertIn("no place in the plane particle 1: determinant is inf particle 2: determinant is nan", self.told(root))

    def test_numbers_in_short(self):
        self.assertEqual([draw.ranges(x) for x in ([], [3], [1, 2, 3, 5, 8, 9])], ["", "3", "1-3, 5, 8-9"])

    def test_a_long_list_stays_in_the_picture(self):
        root = self.drawn_of([cases.broken(k % 37, NOT_FINITE[k % 3]) for k in range(200)], cases.SNOW, 4)
        for e in root.iter("{http://www.w3.org/2000/svg}text"):
            self.assertLess(float(e.get("y")), float(root.get("height")))

    def test_stored_particles_end_on_their_surface(self):
        for name, distance in (("rankine", 1e-12), ("drucker_prager", 1e-12), ("snow_slope", 1e-15)):
            data = (HERE.parent / "samples" / (name + ".sheet")).read_bytes()
            model, _, p, _ = sheet.load(data, name)
            plane = draw.PLANES[model](p)
            seen = 0
            for q in draw.by_second(data, None):
                r = q.before
                if q.code != 1:
                    continue
                seen += 1
                x, y = plane.point(q.after, True)
                if model == "snow":
                    low, high = plane.surface(0.0, None)[0][0], plane.surface(0.0, None)[2][0]
                    self.assertTrue(low <= x <= y <= high)
                    continue
                (x0, y0), (x1, y1) = plane.surface(plane.key(r), (x - 1.0, x, 0.0, 0.0))
                self.assertLessEqual(abs(y0 + (y1 - y0) * (x - x0) / (x1 - x0) - y), distance)
                a = plane.point(r, False)
                self.assertGreater(a[1], y0 + (y1 - y0) * (a[0] - x0) / (x1 - x0))
            self.assertGreater(seen, 10)

    def test_nacc_inside_is_untouched(self):
        data = (HERE.parent / "samples" / "nacc.sheet").read_bytes()
        model, _, p, _ = sheet.load(data, "nacc")
        plane = draw.PLANES[model](p)
        codes = []
        for q in draw.by_second(data, None):
            r = q.before
            if q.code == 2:
                continue
            x, y = plane.point(r, False)
            top = [b for a, b in plane.surface(plane.key(r), None)]
            left, right = plane.surface(plane.key(r), None)[0][0], plane.surface(plane.key(r), None)[-1][0]
            half = (right - left) / 2.0
            inside = left <= x <= right and y <= max(top) * math.sqrt(1.0 - ((x - left) / half - 1.0) ** 2)
            self.assertEqual(inside, q.code == 0)
            codes.append(inside)
        self.assertIn(True, codes)
        self.assertIn(False, codes)

    def test_answers_that_differ_are_told(self):
        path = HERE.parent / "samples" / "rankine.sheet"
        particles = draw.by_second(path.read_bytes(), None)
        lines = ["particles 40"] + [draw.line_of(k, q, False) for k, q in enumerate(particles)] + ["end"]
        self.assertEqual(self.drawn(path, "--answers", self.file("good", "\n".join(lines)))[:2], (0, ""))
        for wrong in ("3 refused 1", "3 stored 0000000000000000"):
            changed = lines[:4] + [wrong] + lines[5:]
            status, err, root = self.drawn(path, "--answers", self.file("bad", "\n".join(changed)))
            self.assertEqual(status, 1)
            self.assertIn("at particle 3.", err)
            self.assertTrue(any("differ" in t for t in self.said(root)))
            self.assertEqual(wrong.startswith("3 refused"), "particle 3" in self.said(root), "the outcomes drawn are those printed")
        for cut in (lines[:-1], lines[:7], ["sheet refused 4"], [], lines[:4] + ["3 stored "] + lines[5:], lines[:4] + ["4 untouched"] + lines[5:]):
            self.assertEqual(self.drawn(path, "--answers", self.file("cut", "\n".join(cut)))[0], 1)

    @unittest.skipUnless(PROGRAM, "the program is not built")
    def test_the_program_agrees(self):
        with unittest.mock.patch.dict(os.environ, {"PASOLETU_SLOPE": str(PROGRAM)}):
            for path in SAMPLES:
                status, err, root = self.drawn(path, "--program", HERE.parent / "bin" / "slope")
                self.assertEqual((status, err), (0, ""), path.name)
                self.assertIn("Outcomes: slope.", self.told(root))

    def test_failed_particles_are_marked(self):
        path = HERE.parent / "samples" / "rankine.sheet"
        status, err, root = self.drawn(path, "--limits", 4000, 2000, "--corotated", 1, 0.9, 576923, 384615)
        self.assertEqual((status, err), (0, ""))
        squares = [e for e in root.iter("{http://www.w3.org/2000/svg}rect") if e.get("stroke") == draw.FAILED]
        head = next(t for t in self.said(root) if t.startswith("rankine.sheet"))
        self.assertIn(", %d failed" % (len(squares) - 1), head)  # one in the legend
        self.assertGreater(len(squares), 3)
        none = self.drawn(path, "--limits", 1e9, 1e9, "--corotated", 1, 0.9, 576923, 384615)[2]
        self.assertTrue(any(t.endswith(", 0 failed") for t in self.said(none)))

    def test_options_that_do_not_fit(self):
        path = HERE.parent / "samples" / "rankine.sheet"
        for options in (("--limits", 1, 2), ("--corotated", 1, 1, 1, 1), ("--limits", 1, 2, "--corotated", 0.5, 1, 1, 1),
                        ("--limits", 1, 2, "--corotated", 1, 1, 1, 1, "--answers", "x"), ("--program", "no/such/program")):
            self.assertEqual(self.drawn(path, *options)[0], 1)

    def test_no_converter(self):
        with unittest.mock.patch("shutil.which", return_value=None):
            status, err, root = self.drawn(SAMPLES[0], "--png")
        self.assertEqual(status, 1)
        self.assertIn("install one", err)
        self.assertIsNotNone(root)

    def test_a_converter_that_fails(self):
        with unittest.mock.patch("shutil.which", return_value="rsvg-convert"), unittest.mock.patch("subprocess.run") as run:
            run.return_value.returncode = 1
            status, err, _ = self.drawn(SAMPLES[0], "--png")
        self.assertEqual(status, 1)
        self.assertIn("rsvg-convert did not write", err)

    def test_a_library_that_is_not_there(self):
        with unittest.mock.patch.dict(os.environ), unittest.mock.patch.object(shell, "package", side_effect=shell.NoLibrary("none")):
            os.environ.pop("PASOLETU_LIB", None)
            status, err, root = self.drawn(SAMPLES[0], by=())
            self.assertEqual(status, 0)
            for told in (err, self.told(root)):
                self.assertIn("The proved library is not here (./install.sh PREFIX makes it", told)
                self.assertIn("tools/cases.py", told)
            os.environ["PASOLETU_LIB"] = "named"
            status, err, root = self.drawn(SAMPLES[0], by=())
            self.assertEqual((status, root), (1, None), "one that is named must be there")

    def test_a_library_for_another_processor(self):
        """One that is found, and has another processor's number in its header, is told as that; one that breaks off is not here."""
        out, file = self.folder / "out.svg", self.folder / "libpasoletu.so.1"
        only = ("import sys; sys.path[:0] = sys.argv[1:3]; import draw, pasoletu._find; pasoletu._find._files = lambda: [sys.argv[3]]; "
                "sys.exit(draw.main(sys.argv[4:]))")
        header = b"\x7fELF\x02\x01\x01" + bytes(9) + struct.pack("<HH", 3, 62 if platform.machine() == "aarch64" else 183)
        env = {name: value for name, value in os.environ.items() if name != "PASOLETU_LIB"}
        for head, words in ((header + bytes(44), "The proved library is for another processor: these records are worked by"),
                            (header[:18], "The proved library is not here (./install.sh PREFIX makes it")):
            file.write_bytes(head)
            words = words.encode()
            done = subprocess.run([sys.executable, "-c", only, HERE, HERE.parent / "bindings" / "python", file, SAMPLES[0], out],
                                  stdout=subprocess.PIPE, stderr=subprocess.PIPE, env=env, timeout=PATIENCE)
            self.assertEqual(done.returncode, 0, done)
            self.assertIn(words, done.stderr)
            self.assertIn(words.split(b":")[0].split(b" (")[0], out.read_bytes())
        file.write_bytes(header + bytes(44))
        self.one_sentence(ran("draw.py", SAMPLES[0], out, env=env | {"PASOLETU_LIB": str(file)}), "which is for another processor")

    def test_a_named_library_that_is_not_there(self):
        out = self.folder / "out.svg"
        self.one_sentence(ran("draw.py", SAMPLES[0], out, env=os.environ | {"PASOLETU_LIB": "no/such/library.so"}), "no/such/library.so")
        self.assertFalse(out.exists())

    def test_the_picture_says_who_worked(self):
        self.assertIn("These records are not the proved library's: they are worked by the second implementation", self.told(self.drawn(SAMPLES[0])[2]))

    def test_standard_input_and_output(self):
        want = ran("draw.py", SAMPLES[0], "-", "--second").stdout.replace(SAMPLES[0].name.encode(), b"standard input")
        got = ran("draw.py", "-", "-", "--second", input=SAMPLES[0].read_bytes(), cwd=self.folder)
        self.assertEqual((got.returncode, got.stdout), (0, want))
        self.assertEqual(list(self.folder.iterdir()), [])
        self.one_sentence(ran("draw.py", SAMPLES[0], "-", "--png", "--second"), "must end in .svg")
        with open("/dev/full", "wb") as full:
            self.one_sentence(ran("draw.py", SAMPLES[0], "-", "--second", stdout=full), "No space left on device")

    def test_numbers_of_options_are_strict(self):
        self.assertIn(b"'1_0' is no number", ran("draw.py", SAMPLES[0], "-", "--limits", "1_0", "1").stderr)


class FlatLists(Drawn):
    """Lists of flat records, and their pictures."""
    VALUES = OF_SAMPLES | {"rankine": [1e6, 0.3, 3000.0, 1000.0], "drucker_prager": [0.6, 0.15, 0.2, 0.17, 5e5, 4e5, 0.0, 1.0], "nacc": [1e4, 0.3, 0.05, 1.0, 3.0, 2.36]}
    RECORD = [0.5, -2.0, 1.0, 0.0, 0.0, -1.0, 1.0, 0.0, 1.0, 2.0, 1.0, 0.0, -0.25, 1.0, 0.5, 1.25, 1.5, 1.75, -0.125, -0.0625]

    def options(self, model):
        return ["--flat", "--model", model, "--parameters", *("%s=%r" % pair for pair in zip(sheet.PARAMETERS[model], self.VALUES[model]))]

    def read(self, name, text, model=None):
        with open(self.file(name, text), "rb") as stream:
            _, _, _, records = sheet.from_table(stream, name, model, False, {}, name, sheet.FLAT)
            return list(records)

    def drawn_flat(self, model, rows):
        """The picture of rows, each of two sigma and a plastic hardening."""
        table = self.file("list.csv", "\n".join(["sigma1,sigma2,plastic_hardening", *(",".join(map(repr, row)) for row in rows)]))
        status, err, root = self.drawn(table, *self.options(model), by=())
        self.assertEqual((status, err), (0, ""))
        return root

    def test_a_list_is_read(self):
        names, numbers = ",".join(sheet.FLAT.places), ",".join(map(repr, self.RECORD))
        self.assertEqual(len(sheet.FLAT.places), 20)
        self.assertEqual(self.read("a.csv", "%s\n%s\n" % (names, numbers), "snow"), [self.RECORD])
        self.assertEqual(self.read("a.csv", "%s\n%s\n" % (numbers, numbers), "snow"), [self.RECORD] * 2)
        r = self.RECORD
        by_name = {"F": [r[0:2], r[2:4]], "U": r[4:8], "sigma": r[8:10], "V^T": [r[10:12], r[12:14]]} | dict(zip(sheet.SCALARS, r[14:]))
        self.assertEqual(self.read("a.json", json.dumps({"model": "snow", "particles": [by_name, r]})), [r, r])
        del by_name["F"]
        self.assertEqual(self.read("a.json", json.dumps({"model": "snow", "particles": [by_name]})), [[0.5, -2.0, 1.0, 0.0] + r[4:]])
        whole = [0.5, 0.0, 0.0, 2.0, 1.0, 0.0, 0.0, 1.0, 0.5, 2.0, 1.0, 0.0, 0.0, 1.0, 1.0, 1.0, 1.0, 1.0, 0.0, 0.0]
        self.assertEqual(self.read("a.csv", "sigma1,sigma2\n0.5,2\n", "snow"), [whole])

    def test_what_is_no_list_is_told(self):
        for words, text in (("F alone has no factors here", "F11,F12,F21,F22\n1,0,0,1\n"), ("unknown column 'sigma3'", "sigma1,sigma2,sigma3\n1,1,1\n"),
                            ("unknown column 'determinant': columns are, letter by letter, F11 .. F22, U11 .. U22, sigma1 .. sigma2, V^T11 .. V^T22, phase", "determinant\n1\n"),
                            ("19 cells under 20 columns", ",".join("1" * 20) + "\n" + ",".join("1" * 19)), ("sigma has 1 of its 2 entries", "sigma1\n1\n")):
            status, err, root = self.drawn(self.file("list.csv", text), *self.options("snow"), by=())
            self.assertEqual((status, root, err.count("\n")), (1, None, 1), err)
            self.assertIn(words, err)
        for words, particle in (("particle 0: 19 numbers, not 20", [1] * 19), ("F: 9 numbers, not 4", {"F": [1] * 9}), ("unknown name 'determinant'", {"determinant": 1})):
            with self.assertRaisesRegex(shell.Wrong, words):
                self.read("a.json", json.dumps({"model": "snow", "particles": [particle]}))
        with self.assertRaisesRegex(shell.Wrong, "unknown name 'determinants' beside model, parameters and particles"):
            self.read("a.json", json.dumps({"model": "snow", "determinants": True, "particles": []}))

    def test_options_that_do_not_fit(self):
        table = self.file("list.csv", "sigma1,sigma2\n1,1\n")
        for words, options in (("leave --second,", [*self.options("snow"), "--second"]), ("leave --second,", [*self.options("snow"), "--limits", 1, 1, "--corotated", 1, 1, 1, 1]),
                               ("has no place for the model", ["--flat"]), ("add --flat for a list of flat records", ["--model", "snow"]),
                               ("refused by 6: hardening_enabled is 0 or 1", [x.replace("enabled=1.0", "enabled=-0.0") for x in self.options("nacc")])):
            status, err, root = self.drawn(table, *options, by=())
            self.assertEqual((status, root), (1, None), err)
            self.assertIn(words, err)

    def test_without_a_library(self):
        with unittest.mock.patch.object(shell, "package", side_effect=shell.NoLibrary("there is none")):
            self.assertEqual(self.drawn(self.file("list.csv", "sigma1,sigma2\n1,1\n"), *self.options("snow"), by=()), (1, "draw.py: there is none\n", None))

    def test_nothing_that_is_not_finite_has_a_place(self):
        for model, p in self.VALUES.items():
            plane = draw.FLAT_PLANES[model](p)
            self.assertIsNotNone(draw.place(plane, self.RECORD, False), model)
            for k in range(20):
                for x in NOT_FINITE:
                    self.assertIsNone(draw.place(plane, self.RECORD[:k] + [x] + self.RECORD[k + 1:], True), (model, k, x))

    def test_the_surfaces(self):
        """Each point of a surface satisfies the law's own test with equality."""
        box = (-0.01, 0.01, -0.012, 0.01)
        lame, mu, _ = cases.moduli(1e6, 0.3)
        points = draw.FLAT_PLANES["rankine"](self.VALUES["rankine"]).surface(2500.0, box)
        for e in points:
            self.assertAlmostEqual(lame * sum(e) + 2.0 * mu * max(e), 2500.0, 6)
        self.assertEqual((points[0][0], points[2][1]), (-0.01, -0.012))
        cone = draw.FLAT_PLANES["drucker_prager"](self.VALUES["drucker_prager"])
        for a, b in cone.surface(0.5, box):
            s = math.sin(0.6 + (0.15 * 0.5 - 0.17) * math.exp(-0.2 * 0.5))
            alpha = math.sqrt(2.0 / 3.0) * 2.0 * s / (3.0 - s)
            t = a + b
            self.assertAlmostEqual(math.hypot(a - t / 2.0, b - t / 2.0) + (2.0 * 5e5 + 2.0 * 4e5) / (2.0 * 4e5) * t * alpha, 0.0, 12)
        ellipse = draw.FLAT_PLANES["nacc"](self.VALUES["nacc"])
        for p, q in ellipse.surface(100.0, None):
            self.assertAlmostEqual((1.0 + 2.0 * 0.05) * q * q + 2.36 ** 2 * (p + 0.05 * 100.0) * (p - 100.0), 0.0, 6)

    @unittest.skipUnless(LIBRARY, "there is no proved library")
    def test_each_law_is_drawn(self):
        d = random.Random(13)
        rows = [[math.exp(d.uniform(-0.05, 0.05)), math.exp(d.uniform(-0.05, 0.05)), d.choice([0.0, 1.0])] for _ in range(300)] + [[math.nan, 1.0, 1.0], [0.0, 1.0, 1.0]]
        for model in self.VALUES:
            root = self.drawn_flat(model, rows)
            told = self.told(root)
            head = next(t for t in self.said(root) if t.startswith("list.csv: 302 particles, "))
            refused = 1 if model == "snow" else 2  # Snow clamps the zero
            self.assertTrue(head.endswith(", %d refused" % refused), (model, head))
            self.assertIn("in two axes", told)
            self.assertIn("refused by 1: an input is NaN or infinite; no place in the plane particle 300: F11 is nan, sigma1 is nan", told)
            self.assertIn("Flat records, of two axes. Outcomes and the records after the pass: the proved library.", told)

    @unittest.skipUnless(LIBRARY, "there is no proved library")
    def test_stored_particles_end_on_their_surface(self):
        d, p = random.Random(14), self.VALUES["rankine"]
        lame, mu, _ = cases.moduli(*p[:2])
        plane, seen = draw.FLAT_PLANES["rankine"](p), [0, 0]
        records = [sheet.record({"sigma": [math.exp(d.uniform(-0.02, 0.02)) for _ in range(2)]}, {"plastic_hardening": d.uniform(1.0, 500.0)}, "", sheet.FLAT) for _ in range(400)]
        for q in draw.by_flat_pass(LIBRARY, "rankine", p, records):
            s, stress = plane.key(q.before), [lame * sum(e) + 2.0 * mu * max(e) for e in q.places(plane)]
            self.assertLess(q.code, 2)
            seen[q.code] += 1
            if q.code == 1:
                self.assertGreater(stress[0], s)
                self.assertLessEqual(abs(stress[1] - s), (2.0 * mu + 2.0 * lame) * 2.0 ** -40)
            else:
                self.assertLessEqual(stress[0], s)
        self.assertTrue(min(seen) > 50, seen)

    @unittest.skipUnless(LIBRARY, "there is no proved library")
    def test_standard_input_and_output(self):
        table = ",".join(map(repr, self.RECORD)) + "\n"
        got = ran("draw.py", "--flat", "-", "-", "--model", "snow", input=table.encode())
        self.assertEqual((got.returncode, got.stderr), (0, b""))
        self.assertIn(b"standard input: 1 particles, 0 untouched, 1 stored, 0 refused", got.stdout)


class Second(unittest.TestCase):
    """The second implementation, on cases that can be told by hand."""

    def test_snow_is_clamped(self):
        _, r = cases.worked(0, cases.SNOW, cases.record((2.0, 1.0, 0.5)))
        self.assertEqual(r[18:21], [1.0045, 1.0, 0.975])
        self.assertEqual(r[:9], [1.0045, 0, 0, 0, 1.0, 0, 0, 0, 0.975])
        self.assertAlmostEqual(r[31], 1.0 / (1.0045 * 0.975))

    def test_the_determinant_by_hand(self):
        for f, d in (([2.0, 0.0, 0.0, 0.0, 3.0, 0.0, 0.0, 0.0, 5.0], 30.0), ([0.0, 1.0, 0.0, 1.0, 0.0, 0.0, 0.0, 0.0, 1.0], -1.0), ([1.0, 2.0, 3.0, 4.0, 5.0, 6.0, 7.0, 8.0, 10.0], -3.0)):
            self.assertEqual(cases.determinant(f), d)
        # the order of the operations: by another the first would be 0.0, the second finite
        self.assertEqual(cases.determinant([1.0, 1.0, 0.0, 1.0, 1.0 + 2.0 ** -52, 0.0, 0.0, 0.0, 1.0]), 2.0 ** -52)
        self.assertEqual(cases.determinant([1e-200, 0.0, 0.0, 0.0, 1e200, 0.0, 0.0, 0.0, 1e200]), math.inf)
        odd = cases.floats([cases.determinant([math.inf] * 9)])
        self.assertEqual(odd, bytes.fromhex("000000000000f87f"))

    def told(self, model, p, r):
        try:
            return cases.worked(model, p, r)[0]
        except cases.Refused as e:
            return e

    def test_the_order_of_1_and_11(self):
        """Of a record with a wrong determinant: 1 of any other float comes first, then 11, then what the law refuses or leaves."""
        number = lambda *given: self.told(*given).args[0]
        strong, sand = [10.0, 0.25, 100.0, 1.0], [0.6, 0.15, 0.2, 0.17, 3.0, 1.0, 1.0, 1.0]
        for place in range(36):
            self.assertEqual(number(0, cases.SNOW, cases.broken(place, cases.NAN, cases.broken(36, 2.0))), 1)
        self.assertEqual(number(0, [0.025, cases.INF, 10.0], cases.broken(36, 2.0)), 1)
        for model, p, r in ((0, cases.SNOW, cases.record(pdet=1e6)), (1, strong, cases.record()), (1, strong, cases.record((0.0, 1.0, 1.0))), (2, sand, cases.record()), (1, [10.0, 0.5, 1.0, 1.0], cases.record())):
            self.assertEqual(number(model, p, cases.broken(36, 2.0, r[:])), 11)
            told = self.told(model, p, r)
            self.assertTrue(told is None or told.args[0] in (2, 3), told)
        for place in range(9):
            self.assertEqual(number(0, cases.SNOW, cases.broken(place, 2.0)), 11) if place in (0, 4, 8) else None

    def test_zeros_differ_by_their_sign(self):
        flat = cases.record(f=[0.0] * 9)
        self.assertEqual(self.told(0, cases.SNOW, flat), 1.0)
        self.assertEqual(self.told(0, cases.SNOW, cases.broken(36, -0.0, flat[:])).args[0], 11)

    def test_the_new_determinant(self):
        _, r = cases.worked(0, cases.SNOW, cases.record((2.0, 1.0, 0.5)))
        self.assertEqual(r[36], 1.0045 * (1.0 * 0.975))
        # F before and after is finite; after, its determinant is not
        far = cases.record((1.0, 1.0, 1.0))
        far[9:18] = [1e150, 0.0, 0.0, 0.0, 1e150, 0.0, 0.0, 0.0, 1e150]
        self.assertEqual(self.told(0, cases.SNOW, far).args[0], 3)
        # untouched, it is not asked for
        self.assertIsNone(self.told(1, [10.0, 0.25, 100.0, 1.0], far))

    def test_sheets_of_36_and_of_37(self):
        records = [cases.record((2.0, 1.0, 0.5)), cases.broken(36, 7.0), cases.record(f=[1e200] * 9)]
        for model, size in ((0, 36), (4, 37)):
            b = cases.sheet(records, cases.SNOW, model)
            self.assertEqual(len(b), 1 + 24 + 1 + 3 * 8 * size)
            number, p, read = cases.read(b)
            self.assertEqual((number, p), (model, cases.SNOW))
            self.assertEqual(cases.sheet(read, p, number), b)
            self.assertEqual(read[1][36], 7.0 if model else 1.0)
            self.assertTrue(math.isnan(read[2][36]))
        self.assertEqual(cases.expected(cases.sheet(records))[1:4], ["0 stored %r" % cases.worked(0, cases.SNOW, records[0])[0], "1 stored 1.0", "2 refused 1"])
        self.assertEqual(cases.expected(cases.sheet(records, cases.SNOW, 4))[2:4], ["1 refused 11", "2 refused 1"])
        for model in (cases.MODELS, cases.MODELS + 1, 127):
            self.assertEqual(cases.expected(cases.number(model) + b"\0" * 25), ["sheet refused 6"])

    def test_the_longest_sheet(self):
        longest = cases.sheet([cases.record()] * 200, [0.0] * 8, 6)
        self.assertEqual(len(longest), 1 + 64 + 2 + 200 * 37 * 8)
        self.assertEqual(len(longest), next(c.value for g in sheet.TABLE.constants for c in g.rows if c.name == "SHEET_BYTES"))

    def test_failure_by_hand(self):
        """Judged as it stands: Rankine's law leaves the record, whose stresses are 10, 6, 6."""
        law, r, strong = [1.0, 0.9, 3.0, 1.0], cases.record((2.0, 1.0, 1.0)), [10.0, 0.25, 100.0, 1.0]
        self.assertEqual(cases.principal(law, r), [2.0 * 2.0 + 3.0 * 2.0, 6.0, 6.0])
        for limits, failed in (([9.5, 100.0], True), ([10.0, 2.0], False), ([10.0, 1.5], True)):
            self.assertEqual(cases.worked_with_failure(1, strong, limits, law, r), (failed, None, r[:30] + [0.0 if failed else 1.0] + r[31:]))
        broken = cases.record((2.0, 1.0, 1.0), phase=0.0)
        self.assertEqual(cases.principal(law, broken), [0.0, 0.0, 0.0])
        self.assertFalse(cases.worked_with_failure(1, strong, [9.5, 100.0], law, broken)[0])

    def test_the_law_comes_before_the_verdict(self):
        """Each as the record came: whether it is over the limits; then whether it failed."""
        law = [1.0, 0.9, 3.0, 1.0]
        soft, hardening = cases.record((2.0, 1.0, 1.0)), cases.record((0.9, 1.0, 1.0), pdet=0.5)
        weak, sand = [10.0, 0.25, 1.0, 1.0], [0.6, 0.15, 0.2, 0.17, 3.0, 1.0, 1.0, 1.0]
        for model, p, limits, r, came, failed in (
            (0, cases.SNOW, [9.5, 100.0], soft, True, False),
            (1, weak, [9.5, 100.0], soft, True, False),
            (0, cases.SNOW, [100.0, 1.0], hardening, False, True),
            (2, sand, [9.5, 100.0], soft, True, True),
        ):
            self.assertEqual(cases.fails(limits, cases.principal(law, r)), came)
            amount, left = cases.worked(model, p, r)
            # the law has seen the phase as it came: Drucker-Prager, only for failed ones, leaves this one
            self.assertEqual(amount is None, model == 2)
            self.assertEqual(cases.worked_with_failure(model, p, limits, law, r), (failed, amount, left[:30] + [0.0 if failed else 1.0] + left[31:]))

    def test_a_refused_law_and_a_refused_stress(self):
        law = [1.0, 0.9, 3.0, 1.0]
        # the law's 10, though the stress of the record as it came would be refused by 3; and the limits' 1 before it
        lost = cases.record((2.0, 1.0, 1.0), pdet=-1000.0, ehard=1.7e308)
        for limits, r, number in (([-1.0, 100.0], lost, 10), ([cases.NAN, 100.0], lost, 1), ([-1.0, 100.0], cases.broken(36, 2.0), 11), ([cases.NAN, 1.0], cases.broken(36, 2.0), 1)):
            with self.assertRaises(cases.Refused) as caught:
                cases.worked_with_failure(0, cases.SNOW, limits, law, r)
            self.assertEqual(caught.exception.args, (number,))
        # a stress that is refused only by the hardening that the law leaves
        r, stiff = cases.record((0.9, 1.0, 1.0), pdet=0.5), [1.0, 0.9, 0.0, 1e307]
        self.assertTrue(all(map(math.isfinite, cases.principal(stiff, r))))
        with self.assertRaises(cases.Refused) as caught:
            cases.worked_with_failure(0, cases.SNOW, [1.0, 1.0], stiff, r)
        self.assertEqual(caught.exception.args, (3,))
        # and one that only the hardening that it came with refuses
        self.assertFalse(cases.worked_with_failure(0, cases.SNOW, [9.5, 100.0], law, cases.record((2.0, 1.0, 1.0), ehard=1.7e308))[0])


@unittest.skipUnless(LIBRARY, "there is no proved library")
class ByLibrary(InFolder):
    def close(self, a, b, where, distance=1e-9):
        for k, (x, y) in enumerate(zip(a, b)):
            self.assertTrue(x == y or (x != x and y != y) or abs(x - y) <= distance * max(1.0, abs(x)), "%s, float %d: %r, %r" % (where, k, x, y))

    def agree(self, a, b, where, distance=1e-9):
        self.assertEqual((a.code, a.failed), (b.code, b.failed), where)
        if a.code == 1:
            self.close([a.value], [b.value], where, distance)
        else:
            self.assertEqual(a.value, b.value, where)
        self.close(a.after, b.after, where, distance)
        if a.code == 2:
            self.assertEqual(cases.floats(a.after), cases.floats(a.before), where)
        else:
            self.assertEqual(cases.floats(a.after[36:]), cases.floats([cases.determinant(a.after[:9])]), where)

    def test_library_and_second_agree(self):
        failure = ([2e4, 1.5e4], [1.0, 0.9, 576923.0, 384615.0])
        seen = {(f, c): 0 for f in (False, True) for c in range(3)}
        failed = 0
        for path in SHEETS + SAMPLES:
            if not readable(path):
                continue
            for f in (None, failure):
                pairs = zip(draw.by_library(LIBRARY, path.read_bytes(), f), draw.by_second(path.read_bytes(), f))
                for k, (a, b) in enumerate(pairs):
                    self.agree(a, b, "%s particle %d" % (path.name, k))
                    seen[f is not None, a.code] += 1
                    failed += a.failed
        self.assertTrue(all(seen.values()) and failed, (seen, failed))

    def test_drawn_records_agree(self):
        """4,000 records drawn at random: each outcome, refusal and verdict, and what is stored within 1e-7."""
        d, seen, wrong = random.Random(5), set(), 0
        for _ in range(4000):
            model, failure = d.randrange(cases.MODELS), None
            p, r = samples.drawn_parameters(d)[sheet.MODELS[cases.TABLE.law_of[model][0]]], drawn_record(d)
            if d.random() < 0.5:
                size = 10.0 ** d.uniform(1, 7)
                failure = [size * d.random(), size * d.random()], [float(d.randint(0, 1)), 0.9, size * d.uniform(0, 2), size]
            data = cases.sheet([r], p, model)
            [a], [b] = draw.by_library(LIBRARY, data, failure), draw.by_second(data, failure)
            self.agree(a, b, repr((model, p, failure, r)), 1e-7)
            seen.add((model, a.code))
            wrong += a.code == 2 and a.value == 11
        self.assertEqual(len(seen), 3 * cases.MODELS - 2)  # three outcomes a law, but Snow leaves nothing untouched
        self.assertGreater(wrong, 50)

    def test_it_is_drawn_by_default(self):
        for path in SAMPLES:
            out = self.folder / "out.svg"
            self.assertEqual(quiet(draw.main, path, out)[::2], (0, ""))
            self.assertIn("Outcomes and the records after the run: the proved library.", out.read_text())
            self.assertNotIn("second implementation", out.read_text())

    def test_measurements(self):
        process = ran("measure/surface.py", 200)
        self.assertEqual(process.returncode, 0, process)
        self.assertIn(b"200 records in the premises, 0 do not keep the promise", process.stdout)
        self.assertEqual(process.stdout.count(b" below; in the archive "), 3)  # the branches that store

    @unittest.skipUnless(importlib.util.find_spec("mpmath"), "there is no mpmath; on Debian: apt-get install -y python3-mpmath")
    def test_accuracy(self):
        process = ran("measure/accuracy.py", 20)
        self.assertEqual(process.returncode, 0, process)
        self.assertEqual(process.stdout.count(b" 20 points"), 9)


class Reports(InFolder):
    """The morning table of sheets."""

    def sheets(self, *values):
        """A folder of Snow sheets, one for each list of plastic hardenings."""
        for k, hardenings in enumerate(values):
            records = [sheet.record({}, {**sheet.SCALARS, "plastic_hardening": x}, "a test") for x in hardenings]
            (self.folder / ("%03d.sheet" % k)).write_bytes(sheet.written("snow", False, [0.025, 0.0045, 10.0], records, "a test"))

    def printed(self, *options, status=0):
        ended = quiet(report.main, *options, self.folder)
        self.assertEqual(ended[0], status, ended)
        return ended[1]

    def test_the_table(self):
        self.sheets([1.0, -0.1, 2.0 ** 20], [math.nan, -0.0, -2.0 ** 21])
        self.assertEqual(self.printed("--second").split("elastic hardening")[0], """\
the night in whole numbers: 2 sheets, 6 particles
plastic hardening
  counted                  4
  least           -107374183/2^30 = -0.100000000558793544769287109375
  greatest  1125899906842624/2^30 = 1048576
  total     1125900873210265/2^30 = 1048576.899999999441206455230712890625
  not within 2^20 of zero  1
  NaN or infinite          1
""")

    def test_the_guides_table(self):
        guide = (shell.TOP / "docs" / "GUIDE.md").read_text()
        shown = guide.split("tools/report.py samples | head")[1].split("```text prints\n")[1].split("```")[0]
        ended = quiet(report.main, "--second", shell.TOP / "samples")
        self.assertEqual(shown.splitlines(), ended[1].split("elastic hardening")[0].splitlines())

    def test_decimals_are_exact(self):
        d = random.Random(7)
        for k in [0, 1, -1, 2 ** 30, -2 ** 30, 5, -2 ** 62, 2 ** 62] + [d.randrange(-2 ** 62, 2 ** 62) >> d.randrange(60) for _ in range(1000)]:
            self.assertEqual(fractions.Fraction(report.decimal(k)), fractions.Fraction(k, 2 ** 30))
            self.assertRegex(report.decimal(k), r"^(-?(0|[1-9][0-9]*)(\.[0-9]*[1-9])?)$")

    def test_a_column_is_that_of_fractions(self):
        d = random.Random(11)
        edges = [0.0, -0.0, 5e-324, -5e-324, 2.0 ** 20, -2.0 ** 20, math.nextafter(2.0 ** 20, 0.0), math.nextafter(2.0 ** 20, 2.0 ** 21), math.nextafter(-2.0 ** 20, 0.0), 2.0 ** -30, -(2.0 ** -31), *NOT_FINITE]
        drawn = [d.uniform(-2, 2) * 2.0 ** d.randrange(-80, 23) for _ in range(20000)]
        finite = [fractions.Fraction(x) for x in edges + drawn if math.isfinite(x)]
        wholes = [math.floor(x * 2 ** 30) for x in finite if abs(x) <= 2 ** 20]
        self.assertEqual(report.column_of(edges + drawn), (len(wholes), min(wholes), max(wholes), sum(wholes), len(finite) - len(wholes), len(NOT_FINITE)))
        self.assertEqual(report.columns_of(report.entries([report.column_of(drawn)] * 3)), (report.column_of(drawn),) * 3)

    def test_over_4096_particles_are_told_in_parts(self):
        self.sheets(*[[float(k)] * 200 for k in range(21)])
        text = self.printed("--second")
        self.assertEqual([line for line in text.splitlines() if "sheet" in line], [
            "the night in whole numbers: 21 sheets, 4200 particles", "part 1 of 2: 20 sheets, 4000 particles", "part 2 of 2: 1 sheet, 200 particles"])
        self.assertIn("  total     %d/2^30 = %d\n" % (42000 << 30, 42000), text)

    def test_a_refused_sheet_is_named(self):
        self.sheets([1.0])
        (self.folder / "cut.sheet").write_bytes((self.folder / "000.sheet").read_bytes()[:-1])
        text = self.printed("--second", status=3)
        self.assertIn("1 sheet, 1 particle\n", text)
        self.assertIn("cut.sheet: refused 4, in no table: the sheet ends early\n", text)

    def test_no_sheet(self):
        status, out, err = quiet(report.main, self.folder)
        self.assertEqual((status, out), (2, ""))
        self.assertEqual(err, "report.py: there is no file *.sheet in or below %s\n" % self.folder)

    def test_the_library_and_fractions_print_the_same(self):
        if not LIBRARY:
            self.skipTest("the library is not here")
        d = random.Random(3)
        odd = NOT_FINITE + (2.0 ** 20, -2.0 ** 20, math.nextafter(2.0 ** 20, 2.0 ** 21), -5e-324, -0.0)
        self.sheets(*[[d.choice(odd) if d.random() < 0.3 else d.uniform(-2, 2) * 2.0 ** d.randrange(-40, 22) for _ in range(n)] for n in [200] * 25 + [0, 1, 7]])
        self.assertEqual(self.printed(), self.printed("--second"))
        self.assertIn("part 1 of", self.printed())

    def test_updated(self):
        if not LIBRARY:
            self.skipTest("the library is not here")
        records = [sheet.record({"sigma": [0.9, 1.0, 1.0]}, dict(sheet.SCALARS), "a test")]
        (self.folder / "one.sheet").write_bytes(sheet.written("snow", False, [0.025, 0.0045, 10.0], records, "a test"))
        self.assertNotEqual(self.printed("--updated"), self.printed())
        status, _, err = quiet(report.main, "--updated", "--second", self.folder)
        self.assertEqual(status, 1)
        self.assertIn("--updated: the records after the laws are those of the proved library", err)


@unittest.skipUnless(LIBRARY, "the library is not here")
class Arriving(InFolder):
    """A sheet over a slow pipe."""

    SHEET = HERE.parent / "samples" / "snow_slope.sheet"

    def expected(self, number):
        return LINES.split("-- %02d\n" % number)[1].split("-- ")[0]

    def test_every_sheet_of_the_gate(self):
        for number, path in enumerate(SHEETS):
            came, want = ran("arrive.py", "--quiet", path), self.expected(number)
            self.assertEqual(came.stdout.decode().splitlines()[-1], want.splitlines()[-1], path)
            if not want.startswith("sheet refused"):
                self.assertEqual(came.stdout.decode(), want, path)
            self.assertEqual(came.returncode, 3 if " refused " in want else 0, path)

    def line_by_line(self, data, parts):
        """Hands in the parts, and after each reads the lines that must have come by then."""
        with subprocess.Popen([sys.executable, HERE / "arrive.py"], stdin=subprocess.PIPE, stdout=subprocess.PIPE, stderr=subprocess.PIPE) as tool:
            got = []
            for part, lines in parts:
                tool.stdin.write(part)
                tool.stdin.flush()
                got += [tool.stdout.readline() for _ in range(lines)]
            tool.stdin.close()
            return b"".join(got) + tool.stdout.read(), tool.stderr.read().decode(), tool.wait()

    def test_a_slow_pipe(self):
        data = self.SHEET.read_bytes()
        head = 1 + 3 * 8 + 1
        cuts = [0, 1, head - 1, head, head + 100, head + 288, head + 288 * 3 + 5, len(data)]
        lines = [0, 0, 1, 0, 1, 2, 37]
        out, err, status = self.line_by_line(data, [(data[a:b], n) for a, b, n in zip(cuts, cuts[1:], lines)])
        self.assertEqual(out, ran("arrive.py", "--quiet", self.SHEET).stdout)
        self.assertEqual((status, out.splitlines()[-1]), (3, b"end"))
        self.assertTrue(err.startswith("arrive.py: standard input: 1 of 40\narrive.py: standard input: 3 of 40\n") and err.endswith(": 40 of 40\n"), err)

    def test_a_line_that_is_cut_off(self):
        data = self.SHEET.read_bytes()
        out, err, status = self.line_by_line(data, [(data[:26 + 288 * 2 + 7], 3)])
        whole = ran("arrive.py", "--quiet", self.SHEET).stdout.splitlines()
        self.assertEqual(out.splitlines(), whole[:3] + [b"sheet refused 4"])
        self.assertEqual(status, 3)
        self.assertIn("2 of 40 particles were complete before the fault", err)

    def test_a_fault_ends_the_reading(self):
        data = self.SHEET.read_bytes()
        out, err, status = self.line_by_line(data, [(data + b"\0", 42)])
        self.assertEqual((out.splitlines()[-1], status), (b"sheet refused 7", 3))
        self.assertEqual(ran("arrive.py", input=b"\x09").stdout, b"sheet refused 6\n")

    def test_a_fifo(self):
        line = self.folder / "line"
        os.mkfifo(line)
        with subprocess.Popen([sys.executable, HERE / "arrive.py", "--quiet", line], stdout=subprocess.PIPE, stderr=subprocess.PIPE) as tool:
            with open(line, "wb", 0) as end:
                for b in self.SHEET.read_bytes()[:1000]:
                    end.write(bytes([b]))
            out, err = tool.communicate()
        self.assertEqual((out.count(b"\n"), out.splitlines()[-1], tool.returncode), (5, b"sheet refused 4", 3))

    def test_what_is_turned_inside_out_is_told(self):
        """Of a short sheet and of one whose count has two bytes, with determinants or without."""
        for count in (3, 150):
            for model in (0, 4):
                records = [cases.record() for _ in range(count)]
                records[1], records[count - 1] = cases.record((1.0, -0.9, 1.0)), cases.record((0.0, 1.0, 1.0))
                path = self.folder / "in.sheet"
                path.write_bytes(cases.sheet(records, model=model))
                done = ran("arrive.py", "--quiet", "--explain", path)
                self.assertEqual((done.returncode, done.stderr.decode().splitlines()), (0, [
                    "arrive.py: %s: particle 1 is stored, but turned inside out: sigma -0.9" % path,
                    "arrive.py: %s: particle %d is stored, but pressed flat: sigma 0" % (path, count - 1)]))

    def test_explained_and_no_sheet(self):
        told = ran("arrive.py", "--quiet", "--explain", self.SHEET).stderr.decode()
        self.assertIn("refused by 1: an input is NaN or infinite", told)
        self.assertEqual(ran("arrive.py", self.folder / "none").returncode, 2)
        self.assertEqual(ran("arrive.py", self.folder).returncode, 2)


COMPILER = shutil.which("cc" if os.uname().machine == "x86_64" else "x86_64-linux-gnu-gcc")


class ByZone(unittest.TestCase):
    """The night's table for the phone."""

    def result(self, name, *counts):
        return night_sheets.Result(night_sheets.Sheet(name, "", None), *counts)

    def table(self, results, *words):
        table = night_page.ByZone(*words)
        for r in results:
            table.add(r)
        return table.table().splitlines()

    def test_table(self):
        zones = night_page.zones_of("7 a.sheet\n7 b.sheet\n\n0 far/c.sheet\n")
        results = [
            self.result("a.sheet", True, None, 4, 1, 2, {1: [0]}),
            self.result("b.sheet", True, None, 2, 0, 2, {}),
            self.result("far/c.sheet", True, 4),
            self.result("lost.sheet", False),
        ]
        self.assertEqual(self.table(results, zones)[1:], ["0,1,0,0,0,0,not judged,1,0", "7,2,6,1,4,1,not judged,0,0", ",1,0,0,0,0,not judged,1,0"])
        judged = self.table([r._replace(failed=3) if r.sheet.name == "a.sheet" else r for r in results], {**zones, "gone.sheet": 3}, True)
        self.assertEqual(judged, ["zone,sheets,particles,untouched,stored,refused,failed,not_worked,never_came",
                                  "0,1,0,0,0,0,0,1,0", "3,0,0,0,0,0,0,0,1", "7,2,6,1,4,1,3,0,0", ",1,0,0,0,0,0,1,0"])

    def test_what_stands_between(self):
        for text in ("7 a b.sheet\n0\tc.sheet", "7,a b.sheet\n0 , c.sheet\n", '7,"a b.sheet"\r\n\n0;c.sheet'.replace(";", "\t"), " 7\t a b.sheet \n0,c.sheet"):
            self.assertEqual(night_page.zones_of(text), {"a b.sheet": 7, "c.sheet": 0}, text)

    def test_wrong_line(self):
        for text in ("seven a.sheet", "7", "7,", "-1 a.sheet", "1 a.sheet\n2 a.sheet"):
            with self.assertRaises(ValueError):
                night_page.zones_of(text)


class NoDivision(InFolder):
    """The check of the root's machine code, on builds that are right and wrong."""

    RIGHT = """
        __attribute__((noinline)) static unsigned long digits(unsigned long n) { unsigned long r = 0; do { n -= r; r += 2; } while (r < n); return r; }
        unsigned long pasoletu_sqrt(unsigned long n) { return digits(n + 1) + 1; }"""

    def built(self, code, *options):
        """What the tool says of a build, its status first."""
        if not COMPILER:
            self.skipTest("no C compiler for x86-64")
        source, out = self.file("root.c", code), self.folder / "root.o"
        subprocess.run([COMPILER, "-O1", "-ffunction-sections", "-c", source, "-o", out, *options], check=True)
        return quiet(no_division.main, out)

    def wrong(self, words, old, new, *options):
        self.assertIn(old, self.RIGHT)
        status, said, _ = self.built(self.RIGHT.replace(old, new), *options)
        self.assertEqual(status, 1)
        self.assertIn(words, said)
        self.assertRegex(said, r"\n1 passed, 1 failed\n$")

    def test_no_division(self):
        status, said, err = self.built(self.RIGHT)
        self.assertEqual((status, err), (0, ""))
        self.assertRegex(said, r"digits: [0-9]+ bytes, [0-9]+ instructions, loops: 1\n(.*\n)*2 passed, 0 failed\n$")

    def test_a_division(self):
        self.wrong("digits: divides or takes a root", "r += 2", "r += n / (r + 3)")
        self.wrong("pasoletu_sqrt: divides or takes a root", "digits(n + 1) + 1", "(unsigned long)((double)digits(n + 1) / (double)n)")

    def test_a_multiplication(self):
        self.wrong("digits: multiplies", "r += 2", "r += n * r + 2")

    def test_a_load_in_the_loop(self):
        self.wrong("digits: reads memory inside the loop", "r += 2", "r += *(volatile unsigned long *)0x1000 + 2")

    def test_too_many_bytes(self):
        self.assertEqual(self.built(self.RIGHT.replace("r = 0;", 'r = 0; __asm__ volatile(".skip 301, 0x90");'))[0], 0)
        named = no_division.disassembled(self.folder / "root.o").replace("digits", "square_root::digits")
        lines, passed, failed = no_division.checked(named)
        self.assertEqual((passed, failed), (2, 1), lines)
        self.assertRegex(lines[-1], r"^the crate's own functions: 3[0-9]+ bytes of 300;")

    def test_sources(self):
        right = "ghost use a.{_*_};\n// n * n\nfn f(n: u64) -> u64\n    ensures { λ r. ⌜ r ≡ n * n / 3 ⌝ }\n{\n    std::num::wrapping_sub_u64(n / 0x10_00 % 8, n >> 2)\n}\n"
        self.assertEqual(no_division.source_faults(right), [])
        for old, new, words in (
            ("n >> 2", "n * 2", "`*`"),
            ("n >> 2", "n / 3", "`/` by what is no constant power of two"),
            ("% 8", "% n", "`%` by what is no constant power of two"),
            ("n >> 2", "TABLE[n]", "an array"),
            ("n >> 2", "fixed_point::product(n, n)", "asks fixed_point::product"),
        ):
            self.assertIn((6, words), no_division.source_faults(right.replace(old, new)))
        self.assertEqual(no_division.sources(no_division.SOURCES)[2], 0)

    def test_the_machines_root(self):
        self.wrong("sqrtsd", "digits(n + 1) + 1", "(unsigned long)__builtin_sqrt((double)digits(n + 1))", "-fno-math-errno")

    def test_a_division_elsewhere(self):
        status, said, _ = self.built(self.RIGHT + "unsigned long other(unsigned long a, unsigned long b) { return a / b; }")
        self.assertEqual((status, "other" in said), (0, False))

    def test_a_call_that_leads_out(self):
        status, said, _ = self.built("unsigned long __udivti3(unsigned long, unsigned long);" + self.RIGHT.replace("digits(n + 1) + 1", "__udivti3(digits(n), n)"))
        self.assertEqual(status, 1)
        self.assertIn("__udivti3: it is called and does not stand in the library", said)

    def test_a_jump_in_the_loop(self):
        self.wrong("digits: jumps inside the loop", "r += 2;", 'r += 2; if (n & r) { __asm__ volatile("nop"); n -= 3; }')

    def test_a_jump_back_to_an_ending(self):
        shared = '({ __asm__ volatile("jmp 2f\\n1: jmp 3f\\n2: jmp 1b\\n3:"); digits(n + 1) + 1; })'
        status, said, err = self.built(self.RIGHT.replace("digits(n + 1) + 1", shared))
        self.assertEqual((status, err), (0, ""), said)
        self.assertRegex(said, r"pasoletu_sqrt: [0-9]+ bytes, [0-9]+ instructions, loops: 0\n")

    def test_no_root(self):
        for code, words in (("int other;", "the library has no pasoletu_sqrt"), ("int pasoletu_sqrt(int n) { return n; }", "no loop was found")):
            status, said, err = self.built(code)
            self.assertEqual((status, said), (1, ""))
            self.assertIn(words, err)

    def test_no_library(self):
        status, _, err = quiet(no_division.main, self.folder / "none.a")
        self.assertEqual((status, err.count("\n")), (1, 1))

    def test_the_library(self):
        archive = found(no_division.library, "PASOLETU_ARCHIVE")
        if not archive:
            self.skipTest("no library was built of these sources")
        status, said, err = quiet(no_division.main, archive)
        self.assertEqual((status, err), (0, ""), said)


class Tools(InFolder):
    """What holds for every tool."""

    def setUp(self):
        super().setUp()
        prover = self.file("rt", "#!/bin/sh\necho proved >>%s\nexit 1\n" % (self.folder / "proved"))
        prover.chmod(0o755)
        self.env = os.environ | {"PATH": "%s:%s" % (self.folder, os.environ["PATH"])}

    def tearDown(self):
        self.assertFalse((self.folder / "proved").exists(), "a tool has called the prover")
        super().tearDown()

    def test_help(self):
        for tool in TOOLS:
            process = ran(tool, "--help", env=self.env)
            self.assertEqual((process.returncode, process.stderr), (0, b""), tool.name)
            self.assertIn("  tools/%s" % tool.relative_to(HERE), process.stdout.decode())

    def test_measurements_without_a_library(self):
        for tool in ("measure/accuracy.py", "measure/surface.py"):
            process = ran(tool, 10, env=self.env | {"PASOLETU_LIB": "no/such/library.so"})
            self.assertEqual(process.returncode, 1)
            self.assertRegex(process.stderr.decode(), "^.*(install.sh PREFIX|python3-mpmath).*\n$")

    def test_a_program_that_is_not_there(self):
        self.one_sentence(ran("faults.py", "--program", "no/such", env=self.env), "no/such is no program that can be run")
        self.one_sentence(ran("cases.py", "check", "--program", "no/such", env=self.env), "no/such: cannot be run")

    def test_cases(self):
        process = ran("cases.py", "check", env=self.env)
        self.assertEqual((process.returncode, process.stderr), (0, b""))
        self.assertIn(b"the gate's: 663 lines, 663 expected, 0 differ", process.stdout)
        self.assertEqual(process.stdout.count(b"0 differ"), 2 if os.environ.get("PASOLETU_SLOPE") else 1)

    def test_list_cases(self):
        process = ran("list_cases.py", "--check", env=self.env)
        self.assertEqual((process.returncode, process.stderr), (0, b""))

    def test_another_word_in_the_list_of_list_cases_is_told(self):
        program = HERE.parent / "tests" / "list_cases"
        held = bytearray((program / "data" / "list").read_bytes())
        held[len(held) // 2] ^= 1
        (self.folder / "data").mkdir()
        (self.folder / "data" / "list").write_bytes(held)
        (self.folder / "stdout").write_bytes((program / "stdout").read_bytes())
        process = ran("list_cases.py", "--check", self.folder, env=self.env)
        self.assertEqual(process.returncode, 1)
        self.assertRegex(process.stdout.decode(), r"is another than tools/list_cases.py makes\n\d+ passed, 1 failed\n$")

    def test_replayed(self):
        process = ran("measure/replayed.py", env=self.env)
        self.assertEqual((process.returncode, process.stderr), (0, b""))
        self.assertEqual(process.stdout, b"1497 passed, 0 failed\n")

    def test_another_side_in_the_replayed_list(self):
        b = bytearray((HERE.parent / "tests" / "replay" / "data" / "list").read_bytes())
        b[731] = 12 - b[731]  # an exponential's: 10 for 2
        changed = self.folder / "list"
        changed.write_bytes(b)
        process = ran("measure/replayed.py", changed, env=self.env)
        self.assertEqual(process.returncode, 1)
        self.assertIn(b"byte 730: call 0 is refused by 10, by the second reading 2", process.stdout)

    def test_cases_by_an_emulator(self):
        program = self.file("slope", "cat >/dev/null; echo emulated")
        with unittest.mock.patch.dict(os.environ, {"PASOLETU_EMULATOR": "sh -e"}):
            self.assertEqual(cases.printed_by(program)[1], "emulated")

    def test_cases_with_a_wrong_program(self):
        self.assertEqual(ran("cases.py", "check", "--program", "/bin/true", env=self.env).returncode, 1)

    def test_samples_that_cannot_be_written(self):
        self.one_sentence(ran("samples.py", self.folder / "no", env=self.env), "cannot be written")


def drawn_record(d):
    """A record with sigma spread by one of some widths; now and then one float of any size."""
    width = d.choice([1e-9, 1e-3, 0.03, 0.3, 2.0, 41.0])
    shift = d.choice([0.0, d.uniform(-width, width)])
    sigma = [math.exp(shift + d.uniform(-width, width)) for _ in range(3)]
    if d.random() < 0.2:
        sigma[d.randrange(3)] = sigma[0]
    r = cases.record(sigma, d.choice([1.0, 0.0, 0.5, -0.0]), d.uniform(0.5, 1.5), d.choice([1.0, 10.0 ** d.uniform(-3, 6)]), d.uniform(0, 3),
                     d.choice([0.0, d.uniform(-0.2, 0.2)]), d.uniform(-0.5, 0.1))
    if d.random() < 0.1:
        r[d.randrange(36)] *= 10.0 ** d.uniform(-308, 308)
    r = cases.completed(list(map(float, r)))
    if d.random() < 0.1:
        r[36] = d.choice([-r[36], math.nextafter(r[36], math.inf), 0.0, r[36]])
    return r


if __name__ == "__main__":
    unittest.main()
