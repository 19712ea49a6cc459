"""Tests of tools/table: a stale file, a call of another kind in the proved crates and a row that makes no sense are each told. And of tools/calls.py: a public
call that takes a NaN or requires something, a row that is untrue, a page that names what isn't there or shows what isn't printed, and too many words, are told."""
import pathlib
import re
import shutil
import subprocess
import sys
import tempfile
import unittest

TOP = pathlib.Path(__file__).resolve().parent.parent
MADE = (
    "include/pasoletu.h",
    "bindings/python/pasoletu/_table.py",
    "bindings/rust/src/table.rs",
    "bindings/rust/Cargo.toml",
    "bindings/rust/Cargo.lock",
    "bindings/rust/parallel/Cargo.toml",
    "beside/table.rs",
    "beside/externs.rs",
    "fuzz/calls.h",
    "tests/calls.h",
    "tests/replay/numbers.h",
    "README.md",
    "docs/GUIDE.md",
    "docs/RULES.md",
    "docs/STEPS.md",
    "man/slope.1",
    "tools/sheet.py",
    *(f"crates/model/proofs/rows/{function}/Answers.antt" for function in (
        "shape_of", "branch", "model_of", "make_ready", "parameters_ready", "reason_of", "update_ready", "write_scalars",
        "snow", "rankine", "drucker_prager", "nacc", "ready_rankine", "ready_nacc")),
    *(f"crates/flat_particles/proofs/rows/{function}/Answers.antt" for function in ("update", "write_scalars")),
)
READ = ("VERSION", "calls.toml", "tools/table", "tools/making", "crates/answers/src", "crates/model/specs", "crates/host/src", "crates/host_passes/src", "crates/host_sheets/src", "crates/host_c/src")


class Copy(unittest.TestCase):
    """Each test has a copy of what tools/table reads and makes."""

    def setUp(self):
        room = tempfile.TemporaryDirectory()
        self.addCleanup(room.cleanup)
        self.top = pathlib.Path(room.name)
        for name in MADE + READ:
            (self.top / name).parent.mkdir(parents=True, exist_ok=True)
            copy = shutil.copytree if (TOP / name).is_dir() else shutil.copy
            copy(TOP / name, self.top / name)

    def run_table(self, *words):
        return subprocess.run([self.top / "tools/table", *words], capture_output=True, text=True)

    def edit(self, name, old, new):
        text = (self.top / name).read_text()
        self.assertIn(old, text)
        (self.top / name).write_text(text.replace(old, new, 1))

    def told(self, words):
        """--check fails and says these words; its last line counts."""
        done = self.run_table("--check")
        self.assertEqual(done.returncode, 1, done.stdout)
        self.assertIn(words, done.stdout)
        self.assertRegex(done.stdout.splitlines()[-1], r"^\d+ passed, [1-9]\d* failed$")


class Check(Copy):
    def test_what_is_committed_is_what_is_made(self):
        done = self.run_table("--check")
        self.assertEqual(done.returncode, 0, done.stdout)
        self.assertRegex(done.stdout, r"^\d+ passed, 0 failed\n$")

    def test_each_stale_file_is_told(self):
        for name in MADE:
            was = (self.top / name).read_text()
            (self.top / name).write_text(re.sub(r"1\.0\.0|37|pasoletu_exp\(|\"exp\"|[Aa] NaN arose|0 is untouched|hardening_coeff|goal\.returns", "7.7.7", was))
            with self.subTest(name):
                self.told(name + " is stale")
            (self.top / name).write_text(was)

    def test_each_list_of_laws_is_made(self):
        for name, old in (("README.md", "NACC: alpha<"), ("man/slope.1", "Drucker-Prager or NACC)"), ("man/slope.1", "alpha (NACC)."), ("tools/sheet.py", "drucker_prager or nacc."),
                          ("tools/sheet.py", "only_active_when_failed (0)"), ("tools/sheet.py", "its model's number is 4 to 7."), ("bindings/rust/src/table.rs", "NaccPlasticity, ")):
            was = (self.top / name).read_text()
            self.edit(name, old, old.replace("NACC", "x").replace("nacc", "x").replace("(0)", "(1)").replace("7", "9").replace("Nacc", "X"))
            with self.subTest(old):
                self.told(name + " is stale")
            self.run_table()
            self.assertEqual((self.top / name).read_text(), was)

    def test_a_missing_file_is_told(self):
        (self.top / "fuzz/calls.h").unlink()
        self.told("fuzz/calls.h is stale")

    def test_a_header_without_its_marks_is_told(self):
        self.edit("include/pasoletu.h", "/* ==== End of", "/* ==== Finish of")
        self.told("include/pasoletu.h: it must have each of these lines once")

    def test_a_page_without_its_marks_is_told(self):
        self.edit("docs/GUIDE.md", "<!-- made by tools/table: desk -->", "")
        self.told("docs/GUIDE.md: its marked tables are ['record', 'host'], not ['desk', 'record', 'host']")

    def test_a_list_without_its_marks_is_told(self):
        for name, old, words in (("README.md", "<!-- made by tools/table: amounts -->", "its marked phrases are [], not ['amounts']"),
                                 ("man/slope.1", '.\\" made by tools/table: laws\n', "its marked parts are ['amounts', 'numbers'], not ['laws', 'amounts', 'numbers']"),
                                 ("tools/sheet.py", "In brackets: ", "its help must have '^MODEL is ")):
            was = (self.top / name).read_text()
            self.edit(name, old, "")
            with self.subTest(name):
                self.told(f"{name}: {words}")
            (self.top / name).write_text(was)

    def test_a_refusal_without_its_words_is_told(self):
        self.edit("calls.toml", 'when = "the sheet ends early"\n', "")
        self.told("refusal 4: it lacks when")

    def test_a_manifest_without_its_version_is_told(self):
        self.edit("bindings/rust/Cargo.toml", 'version = "', 'edition = "')
        self.told("bindings/rust/Cargo.toml: it has no line version")

    def test_making_mends_what_is_stale(self):
        (self.top / "beside/table.rs").write_text("")
        (self.top / "fuzz/calls.h").unlink()
        done = self.run_table()
        self.assertEqual((done.returncode, done.stdout), (0, "made beside/table.rs\nmade fuzz/calls.h\n"))
        self.assertEqual(self.run_table("--check").returncode, 0)

    def test_a_call_that_the_proved_crate_lacks_is_told(self):
        self.edit("crates/host/src/lib.rt", "fn pasoletu_sin(", "fn pasoletu_sine(")
        self.told("crates/host*: pasoletu_sin has no such call")
        self.told("crates/host: pasoletu_sine is not in calls.toml")

    def test_an_argument_of_another_kind_is_told(self):
        self.edit("crates/host/src/lib.rt", "pasoletu_exp(x: f64", "pasoletu_exp(x: u64")
        self.told("crates/host: pasoletu_exp takes (u64, [] written), the table (f64, [] written)")
        self.edit("crates/host_passes/src/updates.rt", "pasoletu_update(model: u64", "pasoletu_update(model: u32")
        self.told("crates/host_passes: pasoletu_update takes (u32, [], [] written, [] written), the table (u64, [], [] written, [] written)")

    def test_a_call_of_two_crates_is_told(self):
        shutil.copy(self.top / "crates/host_passes/src/causes.rt", self.top / "crates/host_sheets/src/causes.rt")
        self.told("crates/host_passes: pasoletu_why stands in crates/host_sheets too")

    def test_another_number_or_length_in_replay_is_told(self):
        for old, new in (("case 3: // sin", "case 33: // sin"), ("{1, 1, 1", "{1, 2, 1"), ("OUT(37, 2)", "OUT(37, 1)")):
            was = (self.top / "tests/replay/numbers.h").read_text()
            self.edit("tests/replay/numbers.h", old, new)
            self.told("tests/replay/numbers.h is stale")
            (self.top / "tests/replay/numbers.h").write_text(was)

    def test_another_flag_or_number_of_parameters_is_told(self):
        rows = "crates/model/specs/Rows.antt"
        self.edit(rows, "kinds = false ∷ false ∷ false ∷ true", "kinds = false ∷ true ∷ false ∷ true")
        self.told("crates/model: Nacc is ('nacc', (3, 7), [False, True, False, True, False, False]), in the table")
        self.edit(rows, "kinds = false ∷ false ∷ false ∷ [];", "kinds = false ∷ false ∷ [];")
        self.told("crates/model: Snow is ('snow', (0, 4), [False, False]), in the table ('snow', (0, 4), [False, False, False])")
        self.edit(rows, "(cond (either 1 5 number) Rankine", "(cond (either 1 6 number) Rankine")
        self.told("crates/model: Rankine is ('rankine', (1, 6), [False, False, False, False]), in the table ('rankine', (1, 5), [False, False, False, False])")
        self.edit(rows, "row_of Rankine =", "row of Rankine =")
        self.told("crates/model: the models are 3, in the table 4")

    def test_another_scalar_or_a_modulus_more_is_told(self):
        rows = "crates/model/specs/Rows.antt"
        self.edit(rows, "written = 5 ∷ 6 ∷ 8 ∷ [];", "written = 5 ∷ 6 ∷ 9 ∷ [];")
        self.told("crates/model: DruckerPrager writes the parts [5, 6, 9], in the table [5, 6, 8]")
        self.edit(rows, "law_ready (models.Nacc a) = nacc_ready (nacc_law.law_of a)", "law_ready (models.Nacc a) = ready.Nacc (nacc_law.law_of a)")
        self.told("crates/model: Nacc has moduli to be worked: False, in the table True")


class Rows(Copy):
    def test_the_version_reaches_every_file_that_has_one(self):
        (self.top / "VERSION").write_text("1.22.333\n")
        done = self.run_table()
        versioned = [name for name in MADE if name.startswith(("include", "bindings")) and not name.endswith("table.rs")]
        self.assertEqual(sorted(done.stdout.split()[1::2]), sorted(versioned))
        for name in versioned:
            self.assertIn("1.22.333", (self.top / name).read_text(), name)

    def test_a_new_refusal_is_a_row(self):
        self.edit("calls.toml", "# ---- Models:", """[[refusal]]
number = 250
name = "UPSIDE_DOWN"
what = "the sheet is upside down"
remedy = "turn it"
when = "its last byte comes first"
host = "turn it"

# ---- Models:""")
        self.assertEqual(self.run_table().returncode, 0)
        self.assertIn("| 250 | its last byte comes first |", (self.top / "docs/RULES.md").read_text())
        for name in ("include/pasoletu.h", "bindings/python/pasoletu/_table.py", "bindings/rust/src/table.rs", "README.md", "docs/GUIDE.md"):
            text = (self.top / name).read_text()
            self.assertIn("turn it", text, name)
            self.assertTrue("UPSIDE_DOWN" in text or name.endswith(".md"), name)
        self.told("crates/answers: UPSIDE_DOWN is None, in the table 250")

    def test_a_new_law_is_a_row(self):
        self.edit("calls.toml", "# ---- The record:", """[[model]]
number = 8
whole = 9
name = "von_mises"
title = "von Mises"
amount = "growth"
written = ["LOG_GAIN", "ALPHA"]
arguments_of = "new"
beside = false
instead = "nothing may stand for the limit"
parameters = [{ name = "young_modulus" }, { name = "limit", default = 2.5 }, { name = "on", flag = true, left_out = 1.0 }]

# ---- The record:""")
        self.assertEqual(self.run_table().returncode, 0)
        for name, words in (("README.md", "NACC: alpha, von Mises: growth<!-- end -->"), ("man/slope.1", "(Snow, Rankine, Drucker-Prager, NACC or von Mises)\n"),
                            ("man/slope.1", "alpha (NACC), growth (von Mises).\n"), ("tools/sheet.py", "MODEL is snow, rankine, drucker_prager, nacc or von_mises. "),
                            ("tools/sheet.py", "\n  von_mises       young_modulus limit (2.5) on (1);\n                  nothing may stand for the limit\nIn brackets: "),
                            ("tools/sheet.py", "its model's number is 4 to 7 or 9."), ("fuzz/calls.h", '"nacc", "von_mises"};'), ("beside/table.rs", "NO_MODEL: u64 = 10;"),
                            ("crates/model/proofs/rows/shape_of/Answers.antt", "returns-then-number-5 c = rw (c.if-number.false, "),
                            ("crates/model/proofs/rows/make_ready/Answers.antt", "c.ready_von_mises.ensures, c.law-in-VonMises.ensures, "),
                            ("crates/model/proofs/rows/write_scalars/Answers.antt", "returns-in-VonMises c = simp (c.finite_bits-in-VonMises-2.ensures, c.finite_bits-in-VonMises.ensures, "),
                            ("crates/model/proofs/rows/von_mises/Answers.antt", "simp (c.word.ensures, c.float-2.ensures, c.float.ensures)"),
                            ("crates/model/proofs/rows/ready_von_mises/Answers.antt", "pub returns : goal.returns"),
                            ("crates/flat_particles/proofs/rows/write_scalars/Answers.antt", "c.in-VonMises.is)")):
            self.assertIn(words, (self.top / name).read_text(), name)
        self.assertNotIn("VonMisesPlasticity", (self.top / "bindings/rust/src/table.rs").read_text())
        self.told("crates/model: the models are 4, in the table 5")

    def test_a_reserved_refusal_needs_no_row_and_may_have_none(self):
        line = next(line for line in (self.top / "calls.toml").read_text().splitlines() if line.startswith("reserved = ["))
        self.edit("crates/answers/src/lib.rt", "pub const AFTER_END: u8 = 15;", "pub const AFTER_END: u8 = 15;\n\npub const LATER: u8 = 99;")
        self.told("crates/answers: LATER is not in calls.toml: add its row")
        self.edit("calls.toml", line, "reserved = [99]")
        self.assertEqual(self.run_table("--check").returncode, 0)
        self.edit("calls.toml", "reserved = [99]", "reserved = [11, 99]")
        self.told("crates/answers: 11 has its row in calls.toml now: take it off `reserved`")

    def test_another_refusal_in_the_proved_crate_is_told(self):
        self.edit("crates/answers/src/lib.rt", "ABOVE_RANGE: u8 = 10", "ABOVE_RANGE: u8 = 11")
        self.told("crates/answers: ABOVE_RANGE is 11, in the table 10")

    def test_a_new_call_is_a_row_and_must_be_proved(self):
        self.edit("calls.toml", "[[section.call]]\nname = \"ln\"", """[[section.call]]
name = "cosine"
takes = "x, k: u32, list[4]"
writes = "out[2]: u64"
text = "A call that is not there."

[[section.call]]
name = "ln\"""")
        self.assertEqual(self.run_table().returncode, 0)
        header = (self.top / "include/pasoletu.h").read_text()
        self.assertIn("pasoletu_cosine(double x, uint32_t k, const double *list, size_t list_length, uint64_t *out", header)
        self.told("crates/host*: pasoletu_cosine has no such call")

    def test_rows_without_sense_are_told(self):
        wrongs = (
            ("number = 8\n", "number = 7\n", "the refusals' numbers do not rise from 1"),
            ('takes = "x"', 'takes = "x[three]"', "call exp: the argument 'x[three]' is not spelled"),
            ('name = "ln"', 'name = "exp"', "a call's name stands twice: exp"),
            ("beside = 1\n", "beside = 0\n", "the numbers of beside/ are not 0 and on"),
            ('writes = "out[1]"', 'writes = "out"', "call exp: only lists can be written"),
            ('writes = "out[1]"', 'writes = "out[]"', "call exp: a call with a number tells the lengths of all its lists"),
            ("retired = [25, 29, 35]", "retired = [29, 35]", "the numbers of beside/"),
            ('beside = "lists"', 'beside = "list"', "call pass: beside is 'list', which is neither"),
            ('written = ["ALPHA"]', 'written = ["PHASE"]', "model nacc: it writes 'PHASE', which is none of PLASTIC_DETERMINANT, "),
            ('written = ["ALPHA"]\n', "", "model nacc: it lacks written"),
        )
        was = (self.top / "calls.toml").read_text()
        for old, new, words in wrongs:
            (self.top / "calls.toml").write_text(was)
            self.edit("calls.toml", old, new)
            with self.subTest(words):
                self.told(words)


class Words(Copy):
    def test_help_answers(self):
        done = self.run_table("--help")
        self.assertEqual((done.returncode, done.stderr), (0, ""))
        self.assertIn("tools/table --check", done.stdout)

    def test_a_wrong_word_is_told(self):
        done = self.run_table("--chekc")
        self.assertEqual((done.returncode, done.stdout), (2, ""))
        self.assertIn("tools/table --check", done.stderr)


class Calls(unittest.TestCase):
    """tools/calls.py on a copy whose crate `physics` has one call more, and whose pages are made anew from it: what fails is the call, not the page."""

    CALL = """
// A call more.
pub fn doubled(%s) -> %s%s
    ensures { result ≡ x }
{
    x
}
"""

    def setUp(self):
        room = tempfile.TemporaryDirectory()
        self.addCleanup(room.cleanup)
        self.top = pathlib.Path(room.name)
        for path in TOP.iterdir():
            if path.name not in (".git", "target", ".built"):
                (self.top / path.name).symlink_to(path)

    def run_calls(self, *words):
        return subprocess.run([TOP / "tools/calls.py", "--top", self.top, *words], capture_output=True, text=True)

    def own(self, name):
        """A folder of the copy's own, whose files are the repository's."""
        (self.top / name).unlink()
        (self.top / name).mkdir()
        for path in (TOP / name).iterdir():
            (self.top / name / path.name).symlink_to(path)

    def add(self, call):
        self.own("crates")
        (self.top / "crates/physics").unlink()
        shutil.copytree(TOP / "crates/physics", self.top / "crates/physics")
        with (self.top / "crates/physics/src/lib.rt").open("a") as file:
            file.write(call)
        self.own("docs")
        for name in ("CALLS.md", "EXCEPTIONS.md", "TOOLS.md", "HOUSE.md"):
            (self.top / "docs" / name).unlink()
            shutil.copy(TOP / "docs" / name, self.top / "docs" / name)
        self.assertEqual(self.run_calls().returncode, 0)

    def told(self, words):
        """--check fails by this alone."""
        done = self.run_calls("--check")
        self.assertEqual(done.returncode, 1, done.stdout)
        self.assertRegex(done.stdout, r"^%s[^\n]*\n\d+ passed, 1 failed\n$" % words)

    def test_what_is_committed_is_right(self):
        done = self.run_calls("--check")
        self.assertEqual(done.returncode, 0, done.stdout)
        self.assertRegex(done.stdout, r"^\d+ passed, 0 failed\n$")

    def test_a_call_that_takes_a_nan_is_told(self):
        for takes, gives in (("x: f64", "f64"), ("x: [f64; 3]", "[f64; 3]"), ("x: State", "State"), ("x: &[u64]", "bool"), ("x: RankinePlasticity", "bool")):
            with self.subTest(takes):
                self.setUp()
                self.add(self.CALL % (takes, gives, ""))
                self.told("physics::doubled takes a NaN and can't refuse it")

    def test_a_call_that_may_refuse_a_nan_is_told_until_it_is_named(self):
        self.add(self.CALL % ("x: f64", "Answer", ""))
        self.told("physics::doubled takes a float: name it in FIRST")

    def test_a_call_that_requires_something_is_told(self):
        self.add(self.CALL % ("x: u64", "u64", "\n    requires { x ≡ 0 }"))
        self.told("physics::doubled requires something")

    def test_a_call_of_its_own_crate_is_not(self):
        self.add((self.CALL % ("x: f64", "f64", "")).replace("pub fn", "pub(crate) fn"))
        self.assertEqual(self.run_calls("--check").returncode, 0)

    # What readers once found untrue while every check passed: the page, what stood there, what it says, and what --check says of it.
    UNTRUE = (
        ("docs/DECISIONS.md", "enum `model::Model`", "enum `particles::Model`", "docs/DECISIONS.md: crates/particles declares no Model"),
        ("docs/DECISIONS.md", "`refusals/specs/Enums: verdict_number, verdict_failed`", "`verdict_code_of`", "docs/DECISIONS.md: no source has `verdict_code_of`"),
        ("docs/GUIDE.md", "c077f76051bf1a34", "c077f76051bf52c8", "docs/GUIDE.md: no program of the gate prints '5 yielded, test 5"),
        ("docs/PROMISES.md", "<!-- count: replayed -->", "<!-- count: replayed -->2,413 ", "docs/PROMISES.md tells 2,413 "),
        ("docs/PROMISES.md", "`walk/specs/Walk`", "`law/specs/Walk`", "docs/PROMISES.md: there is no crates/law/specs/Walk.antt"),
        ("docs/FACTORS.md", "`beside/factors/run --page`", "`beside/factors/runs --page`", "docs/FACTORS.md: there is no beside/factors/runs"),
        ("docs/HOUSE.md", "| `rankine_surface` |", "| `surface` |", "docs/HOUSE.md's table is not what crates.txt says"),
        ("docs/STEPS.md", "<!-- held by tools/vectors.py -->", "<!-- held by tools/twice.py -->", "docs/STEPS.md: tools/twice.py, which is said to hold a part of it"),
        ("docs/SITES.md", "<!-- made by beside/run: sites -->", "<!-- made by hand/run: sites -->", "docs/SITES.md: hand/run, which is said to make a part of it"),
        ("docs/EXCEPTIONS.md", "`exp_of`", "`exp_told`", "docs/EXCEPTIONS.md: no source has `exp_told`"),
        ("docs/CALLS.md", "| `pasoletu_why` | 7 |", "| `pasoletu_why` | 5 |", "docs/CALLS.md is not what the sources say"),
        ("docs/PROMISES.md", "- `alpha` (61):", "- alpha (61):", "there is no row with a definition of plasticity_drucker_prager.rs, alpha"),
        ("docs/TOOLS.md", "Works a night of sheets", "Works a day of sheets", "docs/TOOLS.md is not what the commands say"),
    )

    def test_what_was_untrue_is_told(self):
        self.own("docs")
        for page, old, new, _ in self.UNTRUE:
            text = (self.top / page).read_text()
            self.assertIn(old, text, page)
            (self.top / page).unlink()
            (self.top / page).write_text(text.replace(old, new, 1))
        done = self.run_calls("--check")
        for page, _, new, words in self.UNTRUE:
            self.assertIn(words, done.stdout, (page, new))
        self.assertRegex(done.stdout, r"\n\d+ passed, %d failed\n$" % len(self.UNTRUE))

    def test_too_many_words_are_told(self):
        self.own("docs")
        text = (self.top / "docs/LANDINGS.md").read_text()
        (self.top / "docs/LANDINGS.md").unlink()
        (self.top / "docs/LANDINGS.md").write_text(text + "word " * 6000)
        self.own("docs/landings")
        (self.top / "docs/landings/more.md").write_text("word " * 6000)
        (self.top / "README.md").unlink()
        (self.top / "README.md").write_text((TOP / "README.md").read_text() + "\n" * 90)
        done = self.run_calls("--check")
        for words in ("README.md lines kept by hand", "docs/LANDINGS.md words kept by hand", "all words kept by hand", "docs/landings words kept by hand"):
            self.assertIn(words, done.stdout)

    def test_a_section_is_read_from_the_page_of_the_definition(self):
        self.add(self.CALL % ("x: u64", "u64", ""))
        page = self.top / "crates/physics/specs/Physics.antt"
        opening, _, rest = page.read_text().partition("\n")
        self.assertIn("sections 1 and 4", opening)
        page.write_text(opening.replace("sections 1 and 4", "sections 1 and 3") + "\n" + rest)
        self.told("docs/CALLS.md is not what the sources say")
        page.write_text("-- The formulas.\n" + rest)
        self.assertIn("physics::inv_exact has no section", self.run_calls("--check").stdout)

    def test_a_heading_that_no_page_bears_out_is_told(self):
        (self.top / "calls.toml").unlink()
        (self.top / "calls.toml").write_text((TOP / "calls.toml").read_text().replace("(utils/physics.rs; section 1)", "(utils/physics.rs; section 8)"))
        done = self.run_calls("--check").stdout
        self.assertIn("pasoletu_inv_exact: its heading in calls.toml", done)
        self.assertIn("names a section that no page of its calls' definitions cites: [8]", done)

    def test_words_are_counted_as_wc_counts_them(self):
        """Bars, code and what a test holds count; what a command makes doesn't, nor its marks."""
        sys.path.insert(0, str(TOP / "tools"))
        from making import prose
        held = "<!-- held by tests/all -->\n| a | `b c` |\n<!-- end -->\n"
        made = "<!-- made by tools/table: numbers -->\n\n| x | y |\n\n<!-- end -->\n"
        roff = '.\\" made by tools/table: numbers\n.B 1\n.\\" end\n'
        for text in ("one two | three\n", "```sh run\nls -l\n```\n", held, "Between `<!-- made by .. -->` and `<!-- end -->` edit nothing.\n"):
            self.assertEqual(prose.words_in(text), len(text.split()), text)
            self.assertEqual(prose.words_in(text + made + roff + text), 2 * len(text.split()), text)

    def test_every_page_is_counted(self):
        """Each page of the repository is made whole, a record of its day, or counted."""
        sys.path.insert(0, str(TOP / "tools"))
        from making import prose
        named = subprocess.run(["git", "ls-files", "*.md", "man/*"], cwd=TOP, capture_output=True, text=True).stdout.split()
        there = [name for name in named if name not in (*prose.MADE_PAGES, *prose.MOVED) and not name.startswith("docs/landings/")]
        self.assertEqual(sorted(prose.kept(TOP)), sorted(there) if named else sorted(prose.kept(TOP)))

    def test_a_table_that_is_not_made_is_told(self):
        self.own("docs")
        (self.top / "docs/EXCEPTIONS.md").unlink()
        text = (TOP / "docs/EXCEPTIONS.md").read_text()
        (self.top / "docs/EXCEPTIONS.md").write_text(text.replace("a test's answer", "a test's answer, or none"))
        self.told("docs/EXCEPTIONS.md's tables are not what tools/calls.py makes")


if __name__ == "__main__":
    unittest.main()
