#!/usr/bin/env python3
"""Tests of tests/all and tests/linked themselves: how they count, and that nothing that went wrong or was left out stays unnamed: tests/test_all.py"""
import contextlib
import importlib.machinery
import importlib.util
import io
import os
import pathlib
import subprocess
import sys
import tempfile
import textwrap
import unittest
import unittest.mock

from test_command import TOP

sys.dont_write_bytecode = True


def loaded(name):
    loader = importlib.machinery.SourceFileLoader("tests_" + name, str(TOP / "tests" / name))
    module = importlib.util.module_from_spec(importlib.util.spec_from_loader("tests_" + name, loader))
    loader.exec_module(module)
    return module


ALL, LINKED = loaded("all"), loaded("linked")

SUITE = '''\
import unittest
class Some(unittest.TestCase):
    def test_well(self): pass
    def test_also(self): pass
    @unittest.skip("there is no 'x' here")
    def test_left(self): pass
    @unittest.skip("nor a y")
    def test_told(self):
        """What it is about."""
    def test_wrong(self): self.assertEqual(1, %d)
unittest.main()
'''


class Reads(unittest.TestCase):
    def suite(self, number):
        with tempfile.TemporaryDirectory() as folder:
            path = pathlib.Path(folder) / "suite.py"
            path.write_text(SUITE % number)
            ran = subprocess.run([sys.executable, path, "-v"], stdout=subprocess.PIPE, stderr=subprocess.STDOUT, text=True)
        return ALL.unittests(ran.stdout, ran.returncode)

    def test_unittest(self):
        notes = ["skipped: test_left: there is no 'x' here", "skipped: test_told: nor a y"]
        self.assertEqual(self.suite(1), (3, 0, notes))
        self.assertEqual(self.suite(2), (2, 1, notes))
        self.assertEqual(ALL.unittests("SyntaxError\n", 1), (0, 1, []))
        self.assertEqual(ALL.unittests("Ran 3 tests in 1s\n\nOK\n", 1)[:2], (3, 1))
        self.assertEqual(ALL.unittests("Ran 3 tests in 1s\n\nOK (skipped=1)\n", 0), (2, 0, ["skipped: a test without a name"]))

    def test_a_last_line(self):
        self.assertEqual(ALL.counted("1 passed, 1 failed\nx is LEFT OUT: why\nskipped: t: why\nx is LEFT OUT: why\n7 passed, 0 failed\n", 0),
                         (7, 0, ["left out: x is LEFT OUT: why", "skipped: t: why"]))
        self.assertEqual(ALL.counted("7 passed, 2 failed\n", 1)[:2], (7, 2))
        self.assertEqual(ALL.counted("7 passed, 0 failed\n", 1)[:2], (7, 1))
        self.assertEqual(ALL.counted("it broke off\n", 0)[:2], (0, 1))
        self.assertEqual(ALL.PARTS["cases"].read("a: 9 lines, 9 expected, 0 differ\nb: 9 lines, 9 expected, 2 differ\n", 1)[:2], (16, 2))
        self.assertEqual(ALL.PARTS["cases"].read("a: 9 lines, 8 expected, 0 differ\n", 1)[:2], (9, 1))
        self.assertEqual(ALL.PARTS["faults"].read("3 cases, 1 wrong\n", 1)[:2], (2, 1))
        self.assertEqual(ALL.targets("a: 5 inputs in 1 s (5 a second), 0 faults\nb: 0 inputs in 0 s (0 a second), 1 faults\n5 inputs, 1 faults\n", 1)[:2], (1, 1))
        self.assertEqual(ALL.targets("clang is not here\n", 2)[:2], (0, 1))
        self.assertEqual((ALL.alone("", 0)[:2], ALL.alone("", 2)[:2]), ((1, 0), (0, 1)))


class Linked(unittest.TestCase):
    """The C programs over the archive."""

    def test_what_is_printed_is_held_to_what_must_be(self):
        wanted = b"a: 1\nb: 2\n"
        for text, status, wrong, right in ((wanted, 0, [], 2), (b"why\n" + wanted, 1, ["why"], 2), (b"a: 1\nb: 3\n", 1, ["b: 3", "not printed: b: 2"], 1),
                                           (b"b: 2\na: 1\n", 0, ["the lines are in another order, or one stands twice"], 2), (wanted, 1, ["it ended with status 1"], 2),
                                           (wanted[:-1], 0, ["not printed: b: 2"], 1), (b"", -11, ["not printed: a: 1", "not printed: b: 2", "it ended with status -11"], 0)):
            self.assertEqual(LINKED.differences(text, wanted, status), (wrong, right))

    def test_no_compiler_is_named(self):
        for name in ("replay", "list_cases"):
            with unittest.mock.patch.object(ALL.shutil, "which", lambda name: None), self.assertRaisesRegex(ALL.LeftOut, "no C compiler for x86-64"):
                ALL.PARTS[name].words(ALL.Parts("lib.a", "slope", None))


class Runs(unittest.TestCase):
    """The command over parts of a test's own."""

    def ran(self, *words, parts, ready=("--lib", "lib.a", "--program", "slope"), **environment):
        out = io.StringIO()
        with unittest.mock.patch.object(sys, "argv", ["tests/all", *ready, *words]), \
                unittest.mock.patch.dict(ALL.PARTS, parts, clear=True), unittest.mock.patch.object(ALL, "python", lambda: sys.executable), \
                unittest.mock.patch.dict(os.environ, {"PASOLETU_EMULATOR": "", **environment}), contextlib.redirect_stdout(out):
            status = ALL.main()
        return status, out.getvalue().splitlines()

    def says(self, text, status=0, **needs):
        script = "import sys; sys.stdout.write(%r); sys.exit(%d)" % (textwrap.dedent(text), status)
        return ALL.Part(lambda parts: [sys.executable, "-c", script], ALL.counted, **needs)

    def test_all_well(self):
        status, lines = self.ran(parts={"a": self.says("2 passed, 0 failed\n"), "b": self.says("3 passed, 0 failed\n")})
        self.assertEqual((status, lines[-2:]), (0, ["0 left out, 0 skipped", "5 passed, 0 failed"]))
        self.assertEqual(sorted(line.split(" (")[0] for line in lines[:-2]), ["a: 2 passed, 0 failed", "b: 3 passed, 0 failed"])

    def test_what_failed_is_shown(self):
        status, lines = self.ran("a", parts={"a": self.says("why\n2 passed, 1 failed\n", 1), "b": self.says("3 passed, 0 failed\n")})
        self.assertEqual((status, lines[0], lines[-1]), (1, "why", "2 passed, 1 failed"))

    def test_a_part_that_breaks_off_has_failed(self):
        for part in (self.says("why\n", 0), self.says("1 passed, 0 failed\n", 3), ALL.Part(lambda parts: ["/no/such/command"], ALL.counted)):
            self.assertEqual(self.ran(parts={"a": part})[0], 1)

    def test_what_is_left_out_is_named_and_counted(self):
        def none(parts):
            raise ALL.LeftOut("there is none")
        status, lines = self.ran(parts={"a": ALL.Part(none, ALL.counted), "b": self.says("c: left out: why\nskipped: t: what\n3 passed, 0 failed\n")})
        self.assertEqual((status, lines[-2:]), (0, ["2 left out, 1 skipped", "3 passed, 0 failed"]))
        for line in ("left out: a: there is none", "left out: b: c: left out: why", "skipped: b: t: what"):
            self.assertIn(line, lines)

    def test_a_library_that_could_not_be_built_has_failed_once(self):
        """Asked for once, whatever needs it; what does not need it runs all the same."""
        with tempfile.TemporaryDirectory() as folder:
            top = pathlib.Path(folder)
            (top / "tools").mkdir()
            (top / "tools" / "built").write_text("#!/bin/sh\necho \"$*\" >>'%s'\necho there\n[ $2 = program ]\n" % (top / "asked"))
            (top / "tools" / "built").chmod(0o755)
            needs = self.says("1 passed, 0 failed\n", archive=True)
            with unittest.mock.patch.object(ALL, "TOP", top):
                status, lines = self.ran(parts={"a": needs, "b": needs, "c": self.says("4 passed, 0 failed\n")}, ready=())
            self.assertEqual((status, lines[-3:]), (1, ["FAILED: the archive could not be built", "2 left out, 0 skipped", "4 passed, 1 failed"]))
            self.assertEqual((top / "asked").read_text(), "--prove program\n--prove archive\n")

    def test_the_rust_is_named_or_left_out(self):
        parts = ALL.Parts("lib.a", "slope", None)
        with unittest.mock.patch.dict(os.environ):
            os.environ.pop("PASOLETU_RUST", None)
            with self.assertRaisesRegex(ALL.LeftOut, "PASOLETU_RUST"):
                parts.rust()
            os.environ["PASOLETU_RUST"] = "there"
            self.assertEqual((parts.rust(), ALL.Parts("lib.a", "slope", "here").rust()), ("there", "here"))
            for run in ("beside/run", "beside/flat/run", "beside/speed"):
                for name, words in ((None, "not in this repository"), ("/none", "no src_core/lib.rs in /none")):
                    os.environ.pop("PASOLETU_RUST", None)
                    os.environ.update({"PASOLETU_RUST": name} if name else {})
                    asked = subprocess.run([TOP / run, "--lib", "lib.a"], capture_output=True, text=True)
                    self.assertEqual(asked.returncode, 2)
                    self.assertIn(words, asked.stderr)


if __name__ == "__main__":
    unittest.main()
