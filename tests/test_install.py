#!/usr/bin/env python3
"""Tests of install.sh with ready parts: tests/test_install.py

The archive is the one that PASOLETU_ARCHIVE names or `tools/built archive` has, and so is the program (PASOLETU_SLOPE). Nothing is proved.
"""
import os
import pathlib
import shutil
import subprocess
import tomllib
import unittest

from test_command import ANSWER, TOP, InFolder, script

SNOW = TOP / "samples" / "snow.sheet"
VERSION = (TOP / "VERSION").read_text().strip()
SONAME = "libpasoletu.so." + VERSION.split(".")[0]
COMPILER = "cc" if os.uname().machine == "x86_64" else "x86_64-linux-gnu-gcc"


def ready(part):
    asked = subprocess.run([TOP / "tools" / "built", part], capture_output=True, text=True)
    return asked.stdout.strip() or None


ARCHIVE, PROGRAM = ready("archive"), ready("program")


@unittest.skipUnless(ARCHIVE and PROGRAM, "there are no parts to install: name them by PASOLETU_ARCHIVE and PASOLETU_SLOPE, or run install.sh")
class Install(InFolder):
    def setUp(self):
        super().setUp()
        self.prefix = self.folder / "prefix"
        # A toolchain that must not be asked.
        script(self.folder / "kit" / "rt", "#!/bin/sh\necho 'rt was asked' >&2\nexit 9\n")
        self.path = self.environment["PATH"]

    def install(self, *words, **environment):
        return self.run_command(TOP / "install.sh", *words, PATH="%s:%s" % (self.folder / "kit", self.path), **environment)

    def installed(self):
        self.ended(self.install(self.prefix, "--lib", ARCHIVE, "--program", PROGRAM), 0)

    def files(self):
        return sorted(str(p.relative_to(self.folder)) for p in self.folder.rglob("*") if not p.is_relative_to(self.folder / "kit"))

    def test_the_command_answers(self):
        self.installed()
        self.ended(self.run_command(self.prefix / "bin" / "slope", SNOW), 0, ANSWER)
        here = self.run_command(TOP / "bin" / "slope", "-V").stdout
        self.assertEqual(self.run_command(self.prefix / "bin" / "slope", "-V").stdout, here)
        self.ended(self.run_command(self.prefix / "bin" / "slope", "--explain", "/dev/null"), 3, says="the sheet ends early")

    def test_a_command_without_its_program_says_how_to_get_it(self):
        self.installed()
        (self.prefix / "libexec" / "pasoletu" / "slope").unlink()
        ran = self.ended(self.run_command(self.prefix / "bin" / "slope", SNOW), 1, "", "install.sh PREFIX")
        self.assertEqual(len(ran.stderr.splitlines()), 1)

    def test_the_full_version_stands_behind_the_soname(self):
        self.installed()
        library = self.prefix / "lib"
        self.assertEqual(os.readlink(library / "libpasoletu.so"), SONAME)
        self.assertEqual(os.readlink(library / SONAME), "libpasoletu.so." + VERSION)
        self.assertFalse((library / ("libpasoletu.so." + VERSION)).is_symlink())
        dynamic = self.run_command("readelf", "-d", library / "libpasoletu.so").stdout.decode()
        self.assertIn("soname: [%s]" % SONAME, dynamic)

    def test_licence_page_and_package(self):
        self.installed()
        for name in ("share/doc/pasoletu/LICENSE", "share/doc/pasoletu/GUIDE.md", "share/doc/pasoletu/STEPS.md", "share/man/man1/slope.1", "share/bash-completion/completions/slope",
                     "lib/python3/dist-packages/pasoletu/__init__.py", "lib/python3/dist-packages/pasoletu/py.typed", "include/pasoletu.h"):
            self.assertTrue((self.prefix / name).is_file(), name)

    def test_an_outpost_makes_and_reads_a_sheet(self):
        """With the installed commands alone; none of them looks for the repository."""
        self.installed()
        commands = self.prefix / "bin"
        (self.folder / "night").mkdir()
        (self.folder / "ridge.csv").write_text("sigma1,sigma2,sigma3\n1,1,1\n0.9,1,1\n")
        made = self.ended(self.run_command(commands / "slope-sheet", "make", "ridge.csv", "night/ridge.sheet", "--model", "snow"), 0)
        self.assertEqual(made.stdout, b"night/ridge.sheet: snow, 2 particles, 602 bytes\n")
        answer = self.ended(self.run_command(commands / "slope", "night/ridge.sheet"), 0).stdout.decode()
        self.assertEqual(answer.splitlines()[:2], ["particles 2", "0 stored 3ff0000000000000"])
        self.assertIn(b"particles 2", self.ended(self.run_command(commands / "slope-sheet", "print", "night/ridge.sheet"), 0).stdout)
        self.assertIn(b", 2 particles\n", self.ended(self.run_command(commands / "slope-report", "night"), 0).stdout)
        self.ended(self.run_command(commands / "slope-draw", "night/ridge.sheet", "ridge.svg", "--second"), 0)
        self.assertIn("2 stored", (self.folder / "ridge.svg").read_text())
        ran = self.run_command(commands / "slope-sheet", "print", "none.sheet")
        self.ended(ran, 1, "", "slope-sheet: none.sheet: cannot be read")

    @unittest.skipUnless(os.uname().machine == "x86_64", "the library is for x86-64")
    def test_the_installed_tools_have_the_library(self):
        self.installed()
        ran = self.run_command(self.prefix / "bin" / "slope-arrive", "--quiet", SNOW)
        self.ended(ran, 0, ANSWER)

    def test_the_installed_night(self):
        self.installed()
        (self.folder / "sheets").mkdir()
        shutil.copy(SNOW, self.folder / "sheets")
        self.ended(self.run_command(self.prefix / "bin" / "slope-night", "--pictures", "0", "sheets", "answers"), 0)
        self.assertEqual([path.read_text() for path in (self.folder / "answers" / "answers").iterdir()], [ANSWER])

    def test_help_and_pages_of_the_tools(self):
        self.installed()
        for tool in ("arrive", "draw", "night", "report", "sheet"):
            name = "slope-" + tool
            text = self.ended(self.run_command(self.prefix / "bin" / name, "--help"), 0).stdout.decode()
            self.assertIn("\n  %s " % name, text)
            self.assertNotRegex(text, r"tools/(%s)|bin/slope" % tool)
            page = (self.prefix / "share" / "man" / "man1" / (name + ".1")).read_text().replace("\\-", "-").replace("\\&", "")
            self.assertIn("\n%s - " % name, page)
            for line in text.split("\n\n")[1].splitlines():
                self.assertIn(line.strip(), page)
            if shutil.which("man"):
                self.assertEqual(self.ended(self.run_command("man", "--warnings", "-l", self.prefix / "share" / "man" / "man1" / (name + ".1")), 0).stderr, b"")
            completion = self.prefix / "share" / "bash-completion" / "completions" / name
            ask = "source '%s'; COMP_WORDS=(%s --he); COMP_CWORD=1; _slope_tool '%s'; printf '%%s ' \"${COMPREPLY[@]}\"" % (completion, name, self.prefix / "bin" / name)
            self.ended(self.run_command("bash", "-c", ask), 0, "--help ")

    def test_a_prefix_that_is_moved(self):
        self.installed()
        self.prefix = self.prefix.rename(self.folder / "moved")
        self.ended(self.run_command(self.prefix / "bin" / "slope", SNOW), 0, ANSWER)
        self.ended(self.run_command(self.prefix / "bin" / "slope-sheet", "print", SNOW), 0)
        if shutil.which("pkg-config"):
            told = self.run_command("pkg-config", "--variable=libdir", "pasoletu", PKG_CONFIG_PATH=self.prefix / "lib" / "pkgconfig").stdout.decode().strip()
            self.assertEqual(pathlib.Path(told).resolve(), (self.prefix / "lib").resolve())

    @unittest.skipUnless(shutil.which("pkg-config"), "there is no pkg-config")
    def test_pkg_config(self):
        self.installed()
        where = {"PKG_CONFIG_PATH": self.prefix / "lib" / "pkgconfig"}
        self.ended(self.run_command("pkg-config", "--modversion", "pasoletu", **where), 0, VERSION + "\n")
        flags = self.run_command("pkg-config", "--cflags", "--libs", "pasoletu", **where).stdout.decode().split()
        self.ended(self.run_command(COMPILER, TOP / "bindings" / "c" / "pass.c", *flags, "-o", self.folder / "pass"), 0)

    @unittest.skipUnless(shutil.which("cmake"), "there is no cmake")
    def test_cmake(self):
        self.installed()
        source = self.folder / "host"
        source.mkdir()
        shutil.copy(TOP / "bindings" / "c" / "pass.c", source)
        (source / "CMakeLists.txt").write_text("""\
cmake_minimum_required(VERSION 3.13)
project(host C)
find_package(pasoletu %s REQUIRED)
find_package(pasoletu REQUIRED)
foreach(kind pasoletu static)
    add_executable(with_${kind} pass.c)
    target_link_libraries(with_${kind} pasoletu::${kind})
endforeach()
find_package(pasoletu 9 QUIET)
if(pasoletu_FOUND)
    message(FATAL_ERROR "version 9 was found")
endif()
""" % VERSION)
        build = self.folder / "build"
        self.ended(self.run_command("cmake", "-S", source, "-B", build, "-DCMAKE_C_COMPILER=" + COMPILER, "-DCMAKE_PREFIX_PATH=%s" % self.prefix), 0)
        self.ended(self.run_command("cmake", "--build", build), 0)
        needed = self.run_command("readelf", "-d", build / "with_pasoletu").stdout.decode()
        self.assertIn("[%s]" % SONAME, needed)
        self.assertNotIn("pasoletu", self.run_command("readelf", "-d", build / "with_static").stdout.decode())

    def test_destdir(self):
        self.ended(self.install("/opt/pasoletu", "--lib", ARCHIVE, "--program", PROGRAM, DESTDIR=self.folder / "stage"), 0)
        stage = self.folder / "stage" / "opt" / "pasoletu"
        self.assertTrue((stage / "bin" / "slope").is_file())
        self.assertNotIn(str(self.folder), (stage / "lib" / "pkgconfig" / "pasoletu.pc").read_text())
        self.ended(self.install("/opt/pasoletu", "--uninstall", DESTDIR=self.folder / "stage"), 0)
        self.assertFalse(stage.exists() and any(stage.iterdir()))

    def test_uninstall_leaves_what_is_not_ours(self):
        (self.prefix / "bin").mkdir(parents=True)
        (self.prefix / "lib").mkdir()
        (self.prefix / "bin" / "other").write_text("")
        before = self.files()
        self.installed()
        self.installed()
        self.environment.pop("PYTHONDONTWRITEBYTECODE", None)
        self.ended(self.run_command(self.prefix / "bin" / "slope-sheet", "print", SNOW), 0)
        self.ended(self.install(self.prefix, "--uninstall"), 0)
        self.assertEqual(self.files(), before)
        self.ended(self.install(self.prefix, "--uninstall"), 1, says="there is no installation")

    def test_a_file_that_is_no_archive(self):
        for wrong in (SNOW, PROGRAM):
            self.ended(self.install(self.prefix, "--lib", wrong), 1, "", "%s is no archive" % wrong)
        self.ended(self.install(self.prefix, "--lib", "none.a"), 1, "", "none.a is not a file")
        empty = self.folder / "empty.a"
        empty.write_bytes(b"!<arch>\n")
        self.ended(self.install(self.prefix, "--lib", empty), 1, "", "lacks calls")
        self.assertFalse(self.prefix.exists())

    def test_a_file_that_is_not_the_program(self):
        wrong = script(self.folder / "wrong", "#!/bin/sh\necho 'sheet refused 4'\n")
        self.ended(self.install(self.prefix, "--program", wrong), 1, "", "does not answer samples/snow.sheet")
        self.assertFalse(self.prefix.exists())

    def test_one_ready_part_and_nothing_is_proved(self):
        clone = self.folder / "clone"
        for part in ("install.sh", "VERSION", "LICENSE", "NOTICE", "calls.toml", "crates.txt"):
            (clone / part).parent.mkdir(parents=True, exist_ok=True)
            shutil.copy(TOP / part, clone / part)
        for part in ("bin", "tools", "man", "packaging", "include", "samples", "docs", "bindings/python", "crates/slope/src"):
            shutil.copytree(TOP / part, clone / part)
        for words, left_out in ((("--lib", ARCHIVE), "the command was LEFT OUT"), (("--program", PROGRAM), "the library was LEFT OUT")):
            prefix = self.folder / words[0]
            ran = self.run_command(clone / "install.sh", prefix, *words, PATH="%s:%s" % (self.folder / "kit", self.path))
            self.ended(ran, 0)
            self.assertIn(left_out, ran.stdout.decode())
            self.assertNotIn("rt was asked", ran.stderr.decode())

    def test_a_prefix_with_a_space(self):
        self.prefix = self.folder / "a prefix"
        self.installed()
        self.ended(self.run_command(self.prefix / "bin" / "slope", SNOW), 0, ANSWER)
        self.ended(self.install(self.prefix, "--uninstall"), 0)
        self.assertFalse(any(self.prefix.iterdir()))

    def test_options(self):
        self.assertIn(b"./install.sh [PREFIX]", self.ended(self.install("--help"), 0).stdout)
        self.ended(self.install("--libs"), 2, "", "there is no option --libs")
        self.ended(self.install("a", "b"), 2, "", "more than one PREFIX")
        self.ended(self.install("--lib"), 2, "", "needs a FILE")
        self.ended(self.install(TOP, "--lib", ARCHIVE), 1, "", "PREFIX is this repository")


class Bindings(InFolder):
    def test_what_is_not_here_is_left_out_and_not_failed(self):
        """Told before anything is tested, each with its packages."""
        full = any(subprocess.run([name, "-c", "import numpy, distributed"], capture_output=True).returncode == 0 for name in ("python3", "/usr/bin/python3") if shutil.which(name))
        wanted = [] if list(pathlib.Path("/usr/share/cargo/registry").glob("rayon-[0-9]*")) else ["bindings/test: rayon is left out: it is not here; on Debian: apt-get install -y librust-rayon-dev"]
        wanted += [] if full else ["bindings/test: numpy and Dask are left out: they are not here; on Debian: apt-get install -y python3-numpy python3-distributed"]
        ran = self.ended(self.run_command(TOP / "bindings" / "test", "--needs"), 0)
        self.assertEqual(ran.stdout.decode().splitlines(), wanted)
        text = (TOP / "bindings" / "test").read_text()
        self.assertNotIn("missing rayon", text)


class Pages(InFolder):
    @unittest.skipUnless(shutil.which("man"), "there is no man")
    def test_the_page_has_no_fault(self):
        ran = self.ended(self.run_command("man", "--warnings", "-l", TOP / "man" / "slope.1"), 0)
        self.assertEqual(ran.stderr, b"")

    def test_the_page_and_the_help_have_the_same_options(self):
        page = (TOP / "man" / "slope.1").read_text().replace("\\-", "-")
        for option in ("--explain", "--why", "-o", "-h", "--help", "-V", "--version"):
            self.assertIn(option, page)
            self.assertIn(option.encode(), self.run_command(TOP / "bin" / "slope", "-h").stdout)

    def test_the_page_has_the_numbers(self):
        page = (TOP / "man" / "slope.1").read_text().replace("\\-", "-")
        for refusal in tomllib.loads((TOP / "calls.toml").read_text())["refusal"]:
            if refusal["number"] in (1, 2, 3, 4, 5, 6, 7, 10, 11):  # those of sheets and of their particles
                self.assertIn(".B %(number)d\n%(what)s: %(remedy)s\n" % refusal, page)

    def test_completion(self):
        for name in ("a.sheet", "a.txt"):
            (self.folder / name).write_text("")
        (self.folder / "folder").mkdir()
        ask = "source '%s'; COMP_WORDS=(slope '%%s'); COMP_CWORD=1; _slope; printf '%%%%s ' \"${COMPREPLY[@]}\"" % (TOP / "packaging" / "slope.bash-completion")
        for word, want in (("--e", "--explain "), ("", "folder a.sheet "), ("-V", "-V "), ("--w", "--why --why= ")):
            self.ended(self.run_command("bash", "-c", ask % word), 0, want)


if __name__ == "__main__":
    unittest.main()
