"""The package around the calls: how the library is found, installing, the version and the types. None of it needs the library
but what says so."""
import os
import pathlib
import shutil
import subprocess
import sys
import tempfile
import unittest
import zipfile

import pasoletu

HERE = pathlib.Path(__file__).resolve().parent.parent
VERSION = HERE.parent.parent / "VERSION"
CALL = "import pasoletu; pasoletu.elementary.exp(0.0); print(pasoletu.raw.file())"
SONAME = "libpasoletu.so.1"


def has(module):
    return subprocess.run([sys.executable, "-c", "import " + module], capture_output=True).returncode == 0


class InFolder(unittest.TestCase):
    def setUp(self):
        folder = tempfile.TemporaryDirectory()
        self.addCleanup(folder.cleanup)
        self.folder = pathlib.Path(folder.name).resolve()

    def python(self, *words, path, **environment):
        """Runs Python with the package in `path` and nothing told of the library but `environment`."""
        kept = {name: value for name, value in os.environ.items() if name not in ("PASOLETU_LIB", "PYTHONPATH", "LD_LIBRARY_PATH")}
        env = {**kept, "PYTHONPATH": str(path), "PYTHONDONTWRITEBYTECODE": "1", **environment}
        return subprocess.run([sys.executable, *words], env=env, cwd=self.folder, capture_output=True, text=True)

    def prefix(self, *below):
        """A PREFIX with the package below it; and where the package is."""
        packages = self.folder.joinpath("prefix", *below)
        shutil.copytree(HERE / "pasoletu", packages / "pasoletu", ignore=shutil.ignore_patterns("__pycache__"))
        return packages


class Finding(InFolder):
    def test_where_there_is_none_one_sentence_says_how_to_get_it(self):
        done = self.python("-c", CALL, path=self.prefix("lib", "python3", "dist-packages"))
        if done.returncode == 0:
            self.skipTest("the system has the library " + done.stdout.strip())
        last = done.stderr.splitlines()[-1]
        self.assertIn("NoLibrary: pasoletu: there is no %s that can be opened" % SONAME, last)
        self.assertIn("run `./install.sh PREFIX` in Pasoletu's repository", last)

    def test_without_the_library_all_but_calls_works(self):
        words = "import pasoletu; print(pasoletu.__version__, pasoletu.REFUSALS[1].what, pasoletu.SnowPlasticity())"
        done = self.python("-c", words, path=self.prefix("lib", "python3", "dist-packages"), PASOLETU_LIB="/no/such/file")
        self.assertEqual(done.stderr, "")
        self.assertIn("an input is NaN or infinite", done.stdout)

    def test_a_named_file_that_is_none_is_told_and_no_other_is_taken(self):
        packages = self.prefix("lib", "python3", "dist-packages")
        self.installed()
        for bad, why in (("/no/such/libpasoletu.so.1", "No such file"), (__file__, "invalid ELF header")):
            done = self.python("-c", CALL, path=packages, PASOLETU_LIB=bad)
            self.assertEqual(done.returncode, 1)
            self.assertIn("PASOLETU_LIB names %s, which cannot be opened" % bad, done.stderr)
            self.assertIn(why, done.stderr)
            self.assertIn("`./install.sh PREFIX`", done.stderr)

    def installed(self):
        """The library that is tested, in the PREFIX."""
        file = self.folder / "prefix" / "lib" / SONAME
        file.parent.mkdir(parents=True, exist_ok=True)
        shutil.copy(pasoletu.raw.file(), file)
        return file

    def test_the_library_of_the_prefix_is_found(self):
        for below in (("lib", "python3", "dist-packages"), ("lib", "python3.11", "site-packages"), ("share", "pasoletu", "python")):
            packages = self.prefix(*below)
            file = self.installed()
            done = self.python("-c", CALL, path=packages)
            self.assertEqual((done.stdout.strip(), done.stderr), (str(file), ""))

    def test_the_loader_is_asked(self):
        file = self.installed()
        packages = self.folder / "elsewhere"
        shutil.copytree(HERE / "pasoletu", packages / "pasoletu", ignore=shutil.ignore_patterns("__pycache__"))
        done = self.python("-c", CALL, path=packages, LD_LIBRARY_PATH=str(file.parent))
        self.assertEqual((done.stdout.strip(), done.stderr), (SONAME, ""))

    def test_the_repository_s_own_library_is_the_last(self):
        packages = self.prefix("bindings", "python")
        file = self.folder / "built" / SONAME
        file.parent.mkdir()
        shutil.copy(pasoletu.raw.file(), file)
        tool = self.folder / "prefix" / "tools" / "built"
        tool.parent.mkdir()
        tool.write_text('#!/bin/sh\n[ "$*" = library ] && echo %s\n' % file)
        tool.chmod(0o755)
        done = self.python("-c", CALL, path=packages)
        self.assertEqual((done.stdout.strip(), done.stderr), (str(file), ""))

    def test_a_library_of_another_version_is_told(self):
        compiler = os.environ.get("CC", "cc")
        if not shutil.which(compiler):
            self.skipTest("there is no C compiler %s" % compiler)
        source, file = self.folder / "other.c", self.folder / SONAME
        source.write_text("int pasoletu_exp(void) { return 0; }\n")
        made = subprocess.run([compiler, "-shared", "-o", str(file), str(source)], capture_output=True)
        self.assertEqual(made.returncode, 0, made.stderr)
        done = self.python("-c", CALL, path=HERE, PASOLETU_LIB=str(file))
        if "cannot be opened" in done.stderr or "for another processor" in done.stderr:
            self.skipTest("%s makes libraries for another machine than Python's" % compiler)
        self.assertIn("lacks the call pasoletu_ln, so it is of another version than this package: run install.sh anew", done.stderr)


@unittest.skipUnless(has("pip"), "there is no pip; on Debian: apt-get install -y python3-pip")
class Installing(InFolder):
    def pip(self, *words):
        done = self.python("-m", "pip", "--no-input", "--disable-pip-version-check", *words, path="")
        self.assertEqual(done.returncode, 0, done.stderr)

    def test_pip_installs_it_and_fetches_nothing(self):
        target = self.folder / "target"
        self.pip("install", "--no-index", "--target", str(target), str(HERE))
        words = "import importlib.metadata as m, pasoletu; print(pasoletu.__file__, pasoletu.__version__ == m.version('pasoletu'))"
        done = self.python("-c", words, path=target)
        self.assertEqual((done.stdout.split(), done.stderr), ([str(target / "pasoletu" / "__init__.py"), "True"], ""))
        self.assertTrue((target / "pasoletu" / "py.typed").is_file())

    def test_the_wheel_has_every_file_of_the_package(self):
        self.pip("wheel", "--no-index", "--no-deps", "--wheel-dir", str(self.folder), str(HERE))
        (wheel,) = self.folder.glob("*.whl")
        self.assertEqual(wheel.name, "pasoletu-%s-py3-none-any.whl" % pasoletu.__version__)
        with zipfile.ZipFile(wheel) as archive:
            packed = {name for name in archive.namelist() if name.startswith("pasoletu/")}
            metadata = archive.read("pasoletu-%s.dist-info/METADATA" % pasoletu.__version__).decode()
        there = {file.relative_to(HERE).as_posix() for file in (HERE / "pasoletu").iterdir() if file.is_file()}
        self.assertEqual(packed, there)
        self.assertIn("\nRequires-Python: >=3.9\n", metadata)
        self.assertIn('\nRequires-Dist: numpy; extra == "numpy"\n', metadata)

    def test_the_source_archive_installs_too(self):
        words = "import sys; sys.path.insert(0, %r); import wheel_of_package; wheel_of_package.build_sdist('.')"
        done = self.python("-c", words % str(HERE / "build_backend"), path="")
        self.assertEqual(done.stderr, "")
        (archive,) = self.folder.iterdir()
        self.pip("install", "--no-index", "--target", str(self.folder / "target"), str(archive))
        self.assertTrue((self.folder / "target" / "pasoletu" / "_table.py").is_file())


class WithoutDask(InFolder):
    def test_chunks_says_what_it_needs(self):
        done = self.python("-c", "import sys; sys.modules['dask'] = None; import pasoletu.chunks", path=HERE)
        self.assertIn("ImportError: pasoletu.chunks needs Dask with numpy", done.stderr.splitlines()[-1])
        self.assertIn("apt-get install -y python3-distributed", done.stderr.splitlines()[-1])


class Types(unittest.TestCase):
    @unittest.skipUnless(shutil.which("mypy"), "there is no mypy; on Debian: apt-get install -y mypy")
    def test_mypy_finds_nothing(self):
        with tempfile.TemporaryDirectory() as cache:
            done = subprocess.run(["mypy", "--cache-dir", cache, "pasoletu"], cwd=HERE, capture_output=True, text=True)
        self.assertEqual(done.returncode, 0, done.stdout + done.stderr)

    @unittest.skipUnless(VERSION.is_file(), "this is no repository: it has no VERSION")
    def test_the_version_is_the_repository_s(self):
        self.assertEqual(pasoletu.__version__, VERSION.read_text().strip())


if __name__ == "__main__":
    unittest.main()
