"""Finds the shared library: the file that PASOLETU_LIB names, and no other where it names one; else the library of the PREFIX that
the package stands in, or Python itself; else the system loader's; else that of the repository, made of its proved archive."""
from __future__ import annotations

import ctypes
import os
import pathlib
import platform
import subprocess
import sys
from typing import Iterator

from ._table import VERSION

SONAME = "libpasoletu.so." + VERSION.split(".")[0]
PACKAGE = pathlib.Path(__file__).resolve().parent
# Where a package in PREFIX/lib/python3/dist-packages or PREFIX/share/pasoletu/python has its PREFIX.
HIGHEST = 4
REPOSITORY = PACKAGE.parent.parent.parent
# The number of a processor in the header of an ELF file, by the name that the system has for it, and its place there.
PROCESSORS = {"x86_64": 62, "amd64": 62, "aarch64": 183, "arm64": 183, "riscv64": 243, "ppc64le": 21, "s390x": 22}
PROCESSOR = slice(18, 20)


class NoLibrary(ImportError):
    """No shared library was found, or the one that was named or found is not usable."""

    other_processor = False  # whether one was found, and is for another processor


def opened() -> tuple[str, ctypes.CDLL]:
    """The library's file and the library."""
    named = os.environ.get("PASOLETU_LIB")
    if named:
        try:
            return named, ctypes.CDLL(named)
        except OSError as error:
            other = _for_another_processor(named)
            why = "is for another processor" if other else "cannot be opened (%s)" % error
            raise _none(
                "pasoletu: PASOLETU_LIB names %s, which %s: let it name PREFIX/lib/%s, which `./install.sh "
                "PREFIX` in Pasoletu's repository makes" % (named, why, SONAME),
                other,
            ) from None
    faults = []
    some_other = False
    for file in _files():
        try:
            return file, ctypes.CDLL(file)
        except OSError as error:
            other = _for_another_processor(file)
            some_other = some_other or other
            faults.append("%s is for another processor" % file if other else str(error))
    raise _none(
        "pasoletu: there is no %s that can be opened (%s): run `./install.sh PREFIX` in Pasoletu's repository and set "
        "PASOLETU_LIB=PREFIX/lib/%s" % (SONAME, "; ".join(faults), SONAME),
        some_other,
    )


def _none(words: str, other_processor: bool) -> NoLibrary:
    error = NoLibrary(words)
    error.other_processor = other_processor
    return error


def _for_another_processor(file: str) -> bool:
    """Whether the file's header names another processor than this machine's; not where it is no ELF file or this machine is not known."""
    try:
        with open(file, "rb") as stream:
            header = stream.read(PROCESSOR.stop)
    except OSError:
        return False
    here = PROCESSORS.get(platform.machine().lower())
    if here is None or len(header) < PROCESSOR.stop or header[:4] != b"\x7fELF":
        return False
    return int.from_bytes(header[PROCESSOR], "little" if header[5] == 1 else "big") != here


def _files() -> Iterator[str]:
    """The files to try, best first; the loader is asked by the bare name."""
    prefixes = [*list(PACKAGE.parents)[:HIGHEST], pathlib.Path(sys.prefix)]
    yield from (str(file) for file in (prefix / "lib" / SONAME for prefix in prefixes) if file.is_file())
    yield SONAME
    # install.sh's own default, which the loader knows only after ldconfig.
    default = pathlib.Path("/usr/local/lib", SONAME)
    if default.is_file():
        yield str(default)
    yield from _built(REPOSITORY)


def _built(repository: pathlib.Path) -> Iterator[str]:
    """The library of the repository that the package stands in, if it has one ready. Nothing is proved for it."""
    tool = repository / "tools" / "built"
    if tool.is_file():
        done = subprocess.run([str(tool), "library"], stdout=subprocess.PIPE, stderr=subprocess.DEVNULL, text=True)
        if done.returncode == 0:
            yield done.stdout.strip()
