"""What the tools share towards whoever runs them: an error is one sentence and status 1, `-` names standard input or output, and a file is
written whole or not at all."""
import contextlib
import os
import pathlib
import re
import subprocess
import sys

TOP = pathlib.Path(__file__).resolve().parent.parent
INSTALLED = not (TOP / "crates.txt").is_file()  # below a PREFIX, where TOP is share/pasoletu
TOOL = re.compile(r"(?:tools/)?\b(arrive|draw|report|sheet)\.py\b|tools/(night)\b")


def renamed(words):
    """The tools by the names that install.sh gives them: tools/sheet.py is the command slope-sheet, bin/slope is slope."""
    return TOOL.sub(lambda found: "slope-" + (found[1] or found[2]), words).replace("bin/slope", "slope")


def named(words):
    """Words as they fit the place where the tools stand."""
    return renamed(words) if INSTALLED else words


class Wrong(Exception):
    """What is wrong, where, and what to do."""


class NoLibrary(Wrong):
    """There is no proved library to call."""

    def __init__(self, words, other_processor=False):
        super().__init__(words)
        self.other_processor = other_processor  # whether there is one, for another processor


def package():
    """The Python package, with the library that it finds."""
    sys.path.insert(0, str(TOP / "bindings" / "python"))
    try:
        import pasoletu
        pasoletu.elementary.exp(0.0)  # the library may be opened no earlier than at the first call
    except ImportError as e:
        raise NoLibrary(str(e), getattr(e, "other_processor", False))
    finally:
        sys.path.pop(0)
    return pasoletu


def program():
    """The proved program: the file that PASOLETU_SLOPE names, else the one that was built of the sources here. Nothing is proved for it."""
    ran = subprocess.run([TOP / "tools" / "built", "program"], stdout=subprocess.PIPE, stderr=subprocess.PIPE, text=True)
    if ran.returncode:
        raise Wrong(ran.stderr.strip())
    return pathlib.Path(ran.stdout.strip())


def slope():
    """The words of the command `slope` and the variables by which it runs the program that is there; nothing is proved for it."""
    return [str(TOP / "bin" / "slope")], {"PASOLETU_SLOPE": str(program())}


def words(program):
    """The words that run a program: before it those of PASOLETU_EMULATOR, as bin/slope has it."""
    return os.environ.get("PASOLETU_EMULATOR", "").split() + [str(program)]


def called(name, standard):
    return standard if name == "-" else str(name)


def standard_input():
    """Standard input's bytes as a stream."""
    if sys.stdin is None:
        raise Wrong("standard input is closed: name a file, or open it")
    return sys.stdin.buffer


@contextlib.contextmanager
def reading(name):
    """A file's bytes as a stream; `-` is standard input."""
    try:
        with contextlib.nullcontext(standard_input()) if name == "-" else open(name, "rb") as stream:
            yield stream
    except OSError as e:
        raise Wrong("%s: cannot be read (%s)" % (called(name, "standard input"), e.strerror))


def say(text):
    """Text or bytes to standard output."""
    if sys.stdout is None:
        raise Wrong("standard output is closed: open it, or name a file")
    with writing("standard output"):
        try:
            (sys.stdout.buffer if isinstance(text, bytes) else sys.stdout).write(text)
            sys.stdout.flush()
        except OSError:
            os.dup2(os.open(os.devnull, os.O_WRONLY), sys.stdout.fileno())  # the interpreter flushes once more as it ends
            raise


@contextlib.contextmanager
def writing(name):
    try:
        yield
    except OSError as e:
        raise Wrong("%s: cannot be written (%s)" % (name, e.strerror))


class Together:
    """Files that appear under their names once all of them are written, and not at all where one cannot be."""

    def __init__(self):
        self.parts = {}

    def __enter__(self):
        return self

    def add(self, name, data):
        path = os.path.realpath(name)
        part = "%s.%d.part" % (path, os.getpid())
        self.parts[part] = path
        with writing(name):
            pathlib.Path(part).write_bytes(data)

    def __exit__(self, kind, *_):
        for part, path in self.parts.items():
            if kind is None:
                with writing(path):
                    os.replace(part, path)
            else:
                with contextlib.suppress(OSError):
                    os.unlink(part)


def write(name, data):
    """Bytes to a file, whole or not at all; `-` is standard output, and a device or a pipe is written as it stands."""
    path = pathlib.Path(name)
    if name == "-":
        say(data)
    elif path.exists() and not path.is_file():
        with writing(name):
            path.write_bytes(data)
    else:
        with Together() as files:
            files.add(name, data)


def run(tool, work, *arguments):
    """The exit status of a tool: that of its work, or 1 where something was wrong."""
    try:
        return work(*arguments) or 0
    except Wrong as e:
        print(named("%s: %s" % (tool, e)), file=sys.stderr)
    except KeyboardInterrupt:
        print(named("%s: ended" % tool), file=sys.stderr)
    return 1
