#!/usr/bin/env python3
"""Shows that the square root is worked out one binary digit at a time: in its sources, in the built library, and by a run.

    tools/no_division.py [--sources | ARCHIVE]

With --sources the sources alone are looked at: the gate does that, and it needs nothing built. ARCHIVE is the static library; with neither it is the one
that `tools/built archive` has, and the sources and the run are looked at too.
Sources (crates/square_root/src, less comments, attributes and contracts). Wrong is a `*`; a `/` or `%` but by a constant power of two; an array; a call of another
crate's function, but for those of `answers`, which work nothing out.
Library. It is disassembled (objdump for x86-64, of binutils). Looked at are pasoletu_sqrt, every function of the crate `square_root` that the compiler
kept, and all that these call. Wrong is an instruction that divides, multiplies or takes a root, a call that leads out of the library, in a loop a jump
but for the one that closes it (a digit's choice must be none) or a load; and more than ROOM bytes in the crate's own functions.
Run (x86-64 alone). The call is stepped through for some numbers. Wrong is one whose loops make fewer or more than 2 choices for each of 54 digits.
The last line is 'N passed, M failed'; a source file, a function, a number of the run is one of them.
"""
import collections
import ctypes
import os
import pathlib
import platform
import re
import shutil
import signal
import subprocess
import sys
import tempfile

import shell

FIRST = "pasoletu_sqrt"
CRATE = "square_root::"
OBJDUMPS = ("x86_64-linux-gnu-objdump", "objdump")
DIGITS, CHOICES, ROOM = 54, 2, 300
SOURCES = shell.TOP / "crates" / "square_root" / "src"
DIVIDES = re.compile(r"v?(i?div|f(i?div|sqrt)|(div|sqrt|rsqrt|rcp)[sp])")
MULTIPLIES = re.compile(r"v?(i?mul|fi?mul|pmul|pmadd|pclmul|fn?m(add|sub)\d)")
LOADS = re.compile(r"(?!lea|nop|cs nop|data16)\w+ .*(?:\(|[ ,]0x[0-9a-f]+(?:,|$))")
CHOOSES = re.compile(r"cmov")
HEAD = re.compile(r"([0-9a-f]+) <(.*)>:$")
LINE = re.compile(r" *([0-9a-f]+):\t((?:[0-9a-f]{2} )+) *\t([^\t]*)(?:\t.*R_X86_64_\w+\t(?:\.text\.)?(.*?)(?:[-+]0x[0-9a-f]+)?)?$")
JUMP = re.compile(r"(?:notrack |bnd )*j\w+ +(?:([0-9a-f]+) )?")
ENDS = re.compile(r"(?:notrack |bnd |repz? )*(?:jmp|ret|ud2|hlt)")
LEAVES = re.compile(r"(?:notrack |bnd )*(?:call|j\w+) ")

Instruction = collections.namedtuple("Instruction", "at words")


class Function:
    def __init__(self):
        self.lines, self.size, self.calls = [], 0, []

    def jumps(self):
        """Where each jump stands, and where it leads to; None is somewhere that was worked out."""
        found = [(at, JUMP.match(words)) for at, words in self.lines]
        return [(at, jump[1] and int(jump[1], 16)) for at, jump in found if jump]

    def leads(self, first, last):
        """Whether the instruction at last can come after the one at first."""
        after = {at: following for (at, _), (following, _) in zip(self.lines, self.lines[1:])}
        ends = {at for at, words in self.lines if ENDS.match(words)}
        jumps = dict(self.jumps())
        met, left = set(), [first]
        while left:
            at = left.pop()
            if at not in met:
                met.add(at)
                left += [to for to in (jumps.get(at), None if at in ends else after.get(at)) if to is not None]
        return last in met

    def loops(self):
        """The first and the last address of each loop: a jump back to where it can come from again (an ending that several share is none)."""
        return [(to, at) for at, to in self.jumps() if to is not None and to <= at and self.leads(to, at)]


def functions(text):
    """The functions by name, from what `objdump -drw` prints of a library with a section a function."""
    found, now, start = {}, None, 0
    for line in text.split("\n"):
        head, instruction = HEAD.match(line), LINE.match(line)
        if head:
            now, start = found.setdefault(head[2], Function()), int(head[1], 16)
        elif instruction and now:
            at, code, words, name = instruction.groups()
            now.lines.append(Instruction(int(at, 16), words))
            now.size = int(at, 16) - start + len(code.split())
            if name and LEAVES.match(words):
                now.calls.append(name)
    return found


def reached(found):
    """The names of the root's functions and of all that they call; a name that the library has not stands among them too."""
    names = [name for name in found if name == FIRST or name.startswith(CRATE)]
    for name in names:
        names += [called for called in (found[name].calls if name in found else ()) if called not in names]
    return names


def faults(function):
    """What is wrong with a function."""
    if function is None:
        return ["it is called and does not stand in the library"]
    wrong = ["%s at %x: %s" % (what, i.at, " ".join(i.words.split())) for i in function.lines for what, form in (("divides or takes a root", DIVIDES), ("multiplies", MULTIPLIES)) if form.match(i.words)]
    for first, last in function.loops():
        wrong += ["reads memory inside the loop from %x to %x, at %x" % (first, last, i.at) for i in function.lines if first <= i.at <= last and LOADS.match(i.words)]
        wrong += ["jumps inside the loop from %x to %x, at %x" % (first, last, at) for at, _ in function.jumps() if first <= at < last]
    return wrong


def checked(text):
    """A line for each function of the root's, and how many of them are well and wrong."""
    found = functions(text)
    names = reached(found)
    if FIRST not in found:
        raise shell.Wrong("the library has no %s" % FIRST)
    if not any(found[name].loops() for name in names if name in found):
        raise shell.Wrong("no loop was found below %s: this is not the root by digits" % FIRST)
    lines, failed = [], 0
    for name in names:
        wrong = faults(found.get(name))
        failed += bool(wrong)
        lines += ["%s: %s" % (name, fault) for fault in wrong]
        if not wrong:
            lines.append("%s: %d bytes, %d instructions, loops: %d" % (name, found[name].size, len(found[name].lines), len(found[name].loops())))
    root = sum(found[name].size for name in names if name.startswith(CRATE) and name in found)
    lines.append("the crate's own functions: %d bytes of %d; all of the library: %d" % (root, ROOM, sum(f.size for f in found.values())))
    return lines, len(names) - failed, failed + (root > ROOM)


# ---- the sources
PATH = re.compile(r"\b(\w+(?:::\w+)+)\b(?=\s*[({]|)")
KNOWN = re.compile(r"answers::\w+|Answer::\w+|digits::of_digits|f64::(to|from)_bits|u64::leading_zeros|std::num::wrapping_sub_u64")
POWER = re.compile(r"\s*(0x[0-9a-f_]+|[0-9][0-9_]*)\b", re.I)


def code_of(text):
    """A source less its comments, its attributes, its `ghost use` lines and its contracts' clauses; what is left keeps its lines."""
    text = re.sub(r"//[^\n]*", "", text)
    text = re.sub(r"^ *#!?\[[^\n]*\]$", "", text, flags=re.M)
    text = re.sub(r"^ghost use [^;]*;", "", text, flags=re.M)
    return re.sub(r"^ +(?:requires|ensures)\b[^{\n]*\{.*\}$", "", text, flags=re.M)


def source_faults(text):
    """What is wrong with a source: (line, what)."""
    code = code_of(text)
    found = []
    for at in re.finditer(r"[*/%]", code):
        number = POWER.match(code, at.end())
        value = int(number[1].replace("_", ""), 0) if number else 0
        if at[0] == "*" or value == 0 or value & (value - 1):
            found.append((at.start(), "`%s`%s" % (at[0], "" if at[0] == "*" else " by what is no constant power of two")))
    found += [(at.start(), "an array") for at in re.finditer(r"[\[\]]", code)]
    found += [(at.start(), "asks %s" % at[1]) for at in PATH.finditer(code) if not KNOWN.fullmatch(at[1]) and not re.search(r"^\s*(pub )?use [^;]*$", code[:at.start()], re.M)]
    return [(code.count("\n", 0, place) + 1, what) for place, what in sorted(found)]


def sources(folder):
    """A line for each source, and how many are well and wrong."""
    lines, failed = [], 0
    files = sorted(folder.glob("**/*.rt"))
    for path in files:
        wrong = source_faults(path.read_text())
        failed += bool(wrong)
        lines += ["%s:%d: %s" % (path.name, line, what) for line, what in wrong] or ["%s: no division, no multiplication, no array, no other crate's arithmetic" % path.name]
    if not files:
        raise shell.Wrong("%s has no sources" % folder)
    return lines, len(files) - failed, failed


# ---- the run
TRACEME, PEEKTEXT, PEEKUSER, POKETEXT, POKEUSER, CONT, STEP = 0, 1, 3, 4, 6, 7, 9
RIP, RSP = 16 * 8, 19 * 8
NUMBERS = (1.0, 2.0, 3.0, 0.1, 4503599627370497.0, 1.7976931348623157e308, 2.2250738585072014e-308, 5e-324)


def stepped(call, address, libc):
    """The addresses of the instructions of one call of the function at `address`, which `call` makes in a child."""
    ask = lambda what, at, data=0: libc.ptrace(ctypes.c_long(what), ctypes.c_long(child), ctypes.c_void_p(at), ctypes.c_void_p(data))
    child = os.fork()
    if child == 0:
        libc.ptrace(ctypes.c_long(TRACEME), 0, None, None)
        os.kill(os.getpid(), signal.SIGSTOP)
        call()
        os._exit(0)
    try:
        os.waitpid(child, 0)
        word = ask(PEEKTEXT, address)
        ask(POKETEXT, address, word & ~0xFF & (1 << 64) - 1 | 0xCC)
        ask(CONT, 0)
        if not os.WIFSTOPPED(os.waitpid(child, 0)[1]):
            raise shell.Wrong("the call could not be stepped through: ptrace is not allowed here")
        ask(POKETEXT, address, word & (1 << 64) - 1)
        ask(POKEUSER, RIP, address)
        back = ask(PEEKTEXT, ask(PEEKUSER, RSP) & (1 << 64) - 1)
        met = []
        while (at := ask(PEEKUSER, RIP)) != back and len(met) < 100000:
            met.append(at)
            ask(STEP, 0)
            os.waitpid(child, 0)
        return met
    finally:
        os.kill(child, signal.SIGKILL)
        os.waitpid(child, 0)


def run(archive):
    """A line for each number of the run, and how many are well and wrong."""
    with tempfile.TemporaryDirectory() as folder:
        shared = pathlib.Path(folder) / "root.so"
        made = subprocess.run([shell.TOP / "tools" / "shared", archive, shared], stdout=subprocess.PIPE, stderr=subprocess.PIPE, text=True)
        if made.returncode:
            raise shell.Wrong(made.stderr.strip())
        found = functions(disassembled(shared))
        library, libc = ctypes.CDLL(str(shared)), ctypes.CDLL(None, use_errno=True)
        libc.ptrace.restype = ctypes.c_long
        root = library.pasoletu_sqrt
        root.argtypes, root.restype = [ctypes.c_double, ctypes.c_void_p, ctypes.c_size_t], ctypes.c_ubyte
        address = ctypes.cast(root, ctypes.c_void_p).value
        base = address - found[FIRST].lines[0].at
        chosen = {base + i.at for name in reached(found) for first, last in found[name].loops() for i in found[name].lines if first <= i.at <= last and CHOOSES.match(i.words)}
        lines, failed, out = [], 0, (ctypes.c_uint64 * 1)()
        for number in NUMBERS:
            met = stepped(lambda: root(number, out, 1), address, libc)
            choices = sum(at in chosen for at in met)
            failed += choices != DIGITS * CHOICES
            lines.append("%r: %d choices in its loops, for %d digits; %d instructions" % (number, choices, DIGITS, len(met)))
    return lines, len(NUMBERS) - failed, failed


def disassembled(archive):
    """What objdump prints of it."""
    for name in OBJDUMPS:
        tool = shutil.which(name)
        if tool and "elf64-x86-64" in subprocess.run([tool, "--info"], stdout=subprocess.PIPE, text=True).stdout:
            ran = subprocess.run([tool, "-drw", str(archive)], stdout=subprocess.PIPE, stderr=subprocess.PIPE, text=True)
            if ran.returncode:
                raise shell.Wrong("%s: cannot be disassembled (%s)" % (archive, ran.stderr.strip().split("\n")[0]))
            return ran.stdout
    raise shell.Wrong("there is no objdump for x86-64: install binutils (Debian: binutils-x86-64-linux-gnu)")


def library():
    """The static library that was built of the sources here, or that PASOLETU_ARCHIVE names. Nothing is proved for it."""
    ran = subprocess.run([shell.TOP / "tools" / "built", "archive"], stdout=subprocess.PIPE, stderr=subprocess.PIPE, text=True)
    if ran.returncode:
        raise shell.Wrong(ran.stderr.strip())
    return pathlib.Path(ran.stdout.strip())


def main(words):
    if "--help" in words or "-h" in words or len(words) > 1:
        print(__doc__.strip())
        return 0 if len(words) < 2 else 1
    try:
        if words == ["--sources"]:
            parts = [sources(SOURCES)]
        elif words:
            parts = [checked(disassembled(words[0]))]
        else:
            archive = library()
            parts = [sources(SOURCES), checked(disassembled(archive))]
            if platform.machine() == "x86_64":
                parts.append(run(archive))
            else:
                print("no_division: left out: the run, which steps through code for x86-64; this is %s" % platform.machine(), file=sys.stderr)
    except shell.Wrong as e:
        print("no_division: %s" % e, file=sys.stderr)
        return 1
    lines, passed, failed = (sum(part, start) for part, start in zip(zip(*parts), ([], 0, 0)))
    print("\n".join(lines))
    print("%d passed, %d failed" % (passed, failed))
    return 1 if failed else 0


if __name__ == "__main__":
    sys.exit(main(sys.argv[1:]))
