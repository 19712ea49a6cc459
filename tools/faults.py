#!/usr/bin/env python3
"""Runs the program with closed, failing, slow and endless input and output, and says what it does in each case.

  tools/faults.py [--program PROGRAM] [--command bin/slope]

PROGRAM is the proved program, as a file that can be run; without the option the one that PASOLETU_SLOPE names, else the one that was built
of the sources here. The command is given the same one. A case is right where the program ends and either prints its whole answer, or prints no more than the start of it
(never `end`) and says on standard error which of its two streams failed. The language has no exit status, so the program itself always ends
with 0; bin/slope, which people run, must end with its own: 0 all well, 1 no whole answer, 2 no such sheet, 3 something was refused.
The last line is 'N cases, M wrong'; the exit status is 0 where M is 0.
"""
import argparse
import array
import fcntl
import os
import pathlib
import resource
import signal
import subprocess
import sys
import tempfile
import termios
import threading
import time

sys.path.insert(0, str(pathlib.Path(__file__).resolve().parent))
import shell  # noqa: E402

TOP = shell.TOP
LONGEST = 1200  # seconds after which a program is taken for one that never ends, on however slow a machine
NO_ANSWER, NO_SHEET, SOME_REFUSED = 1, 2, 3


class Ran:
    def __init__(self, status, out, err):
        self.status, self.out, self.err = status, out, err


def finish(p, out=b""):
    """Waits for the program and takes what it has printed; one that does not end is stopped with all that it started, and told."""
    try:
        o, e = p.communicate(timeout=LONGEST)
        return Ran(p.returncode, o if o is not None else out, e or b"")
    except subprocess.TimeoutExpired:
        os.killpg(p.pid, signal.SIGKILL)
        p.communicate()
        return Ran("did not end", out, b"")


def run(command, close=(), before=None, **streams):
    """Runs it with descriptors closed; `before` is done in the new process."""
    def prepare():
        signal.signal(signal.SIGPIPE, signal.SIG_DFL)
        for n in close:
            os.close(n)
        if before:
            before()
    return subprocess.Popen(command, preexec_fn=prepare, start_new_session=True, **streams)


def piped(command, chunks, pause=0.0, act=None):
    """The program with its input through a pipe, in parts with pauses; `act` is done after each part."""
    p = run(command, stdin=subprocess.PIPE, stdout=subprocess.PIPE, stderr=subprocess.PIPE)
    try:
        for c in chunks:
            p.stdin.write(c)
            p.stdin.flush()
            if act:
                act(p)
            time.sleep(pause)
    except BrokenPipeError:
        pass
    return finish(p)


def ignoring(number):
    return lambda: signal.signal(number, signal.SIG_IGN)


def nonblocking(fd):
    fcntl.fcntl(fd, fcntl.F_SETFL, fcntl.fcntl(fd, fcntl.F_GETFL) | os.O_NONBLOCK)


def waiting(p):
    """Whether the program has taken all of its input so far and sleeps."""
    left = array.array("i", [0])
    fcntl.ioctl(p.stdin, termios.FIONREAD, left)
    return left[0] == 0 and pathlib.Path("/proc/%d/stat" % p.pid).read_text().rpartition(")")[2].split()[0] == "S"


class Cases:
    def __init__(self, program, command):
        self.program, self.command = shell.words(program), str(command)
        self.big = TOP / "crates" / "slope_cases" / "data" / "50"  # 200 particles with determinants
        self.sample = TOP / "samples" / "rankine.sheet"
        self.count = self.wrong = 0

    def good(self, path):
        with open(path, "rb") as f:
            return finish(run(self.program, stdin=f, stdout=subprocess.PIPE, stderr=subprocess.PIPE)).out

    def tell(self, name, r, whole=None, start_of=None, says=b"", status=0):
        """`whole`: what must be printed. Else no more than the start of `start_of`, and `says` on standard error."""
        faults = []
        if r.status != status:
            faults.append("status %s, and should be %s" % (r.status, status))
        if whole is not None and r.out != whole:
            faults.append("printed %r.., not %r.." % (r.out[:40], whole[:40]))
        if whole is None and not (start_of.startswith(r.out) and len(r.out) < len(start_of)):
            faults.append("what is printed is not just the start of the answer: ..%r" % r.out[-40:])
        if says not in r.err:
            faults.append("standard error does not say %r but %r" % (says, r.err[:120]))
        printed = "%d bytes" % len(r.out) if len(r.out) > 40 else repr(r.out.decode(errors="replace"))
        print("%-58s status %-4s printed %-24s said %r%s" % (name, r.status, printed, r.err.decode(errors="replace").strip()[:90], "".join("\n    WRONG: " + f for f in faults)))
        self.count += 1
        self.wrong += bool(faults)

    def input_cases(self):
        p, good = self.program, self.good(self.sample)
        err = dict(stdout=subprocess.PIPE, stderr=subprocess.PIPE)
        self.tell("input closed", finish(run(p, close=[0], **err)), start_of=good, says=b"standard input")
        with open("/dev/null", "rb") as f:
            self.tell("input empty", finish(run(p, stdin=f, **err)), whole=b"sheet refused 4\n")
        folder = os.open(TOP, os.O_RDONLY)
        self.tell("input a directory", finish(run(p, stdin=folder, **err)), start_of=good, says=b"standard input")
        os.close(folder)
        with open("/dev/null", "wb") as f:
            self.tell("input open for writing only", finish(run(p, stdin=f, **err)), start_of=good, says=b"standard input")
        with open("/dev/zero", "rb") as f:
            self.tell("input endless (zeros)", finish(run(p, stdin=f, **err)), whole=b"sheet refused 7\n")
        self.tell("input of 100 MB", piped(p, [self.sample.read_bytes()] + [b"\1" * 1000000] * 100), whole=b"sheet refused 7\n")
        b = self.sample.read_bytes()[:25 + 8 * 36]
        one = (TOP / "samples" / "snow.sheet").read_bytes()
        self.tell("input byte by byte, 2 ms apart", piped(p, [bytes([x]) for x in one], 0.002), whole=self.good(TOP / "samples" / "snow.sheet"))
        self.tell("input of 200 particles in parts of 997 bytes", piped(p, [self.big.read_bytes()[k:k + 997] for k in range(0, self.big.stat().st_size, 997)]), whole=self.good(self.big))
        self.tell("input that stops in the middle of a record", piped(p, [b]), whole=b"sheet refused 4\n")

        def halted(q):
            os.kill(q.pid, signal.SIGSTOP)
            time.sleep(0.05)
            os.kill(q.pid, signal.SIGCONT)
        self.tell("input in two parts, halted and continued between", piped(p, [one[:100], one[100:]], 0.05, halted), whole=self.good(TOP / "samples" / "snow.sheet"))
        self.waits(one)
        r, w = os.pipe()
        nonblocking(r)
        self.tell("input a pipe that does not wait, with nothing in it", finish(run(p, stdin=r, **err)), start_of=good, says=b"standard input")
        os.close(r)
        os.close(w)

    def waits(self, one):
        """A whole sheet and a pipe that stays open: the program must wait, since bytes may follow, and answer once it is closed."""
        p = run(self.program, stdin=subprocess.PIPE, stdout=subprocess.PIPE, stderr=subprocess.PIPE)
        p.stdin.write(one)
        p.stdin.flush()
        while p.poll() is None and not waiting(p):
            time.sleep(0.01)
        early = p.poll()
        r = finish(p)
        if early is not None:
            r.status = "ended before the input did"
        self.tell("input whole, closed once the program waits for more", r, whole=self.good(TOP / "samples" / "snow.sheet"))

    def output_cases(self):
        p, good = self.program, self.good(self.big)
        with open(self.big, "rb") as f:
            self.tell("output closed", finish(run(p, close=[1], stdin=f, stderr=subprocess.PIPE)), start_of=good, says=b"standard output")
        with open(self.big, "rb") as f, open("/dev/full", "wb") as full:
            self.tell("output full", finish(run(p, stdin=f, stdout=full, stderr=subprocess.PIPE)), start_of=good, says=b"standard output")
        with open(self.big, "rb") as f:
            self.tell("output and standard error closed", finish(run(p, close=[1, 2], stdin=f)), start_of=good)
        self.tell("input, output and standard error closed", finish(run(p, close=[0, 1, 2])), start_of=good)
        for name, before, status, says in (("a pipe closed after one byte", None, 0, b"standard output"), ("the same, SIGPIPE ignored", ignoring(signal.SIGPIPE), 0, b"standard output")):
            self.tell("output " + name, self.into_pipe(before), start_of=good, says=says, status=status)
        with tempfile.TemporaryDirectory() as folder:
            for name, before, status, says in (("a file that may hold 1,024 bytes", None, -signal.SIGXFSZ, b""), ("the same, SIGXFSZ ignored", ignoring(signal.SIGXFSZ), 0, b"standard output")):
                self.tell("output " + name, self.into_limited(folder, before), start_of=good, says=says, status=status)
        self.tell("output a pipe that does not wait, full", self.into_nonblocking(), start_of=good, says=b"standard output")
        self.tell("output a pipe that does not wait, emptied slowly", self.into_nonblocking(0.0005), start_of=good + b"\n")
        self.tell("output a pipe read byte by byte", self.into_slow(), whole=good)

    def into_pipe(self, before):
        r, w = os.pipe()
        fcntl.fcntl(w, fcntl.F_SETPIPE_SZ, 4096)
        with open(self.big, "rb") as f:
            p = run(self.program, stdin=f, stdout=w, stderr=subprocess.PIPE, before=before)
        os.close(w)
        out = os.read(r, 1)
        os.close(r)
        return finish(p, out)

    def into_limited(self, folder, before):
        def limited():
            resource.setrlimit(resource.RLIMIT_FSIZE, (1024, 1024))
            if before:
                before()
        path = pathlib.Path(folder) / "out"
        with open(self.big, "rb") as f, open(path, "wb") as out:
            r = finish(run(self.program, stdin=f, stdout=out, stderr=subprocess.PIPE, before=limited))
        r.out = path.read_bytes()
        return r

    def into_nonblocking(self, pause=None):
        """A pipe of a page whose writer does not wait; it is emptied at the end, or a byte at a time."""
        r, w = os.pipe()
        fcntl.fcntl(w, fcntl.F_SETPIPE_SZ, 4096)
        nonblocking(w)
        got = []

        def empty():
            while True:
                b = os.read(r, 64)
                if not b:
                    return
                got.append(b)
                time.sleep(pause)
        with open(self.big, "rb") as f:
            p = run(self.program, stdin=f, stdout=w, stderr=subprocess.PIPE)
        os.close(w)
        if pause is not None:
            reader = threading.Thread(target=empty)
            reader.start()
            ran = finish(p)
            reader.join()
        else:
            ran = finish(p)
            pause = 0.0
            empty()
        os.close(r)
        ran.out = b"".join(got)
        return ran

    def into_slow(self):
        r, w = os.pipe()
        fcntl.fcntl(w, fcntl.F_SETPIPE_SZ, 4096)
        with open(self.big, "rb") as f:
            p = run(self.program, stdin=f, stdout=w, stderr=subprocess.PIPE)
        os.close(w)
        got = []
        while True:
            b = os.read(r, 1)
            if not b:
                break
            got.append(b)
        os.close(r)
        ran = finish(p)
        ran.out = b"".join(got)
        return ran

    def command_cases(self):
        c, good = self.command, self.good(self.big)
        err = dict(stdin=subprocess.DEVNULL, stderr=subprocess.PIPE)
        pipe = dict(stdout=subprocess.PIPE, **err)
        some = self.good(self.sample)
        self.tell("bin/slope on a sheet", finish(run([c, str(self.big)], **pipe)), whole=good)
        self.tell("bin/slope on a sheet with refused particles", finish(run([c, str(self.sample)], **pipe)), whole=some, status=SOME_REFUSED)
        self.tell("bin/slope on a refused sheet", finish(run([c, "/dev/null"], **pipe)), whole=b"sheet refused 4\n", status=SOME_REFUSED)
        self.tell("bin/slope without a name, input empty", finish(run([c], **pipe)), whole=b"sheet refused 4\n", status=SOME_REFUSED)
        with open(self.big, "rb") as f:
            self.tell("bin/slope without a name", finish(run([c], stdin=f, stdout=subprocess.PIPE, stderr=subprocess.PIPE)), whole=good)
        self.tell("bin/slope on a file that is not there", finish(run([c, "no/such.sheet"], **pipe)), start_of=good, says=b"no/such.sheet", status=NO_SHEET)
        self.tell("bin/slope on a directory", finish(run([c, str(TOP)], **pipe)), start_of=good, says=b"irectory", status=NO_SHEET)
        with open("/dev/full", "wb") as full:
            self.tell("bin/slope, output full", finish(run([c, str(self.big)], stdout=full, **err)), start_of=good, says=b"No space", status=NO_ANSWER)
        self.tell("bin/slope, output closed", finish(run([c, str(self.big)], close=[1], **err)), start_of=good, says=b"Bad file", status=NO_ANSWER)


def work(args):
    program = args.program or shell.program()
    for path in (program, args.command):
        if not os.access(path, os.X_OK):
            raise shell.Wrong("%s is no program that can be run: name another by --program or --command" % path)
    os.environ["PASOLETU_SLOPE"] = str(program)  # the command runs the same one
    cases = Cases(program, args.command)
    cases.input_cases()
    cases.output_cases()
    cases.command_cases()
    print("%d cases, %d wrong" % (cases.count, cases.wrong))
    return 1 if cases.wrong else 0


def main(argv=None):
    about = argparse.ArgumentParser(description=__doc__, formatter_class=argparse.RawDescriptionHelpFormatter, usage=argparse.SUPPRESS)
    about.add_argument("--program", type=pathlib.Path)
    about.add_argument("--command", default=TOP / "bin" / "slope", type=pathlib.Path)
    return shell.run("faults.py", work, about.parse_args(argv))


if __name__ == "__main__":
    sys.exit(main())
