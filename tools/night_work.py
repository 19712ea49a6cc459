"""The work of a night: its sheets in batches by bytes, handed out by GNU parallel over this machine's cores and over other machines.

GNU parallel runs tools/night_job.py once a batch, beside this night, with the number of the machine that the batch is for: a machine is a host of
GNU parallel's, whose `ssh` is the night's own lane. So it says who works what, and has a batch that a machine was lost with worked by another; the
job itself speaks with its machine by ssh, and no file is ever written there.
"""
import array
import concurrent.futures
import ctypes
import json
import os
import pathlib
import select
import shlex
import shutil
import signal
import subprocess
import sys
import time

import night_job
from night_sheets import Result, Sheet, of_line, size

LEAST_BYTES, MOST_BYTES = 1 << 20, 1 << 26  # of a batch
LEAST_SHEETS, MOST_SHEETS = 16, 1024
ENDS = 10  # seconds for the jobs to end with the night
PACKAGE = "on Debian: apt-get install -y parallel"
HERE = pathlib.Path(__file__).resolve().parent


class NoWork(Exception):
    """Why a night cannot go on."""


# ---- machines

SSH = ["-o", "BatchMode=yes", "-o", "ConnectTimeout=20", "-o", "ServerAliveInterval=15"]


def listed(text):
    """The machines of a list: jobs at a time or nothing, and the words before a command; none for this machine. A line is [JOBS/]LOGIN, a LOGIN
    as ssh takes it, or the words of another command with it last, or a colon for this machine."""
    for line in text.splitlines():
        line = line.split("#")[0].strip()
        if not line:
            continue
        count, slash, rest = line.partition("/")
        login = rest.strip() if slash and count.strip().isdecimal() else line
        slots = int(count) if login is not line else None
        words = shlex.split(login)
        if not words or slots == 0:
            raise ValueError("%s: this is no [JOBS/]LOGIN" % line)
        if words == [":"]:
            yield slots, login, []
        elif len(words) == 1:
            yield slots, login, ["ssh", *SSH, *words]
        else:
            yield slots, login, [words[0], *(SSH if os.path.basename(words[0]) == "ssh" else []), *words[1:]]


def asked(machines):
    """Asks machines all at once whether they answer, and how many processors they have; those that do not answer, which have told why."""

    def ask(machine):
        if machine.before:
            if not machine.answers():
                return machine
            machine.slots = machine.slots or machine.count()
        return None if machine.slots else machine

    with concurrent.futures.ThreadPoolExecutor(max(1, len(machines))) as pool:
        return [gone for gone in pool.map(ask, machines) if gone]


# ---- batches


def batches(sizes, slots):
    """How many sheets each batch has: by bytes, shorter ones towards the end, so that all slots end at one time."""
    left, sheets, count, held = sum(sizes), len(sizes), 0, 0
    most_bytes, most = 0, 0
    for bytes_of in sizes:
        if count and (count >= most or held + bytes_of > most_bytes):
            yield count
            left, sheets, count, held = left - held, sheets - count, 0, 0
        if not count:
            most_bytes = min(MOST_BYTES, max(LEAST_BYTES, left // (2 * slots)))
            most = min(MOST_SHEETS, max(LEAST_SHEETS, sheets // (2 * slots)))
        count, held = count + 1, held + bytes_of
    if count:
        yield count


LANE = """\
# What GNU parallel calls in place of ssh: the machine by its number, two strokes, and the words of a job. The job runs here and speaks with its machine.
[ ! -e gone."$1" ] || exit %d
NIGHT_MACHINE=$1
export NIGHT_MACHINE
shift 2
exec /bin/sh -c "$*"
"""


def dies_with_the_night():
    """In GNU parallel before it begins: its jobs look whether it lives, and end where it doesn't."""
    ctypes.CDLL(None).prctl(1, signal.SIGKILL)


class Work:
    """A night's work, in a folder of its own below the folder of answers."""

    def __init__(self, folder, out, machines, library, judge):
        self.folder, self.out, self.machines, self.library, self.judge = folder, out, machines, library, judge
        self.own = out / ".night"
        self.batches, self.sheets, self.done = [], 0, 0
        self.gone, self.failure = {}, None
        shutil.rmtree(self.own, ignore_errors=True)
        self.own.mkdir()

    def plan(self, names):
        """Writes what the jobs go by; the names may be many and stand in a file alone."""
        sizes, lengths = array.array("q"), array.array("q")
        with open(self.own / "names", "wb") as file:
            for name in names:
                lengths.append(file.write(os.fsencode(name) + b"\0"))
                sizes.append(size(os.path.join(self.folder, name)))
        self.sheets = len(sizes)
        at = begin = 0
        for count in batches(sizes, sum(machine.slots for machine in self.machines)):
            length = sum(lengths[at:at + count])
            self.batches.append((begin, length, count))
            at, begin = at + count, begin + length
        plan = {"folder": str(self.folder), "out": str(self.out), "library": self.library, "judge": self.judge, "batches": self.batches, "machines": [machine.words() for machine in self.machines]}
        (self.own / "plan").write_text(json.dumps(plan))
        (self.own / "lane").write_text(LANE % night_job.GONE)
        (self.own / "job").write_text("exec %s -I -S %s \"$@\"\n" % (shlex.quote(sys.executable), shlex.quote(str(HERE / "night_job.py"))))
        (self.own / "machines").write_text("".join("%d/%d\n" % (machine.slots, k) for k, machine in enumerate(self.machines)))
        (self.own / "parallel").mkdir()

    def handed_out(self):
        """GNU parallel over the batches. Its own settings are those given here alone."""
        environment = {**os.environ, "PARALLEL_HOME": str(self.own / "parallel"), "PARALLEL_SHELL": "/bin/sh", "SHELL": "/bin/sh", "TMPDIR": "."}
        words = ["parallel", "--plain", "--will-cite", "--ungroup", "--ssh", "/bin/sh lane", "--sshloginfile", "machines", "--retries", str(len(self.machines) + 2), "/bin/sh job {}"]
        with open(self.own / "numbers", "w+") as numbers, open(self.own / "told", "w") as told:
            numbers.writelines("%d\n" % k for k in range(len(self.batches)))
            numbers.seek(0)
            try:
                return subprocess.Popen(words, stdin=numbers, stdout=subprocess.PIPE, stderr=told, cwd=self.own, env=environment, preexec_fn=dies_with_the_night)
            except FileNotFoundError:
                raise NoWork("GNU parallel is missing: " + PACKAGE) from None

    def run(self, every, progress):
        """Works everything; `progress` is called every so many seconds."""
        log = open(self.out / "joblog", "w")
        log.write("job\tmachine\tbegan\tseconds\tsheets\tanswers\ttold\n")
        parallel = self.handed_out()
        jobs, told = 0, time.monotonic()
        try:
            for line in lines_of(parallel.stdout.fileno(), every):
                if line is None or time.monotonic() >= told + every:
                    progress(self.done)
                    told = time.monotonic()
                what, *words = (line or "").split("\t")
                if what == "done":
                    self.done += int(words[0])
                elif what == "run":
                    jobs += 1
                    log.write("%d\t%s\n" % (jobs, "\t".join(words)))
                    log.flush()
                elif what == "gone":
                    self.gone[int(words[0])] = words[1]
                elif what == "failed":
                    raise NoWork(words[0])
            status = parallel.wait()
        finally:
            parallel.kill()
            log.close()
            for _ in lines_of(parallel.stdout.fileno(), ENDS, once=True):
                pass  # it ends with the last job: no answer is left half written
            parallel.stdout.close()
            parallel.wait()
        if status and not (self.done or self.gone):
            raise NoWork("GNU parallel worked nothing (%s): %s" % (PACKAGE, last_line((self.own / "told").read_text(errors="replace")) or "status %d" % status))

    def results(self):
        """A result a sheet, in the order of their names."""
        lost = "has no answer: %s" % ("no machine was left to work it" if len(self.gone) == len(self.machines) else "its job was ended, more than once")
        with open(self.own / "names", "rb") as names:
            for number, (_, length, _) in enumerate(self.batches):
                rows = self.rows(number)
                for place, name in enumerate(names.read(length).split(b"\0")[:-1]):
                    yield rows.get(place) or Result(Sheet(os.fsdecode(name), "", None), False, why=lost)

    def rows(self, number):
        try:
            with open(self.own / ("rows.%d" % number), "rb") as file:
                return dict(of_line(line) for line in file if line.endswith(b"\n"))
        except FileNotFoundError:
            return {}

    def over(self):
        shutil.rmtree(self.own, ignore_errors=True)


def last_line(text):
    return next((line.strip() for line in reversed(text.split("\n")) if line.strip()), "")


def lines_of(file, every, once=False):
    """The lines that come from a pipe until its end, and nothing where none came for so long: the last then, if `once`."""
    held = b""
    while True:
        if not select.select([file], [], [], every)[0]:
            yield None
            if once:
                return
            continue
        piece = os.read(file, 1 << 16)
        if not piece:
            return
        *lines, held = (held + piece).split(b"\n")
        for line in lines:
            yield line.decode(errors="replace")
