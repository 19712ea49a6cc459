#!/usr/bin/env python3
"""A job of a night: one batch of its sheets, as GNU parallel hands it out.

  night_job.py BATCH       in the night's own folder, which has its plan; NIGHT_MACHINE names the machine by its number in the plan

A batch goes to `slope --frames` on its machine, sheet after sheet as they are read, and its answers are kept as they come: the bytes that were hashed
are those that are worked, and another machine needs nothing but ssh and slope, as no file is ever written there. A sheet that the program ends at is
tried again alone. Each sheet's result is a line of the file rows.BATCH. On standard output it tells the night: done N, run .., gone .., failed ...
Exit status: 0 every sheet of the batch has its line; 75 the machine does not answer: another is to go on; 1 the night cannot go on.
"""
import collections
import ctypes
import fcntl
import itertools
import json
import os
import select
import struct
import subprocess
import sys
import time
from typing import NamedTuple

sys.path.insert(0, os.path.dirname(os.path.realpath(__file__)))
import report  # noqa: E402
import shell  # noqa: E402
from night_sheets import Result, Sheet, Unreadable, is_whole, of_line, read, result, turned_in  # noqa: E402

RETRIES = 3  # of a sheet that a job ended at, itself and alone
PROBES = 3  # of a machine that gave no answer, a second apart
CHUNK = 256  # answers that are kept at one time
GONE = 75
EMPTY = b"==> 0 <==\nsheet refused 4\n"  # what is answered to one frame without a byte
HEADING = b"\n==> "


def tell(*words):
    """A line to the night, by one call: those of other jobs stand before or after it."""
    os.write(1, ("\t".join(" ".join(str(word).split())[:500] for word in words) + "\n").encode(errors="replace"))


# ---- machines


def frame(data):
    return struct.pack("<Q", len(data)) + data


def exchange(process, frames):
    """Gives a process frames as it takes them; the pieces of what it prints, until it prints no more."""
    given, taken = process.stdin.fileno(), process.stdout.fileno()
    os.set_blocking(given, False)
    for pipe in (given, taken):
        try:
            fcntl.fcntl(pipe, fcntl.F_SETPIPE_SZ, 1 << 20)
        except (OSError, AttributeError):
            pass  # a smaller pipe takes more turns
    frames, rest = iter(frames), memoryview(b"")
    poll = select.poll()
    poll.register(given, select.POLLOUT)
    poll.register(taken, select.POLLIN)
    while True:
        for file, _ in poll.poll():
            if file == taken:
                piece = os.read(taken, 1 << 20)
                if not piece:
                    return
                yield piece
                continue
            try:
                rest = rest or memoryview(next(frames, b""))
                rest = rest[os.write(given, rest):] if rest else None
            except BlockingIOError:
                continue
            except BrokenPipeError:
                rest = None
            if rest is None:
                poll.unregister(given)
                process.stdin.close()


class Machine:
    """A place that jobs run on: its name, the words before those of a command, how many jobs at a time, the words of slope and its variables."""

    def __init__(self, name, before, slots, slope, environment):
        self.name, self.before, self.slots, self.slope, self.environment = name, before, slots, slope, environment
        self.told = ""  # how the last command ended

    def words(self):
        return self.name, self.before, self.slots, self.slope, self.environment

    def asked(self, words, frames=()):
        """The pieces of what a command prints there; `told` is then what it said on standard error, or how it ended."""
        errors = os.memfd_create("errors")
        try:
            process = subprocess.Popen([*self.before, *words], stdin=subprocess.PIPE, stdout=subprocess.PIPE, stderr=errors, env={**os.environ, **self.environment})
            try:
                yield from exchange(process, frames)
                process.stdin.close()
                status = process.wait()
            finally:
                process.stdout.close()
                if process.poll() is None:
                    process.kill()
                    process.wait()
            said = os.pread(errors, 1 << 16, max(0, os.fstat(errors).st_size - (1 << 16))).decode(errors="replace").split("\n")
        finally:
            os.close(errors)
        last = next((line.strip() for line in reversed(said) if line.strip()), "")
        self.told = last or ("it ended by signal %d" % -status if status < 0 else "status %d" % status if status else "it ended early")

    def worked(self, frames):
        return self.asked([*self.slope, "--frames"], frames)

    def answers(self):
        """Whether it answers."""
        for turn in range(PROBES):
            if turn:
                time.sleep(1)
            if b"".join(self.worked([frame(b"")])) == EMPTY:
                return True
        return False

    def count(self):
        """How many processors it has, asked of it; nothing where it does not answer."""
        told = b"".join(self.asked(["nproc"])).strip()
        return int(told) if told.isdigit() else None


class Answers:
    """The answers in what a run prints, each under its number, told apart as they come."""

    def __init__(self):
        self.held = b"\n"

    def of(self, piece):
        """The numbers and answers that a piece ends; whole or not."""
        *ended, self.held = (self.held + piece).split(HEADING)
        return [told for part in ended if (told := self._answer(part + b"\n"))]

    def last(self):
        told = self._answer(self.held)
        return [told] if told else []

    def _answer(self, part):
        number, mark, answer = part.partition(b" <==\n")
        return (int(number), answer) if mark and number.isdigit() else None


# ---- what is kept


def sync(folder):
    """Everything that was written to the folder's file system is on it."""
    file = os.open(folder, os.O_RDONLY)
    try:
        if ctypes.CDLL(None, use_errno=True).syncfs(file):
            raise OSError(ctypes.get_errno(), os.strerror(ctypes.get_errno()), str(folder))
    except AttributeError:
        os.sync()
    finally:
        os.close(file)


def write(path, data):
    with open(path, "wb", buffering=0) as file:
        while data:
            data = data[file.write(data):]


def keep(out, answers):
    """Answers as files by their names below the folder, each whole before its name stands."""
    parts = {os.path.join(out, name): "%s.%d.part" % (os.path.join(out, name), os.getpid()) for name in answers}
    try:
        for (path, part), data in zip(parts.items(), answers.values()):
            write(part, data)
        sync(out)
        for path, part in parts.items():
            os.replace(part, path)
    except BaseException:
        for part in parts.values():
            if os.path.exists(part):
                os.unlink(part)
        raise


class Rows:
    """The file of a batch's results. What an earlier try of the batch has left is taken over, but for a line that it was ended at."""

    def __init__(self, number):
        self.file = open("rows.%d" % number, "a+b")
        self.file.seek(0)
        lines = self.file.read().split(b"\n")
        self.done = {of_line(line)[0] for line in lines[:-1]}
        self.file.truncate(self.file.tell() - len(lines[-1]))

    def write(self, lines):
        self.file.write("".join(lines).encode())
        self.file.flush()
        tell("done", len(lines))


# ---- a batch


def reader_of(plan):
    """What is read of a worked sheet's bytes while they are at hand: its part of the report, how many failed, and who came turned inside out."""
    if plan["library"]:
        os.environ["PASOLETU_LIB"] = plan["library"]
    by, _ = report.worker(not plan["library"])
    judge = judge_of(*plan["judge"]) if plan["judge"] else None

    def read_of(r, data):
        if not r.worked:
            return r
        columns = by.of_worked(data, r.particles)
        if columns is None:
            return r  # an answer of another program; the report names it
        return r._replace(columns=report.entries(columns), failed=failed_in(data, judge) if judge else 0, turned=turned_in(*report.records_of(data, r.particles), r))

    return read_of


def judge_of(limits, corotated):
    """The proved library with limits and corotated law."""
    pasoletu = shell.package()
    return pasoletu, pasoletu.MaximumStressFailure(*limits), pasoletu.CorotatedLinearElasticity.new(*corotated)


def failed_in(data, judge):
    """How many particles of a sheet failed: the library's pass with failure by zone."""
    pasoletu, limits, elasticity = judge
    read_sheet = pasoletu.read_sheet(data)
    zones = pasoletu.Zones(1, [0] * len(read_sheet))
    zones.pass_records(read_sheet.model, read_sheet.records, limits, elasticity)
    return zones.tallies[0].failed


def names_of(plan, number):
    """The names of a batch's sheets."""
    at, size, _ = plan["batches"][number]
    with open("names", "rb") as file:
        file.seek(at)
        return [os.fsdecode(name) for name in file.read(size).split(b"\0")[:-1]]


class Sent(NamedTuple):
    """A sheet that a run was given: its place in the batch."""

    place: int
    sheet: Sheet
    data: bytes


class Job:
    def __init__(self, plan, number, machine):
        self.folder, self.out, self.machine = plan["folder"], plan["out"], machine
        self.names, self.rows, self.reader = names_of(plan, number), Rows(number), reader_of(plan)
        self.answers, self.lines = {}, []

    def tell(self, place, r):
        self.lines.append(r.line(place))
        if len(self.lines) >= CHUNK:
            self.keep()

    def keep(self):
        if self.answers:
            keep(self.out, self.answers)
        if self.lines:
            self.rows.write(self.lines)
        self.answers, self.lines = {}, []

    def kept(self, sheet):
        """The answer that is there, where it is whole."""
        try:
            with open(os.path.join(self.out, sheet.answer), "rb") as file:
                answer = file.read()
        except OSError:
            return None
        return answer if is_whole(answer) else None

    def to_ask(self, places):
        """The sheets of these places that the program is to work, taken one after the other: the others are told at once."""
        while places:
            place = places.popleft()
            name = self.names[place]
            try:
                data, digest = read(os.path.join(self.folder, name))
            except Unreadable as e:
                self.tell(place, Result(Sheet(name, "", None), False, why=str(e)))
                continue
            sheet = Sheet(name, digest, data[0] if data else None)
            answer = self.kept(sheet)
            if answer is None:
                yield Sent(place, sheet, data)
            else:
                self.tell(place, self.reader(result(sheet, answer), data)._replace(before=True))

    def run(self, places):
        """One run of the program over the sheets of these places, as far as it takes them: those that it was given and has no whole answer of,
        and those among them whose answer it began."""
        sheets, began, waiting, cut, asked = self.to_ask(places), time.time(), {}, [], 0
        first = next(sheets, None)
        if first is None:
            return [], []

        def frames():
            nonlocal asked
            for sent in itertools.chain([first], sheets):
                waiting[asked] = sent
                asked += 1
                yield frame(sent.data)

        def take(told):
            for number, answer in told:
                if number in waiting and is_whole(answer):
                    place, sheet, data = waiting.pop(number)
                    self.answers[sheet.answer] = answer
                    self.tell(place, self.reader(result(sheet, answer), data))
                elif number in waiting:
                    cut.append(waiting[number])

        answers = Answers()
        for piece in self.machine.worked(frames()):
            take(answers.of(piece))
        take(answers.last())
        tell("run", self.machine.name, time.strftime("%Y-%m-%dT%H:%M:%S", time.localtime(began)), "%.3f" % (time.time() - began), asked, asked - len(waiting),
             self.machine.told if waiting or places else "")
        return list(waiting.values()), cut

    def work(self):
        """Whether every sheet of the batch has its line; without that the machine is gone."""
        tries, alone = collections.Counter(), collections.deque()
        todo = collections.deque(place for place in range(len(self.names)) if place not in self.rows.done)
        while todo or alone:
            places = todo or collections.deque([alone.popleft()])
            waiting, cut = self.run(places)
            if not (waiting or places):
                continue
            self.keep()
            told = self.machine.told
            if not self.machine.answers():
                return False
            suspects = cut or waiting[:1]
            todo.extendleft(sent.place for sent in reversed(waiting) if sent not in suspects)
            for place, sheet, _ in suspects:
                tries[place] += 1
                if tries[place] < RETRIES:
                    alone.append(place)
                else:
                    self.tell(place, Result(sheet, False, why="has no whole answer on %s: %s" % (self.machine.name, told)))
        self.keep()
        return True


def main(argv):
    with open("plan") as file:
        plan = json.load(file)
    at = int(os.environ["NIGHT_MACHINE"])
    machine = Machine(*plan["machines"][at])
    try:
        if Job(plan, int(argv[1]), machine).work():
            return 0
    except (OSError, shell.Wrong) as e:
        tell("failed", "%s: %s" % (e.filename, e.strerror) if getattr(e, "filename", None) else e)
        return 1
    with open("gone.%d" % at, "w") as file:
        file.write(machine.told)
    tell("gone", at, machine.told)
    return GONE


if __name__ == "__main__":
    sys.exit(main(sys.argv))
