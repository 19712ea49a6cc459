#!/usr/bin/env python3
"""Works a sheet as it comes over a slow line, and prints each particle's answer as soon as its last byte is there.

  tools/arrive.py [--explain] [--quiet] [SHEET]

SHEET is a file or a FIFO; without one, and where it is -, standard input is read. What has come is taken at once, cut anywhere.

Of a sheet that is not refused it prints the lines that `slope` prints. Where a sheet is refused after particles were worked, their lines stand,
and `sheet refused N` comes in place of `end`. A fault is told, and the reading ended, as soon as it is there; that bytes are missing only when
the line is closed. Progress, a line for each part that completed a particle, goes to standard error.

--explain   says each refusal in words, on standard error, and which worked particles came pressed flat or turned inside out
--quiet     no progress

The numbers are those of the proved library: the file that PASOLETU_LIB names, else the one that the Python package finds.
Exit status: 0 all well; 3 the sheet or a particle was refused; 1 something is wrong; 2 there is no such sheet, or the command was misspelled.
"""
import argparse
import os
import pathlib
import struct
import sys

sys.path.insert(0, str(pathlib.Path(__file__).resolve().parent))
import sheet  # noqa: E402
import shell  # noqa: E402
from night_sheets import TABLE  # noqa: E402

ALL_WELL, NO_SHEET, SOME_REFUSED = 0, 2, 3
SIGMA = 18  # its place in a record
PART = 4096  # bytes that are taken at once, where so many have come


def parts(stream):
    """The bytes as they come: of a pipe as many as there are, without waiting for more."""
    while True:
        part = os.read(stream.fileno(), PART)
        if not part:
            return
        yield part


def line(k, code, beside):
    """A particle's line, as slope prints it."""
    if code == TABLE.UNTOUCHED:
        return "%d untouched\n" % k
    if code == TABLE.STORED:
        return "%d stored %016x\n" % (k, beside)
    return "%d refused %d\n" % (k, beside)


class Telling:
    """What is printed of a sheet that is coming."""

    def __init__(self, arrival, name, explain, quiet):
        self.arrival, self.name, self.explain, self.quiet = arrival, name, explain, quiet
        self.opened, self.told, self.status = False, 0, ALL_WELL
        self.bytes = bytearray()  # as they came

    def also(self, text):
        print(shell.named("arrive.py: ") + text, file=sys.stderr, flush=True)

    def refused(self, who, number):
        self.status = SOME_REFUSED
        if self.explain:
            row = TABLE.REFUSALS[number]
            self.also("%s: %s refused by %d: %s: %s" % (self.name, who, number, row.what, row.remedy))

    def worked(self, k, outcome):
        """Says so where the particle came with a sigma of 0 or below."""
        ran = self.arrival.ran
        first = 1 + 8 * len(ran.model.names()) + (1 if self.arrival.count < 128 else 2)
        at = first + 8 * ((TABLE.FLOATS if ran.determinants else TABLE.SHEET_FLOATS) * k + SIGMA)
        words = sheet.turned(struct.unpack_from("<3d", self.bytes, at))
        if words:
            self.also("%s: particle %d is %s, but %s" % (self.name, k, outcome, words))

    def come(self):
        """The lines of what is new."""
        count, complete = self.arrival.count, self.arrival.complete
        if count is None:
            return
        if not self.opened:
            shell.say("particles %d\n" % count)
            self.opened = True
        if complete == self.told:
            return
        answers = self.arrival.ran.passed.answers.tolist()
        shell.say("".join(line(k, *answers[k]) for k in range(self.told, complete)))
        for k in range(self.told, complete):
            if answers[k][0] == TABLE.REFUSED:
                self.refused("particle %d is" % k, answers[k][1])
            elif self.explain:
                self.worked(k, "stored" if answers[k][0] == TABLE.STORED else "untouched")
        self.told = complete
        if not self.quiet:
            self.also("%s: %d of %d" % (self.name, complete, count))

    def fault(self, number):
        """The sheet is refused; the particles before the fault stand."""
        self.come()
        shell.say("sheet refused %d\n" % number)
        if self.told:
            self.also("%s: %d of %d particles were complete before the fault" % (self.name, self.told, self.arrival.count))
        self.refused("the sheet is", number)


def work(args):
    pasoletu = shell.package()
    name = "standard input" if args.name == "-" else args.name
    with shell.reading(args.name) as stream:
        arrival = pasoletu.Arrival()
        telling = Telling(arrival, name, args.explain, args.quiet)
        try:
            for part in parts(stream):
                telling.bytes += part
                arrival.feed(part)
                telling.come()
            arrival.finish()
            telling.come()
            shell.say("end\n")
        except pasoletu.Refused as e:
            telling.fault(e.number)
    return telling.status


def main(argv=None):
    about = argparse.ArgumentParser(description=shell.named(__doc__), formatter_class=argparse.RawDescriptionHelpFormatter, usage=argparse.SUPPRESS)
    about.add_argument("name", nargs="?", default="-", metavar="SHEET")
    about.add_argument("--explain", action="store_true")
    about.add_argument("--quiet", action="store_true")
    args = about.parse_args(argv)
    if args.name != "-" and (os.path.isdir(args.name) or not os.access(args.name, os.R_OK)):
        print(shell.named("arrive.py: ") + "%s is not a file that can be read (a directory, or not there)" % args.name, file=sys.stderr)
        return NO_SHEET
    try:
        return shell.run("arrive.py", work, args)
    except shell.NoLibrary as e:
        print(shell.named("arrive.py: %s" % e), file=sys.stderr)
        return 1


if __name__ == "__main__":
    sys.exit(main())
