"""The draws of the measurements, the same for a seed at every run, and their two arguments."""
import argparse
import struct

WORD = 2 ** 64 - 1


class Draws:
    def __init__(self, seed):
        self.state = seed * 2654435761 + 88172645463325252 & WORD

    def word(self):
        self.state ^= self.state << 13 & WORD
        self.state ^= self.state >> 7
        self.state ^= self.state << 17 & WORD
        return self.state

    def one_of(self, n):
        return self.word() % n

    def between(self, low, high):
        return low + (high - low) * ((self.word() >> 11) * 2.0 ** -53)

    def by_bits(self):
        return struct.unpack("<d", struct.pack("<Q", self.word()))[0]


def arguments(about, count, argv):
    parser = argparse.ArgumentParser(description=about, formatter_class=argparse.RawDescriptionHelpFormatter, usage=argparse.SUPPRESS)
    parser.add_argument("count", nargs="?", type=int, default=count, metavar="COUNT")
    parser.add_argument("seed", nargs="?", type=int, default=1, metavar="SEED")
    args = parser.parse_args(argv)
    if args.count < 1:
        parser.error("COUNT is %d, and must be 1 or more" % args.count)
    return args
