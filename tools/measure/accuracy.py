#!/usr/bin/env python3
"""The elementary functions beside mpmath. Their speed beside std's: beside/speed.

  tools/measure/accuracy.py [COUNT] [SEED]

Draws COUNT points a function (default 1,000,000): the ends of its range, then half over the range's bits and half over its numbers. Prints
the worst error seen beside what docs/RULES.md, section 3, promises; the status is 1 where that is broken. Needs the library (PASOLETU_LIB,
else the one that the Python package finds) and mpmath (Debian: python3-mpmath).
"""
import math
import pathlib
import sys

sys.path[:0] = [str(pathlib.Path(__file__).resolve().parent.parent), str(pathlib.Path(__file__).resolve().parent)]
import draws  # noqa: E402
import shell  # noqa: E402

PROMISED = 2.0 ** -45
THIRDS = (2.0 ** -60, 2.0 ** 60)


def functions(mp):
    """Each function's range, its exact value, and the size of which the error is a part."""
    return {
        "exp": ((-700.0, 700.0), mp.exp, lambda e: e),
        "sinh": ((-700.0, 700.0), mp.sinh, lambda e: 1 + abs(e)),
        "ln": (THIRDS, mp.log, lambda e: 1),
        "sin": ((-8.0, 8.0), mp.sin, lambda e: 1),
        "cbrt": (THIRDS, mp.cbrt, lambda e: e),
        "inv_cbrt": (THIRDS, lambda x: 1 / mp.cbrt(x), lambda e: e),
        "cbrt_squared": (THIRDS, lambda x: mp.cbrt(x) ** 2, lambda e: e),
        "inv_cbrt_squared": (THIRDS, lambda x: 1 / mp.cbrt(x) ** 2, lambda e: e),
    }


def points(low, high, count, seed):
    d = draws.Draws(seed)
    drawn = [x for x in (low, high, 1.0, 0.0) if low <= x][:count]
    while len(drawn) < count:
        x = d.by_bits() if d.one_of(2) else d.between(low, high)
        if low <= x <= high:
            drawn.append(x)
    return drawn


def exact_functions():
    try:
        from mpmath import mp
    except ImportError:
        raise shell.Wrong("mpmath is not here: install it (Debian: python3-mpmath)")
    mp.prec = 110
    return mp, functions(mp)


def measure(args):
    mp, exact = exact_functions()
    ours = shell.package().elementary
    broken = 0
    for name, ((low, high), value, size) in exact.items():
        worst, at = 0.0, low
        for x in points(low, high, args.count, args.seed):
            e = value(mp.mpf(x))
            error = float(abs(mp.mpf(getattr(ours, name)(x)) - e) / size(e))
            if error > worst:
                worst, at = error, x
        print("%-18s %d points, worst %.3f of 2^-45, at %r" % (name, args.count, worst / PROMISED, at), flush=True)
        broken += worst > PROMISED
    differ = sum(ours.sqrt(x) != math.sqrt(x) for x in points(0.0, sys.float_info.max, args.count, args.seed))
    print("%-18s %d points, %d differ from the IEEE root" % ("sqrt", args.count, differ), flush=True)
    return 1 if broken or differ else 0


def main(argv=None):
    return shell.run("accuracy.py", measure, draws.arguments(__doc__, 1000000, argv))


if __name__ == "__main__":
    sys.exit(main())
