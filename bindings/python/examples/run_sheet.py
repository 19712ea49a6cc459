#!/usr/bin/env python3
"""Runs a sheet and says what became of each particle.

    run_sheet.py SHEET
"""
import sys

import pasoletu


def main():
    if len(sys.argv) != 2:
        sys.exit(__doc__)
    try:
        with open(sys.argv[1], "rb") as file:
            ran = pasoletu.run(file.read())
    except OSError as error:
        sys.exit("run_sheet.py: %s cannot be read: %s" % (sys.argv[1], error.strerror))
    except pasoletu.NoLibrary as error:
        sys.exit("run_sheet.py: %s" % error)
    except pasoletu.Refused as refused:
        sys.exit("run_sheet.py: %s: %s" % (sys.argv[1], refused))
    print(ran.model)
    for k, (particle, outcome) in enumerate(zip(ran.particles, ran.passed.outcomes)):
        print("particle %d: %s, sigma %s" % (k, outcome, particle.singular_values))
    print("%d untouched, %d stored, %d refused" % (ran.passed.untouched, ran.passed.stored, ran.passed.refused))


if __name__ == "__main__":
    main()
