#!/usr/bin/env python3
"""Checks the snippets of docs/GUIDE.md. Its last line is 'N passed, M failed'.

    bindings/guide.py PREFIX           runs them and holds the page to what comes
    bindings/guide.py --page PREFIX    writes what comes into the page

The first line of a snippet says what is done with it. `run`: it is run at the top of the repository, with the library installed in
PREFIX. `part of FILE`: it is made, of what stands in FILE between the lines `guide: NAME` and `guide: end`, NAME being that of its
mark, or of all of FILE below its own words; a program in Python is run too. `prints`: it is made, of what was printed by what ran
last. Other snippets are left alone.
"""
import os
import pathlib
import re
import subprocess
import sys
import textwrap

TOP = pathlib.Path(__file__).resolve().parent.parent
GUIDE = TOP / "docs" / "GUIDE.md"
FENCE = re.compile(r"^(?:<!-- made by bindings/guide.py: (\w+) -->\n)?```(\w+) (part of \S+|run|prints)\n(.*?)^```$", re.M | re.S)
RUNS = {"sh": ["sh", "-eu", "-c"], "python": [sys.executable]}


def part(file, name):
    """What stands between a file's marks, without its indentation, or all below its own words; nothing where it has none."""
    if name == "all":
        return file.read_text().partition('"""\n')[2]
    found = re.search(r"^[^\n]*guide: %s\b[^\n]*\n(.*?)^[^\n]*guide: end\b" % name, file.read_text(), re.M | re.S)
    return found and textwrap.dedent(found[1])


def run(language, text, prefix):
    environment = {**os.environ, "PREFIX": prefix}
    return subprocess.run(RUNS[language] + [text], cwd=TOP, env=environment, capture_output=True, text=True)


def checks(page, prefix):
    """Of each snippet its match, what it should hold, and what is wrong: nothing where it holds."""
    done = None
    for match in FENCE.finditer(page):
        name, language, what, text = match.groups()
        right, wrong, file = text, None, what.split()[-1]
        if what == "run" or file.endswith(".py"):
            done = run(language, text if what == "run" else file, prefix)
            if done.returncode:
                wrong = "ended with %d: %s" % (done.returncode, done.stderr.strip())
        if what != "run":
            right = (done and done.stdout) if what == "prints" else part(TOP / file, name)
            if name is None or right is None:
                wrong = "it has no mark, or nothing makes it"
            elif right != text:
                wrong = "it should be:\n%s" % right
        yield match, right or "", wrong


def main():
    words = sys.argv[1:]
    if words in (["-h"], ["--help"]):
        print(__doc__.strip())
        return
    writes = words[:1] == ["--page"]
    if len(words) != 1 + writes:
        sys.exit(__doc__)
    passed = failed = 0
    (TOP / "target").mkdir(exist_ok=True)
    page = GUIDE.read_text()
    made, at = "", 0
    for match, right, wrong in checks(page, words[-1]):
        made, at = made + page[at:match.start(4)] + right, match.end(4)
        if wrong is None:
            passed += 1
        else:
            failed += 1
            print("docs/GUIDE.md:%d: %s: %s" % (page[:match.start()].count("\n") + 1, "written" if writes else "FAILED", wrong))
    if passed + failed == 0:
        failed = 1
        print("docs/GUIDE.md: FAILED: no snippet was found")
    if writes:
        GUIDE.write_text(made + page[at:])
    print("%d passed, %d failed" % (passed, failed))
    sys.exit(failed != 0)


if __name__ == "__main__":
    main()
