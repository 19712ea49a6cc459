"""The man page of a tool, from the text that its --help prints: tools/making/page.py TOOL COMMAND

The tool's first line is the page's NAME, its lines of use are the SYNOPSIS, and the rest stands as it is laid out there, so that nothing is said twice.
"""
import ast
import pathlib
import sys

sys.path.insert(0, str(pathlib.Path(__file__).resolve().parent.parent))
import shell  # noqa: E402


def escaped(line):
    """A line of text in roff."""
    line = line.replace("\\", "\\e").replace("-", "\\-")
    return "\\&" + line if line.startswith((".", "'")) else line


def parts(text):
    """The first sentence, the lines of use, and the rest."""
    head, _, rest = text.strip().partition("\n\n")
    use, _, rest = rest.partition("\n\n")
    return " ".join(head.split()).rstrip("."), [line.strip() for line in use.splitlines()], rest.strip("\n").splitlines()


def page(text, command):
    head, use, rest = parts(text)
    lines = ['.TH %s 1 "" "Pasoletu" "User Commands"' % command.upper(), ".SH NAME", "%s \\- %s" % (command.replace("-", "\\-"), escaped(head[0].lower() + head[1:]))]
    lines += [".SH SYNOPSIS", ".nf", *map(escaped, use), ".fi", ".SH DESCRIPTION", ".nf", *map(escaped, rest), ".fi"]
    lines += [".SH SEE ALSO", "slope(1), share/doc/pasoletu/GUIDE.md below the installation"]
    return "\n".join(lines) + "\n"


def main(tool, command):
    text = ast.get_docstring(ast.parse(pathlib.Path(tool).read_text()))
    sys.stdout.write(page(shell.renamed(text), command))


if __name__ == "__main__":
    main(*sys.argv[1:])
