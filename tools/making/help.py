"""What the help of tools/sheet.py repeats of calls.toml: the models with their parameters, and the numbers of sheets that keep the determinant."""
import re
import textwrap

from .text import either, ranges

MODELS = re.compile(r"^MODEL is .*?(?=^In brackets: )", re.S | re.M)
NUMBERS = re.compile(r"(?<=: its model's number is )[^.]*")
NAME, WIDTH = 16, 150


def spelled(p):
    """A parameter, with what is taken where it isn't given."""
    return p.name if p.taken is None else f"{p.name} ({p.meaning or format(p.taken, 'g')})"


def row(m):
    words = " ".join(map(spelled, m.parameters)) + (";" if m.instead else "")
    lines = [line for text in (words, m.instead) for line in textwrap.wrap(text, WIDTH - NAME, break_on_hyphens=False)]
    return textwrap.indent("\n".join([m.name.ljust(NAME) + lines[0], *(" " * NAME + line for line in lines[1:])]), "  ")


def sheet(text, table):
    """tools/sheet.py with its help made anew."""
    for told in (MODELS, NUMBERS):
        if len(told.findall(text)) != 1:
            raise ValueError(f"its help must have {told.pattern!r} once")
    models = f"MODEL is {either([m.name for m in table.models])}. Its parameters, in the sheet's order:\n" + "".join(row(m) + "\n" for m in table.models)
    return NUMBERS.sub(either(ranges(m.whole for m in table.models)), MODELS.sub(lambda _: models, text))
