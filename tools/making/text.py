"""Laying out lines."""
import textwrap

WIDTH = 120


def wrapped(text, first, rest, width=WIDTH):
    """Each line of the text as a paragraph, behind `first` on the first line and `rest` on the others."""
    lines = []
    for paragraph in text.strip().splitlines():
        lines += textwrap.wrap(
            paragraph, width, initial_indent=rest if lines else first, subsequent_indent=rest,
            break_long_words=False, break_on_hyphens=False,
        )
    return lines


def filled(items, first, last, width=WIDTH):
    """Items one after the other with commas, behind `first`, on as many lines as they need; `last` ends them."""
    lines, indent = [first], " " * len(first)
    for k, item in enumerate(items):
        item += last if k == len(items) - 1 else ","
        if len(lines[-1]) + len(item) + 1 > width and lines[-1].strip():
            lines.append(indent)
        lines[-1] += item if lines[-1] in (first, indent) else " " + item
    return lines


def sentence(text):
    """The words as a sentence of their own."""
    return text[0].upper() + text[1:] + "."


def either(names):
    """Names as a sentence has them: a, b or c."""
    *others, last = names
    return f"{', '.join(others)} or {last}" if others else last


def ranges(numbers):
    """Whole numbers, those that follow one another as `4 to 7`."""
    runs = []
    for n in sorted(numbers):
        if runs and runs[-1][1] == n - 1:
            runs[-1][1] = n
        else:
            runs.append([n, n])
    return [str(a) if a == b else f"{a} to {b}" for a, b in runs]
