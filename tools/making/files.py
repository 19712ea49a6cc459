"""Which files are made, and from what."""
from . import fuzz, header, help, pages, proofs, python, replay, rust
from .rows import BadTable

MANIFESTS = ("bindings/rust/Cargo.toml", "bindings/rust/Cargo.lock", "bindings/rust/parallel/Cargo.toml")


def made(top, table):
    """The text of each file that repeats the table, by its name below `top`."""

    def renewed(name, make):
        """A file of which only a part is made."""
        try:
            return make((top / name).read_text(), table)
        except (OSError, ValueError) as wrong:
            raise BadTable(f"{name}: {wrong}") from None

    return {
        "include/pasoletu.h": renewed("include/pasoletu.h", header.made),
        "bindings/python/pasoletu/_table.py": python.made(table),
        "bindings/rust/src/table.rs": rust.crate(table),
        "beside/table.rs": rust.beside(table),
        "beside/externs.rs": rust.beside_externs(table),
        "fuzz/calls.h": fuzz.made(table),
        "tests/calls.h": replay.calls(table),
        "tests/replay/numbers.h": replay.numbers(table),
        **{name: renewed(name, rust.versioned) for name in MANIFESTS},
        **{name: renewed(name, pages.made(name)) for name in pages.PAGES},
        "man/slope.1": renewed("man/slope.1", pages.manual),
        "tools/sheet.py": renewed("tools/sheet.py", help.sheet),
        **proofs.made(table),
    }
