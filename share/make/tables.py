"""Reads the tables of share/ that bin/operation-places --check compares with the code: operations and characters."""

import re
from typing import NamedTuple


class Operation(NamedTuple):
    """A line of share/operations.txt; `code` and `name` alone for a declarative, with `use` alone for a unique mnemonic."""
    kind: str
    code: str
    name: str
    use: str = ""       # the operands, or the Q of a unique mnemonic
    cells: str = ""
    words: str = ""

    def is_declarative(self):
        return self.code == "--"

    def is_unique(self):
        return bool(self.use) and not self.words


def lines_of(top, name):
    """The lines of a table, below its head."""
    return (top / "share" / name).read_text(encoding="utf-8").split("\n\n", 1)[1].splitlines()


def operations(top):
    """All operations, in their order."""
    found, kind = [], ""
    for line in lines_of(top, "operations.txt"):
        if re.match(r"(\d\d|--) ", line):
            found.append(Operation(kind, *line.split(None, 4)))
        else:
            kind = line
    return found


def characters(top):
    """All characters: each with its holes, the digit that it is read as, and its pair."""
    return [(line[0], *line[1:].split()) for line in lines_of(top, "characters.txt")]
