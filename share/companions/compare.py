"""Compares two texts byte by byte, in pieces, so that a long text is never in memory as a whole. Lines end with LF or CR LF on either side."""

import collections
import itertools
import os
import re

PIECE = 4096    # bytes of a line that are read at a time
NEAR = 60       # bytes that are kept of the line before the first difference

# A part of a line: the number of its line, from 1, and how many bytes of the line lie before it.
Piece = collections.namedtuple("Piece", "line start text")


class Difference(collections.namedtuple("Difference", "line column came wanted skipped is_prefix")):
    """The first difference of two texts: its line and column, from 1; that line as it came and as it is wanted, None if there is no such line,
    without the first bytes that are `skipped`; and whether the text that came is right as far as it goes."""


def first_difference(came, wanted):
    """The first difference of two files, or None if they are equal. Empty lines at the very end of either don't count."""
    with open(came, "rb") as came_file, open(wanted, "rb") as wanted_file:
        ours, theirs = pieces(came_file), pieces(wanted_file)
        before = b""
        for our, their in itertools.zip_longest(ours, theirs):
            if our != their:
                return difference_of(our, their, before, next(ours, None) is None and not ends_line(came_file))
            before = our.text[-NEAR:]
    return None


def ends_line(file):
    """Whether a text ends with a line end."""
    size = file.seek(0, os.SEEK_END)
    file.seek(max(0, size - 1))
    return file.read() == b"\n"


def pieces(file):
    """The pieces of a text, without line ends. An empty line is a piece too, unless only empty lines follow it."""
    line, start, empty = 1, 0, 0
    for text in read_pieces(file):
        body = re.sub(rb"\r?\n\Z", b"", text)
        if body:
            yield from (Piece(number, 0, b"") for number in range(line - empty, line))
            yield Piece(line, start, body)
            empty = 0
        elif start == 0:
            empty += 1
        line, start = (line + 1, 0) if text.endswith(b"\n") else (line, start + len(body))


def read_pieces(file):
    """The bytes of a text: lines, and of a long line pieces. No piece parts CR from LF, and the last line has its LF."""
    text = b""
    while more := file.readline(PIECE):
        text = more
        while text.endswith(b"\r"):
            text += file.readline(1) or b"\n"
        yield text
    if text and not text.endswith(b"\n"):
        yield b"\n"


def difference_of(our, their, before, is_open):
    """The difference that two pieces make, of which one may be missing. `before` is the end of the piece before them, and `is_open` says whether
    the text that came ends with its piece, and without a line end."""
    first = min((piece for piece in (our, their) if piece), key=lambda piece: piece.line)
    before = before if first.start else b""

    def part(piece):
        if piece and piece.line == first.line:
            return piece.text
        return b"" if first.start else None

    came, wanted = part(our), part(their)
    same = sum(1 for _ in itertools.takewhile(lambda pair: pair[0] == pair[1], zip(came or b"", wanted or b"")))
    is_open = is_open and (our is None or our.line == first.line)
    is_prefix = wanted is not None and (came is None or is_open and same == len(came))
    joined = [None if text is None else before + text for text in (came, wanted)]
    return Difference(first.line, first.start + same + 1, *joined, first.start - len(before), is_prefix)


def visible(text):
    """Some bytes as a text that shows each of them, and no two texts alike."""
    return re.sub(r"[^ -\[\]-~]", lambda found: f"\\x{ord(found[0]):02x}", text.decode("latin-1"))


def around(difference, text, width):
    """What a line of this width shows of one side of a difference: the text around its column, with `...` for what is left out. And how many
    characters lie before the column there."""
    place = difference.column - 1 - difference.skipped
    first = 0 if difference.skipped == 0 and (len(text) <= width or place < width - 10) else max(0, place - width // 2)
    last = len(text) if len(text) - first <= width else first + width - 3
    left = "..." if difference.skipped or first else ""
    right = "..." if last < len(text) else ""
    return left + visible(text[first:last]) + right, len(left + visible(text[first:place]))


def in_a_line(difference, what):
    """A difference in one line, for a table. `what` is what a line is called."""
    name = f"{what} {difference.line}"
    if difference.wanted is None:
        return f"{name} is too much: {quoted(clipped(difference.came))[0]}"
    if difference.came is None:
        return f"{name} is missing: {quoted(clipped(difference.wanted))[0]}"
    came, wanted = (around(difference, text, 40)[0] for text in (difference.came, difference.wanted))
    column = f", column {difference.column}" if came.startswith("...") or wanted.startswith("...") else ""
    came, wanted = quoted(came, wanted)
    return f"{name}{column}: {came}, wanted {wanted}"


def clipped(text):
    return visible(text) if len(text) <= 40 else visible(text[:37]) + "..."


def quoted(*texts):
    """The texts, in quotes if one of them is empty or has a blank at an end."""
    return [f'"{text}"' for text in texts] if any(text != text.strip(" ") or not text for text in texts) else list(texts)
