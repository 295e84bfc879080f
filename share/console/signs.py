"""Characters: how the bytes of files are texts here, which bits a cell of core has for a character, and the cards of a text."""

WITHOUT, FLAGGED = "0123456789|@}", "]JKLMNOPQR!*\""
VALUES = (0, 1, 2, 3, 4, 5, 6, 7, 8, 9, 10, 12, 15)
FLAG, CHECK = 16, 32


class Refused(Exception):
    """What was asked for can't be had. The text says why, in words for the user, and the status is that of the answer to a page."""

    def __init__(self, text, status=400):
        super().__init__(text)
        self.status = status


def to_bytes(text):
    """The bytes of a text. A byte that is no UTF-8 stands in a text as a character of its own, and comes back as that byte."""
    try:
        return text.encode("utf-8", "surrogateescape")
    except UnicodeEncodeError:
        raise Refused("a text with a character that no file has") from None


def to_text(data):
    return data.decode("utf-8", "surrogateescape")


def good_bits():
    """The six bits of each good cell, by the character that shows it: 1, 2, 4, 8, F, C from the lowest on; their count is odd."""
    for flag, chars in ((0, WITHOUT), (FLAG, FLAGGED)):
        for char, value in zip(chars, VALUES):
            low = flag + value
            yield char, low if bin(low).count("1") % 2 else low + CHECK


BITS = dict(good_bits())


def bits_of(char):
    """The bits of the good cell that is shown as this character."""
    if char not in BITS:
        raise Refused("a bad cell stands where one has to be asked")
    return BITS[char]


def bare(text):
    """The digits of a text of core without their flags."""
    return "".join(WITHOUT[FLAGGED.find(char)] if char in FLAGGED else char for char in text)


def lines_of(data):
    """The lines of a file's bytes, as the program parts them; each byte is one character."""
    lines = data.decode("latin-1").split("\n")
    if lines[-1] == "":
        lines.pop()
    return [line[:-1] if line.endswith("\r") else line for line in lines]


def script_of(data):
    """The lines of a script, without the empty ones."""
    lines = (line[:-1] if line.endswith("\r") else line for line in to_text(data).split("\n"))
    return tuple(line for line in lines if line)


def joined(lines):
    """The bytes of a script's lines."""
    return to_bytes("".join(line + "\n" for line in lines))
