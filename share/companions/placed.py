"""A source as the assembler has placed it: its statements, fields and instructions, from the listing and the image."""

import collections
import re

from common import digit_of, has_flag, lines_of

TOKEN = re.compile(r"[A-Z0-9]?\$[A-Z0-9]+|[A-Z0-9]+|[-+*]")
# The part that is the statement's own address.
ADDRESS_PART = {"DS": 1, "DSS": 1, "DAS": 1, "DNB": 1, "DC": 2, "DSC": 2, "DSB": 2, "DGM": 0}
# The size of a declarative's field, its first digit, and how many digits there are: by the address of the label, and by n and k.
LAYOUT = {
    **dict.fromkeys(("DS", "DC", "DNB"), lambda a, n, k: (n, a - n + 1, n)),
    **dict.fromkeys(("DSS", "DSC"), lambda a, n, k: (n, a, n)),
    **dict.fromkeys(("DAS", "DAC"), lambda a, n, k: (2 * n, a - 1, 2 * n)),
    "DSB": lambda a, n, k: (n, a - n + 1, n * k), "DSA": lambda a, n, k: (5, a - 4, 5 * k),
    "DGM": lambda a, n, k: (1, a, 1), "DDA": lambda a, n, k: (14, a, 14),
}
# `size` is that of one field of a list; `is_set_aside`: no digit is declared; `is_placed`: it has an address of its own.
Field = collections.namedtuple("Field", "statement name first last size is_set_aside is_placed")


class Statement:
    """The address is an instruction's, or what the label of a declarative is worth; None for a comment and a blank line."""

    def __init__(self, number, text, address=None, digits=""):
        self.number, self.text, self.address, self.digits = number, text, address, digits
        self.label, self.operation = self.text[5:11].strip(" "), self.text[11:15].strip(" ")
        self.operands = self.text[15:75]
        self.parts = [part.strip(" ") for part in self.operands.split(",")] + [""] * 10
        self.is_comment = self.text[5:6] == "*"


class Instruction:
    def __init__(self, statement):
        self.statement, self.address, self.digits = statement, statement.address, statement.digits
        self.code, self.p, self.q = number_of(self.digits[:2]), number_of(self.digits[2:7]), number_of(self.digits[7:])
        self.device = self.q // 100 % 100
        self.is_typed, self.is_seek = self.code in (38, 39) and self.device == 1, self.code == 34 and self.device == 7
        self.is_indirect_p, self.is_flagged_q = has_flag(self.digits[6]), has_flag(self.digits[11])
        self.knows_p = self.knows_q = True      # whether the operand is the address that the program uses


class Symbols:
    """The values of labels, and the head in force."""

    def __init__(self):
        self.value, self.head = {}, ""

    def symbol(self, written):
        head, dollar, name = written.rpartition("$")
        return (head if dollar else self.head if len(name) < 6 else "", name)

    def worth(self, text, location):
        """The value of an expression; None if it is empty, or if a name has no value yet."""
        total, product, sign, wants_factor = 0, None, 1, True
        for token in TOKEN.findall(text.replace(" ", "")):
            if token in "+-" or token == "*" and not wants_factor:
                if token != "*":
                    total, product, sign = total + sign * (product or 0), None, -1 if token == "-" else 1
                wants_factor = True
                continue
            factor = location if token == "*" else int(token) if token.isdigit() else self.value.get(self.symbol(token))
            if factor is None:
                return None
            product, wants_factor = factor if product is None else product * factor, False
        return None if product is None else total + sign * product


class Placed:
    """What lies where: `image` has the digit of each cell that a statement declares, and `owner` the field of each cell."""

    def __init__(self, listing, image, size):
        self.size, self.start = size, None
        self.statements, self.fields, self.instructions = [], [], []
        self.field_of = {}          # the field whose label has this address; None if there are several, of different sizes
        self.symbols, self.location = Symbols(), 402
        self.image, self.owner = {}, {}
        for line in lines_of(image):
            address, digits = line.split()
            self.image.update(enumerate(digits, int(address)))
        for line in lines_of(listing):
            self.take(read_statement(line))
        # If two fields lie one over the other, the cells are the one's that has no address of its own, or the first one's.
        for field in sorted(reversed(self.fields), key=lambda field: not field.is_placed):
            self.owner.update(dict.fromkeys(range(max(field.first, 0), min(field.last + 1, size)), field))
        self.at = {each.address: each for each in self.instructions}
        self.code = {each.address + place: each for each in self.instructions for place in range(12)}

    def take(self, it):
        self.statements.append(it)
        if it.address is None or it.is_comment:
            return
        if it.label:
            self.symbols.value.setdefault(self.symbols.symbol(it.label), it.address)
        if it.operation == "HEAD":
            self.symbols.head = it.parts[0]
        elif it.operation == "DORG":
            self.location = it.address
        elif it.operation == "DEND":
            self.start = self.symbols.worth(it.parts[0], self.location)
        elif it.operation in LAYOUT:
            self.declare(it)
        else:
            self.instructions.append(Instruction(it))
            self.location = it.address + 12

    def declare(self, it):
        n, k = (self.symbols.worth(part, self.location) or 0 for part in it.parts[:2]) if it.operation != "DSA" else (0, min(10, it.parts.index("")))
        part = ADDRESS_PART.get(it.operation)
        is_placed = bool(text_and_address(it)[1] if it.operation == "DAC" else part is not None and it.parts[part])
        size, first, digits = LAYOUT[it.operation](it.address, n, k)
        if digits > 0:
            name = it.label or f"the field of statement {it.number}"
            field = Field(it, name, first, first + digits - 1, size, it.operation in ("DS", "DSS", "DAS", "DSB"), is_placed)
            self.fields.append(field)
            if it.operation in ("DS", "DC", "DNB", "DSA") and it.label:
                other = self.field_of.setdefault(it.address, field)
                if other and other.size != size:
                    self.field_of[it.address] = None
            self.location = self.location if is_placed else first + digits

    def addresses(self, field):
        """The addresses of a list of DSA."""
        return [number_of([self.image[at] for at in range(first, first + 5)]) for first in range(field.first, field.last, 5)]


def number_of(digits):
    return int("".join(str(digit_of(digit)) for digit in digits))


def read_statement(line):
    match = re.fullmatch(r"(.{5}) (?:([0-9]{5,})|     ) (.{12}) (.*)", line.ljust(26))
    number, address, digits, text = match.groups()
    return Statement(int(number), text.rstrip(" "), int(address) if address else None, digits)


def text_and_address(it):
    """Of a DAC: its text, its own address or nothing, and what follows the text."""
    n, _, body = it.operands.partition(",")
    n = int(n) if n.strip(" ").isdigit() else 0
    rest = body[n:]
    return body[:n], rest[1:].partition(",")[0].strip(" ") if rest.startswith(",") else "", rest
