"""The statements of a listing that have an address, by their labels, their numbers and their addresses."""

import collections
import re

import common

# `length` is the number with which the operands begin, 0 if they begin with none; `text` is the statement from its label on.
Statement = collections.namedtuple("Statement", "number address label operation length text is_instruction")


def read_statement(line, declaratives):
    """The statement of a line; None if it has no address. An address of more than five digits moves what is to the right of it."""
    address = re.match(r"[0-9]+", line[6:])
    text = line[30 + max(len(address[0]) - 5, 0):] if address else "*"
    if text.startswith("*"):
        return None
    operation = text[6:10].strip(" ")
    length = re.match(r" *([0-9]*)", text[10:])[1]
    return Statement(int(line[:5]), int(address[0]), text[:6].replace(" ", ""), operation, int(length or 0), text, operation not in declaratives)


class Listing:
    def __init__(self, path):
        declaratives = {operation.name for operation in common.read_operations() if operation.code is None}
        found = [read_statement(line, declaratives) for line in common.lines_of(common.read_file(path))]
        self.statements = [statement for statement in found if statement]
        # Of several instructions at one address the last one, and of several statements with one label the first.
        self.at = {each.address: each for each in self.statements if each.is_instruction}
        self.labelled = {each.label: each for each in reversed(self.statements) if each.label}

    def find(self, word):
        """The address that a word says, a number or a label and perhaps + or - a number, and the statement that is declared just there, if there
        is one. None if there is no such label."""
        name, more = re.fullmatch(r"(.+?)([-+][0-9]+)?", word).groups()
        if name.isdigit():
            return int(name) + int(more or 0), None
        statement = self.labelled.get(name)
        return statement and (statement.address + int(more or 0), None if more else statement)

    def address_of(self, number):
        """The address of the instruction that is the statement of this number, None if it is not an instruction."""
        return next((each.address for each in self.statements if each.number == number and each.is_instruction), None)


def extent(statement):
    """How many cells a statement declares, 0 if it does not say it, and their kind. Of no statement it is a field."""
    if statement is None or statement.operation in ("DORG", "DEND"):
        return 0, "field"
    if statement.operation in ("DS", "DC", "DNB", "DSB"):
        return statement.length if statement.length <= statement.address else 0, "field"
    if statement.operation in ("DAS", "DAC"):
        return 2 * (statement.length or 5), "text"
    if statement.operation == "DSA":
        return 5, "field"
    return 12 if statement.is_instruction else {"DDA": 14, "DGM": 1}.get(statement.operation, statement.length or 10), "digits"
