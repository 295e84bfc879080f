"""The console's line: what the console of the machine shows where a job of the program has ended, as docs/formats.md has it."""

import collections
import re

ASKING = {"IBM1620_CONSOLE": "1"}       # with this in its environment the program says the line at a halt and at the end of a session too
LINE = re.compile(r"CONSOLE IR (\d{5,}) CELLS (?:\S{12}|-) IR2 (\d{5,}) ON ([\d,]+|-) SWITCHES ([\d,]+|-) STOPS ([A-Z,]+|-) "
                  r"ARMS ([\d,]+) DECK (\d+) DATA (\d+) KEYS (\d+)"
                  r"(?: PART (?:(INSTRUCTION|P|Q) AT (\d{5,})|(ACTION) AT (\d{5,}|-) P (\d{5,}) Q (\d{5,}|-)))?")
STANDS = re.compile(r"statement \d+ stands at IR:")     # in front of the line, with the statement itself behind it
CODES = (6, 7, 9, 11, 12, 14, 16, 17, 36, 37, 38)        # the indicators that have a light
UNITS = {"P": 6, "Q": 11}       # where the units position of an instruction's P and Q stands

Told = collections.namedtuple("Told", "ir ir2 on switches stops arms deck data keys part")
Part = collections.namedtuple("Part", "kind at p q")        # which part of an instruction a check is about; what is not told is None


def parted(said):
    """What the line says, or None where there is none among these, and the other ones: without the statement that stands in front of it."""
    place = next((place for place, line in enumerate(said) if LINE.fullmatch(line)), None)
    if place is None:
        return None, said
    ir, ir2, on, switches, stops, arms, deck, data, keys, kind, at, *action = LINE.fullmatch(said[place]).groups()
    part = Part(kind, int(at), None, None) if kind else Part(action[0], *map(address, action[1:])) if action[0] else None
    told = Told(int(ir), int(ir2), numbers(on), numbers(switches), values(stops), numbers(arms), int(deck), int(data), int(keys), part)
    first = place - 2 if place >= 2 and STANDS.fullmatch(said[place - 2]) else place
    return told, said[:first] + said[place + 1:]


def about(told):
    """A sentence for the part of the instruction that a check is about; none where that is not told."""
    part = told and told.part
    if not part:
        return ""
    if part.kind == "INSTRUCTION":
        return f"The check is about the instruction itself, at the cell {part.at:05}."
    if part.kind == "ACTION":
        return (f"The check is about what the instruction does with P {part.p:05}" + ("" if part.q is None else f" and Q {part.q:05}") +
                ("." if part.at is None else f", at the cell {part.at:05}."))
    own = told.ir + UNITS[part.kind]
    return f"The check is about {part.kind}, by the digits whose units stand at {part.at:05}" + ("." if part.at == own else f", in the chain from {own:05}.")


def values(text):
    return () if text == "-" else tuple(text.split(","))


def numbers(text):
    return tuple(map(int, values(text)))


def address(text):
    return None if text == "-" else int(text)
