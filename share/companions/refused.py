"""A source that is refused: what the rest of it has to do with that, which the assembler does not look at."""

import itertools
import re

from common import lines_of, read_operations
from placed import TOKEN, Statement, Symbols

NOT_BUILT = "M MM LD LDM D DM FADD FSUB FMUL FDIV FSL FSR TFL BTFL RNPT RAPT WNPT WAPT DNPT TCD TRA".split()
LABELS, WIDTH = 100, 98     # how many labels are listed, and the width of a row of operations


def look_at_refused(text, report, told):
    """The lines about a source, by its report; `told` makes one of a statement and of what there is to say of it."""
    statements = [Statement(number, line) for number, line in enumerate(lines_of(re.sub("[\0\r]", "", text)), 1)]
    plain = [it for it in statements if not it.is_comment]
    end = next((it for it in plain if it.operation == "DEND"), None)
    _, number, _, rule, *part = report.split(None, 4)
    refused = statements[int(number) - 1]
    if rule == "UndefinedSymbol" and part:
        yield from look_for_label(plain, end, refused, part[0], told)
    known = re.fullmatch("[A-Z][A-Z0-9]*", refused.operation) and re.fullmatch("[ 0-9]*", refused.text[:5]) and refused.text[11] != " "
    if rule == "UnknownOperation" and known and refused.operation not in NOT_BUILT:
        if not end:
            yield told(statements[-1], "the source has no DEND, which is its last statement: DEND, and after it the label of the first instruction")
        yield told(refused, f"{refused.operation} is none of the operations:")
        yield from rows_of_operations()


def look_for_label(plain, end, refused, part, told):
    """The first name of the part that is no label's symbol, with its head."""
    symbols, head, labels = Symbols(), "", {}
    for it in plain:
        if end and it.number > end.number:
            break
        if it is refused:
            head = symbols.head
        if it.label:
            labels.setdefault(symbols.symbol(it.label), it)
        if it.operation == "HEAD":
            symbols.head = it.parts[0]
    symbols.head = head
    names = [written for written in TOKEN.findall(part.replace(" ", "")) if re.search("[A-Z]", written) and symbols.symbol(written) not in labels]
    if not names:
        return
    late = next((it for it in plain if end and it.number > end.number and it.label == names[0]), None)
    other = next((symbol for symbol in labels if symbol[1] == names[0].split("$")[-1]), None)
    if late:
        yield told(late, f"{names[0]} is the label of this statement, which comes after the DEND of statement {end.number}: DEND is the last one")
    elif other:
        name = "$".join(other)
        yield told(labels[other], f"{other[1]} is the label of this statement, and {names[0]} is asked for under another HEAD: write {name}")
    else:
        yield from tell_labels(plain, refused, names[0], told)


def tell_labels(plain, refused, name, told):
    declaratives = {each.name for each in read_operations() if each.code is None}
    first = next((it for it in plain if it.operation and it.operation not in declaratives), None)
    if refused.operation == "DEND" and first:
        label = f"its label is {first.label}" if first.label else "it has no label"
        yield told(first, f"this is the first instruction: {label}, and DEND names {name}")
    labels = [it.label for it in plain if re.search("[A-Z]", it.label)]
    listed = " ".join(labels[:LABELS] + [".."] * (len(labels) > LABELS)) or "none"
    yield told(refused, f"{name} is the label of no statement; the labels are: {listed}")


def rows_of_operations():
    for kind, operations in itertools.groupby(read_operations(), key=lambda each: each.kind):
        row = f"    {kind:18}"
        for each in operations:
            if len(row) + 1 + len(each.name) > WIDTH:
                yield row
                row = " " * 22
            row += f" {each.name}"
        yield row
