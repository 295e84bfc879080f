"""What a column of a card is read as: the digit, by RN, and the pair of digits, by RA. The tables are those of docs/formats.md."""

DIGITS = {" ": "0", "+": "0", "-": "]", "/": "1"}
PAIRS = {
    " ": "00", ".": "03", ")": "04", "+": "10", "$": "13", "*": "14", "-": "20", "/": "21", ",": "23", "(": "24", "=": "33", "@": "34", "]": "50",
    "|": "0|",
}


def digit_of(column):
    """The digit that a column is read as, as a character."""
    if column in DIGITS:
        return DIGITS[column]
    if "A" <= column <= "I":
        return str(ord(column) - ord("A") + 1)
    if "S" <= column <= "Z":
        return str(ord(column) - ord("S") + 2)
    return column


def pair_of(column):
    """The pair of digits that a column is read as."""
    if column in PAIRS:
        return PAIRS[column]
    for zone, first, last, digit in (("4", "A", "I", 1), ("5", "J", "R", 1), ("6", "S", "Z", 2), ("7", "0", "9", 0)):
        if first <= column <= last:
            return f"{zone}{ord(column) - ord(first) + digit}"
    raise ValueError(f"no character of a pair: {column}")


def digits_of_columns(columns):
    """The digits of some columns."""
    return "".join(map(digit_of, columns))


def pairs_of_columns(columns):
    """The pairs of some columns."""
    return "".join(map(pair_of, columns))
