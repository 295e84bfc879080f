"""Single cards: those for a first try, which need neither loader nor tables, and those that must stop a machine.

What a card must type and where it must stop is worked out by hand from docs/machine.md.
"""

HALT = "480000000000"

# What is tried, the card, and what it must type.
FIRST = (
    ("WN and H", "38000360010048000000000000000000000012345|", "12345"),
    ("TF", "26000430005238000360010048000000000099999999|777J2345", "999J2345"),
    ("TF of a negative field", "26000430005238000360010048000000000099999999|7777P65O", "9999P65O"),
    ("TR", "31000360004838000360010048000000000099999999|77712K|", "12K"),
    ("TD and TDM", "250004800058150004900008380004800100480000000000999|777777N", "N89"),
    ("SF and CF", "3200048000003300049000003800048001004800000000001J1|", "J11"),
    ("BNF and BD", "44000240007248000000000043000480007348000000000038000740010048000000000015123|", "123"),
    ("B and BNR", "49000240000048000000000045000480007248000000000038000740010048000000000015123|", "123"),
)

# What must stop a machine: what it is, the cards, and the report; behind them, where there are such, the lines of the operator's script and of the keys.
# An own stop is a rule of this project's own, or is about what a machine may have besides; one that is here alone can't be tried on cards elsewhere.
STOPS = (
    ("01 An odd address", ["490000300000"], "CHECK 01 00003 STEPS 2"),
    ("02 Q past the last position of a core of 20,000", ["250000020000000000000000"], "CHECK 02 00000 STEPS 1"),
    ("02 P past the last position of a core of 20,000", ["252000000000000000000000"], "CHECK 02 00000 STEPS 1"),
    ("02 An instruction over the end of a core of 20,000", ["491999600000"], "CHECK 02 19996 STEPS 2"),
    ("02 A field that goes below 00000 (own rule)", ["260000500011480000000000J"], "CHECK 02 00000 STEPS 1"),
    ("02 A record that goes past the end of a core of 20,000 (own rule)", ["3119990000124800000000000000"], "CHECK 02 00000 STEPS 1"),
    ("02 A sum whose P goes below 00000 (own rule)", ["210000300009480000000000J"], "CHECK 02 00000 STEPS 1"),
    ("02 A flagged address below 00004 (own rule)", ["250000L000004800000000000000"], "CHECK 02 00000 STEPS 1"),
    ("02 BT to 00000 (own rule)", ["1700000J2345480000000000"], "CHECK 02 00000 STEPS 1"),
    ("02 A card that is read past the end of a core of 20,000", ["361995000500480000000000", "1" * 80], "CHECK 02 00000 STEPS 1"),
    ("03 A mark in an address", ["2600|0500024480000000000"], "CHECK 03 00000 STEPS 1"),
    ("03 A mark in a sum", ["210003000032480000000000000000]|3"], "CHECK 03 00000 STEPS 1"),
    ("03 A mark in the add table", ["250030000036210003900041480000000000|0]0]0"], "CHECK 03 00012 STEPS 2"),
    ("03 A mark in a field of a chain", ["25000200002K48000000|00"], "CHECK 03 00000 STEPS 1"),
    ("03 A mark in a control field of the disk (needs a disk)", ["340002400701480000000000100|0500100000"], "CHECK 03 00000 STEPS 1"),
    ("04 A cell that has lost a bit (here alone)", ["38000360010048000000000000000000000012345|"], "CHECK 04 00012 STEPS 2", ["AT 1 FLIP 12 2"]),
    ("05 A cell with the value 11 (here alone)", ["38000360010048000000000000000000000012345|"], "CHECK 05 00012 STEPS 2",
     ["AT 1 FLIP 13 0", "AT 1 FLIP 13 1"]),
    ("06 No such operation", ["000000000000"], "CHECK 06 00000 STEPS 1"),
    ("06 Multiply, code 23, which is not built here (own rule)", ["230000000000"], "CHECK 06 00000 STEPS 1"),
    ("06 A mark in the opcode", ["4|0000000000"], "CHECK 06 00000 STEPS 1"),
    ("06 A numerical blank in the opcode", ["3@0000000000"], "CHECK 06 00000 STEPS 1"),
    ("07 Device 02, the paper tape punch, which is not built here (own rule)", ["380000000200"], "CHECK 07 00000 STEPS 1"),
    ("07 Control 3 of the typewriter", ["340000000103"], "CHECK 07 00000 STEPS 1"),
    ("07 Control 4 of the disk (own rule, needs a disk)", ["360002400704480000000000"], "CHECK 07 00000 STEPS 1"),
    ("07 Drive 5 of the disk (own rule, needs a disk)", ["34000240070148000000000050000500100000"], "CHECK 07 00000 STEPS 1"),
    ("08 A chain that names itself", ["260040400028250040M00000]040M"], "CHECK 08 00012 STEPS 2"),
    ("09 WA at an even address", ["390002400100"], "CHECK 09 00000 STEPS 1"),
    ("09 RA at an even address", ["370002400500"], "CHECK 09 00000 STEPS 1"),
    ("09 TNS at an even address", ["720002400030480000000000"], "CHECK 09 00000 STEPS 1"),
    ("10 Overflow, with its switch at STOP", ["21000270003248000000000000]5J2345"], "CHECK 10 00000 STEPS 1", ["AT 0 OVERFLOW STOP"]),
    ("10 A halt with 14 on, and the overflow switch at STOP (own rule)", ["21000270003248000000000000]5J2345"], "CHECK 10 00012 STEPS 2",
     ["AT 1 OVERFLOW STOP"]),
    ("11 A column that is no character, with the I/O switch at STOP", ["360004000500480000000000", "12#4"], "CHECK 11 00000 STEPS 1",
     ["AT 0 IO STOP"]),
    ("11 A pair that is no character, with the I/O switch at STOP", ["390002500100480000000000050|"], "CHECK 11 00000 STEPS 1", ["AT 0 IO STOP"]),
    ("A reader without cards", ["360004000500480000000000"], "NEED CARDS 00000 STEPS 1"),
    ("A card of over 80 columns, which jams the reader (here alone)", ["360004000500480000000000", "1" * 81], "JAM DECK 2"),
    ("A keyboard without a line (here alone)", ["360004000100480000000000"], "NEED KEYS 00000 STEPS 1"),
    ("A line of over 80 characters on the keyboard (here alone)", ["360004000100480000000000"], "JAM KEYS 1", [], ["1" * 81]),
)


def lines_of(name, words, **files):
    """A block of a text: what it is, and then each line of each file."""
    lines = [f"{name}|{words}", *(f"{file}|{line}" for file, lines in files.items() for line in lines)]
    return "".join(f"{line}\n" for line in lines)


def first():
    """The text of the cards for a first try."""
    head = "# Single cards for a first try, without a loader and tables: what each tries, the card, and what it must type. All of them halt.\n"
    return "\n".join([head, *(lines_of("first", words, deck=[card], typed=[typed]) for words, card, typed in FIRST)])


def stops():
    """The text of the cards that must stop a machine."""
    head = "# Single cards that must stop a machine: what stops it, the cards, what the operator does, and what this program reports.\n"
    blocks = []
    for words, deck, report, *others in STOPS:
        script, keys = [*others, [], []][:2]
        blocks.append(lines_of("stop", words, deck=deck, script=script, keys=keys, report=[report]))
    return "\n".join([head, *blocks])
