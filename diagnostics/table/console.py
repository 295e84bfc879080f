"""The deck console: halts and Start, the switches, and the Load key. A person works the machine by a sheet."""

from .deck import Deck

BEFORE = "098765432109"
# The three statements behind the first two of the cases' part, from 02824 on, are where three of the cards for the Load key go.
RETURNS = """
                B    AHEAD
                B    BACK1
                B    BACK2
                B    BACK3
    AHEAD:      NOP
"""
# The column with the ` has holes that are no character. The other cards are for the Load key.
CARDS = ["490282400000", "1`2", "490284800000", "420000000000", "490283600000"]


def switches(*on):
    """The statements that put 1 into W to W+3 for each switch that is on, and the window and indicators behind them."""
    lines = [line for switch in (1, 2, 3, 4) for line in (f"BNC{switch} *+24", f"TDM W+{switch - 1},1")]
    return lines, "".join("1" if place + 1 in on else digit for place, digit in enumerate(BEFORE[:4])) + BEFORE[4:] + "1010"


def console():
    """The deck."""
    deck = Deck("console", "HALT AND START, THE SWITCHES, THE LOAD KEY", [
        "THE MACHINE HALTS IN MOST CASES, AND A PERSON DOES WHAT THE SHEET SAYS. ALL SWITCHES BEGIN OFF, THE CHECK SWITCHES AT PROGRAM.",
        "FIVE CARDS STAND BEHIND THE DECK. THE SECOND IS READ, AND ITS COLUMN 2 HAS HOLES THAT ARE NO CHARACTER; THE LOAD KEY TAKES THE OTHERS.",
    ])
    deck.data = CARDS
    deck.typed = ["A ", "", "A "]

    def case(what, lines, after, *acts, before=BEFORE, own=False):
        """A case, and what the operator does at its halts."""
        deck.case(what, before, lines, after, own)
        deck.script += [f"HALT {act}" for act in acts]

    deck.code(RETURNS)
    case("START GOES ON BEHIND THE HALT", ["H", "TDM W+10,7"], "0987654321791010", "START")
    case("A HALT LEAVES THE INDICATORS, 12 ON", ["CM ONE,1,10", "H"], f"{BEFORE}0110", "START")
    case("A HALT DOES NOT LOOK AT ITS OPERANDS", ["H 99999,99999", "TDM W+10,7"], "0987654321791010", "START")
    case("TWO HALTS, ONE BEHIND THE OTHER", ["H", "H", "TDM W+10,7"], "0987654321791010", "START", "START")
    lines, after = switches(1, 3)
    case("SWITCHES 1 AND 3 ON", ["H", *lines], after, "SWITCH 1 ON", "SWITCH 3 ON", "START")
    case("THEY STAY ON OVER A TEST", lines, after)
    case("BI GOES, BNI DOES NOT", ["BC1 *+24", "TDM W,1", "BNC3 *+24", "TDM W+2,1"], "0917654321091010")
    lines, after = switches(2, 4)
    case("SWITCHES 2 AND 4 ON", ["H", *lines], after, "SWITCH 1 OFF", "SWITCH 2 ON", "SWITCH 3 OFF", "SWITCH 4 ON", "START")
    lines, after = switches()
    case("ALL OFF", ["H", *lines], after, "SWITCH 2 OFF", "SWITCH 4 OFF", "START")
    case(
        "THE OVERFLOW SWITCH AT STOP: A SUM WITHOUT OVERFLOW DOES NOT STOP", ["H", "A W+1,W+3", "H"], "]5]232109876" "1010", "OVERFLOW STOP", "START",
        "OVERFLOW PROGRAM", "START", before="]3]232109876")
    case(
        "THE OVERFLOW SWITCH AT STOP: A TEST TURNS 14 OFF BEFORE THE SWITCH IS LOOKED AT", ["A W+1,W+6", "H", "BV *+24", "TDM W+10,1", "H"],
        "N0J2345678091010", "OVERFLOW STOP", "START", "OVERFLOW PROGRAM", "START", before="]5J234567809", own=True)
    case(
        "THE I/O SWITCH AT STOP: A TEST TURNS 07 OFF BEFORE THE SWITCH IS LOOKED AT",
        ["WATY NOPAIR", "RCTY", "H", "BI *+24,700", "TDM W+10,1", "RCTY", "H"], "0987654321091010",
        "IO STOP", "START", "IO PROGRAM", "START", own=True)
    case(
        "THE LOAD KEY TURNS OFF 07, 11, 12 AND 14",
        ["A W+1,W+6", "WATY NOPAIR", "RCTY", "H", "BACK1: BI *+24,700", "TDM W+10,1"], "N0J2345678190000", "LOAD", before="]5J234567809", own=True)
    case(
        "THE LOAD KEY TURNS OFF 06, ON FROM A BAD COLUMN",
        ["RNCD CARD", "BI *+24,1900", "TDM W+8,7", "H", "BACK3: BI *+24,600", "TDM W+9,7", "BI *+24,1900", "TDM W+10,7", "CM ONE,0,10"],
        "0987654327791010", "LOAD", own=True)
    case("THE LOAD KEY KEEPS WHERE BB GOES", ["BTM SUBR,0", "TDM W+10,7", "CM ONE,0,10"], "0987654321791010", "LOAD", own=True)
    case(
        "THE LOAD KEY KEEPS THE SWITCHES, AND ITS LAST CARD TURNS ON 09",
        ["H", "BACK2: BC4 *+24", "TDM W,1", "BLC *+24", "TDM W+1,1", "BLC *+24", "TDM W+2,1", "CM ONE,0,10"], "0917654321091010",
        "SWITCH 4 ON", "LOAD")
    deck.tail("""
        NOPAIR:    DAC  "A"
                DSC  2,05
                DAC  "@"
                DS   6
        SUBR:   H
        CARD:   DSS  80
    """)
    return deck
