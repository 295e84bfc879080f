"""The deck sums: sums and comparisons."""

from .deck import Deck, field, negative


def sums():
    """The deck."""
    deck = Deck("sums", "A S C AM SM CM", [
        "P IS AT W+5, Q AT W+11, FIELDS OF 2 TO 11 DIGITS. ALL SIGNS; CARRIES; NOTHING LEFT;",
        "ZEROS OF BOTH SIGNS; OVERFLOW AND HOW LONG IT STAYS; INDICATORS 11 12 13 14.",
    ])
    for operation, pairs in (
        ("A", ((123, 9), (9, 123), (99999, 1), (0, 0), (50000, 50000))),
        ("S", ((123, 9), (9, 123), (99999, 1), (0, 0), (50000, 50000))),
        ("C", ((123, 9), (0, 0), (50000, 50000))),
    ):
        for x, y in pairs:
            for x_sign in "+-":
                for y_sign in "+-":
                    p = field(5, x) if x_sign == "+" else negative(field(5, x))
                    q = field(5, y) if y_sign == "+" else negative(field(5, y))
                    deck.case(f"{operation}: {x_sign}{x} AND {y_sign}{y}", f"6{p}7{q}", [f"{operation} W+5,W+11"])
    deck.case("A: 2 DIGITS AND 2", "3456]9]67890", ["A W+5,W+7"])
    deck.case("A: BOTH UNITS AND NEXT FLAGGED, 2 DIGITS", "3456JRKN7890", ["A W+5,W+7"])
    deck.case("A: A LONG P, A CARRY THROUGH ALL OF IT", "3J9999999]17", ["A W+8,W+10"])
    deck.case("A: A LONG P, OVERFLOW OF ALL NINES", "3R9999999]17", ["A W+8,W+10"])
    deck.case("A: Q LONGER THAN P, OVERFLOW THOUGH NOTHING IS LOST", "34]5J0000267", ["A W+3,W+9"])
    deck.case("A: Q LONGER THAN P, ITS LAST DIGIT BEHIND THE END OF P", "34]5J0245567", ["A W+3,W+8"])
    deck.case("S: Q LONGER THAN P", "34]5J0245567", ["S W+3,W+8"])
    deck.case("C: Q LONGER THAN P TURNS ON 14", "34]5J0005567", ["C W+3,W+8"])
    deck.case("C: Q LONGER THAN P, EQUAL IN P-S LENGTH", "34]5J0005567", ["C W+3,W+8"])
    deck.case("A: P LONGER THAN Q", "3J2345]96789", ["A W+5,W+7"])
    deck.case("S: P LONGER THAN Q, A BORROW THROUGH ZEROS", "3J0000]96789", ["S W+5,W+7"])
    deck.case("S: A RESULT BELOW ZERO GETS A SECOND PASS", "3]0000]96789", ["S W+5,W+7"])
    deck.case("S: A RESULT BELOW ZERO WITHOUT A 0 IN IT", "3J1111L33337", ["S W+5,W+10"])
    deck.case("S: NOTHING LEFT KEEPS THE SIGN OF P, PLUS", "3]1234]12347", ["S W+5,W+10"])
    deck.case("S: NOTHING LEFT KEEPS THE SIGN OF P, MINUS", "3]123M]123M7", ["S W+5,W+10"])
    deck.case("A: +5 AND -5", "3]0005]00N67", ["A W+5,W+9"])
    deck.case("A: -5 AND +5", "3]000N]00567", ["A W+5,W+9"])
    deck.case("A: -0 AND +0", "3]000]]00067", ["A W+5,W+9"])
    deck.case("A: +0 AND -0", "3]0000]00]67", ["A W+5,W+9"])
    deck.case("C: -0 AND +0 ARE EQUAL", "3]000]]00067", ["C W+5,W+9"])
    deck.case("C: 99 AND -01 ARE NOT EQUAL, A CARRY IS LEFT", "3456R9]J7890", ["C W+5,W+7"])
    deck.case("C: -99 AND 01 ARE NOT EQUAL", "3456RR]17890", ["C W+5,W+7"])
    deck.case("C: -50 AND 50", "3456N]N07890", ["C W+5,W+7"])
    deck.case("C: 50 AND -50", "3456N0N]7890", ["C W+5,W+7"])
    deck.case("C: LOWER BY ONE", "3]1234]12357", ["C W+5,W+10"])
    deck.case("C: HIGHER BY ONE", "3]1235]12347", ["C W+5,W+10"])
    deck.case("C: MINUS LOWER AND HIGHER", "3]123M]123N7", ["C W+5,W+10"])
    deck.case("C: DIFFERENT IN THE FIRST DIGIT ALONE", "3K1234J12347", ["C W+5,W+10"])
    deck.case("A: P AND Q ARE THE SAME FIELD", "3]482]999999", ["A W+4,W+4"])
    deck.case("A: P AND Q THE SAME, OVERFLOW", "3R482]999999", ["A W+4,W+4"])
    deck.case("S: P AND Q ARE THE SAME FIELD", "3]482L999999", ["S W+5,W+5"])
    deck.case("A: Q INSIDE P, DIGIT BY DIGIT", "3]482J999999", ["A W+6,W+5"], own=True)
    deck.case("A: FLAGS INSIDE THE FIELD OF Q END IT", "3J1111K2L267", ["A W+5,W+9"])
    deck.case("A: P IS NOT LONGER THAN ITS FLAG", "95J1111]9999", ["A W+6,W+11"])
    deck.case("A: OVERFLOW BY A CARRY", "3]9R9]19]999", ["A W+4,W+6"])
    deck.case("14 STAYS ON OVER A SUM WITHOUT OVERFLOW", "3R9]1]5]5999", ["A W+2,W+4", "A W+6,W+8"])
    deck.case("14 IS OFF AFTER ITS TEST", "3R9]1]5]5999", ["A W+2,W+4", "BV *+12", "A W+6,W+8"])
    deck.case("14: BV GOES, AND ONLY ONCE", "3R9]1]5]5999", ["A W+2,W+4", "BV *+24", "TDM W+9,1", "BV *+24", "TDM W+10,2"])
    deck.case("14: BNV TURNS IT OFF TOO", "3R9]1]5]5999", ["A W+2,W+4", "BNV *+24", "TDM W+9,1", "BV *+24", "TDM W+10,2"])
    deck.case("11 AND 12 STAY WHEN TESTED", "3]9]1]5]5999", ["A W+2,W+4", "BH *+24", "TDM W+9,1", "BH *+24", "TDM W+10,2"])
    for operation in ("AM", "SM", "CM"):
        deck.case(f"{operation} OF 5 DIGITS", "3]1234567899", [f"{operation} W+5,1234"])
        deck.case(f"{operation} OF A NEGATIVE NUMBER", "3]1234567899", [f"{operation} W+5,-999"])
        deck.case(f"{operation} OF 2 DIGITS", "3]1234567899", [f"{operation} W+5,34,10"])
        deck.case(f"{operation} OF 5 DIGITS TO 3 TURNS ON 14", "399K34567899", [f"{operation} W+5,234"])
        deck.case(f"{operation} OF ZERO TO MINUS ZERO", "3]000]567899", [f"{operation} W+5,0,10"])
    deck.case("AM OF 98765 TO ]98765", "9]9876598765", ["AM W+6,98765"])
    deck.case("A OF 11 DIGITS, DOUBLED", "J23456789098", ["A W+10,W+10"])
    deck.case("S OF 11 DIGITS FROM ITSELF", "J23456789098", ["S W+10,W+10"])
    deck.case("A: EACH DIGIT WITH A CARRY", "3]5656J45678", ["A W+5,W+10"])
    deck.case("S: EACH DIGIT WITH A BORROW", "3J0000]99999", ["S W+5,W+10"])
    return deck
