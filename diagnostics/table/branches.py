"""The deck branches: branches, and subroutines."""

from .deck import Deck


def branches():
    """The deck."""
    deck = Deck("branches", "B BD BNF BNR BI BNI BT BTM BB", [
        "W+10 GETS A 1 WHERE A BRANCH WAS NOT TAKEN, OR A DIGIT THAT TELLS THE WAY.",
        "SWITCHES 1 TO 4 MUST BE OFF, THE OVERFLOW AND I/O SWITCHES AT PROGRAM.",
    ])
    for digit in range(10):
        deck.case(f"BD ON A {digit}", f"3{digit}1456789005", ["BD *+24,W+1", "TDM W+10,1"])
    deck.case("BD ON A FLAGGED 0 DOES NOT GO", "3]1456789005", ["BD *+24,W+1", "TDM W+10,1"])
    deck.case("BD ON A FLAGGED 5", "3N1456789005", ["BD *+24,W+1", "TDM W+10,1"])
    deck.case("BD ON A RECORD MARK", "3|1456789005", ["BD *+24,W+1", "TDM W+10,1"])
    for character, words in (("0", "0"), ("5", "5"), ("|", "A MARK"), ("]", "A FLAGGED 0"), ("N", "A FLAGGED 5"), ("!", "A FLAGGED MARK")):
        deck.case(f"BNF ON {words}", f"3{character}1456789005", ["BNF *+24,W+1", "TDM W+10,1"])
    for character in "0]9R":
        deck.case("BNR ON A DIGIT", f"3{character}1456789005", ["BNR *+24,W+1", "TDM W+10,1"])
    deck.case("BNR ON A RECORD MARK", "3|1456789005", ["BNR *+24,W+1", "TDM W+10,1"])
    deck.case("BNR ON A FLAGGED RECORD MARK", "3!1456789005", ["BNR *+24,W+1", "TDM W+10,1"])
    # Each branch, and after which of HIGH, EQUAL and LOW it goes.
    goes = {"BH": "100", "BNH": "011", "BE": "010", "BNE": "101", "BNL": "110", "BL": "001"}
    for state, indicators in enumerate(("1010", "0110", "0000")):
        for branch, after in goes.items():
            stays = "0" if after[state] == "1" else "1"
            deck.case(
                f"{branch} AFTER {('HIGH', 'EQUAL', 'LOW')[state]}", "312456789005", [f"CM ONE,{state},10", f"{branch} *+24", "TDM W+10,1"],
                f"3124567890{stays}5{indicators}")
    for codes in ((1, 2, 3, 4), (6, 7, 16, 17, 19)):
        for branch, stays in (("BI", 1), ("BNI", 0)):
            for code in codes:
                lines = [f"{branch} *+24,{code * 100}", "TDM W+10,1"]
                deck.case(f"{branch} OF {code:02}, WHICH IS OFF", "312456789005", lines, f"3124567890{stays}51010")
    for state, words, indicators in ((1, "EQUAL", "0110"), (2, "LOW", "0000")):
        tests = [line for place, code in enumerate((1, 2, 3, 4, 6)) for line in (f"BI *+24,{100 * code}", f"TDM W+{place},9")]
        deck.case(f"BI OF 01 TO 04 AND 06, ALL OFF, AFTER {words}", "312456789005", [f"CM ONE,{state},10", *tests], f"999996789005{indicators}")
    deck.case(
        "BI BY NUMBER: 11 12 13 14 AFTER EQUAL", "312000056789",
        ["CM ONE,1,10", "BI *+24,1100", "TDM W+3,1", "BI *+24,1200", "TDM W+4,2", "BI *+24,1300", "TDM W+5,3", "BI *+24,1400", "TDM W+6,4"])
    deck.case("B GOES ON", "312456789005", ["B *+24", "TDM W+10,1"])
    deck.case("B BACK, THREE TIMES ROUND", "31]056789005", ["AM W+3,1,10", "CM W+3,3,10", "BNE *-24", "NOP 0"], "31]3567890050110")
    deck.case("NOP DOES NOT LOOK AT ITS OPERANDS", "312456789005", ["NOP 99999,99999"], "3124567890051010")
    deck.case("BT MOVES A FIELD AND BB COMES BACK", "3J2L45678905", ["BT SUB1,W+3"], "3J2L45678J2L1010")
    deck.case("BTM MOVES ITS FIVE DIGITS", "302345678905", ["BTM SUB2,54321"], "302345N432151010")
    deck.case("BTM OF A NEGATIVE NUMBER", "302345678905", ["BTM SUB2,-54321"], "302345N432J51010")
    deck.case("BTM OF TWO DIGITS", "302345678905", ["BTM SUB1,87,10"], "3023456789Q71010")
    deck.case("BT IN A BT: BB COMES BACK TO THE INNER ONE", "3J2L45678900", ["TFM S3B+6,*+24", "BT SUB3,W+3"], "3J2L456789121010")
    deck.case("BB DOES NOT LOOK AT ITS OPERANDS", "302345678905", ["BTM SUB6,0"], "3023456789051010")
    deck.case("BT WITH A FIELD OF TWO FLAGGED DIGITS", "3456JK789000", ["BT SUB5,W+5"], "3456JK7890JK1010")
    deck.case("BT LEAVES THE INDICATORS, 12 ON", "3J2L45678905", ["CM ONE,1,10", "BT SUB1,W+3"], "3J2L45678J2L0110")
    deck.case("B TO AN ADDRESS THAT THE PROGRAM MADE", "312456789005", ["TFM *+18,*+36", "B 0", "TDM W+10,9"], "3124567890051010")
    deck.tail("""
                DS   6
        SUB1:   TF   W+11,SUB1-1
                BB
                DS   6
        SUB2:   TF   W+10,SUB2-1
                BB
                DS   6
        SUB3:   TDM  W+10,1
                BT   SUB4,SUB3-1
                TDM  W+11,2
        S3B:    B    0
                DS   6
        SUB4:   BB
                DS   6
        SUB5:   TF   W+11,SUB5-1
                BB
                DS   6
        SUB6:   BB   99999,99999
    """)
    return deck
