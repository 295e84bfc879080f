"""The deck addresses: immediate digits, and chains of addresses."""

from .deck import Deck


def addresses():
    """The deck."""
    deck = Deck("addresses", "IMMEDIATE DIGITS AND INDIRECT ADDRESSES", [
        "CHAINS OF 1 TO 10 FIELDS FOR P AND FOR Q; A MACHINE NEEDS THE FEATURE INDIRECT ADDRESSING.",
    ])
    for length in range(1, 11):
        for name, end in (("CQ", "W+1"), ("CP", "W+3"), ("CF", "W+5")):
            deck.keep(f"{name}{length}", "DSA", f"-{name}{length - 1}" if length > 1 else end)
            deck.chains[f"{name}{length}"] = end
    deck.chains.update({"ALLF": "W+1", "CQ2A": "W+2", "CP2B": "W+4", "CT": "W+6"})
    for length in range(1, 11):
        deck.case(f"Q BY A CHAIN OF {length}", "3N4567890123", [f"TD W+2,-CQ{length}"])
        deck.case(f"P BY A CHAIN OF {length}", "3N4567890123", [f"TD -CP{length},W+1"])
    deck.case("P AND Q BOTH, BY CHAINS OF 10 AND 7", "3N4567890123", ["TD -CP10,-CQ7"])
    deck.case("TF OVER A CHAIN OF 3", "3N4J57890123", ["TF W+9,-CF3"])
    deck.case("THE FLAG WRITTEN IN THE FLAG PART, POSITION 6", "3N4567890123", ["TD CP1,W+1,6"], "3N4N678901231010")
    deck.case("THE FLAG WRITTEN IN THE FLAG PART, POSITION 11", "3N4567890123", ["TD W+2,CQ1,11"], "3NN5678901231010")
    deck.case("FLAGS ON THE OTHER FOUR DIGITS ARE NO CHAIN", "3N4567890123", ["TD W+2,W+1,234578910"])
    deck.case("FLAGS IN ALL FIVE DIGITS OF A FIELD OF THE CHAIN", "3N4567890123", ["TD W+2,-ALLF"])
    deck.case("SF THROUGH A CHAIN", "3N4567890123", ["SF -CP2"])
    deck.case("CF THROUGH A CHAIN", "3N4N67890123", ["CF -CP2"])
    deck.case("TDM THROUGH A CHAIN", "3N4567890123", ["TDM -CP2,9"])
    deck.case("TDM: THE FLAG OF Q11 IS THE DIGITS OWN", "3N4567890123", ["TDM W+2,-9"])
    deck.case("TFM: THE FLAG OF Q11 IS THE SIGN", "3N4567890123", ["TFM W+7,-12345"])
    deck.case("AM THROUGH A CHAIN, A NEGATIVE NUMBER", "3]9567890123", ["AM -CQ2A,-2,10"])
    deck.case("A THROUGH TWO CHAINS", "3]9]67890123", ["A -CQ2A,-CP2B"])
    deck.case("C THROUGH TWO CHAINS", "3]9]97890123", ["C -CQ2A,-CP2B"])
    deck.case("B THROUGH A CHAIN", "3N4567890123", ["TFM BF,*+36", "B -BF", "TDM W+2,1"], "3N45678901231010")
    deck.case("BD THROUGH TWO CHAINS", "3N4567890123", ["TFM BF,*+36", "BD -BF,-CQ3", "TDM W+2,1"], "3N45678901231010")
    deck.case("BNF THROUGH TWO CHAINS, NOT TAKEN", "3N4567890123", ["TFM BF,*+36", "BNF -BF,-CQ3", "TDM W+2,1"], "3N15678901231010")
    deck.case("BNR THROUGH TWO CHAINS", "3N4567890123", ["TFM BF,*+36", "BNR -BF,-CQ3", "TDM W+2,1"], "3N45678901231010")
    deck.case("BH THROUGH A CHAIN", "3N4567890123", ["TFM BF,*+36", "BH -BF", "TDM W+2,1"], "3N45678901231010")
    deck.case("BT THROUGH TWO CHAINS", "3N4J37890123", ["BT -SUBA,-CP2B"], "3N4J378J31231010")
    deck.case("TR THROUGH TWO CHAINS", "3N4J3|890123", ["TR -CT,-CQ4"])
    deck.case(
        "AN ADDRESS THAT THE PROGRAM COUNTS UP: THREE DIGITS OF A TABLE", "300067890123",
        ["TFM BF,TENS+7", "TD W+1,-BF", "AM BF,1,10", "TD W+2,-BF", "AM BF,1,10", "TD W+3,-BF", "CM ONE,0,10"], "3789678901231010")
    deck.case("A COUNT OVER A HUNDRED: 00099 + 1", "300067890123", ["TFM W+7,99", "AM W+7,1,10"])
    deck.tail("""
        CQ2A:   DSA  W+2
        CP2B:   DSA  -CP2C
        CP2C:   DSA  W+4
        CT:     DSA  W+6
        BF:     DS   5
        SUBA:   DSA  SUBB
                DS   6
        SUBB:   TF   W+8,SUBB-1
                BB
        ALLF:   DSA  -CQ1
                DSC  4,0
        TENS:   DSC  10,0123456789
    """)
    return deck
