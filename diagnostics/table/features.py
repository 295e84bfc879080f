"""The deck features: flags that are moved, and zones."""

from .deck import SIZE, Deck


def features():
    """The deck."""
    deck = Deck("features", "MF TNS TNF, WHERE A MACHINE HAS THEM", [
        "WHAT TNS AND TNF DO WITH FLAGS AND ZONES IS IN PART A RULE OF THIS PROJECT'S OWN.",
    ])
    deck.chains = {"T0": "TOP", "T3": "TOP-3"}
    deck.code(SIZE)
    deck.code("""
                TF   T0,TOP
                TF   T3,TOP
                SM   T3,3,10
    """)
    words = {"4": "4", "M": "FLAGGED 4", "2": "2", "K": "FLAGGED 2", "|": "MARK", "!": "FLAGGED MARK"}
    for p in ("4", "M", "|", "!"):
        for q in ("2", "K", "|", "!"):
            deck.case(f"MF TO {words[p]} FROM {words[q]}", f"3{p}56{q}8901234", ["MF W+1,W+4"])
    deck.case("MF WITH P AND Q THE SAME, FLAGGED", "3M5678901234", ["MF W+1,W+1"])
    deck.case("MF WITH P AND Q THE SAME, NO FLAG", "345678901234", ["MF W+1,W+1"])
    for number in ("J2L", "J23", "R99", "]00", "]0]", "JKL"):
        deck.case(f"TNF OF {number}", f"{number}456789012", ["TNF W+9,W+2"])
    for zone, words in (("7", "7"), ("5", "5"), ("4", "4"), ("2", "2"), ("0", "0"), ("6", "6"), ("P", "FLAGGED 7"), ("N", "FLAGGED 5")):
        deck.case(f"TNS, ZONE OF THE UNITS {words}", f"J9K07172{zone}345", ["TNS W+9,W+2"])
    deck.case("TNS: FLAGS OF P ARE NOT MOVED, THOSE OF Q STAY", "J9K0717K7L45", ["TNS W+9,W+2"], own=True)
    deck.case("TNS OF 8, 9 AND 0", "J5K078797045", ["TNS W+9,W+2"])
    deck.case("TNS OF 4, 6 AND 9", "J5K074767945", ["TNS W+9,W+2"])
    deck.case("TNS OF TWO DIGITS", "8J9K04172524", ["TNS W+9,W+2"])
    deck.case("TNS LEAVES THE INDICATORS", "J9K071727345", ["CM ONE,1,10", "TNS W+9,W+2"])
    deck.case("TNF LEAVES THE INDICATORS", "J2L456789012", ["CM ONE,2,10", "TNF W+9,W+2"])
    deck.case("THERE AND BACK", "J2L456789012", ["TNF W+9,W+2", "TNS W+9,W+2"])
    for words, last, first in (("FIRST", "3", "0"), ("LAST", "-T0", "-T3")):
        deck.case(f"TNS OF PAIRS IN THE {words} POSITIONS", "P17233J95678", [f"TF {last},W+3", f"TNS {last},W+7"])
        deck.case(f"TNF INTO PAIRS IN THE {words} POSITIONS", "J23456789012", [f"TNF {last},W+1", f"SF {first}", f"TF W+11,{last}"])
        deck.case(f"MF FROM THE {words} POSITION", "3N5678901234", [f"TD {first},W+1", f"MF W+2,{first}", f"TD W+8,{first}"])
        deck.case(f"MF TO THE {words} POSITION", "3N5678901234", [f"TD {first},W+2", f"MF {first},W+1", f"TD W+8,{first}"])
    deck.tail("""
        TOP:    DC   5,19999
        T0:     DS   5
        T3:     DS   5
    """)
    return deck
