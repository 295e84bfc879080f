"""The deck drives: two to four drives of the 1311, and sectors at both ends of core."""

from .deck import COPY, SIZE, Deck
from .disk import BEFORE, TEST, indicators


def drives():
    """The deck."""
    deck = Deck("drives", "TWO TO FOUR DRIVES, AND SECTORS AT BOTH ENDS OF CORE", [
        "NEEDS PACKS WITH ADDRESSES ON THE DRIVES 1 AND 2 AND, WITH SWITCH 1 ON, ON 3 AND 4. SECTORS 7, 8 AND 405 OF EACH ARE WRITTEN.",
        "SWITCH 4 ON: THE DRIVES 2 TO 4 ARE CALLED 3, 5 AND 7 IN CONTROL FIELDS.",
        "ONE CARD STANDS BEHIND THE DECK, FOR THE LOAD KEY, WHICH A PERSON PRESSES AT THE HALT.",
    ])
    deck.data = ["490282400000"]
    deck.script = ["AT 0 SWITCH 1 ON", "HALT LOAD"]

    def tried(what, lines, *on, own=False):
        """A case of disk instructions, and the indicators that they leave."""
        deck.case(what, BEFORE, [*lines, "BTM DTEST,0"], indicators(*on), own)

    deck.code("""
                B    AHEAD
                B    BACK1
        AHEAD:  NOP
    """)
    deck.code(SIZE)
    deck.code("""
                TF   TOP99,TOP
                SM   TOP99,99,10
                TF   END+13,TOP99
                TF   ENDG+13,TOP99
                TF   INTOT+13,TOP99
                BNC4 NAMED
                TDM  INTO0,3
                TDM  INTOT,3
    """)
    for drive in (2, 3, 4):
        for field in ("S7", "S405", "AS1"):
            deck.add("", "TDM", f"D{drive}{field},{2 * drive - 1}")
    deck.add("NAMED", "NOP")
    tried("DRIVE 1: SEEK, WRITE, CHECK", ["SK D1S7", "WDN D1S7", "CDN D1S7"])
    tried("DRIVE 2: SEEK, WRITE, CHECK", ["SK D2S7", "WDN D2S7", "CDN D2S7"])
    tried("SECTOR 7 OF DRIVE 1 HAS ITS OWN DIGITS STILL", ["CDN D1S7"])
    tried("SECTOR 7 OF DRIVE 2 HAS NOT THOSE OF DRIVE 1: 37", ["CDN D2AS1"], 37)
    tried("A SEEK ON DRIVE 2 MOVES ITS ARM ALONE", ["SK D2S405", "CDN D1S7"])
    tried("THE ARM OF DRIVE 2 IS AWAY FROM SECTOR 7: 36", ["CDN D2S7"], 36)
    tried("DRIVE 2 WRITES WHERE ITS ARM STANDS", ["WDN D2S405", "CDN D2S405"])
    tried("THE ARM OF DRIVE 1 IS NOT THERE: 36", ["CDN D1S405"], 36)
    tried("A SEEK ON DRIVE 1 LEAVES THAT OF DRIVE 2", ["SK D1S405", "WDN D1S405", "CDN D1S405", "CDN D2S405"])
    tried("BACK TO CYLINDER 0 ON BOTH", ["SK D1S7", "SK D2S7", "CDN D1S7", "CDN D2S7"])
    tried("A SECTOR FROM THE FIRST POSITIONS OF CORE", ["WDN FIRST", "CDN FIRST"])
    deck.case("A SECTOR INTO THE FIRST POSITIONS OF CORE", BEFORE, ["RDN INTO0", "BTM COPY,0"], "2222222222221010")
    tried("A SECTOR INTO THE LAST POSITIONS OF CORE, AND FROM THERE", ["RDN INTOT", "WDN END", "CDN END"])
    tried("NO GROUP MARK CAN STAND BEHIND THEM: 37", ["CDGN ENDG"], 37)
    tried("36, 37 AND 38 ON", ["CDN D2AS1", "SK D1S405", "CDN D1S7", "SK D1S7", "CDN OVER"], 36, 37, 38)
    deck.case(
        "THE LOAD KEY TURNS OFF 36, 37 AND 38", BEFORE,
        ["CDN D2AS1", "SK D1S405", "CDN D1S7", "SK D1S7", "CDN OVER", "H", "BACK1: BTM DTEST,0", "CM ONE,0,10"], indicators(), own=True)
    deck.code("""
                BTM  CHECK,0
                BNC1 FINISH
    """)
    for drive in (3, 4):
        tried(f"DRIVE {drive}: SEEK, WRITE, CHECK", [f"SK D{drive}S7", f"WDN D{drive}S7", f"CDN D{drive}S7"])
        tried(f"SECTOR 7 OF DRIVE {drive} HAS NOT THE DIGITS OF DRIVE 1: 37", [f"CDN D{drive}AS1"], 37)
        tried(f"A SEEK ON DRIVE {drive} MOVES ITS ARM ALONE", [f"SK D{drive}S405", "CDN D1S7", "CDN D2S7"])
        tried(f"THE ARM OF DRIVE {drive} IS AWAY FROM SECTOR 7: 36", [f"CDN D{drive}S7"], 36)
        tried(f"DRIVE {drive} IN CYLINDER 2, AND BACK", [f"WDN D{drive}S405", f"CDN D{drive}S405", f"SK D{drive}S7", f"CDN D{drive}S7"])
    tried("ALL FOUR HAVE THEIR OWN DIGITS", ["CDN D1S7", "CDN D2S7", "CDN D3S7", "CDN D4S7"])
    deck.tail(COPY)
    deck.tail(TEST)
    deck.tail("""
                DAC  1,0                           CONTROL FIELDS AND BUFFERS BEGIN AT EVEN ADDRESSES
    """)
    for drive in (1, 2, 3, 4):
        deck.keep(f"D{drive}S7", "DDA", f"{drive},7,1,BUF{drive}")
        deck.keep(f"D{drive}S405", "DDA", f"{drive},405,1,BUF{drive}")
        deck.keep(f"D{drive}AS1", "DDA", f"{drive},7,1,BUF1")
    deck.tail("""
        FIRST:  DDA  1,8,1,0
        INTO0:  DDA  2,7,1,0
        INTOT:  DDA  2,7,1,19900
        END:    DDA  1,8,1,19900
        ENDG:   DDA  1,8,1,19900
        OVER:   DDA  1,199,2,BUF1
        TOP:    DC   5,19999
        TOP99:  DS   5
                DAC  1,0
    """)
    for drive in (1, 2, 3, 4):
        deck.keep(f"BUF{drive}", "DSC", f"50,{str(drive) * 50}")
        deck.keep("", "DSC", f"50,{str(drive) * 50}")
    return deck
