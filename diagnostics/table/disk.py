"""The deck disk: drive 1 of the 1311."""

from .deck import COPY, Deck
from .sheet import FLAGGED, UNFLAGGED

BEFORE = "333335432109"
BUFFER = "012345678901" "]JKLMNOPQR12" "1|2!3|456789" + "0" * 58 + "777777K77777" + "1" * 90 + "9876543210123" + "4" * 3
# Puts 1 into W for indicator 39, into W+1 to W+3 for 36 to 38, and then into W+4 for 39 again, else 0; all of them are off behind it.
TEST = """
            DS   6
    DTEST:  TDM  W,1
            TDM  W+1,1
            TDM  W+2,1
            TDM  W+3,1
            TDM  W+4,1
            BI   *+24,3900
            TDM  W,0
            BI   *+24,3600
            TDM  W+1,0
            BI   *+24,3700
            TDM  W+2,0
            BI   *+24,3800
            TDM  W+3,0
            BI   *+24,3900
            TDM  W+4,0
            BB
"""


def indicators(*on):
    """The window and indicators behind DTEST where these of 36, 37 and 38 were on."""
    return f"{int(bool(on))}{''.join(str(int(code in on)) for code in (36, 37, 38))}054321091010"


def buffer(label, digits):
    """The statements of a buffer of these digits: a flagged digit has a statement of its own."""
    runs = []
    for digit in digits:
        if digit in UNFLAGGED and runs and runs[-1][0] in UNFLAGGED and len(runs[-1]) < 50:
            runs[-1] += digit
        else:
            runs.append(digit)
    for run in runs:
        yield label, "DSC", f"{len(run)},{run if run[0] in UNFLAGGED else '-' + UNFLAGGED[FLAGGED.index(run)]}".replace("|", "@")
        label = ""


def disk():
    """The deck."""
    deck = Deck("disk", "THE 1311: SEEK, WRITE, READ BACK, CHECK", [
        "NEEDS A PACK ON DRIVE 1 WHOSE SECTORS 00000 TO 19999 HAVE THEIR ADDRESSES; SECTORS 5 TO 7,",
        "00198 TO 00200, 00405 AND 19995 ARE WRITTEN.",
    ])

    def tried(what, lines, *on, own=False):
        """A case of disk instructions, and the indicators that they leave."""
        deck.case(what, BEFORE, [*lines, "BTM DTEST,0"], indicators(*on), own)

    tried("SEEK TO CYLINDER 0, NO INDICATOR", ["TD BUF+200,GM", "TD RBUF+200,GM", "SK D5"])
    tried("WDGN OF TWO SECTORS", ["WDGN D5"])
    tried("CDGN OF WHAT WAS WRITTEN", ["CDGN D5"])
    tried("RDGN TO ANOTHER PLACE", ["RDGN D5R"])
    for first, words in ((0, "DIGITS"), (12, "FLAGS"), (24, "MARKS"), (94, "OVER THE END OF THE FIRST SECTOR"), (188, "THE LAST DIGITS")):
        deck.case(f"WHAT CAME BACK: {words}", BEFORE, [f"BTM COPY,RBUF+{first}"], f"{BUFFER[first:first + 12]}1010")
    deck.case("THE GROUP MARK BEHIND THE BUFFER IS STILL THERE", BEFORE, ["BNG *+24,RBUF+200", "TDM W,1"], "1333354321091010")
    deck.case("BNG ON A DIGIT", BEFORE, ["BNG *+24,RBUF+199", "TDM W,1"], "3333354321091010")
    tried("CDGN AFTER A DIGIT WAS CHANGED: 37", ["TDM BUF+150,8", "CDGN D5", "TDM BUF+150,1"], 37)
    tried("CDGN AFTER A FLAG WAS CHANGED: 37", ["SF BUF+199", "CDGN D5", "CF BUF+199"], 37)
    tried("CDGN AGAIN WITH ALL AS IT WAS", ["CDGN D5"])
    tried("A GROUP MARK WITH THE OTHER FLAG WILL DO AS WELL", ["SF BUF+200", "CDGN D5", "CF BUF+200", "CDGN D5"])
    deck.case(
        "BNG ON A GROUP MARK WITH AND WITHOUT A FLAG", BEFORE, ["SF GM", "BNG *+24,GM", "TDM W,1", "CF GM", "BNG *+24,GM", "TDM W+1,2"],
        "1233354321091010")
    tried("RDGN WITHOUT A GROUP MARK BEHIND: 37", ["RDGN D5N"], 37)
    tried("RDN LOOKS FOR NO GROUP MARK", ["RDN D5N"])
    tried("WDGN WITHOUT A GROUP MARK BEHIND: 37", ["WDGN D7N"], 37)
    tried("WDN, CDN OF ONE SECTOR", ["WDN D7", "CDN D7"])
    tried("FLAGS IN A CONTROL FIELD MEAN NOTHING", ["SF D7", "SF D7+5", "SF D7+8", "SF D7+13", "CDN D7"])
    tried("CDN OF OTHER DIGITS: 37", ["CDN D7N"], 37)
    tried("A SECTOR OF ANOTHER CYLINDER WITHOUT A SEEK: 36", ["RDN DFARN"], 36)
    tried("SEEK THERE, WRITE AND READ", ["SK DFAR", "WDN DFAR", "CDN DFAR"])
    tried("THE SECTORS OF CYLINDER 0 ARE AWAY NOW: 36", ["RDN D5N"], 36)
    tried("THE LAST CYLINDER, SECTOR 19995", ["SK DLAST", "WDN DLAST", "CDN DLAST"])
    tried("BACK TO CYLINDER 0: ITS SECTORS ARE AS THEY WERE", ["SK D5", "CDGN D5"])
    tried("THREE SECTORS FROM 00198 RUN OVER THE CYLINDER: 38", ["SK D200", "WDN D200", "SK D5", "WDN D198"], 38)
    tried("BOTH THAT FIT WERE WRITTEN", ["CDN D198B"])
    tried("SECTOR 00200, OF THE NEXT CYLINDER, IS AS IT WAS", ["SK D200", "CDN D200", "SK D5"])
    tried("THE SAME THREE CHECKED: THE THIRD, WHICH DIFFERS, IS LEFT OUT", ["CDN D198"], 38)
    deck.case(
        "THE SAME THREE READ: TWO COME, AND THE CELLS BEHIND THEM STAY", BEFORE,
        ["TDM RBUF+199,0", "TDM RBUF+250,3", "RDN D198R", "TD W+5,RBUF+199", "TD W+6,RBUF+250", "BTM DTEST,0"], "1001063321091010")
    deck.case(
        "A GROUP MARK IN A SECTOR, WRITTEN AND READ WITHOUT LENGTH CHECK", BEFORE,
        ["TD GBUF+40,GM", "WDN D7G", "TDM GBUF+40,0", "RDN D7G", "BNG *+24,GBUF+40", "TDM W+5,1", "BTM DTEST,0"], "0000014321091010")
    deck.case("BNG ON A RECORD MARK", "|33335432109", ["BNG *+24,W", "TDM W,1"], "|333354321091010")
    deck.case("A GROUP MARK IS NO RECORD MARK: BNR GOES", BEFORE, ["BNR *+24,GM", "TDM W,1"], "3333354321091010", own=True)
    deck.case(
        "A GROUP MARK IS NO RECORD MARK: TR GOES ON", "12345|789|12", ["TD W+2,GM", "TR W+6,W", "TDM W+2,5", "TDM W+8,5"], "12545|12545|1010",
        own=True)
    tried("SEEK OF SECTOR 20000: 36", ["SK DBAD"], 36, own=True)
    deck.case(
        "INDICATORS STAY OVER OTHER DISK INSTRUCTIONS; A TEST TURNS OFF ONE ALONE: 36 AND 38", BEFORE,
        ["WDN D198", "RDN DFARN", "BI *+24,3600", "TDM W,1", "BTM DTEST,0"], "1001054321091010", own=True)
    deck.tail(COPY)
    deck.tail(TEST)
    deck.tail("""
                DAC  1,0                           CONTROL FIELDS AND BUFFERS BEGIN AT EVEN ADDRESSES
        D5:     DDA  1,5,2,BUF
        D5R:    DDA  1,5,2,RBUF
        D5N:    DDA  1,5,2,NBUF
        D7:     DDA  1,7,1,BUF+100
        D7G:    DDA  1,7,1,GBUF
        D7N:    DDA  1,7,1,BUF
        DFAR:   DDA  1,405,1,BUF+100
        DFARN:  DDA  1,405,1,NBUF
        DLAST:  DDA  1,19995,1,BUF+100
        D198:   DDA  1,198,3,BUF
        D198B:  DDA  1,198,2,BUF
        D198R:  DDA  1,198,3,RBUF
        D200:   DDA  1,200,1,BUF+100
        DBAD:   DDA  1,20000,1,BUF
    """)
    for line in buffer("BUF", BUFFER[:200]):
        deck.keep(*line)
    deck.tail("""
                DS   2
        RBUF:   DSS  200
                DS   2
        NBUF:   DSS  200
                DSC  1,5
                DAC  1,0
    """)
    for line in buffer("GBUF", "3" * 100):
        deck.keep(*line)
    deck.tail("""
                DS   2
        # THE GROUP MARK STANDS ON A CARD OF ITS OWN.
        GM:     DGM
                DS   2
    """)
    return deck
