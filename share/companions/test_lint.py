"""Tests of lint's functions, and that lint has no warning for a right source or deck. Run by: python3 -B share/companions/test_lint.py"""

import glob
import os
import unittest

import lint
from common import Failed, TOP, read_file
from decks import Deck, Slip, look_at_data
from placed import Statement, Symbols, text_and_address

SOURCES = ("examples/*/source.txt", "examples/lessons/*.txt", "examples/programs/*/source.txt", "diagnostics/*/source.txt")
DECKS = ("examples/*/deck.txt", "examples/sum/with-table.txt")
TABLES = os.path.join(TOP, "examples", "tables", "deck.txt")


def files(patterns):
    return [path for pattern in patterns for path in sorted(glob.glob(os.path.join(TOP, pattern))) if os.path.basename(path) != "about.txt"]


class RightOnes(unittest.TestCase):
    def test_sources(self):
        """examples/broken-statement is refused, and says so itself; examples/programs/twos types only the last digit of its sum, and means it."""
        for path in files(SOURCES):
            if "broken-statement" not in path and "programs/twos" not in path:
                with self.subTest(path):
                    self.assertEqual(lint.look_at_source(path, None)[0], [])

    def test_decks(self):
        """A deck that needs the tables has them in front, as its page says."""
        for path in files(DECKS):
            with self.subTest(path):
                try:
                    Deck(read_file(path)).follow()
                except Slip as slip:
                    self.assertIn("no card before it has brought the add table", str(slip))
                    Deck(read_file(TABLES) + read_file(path)).follow()


class Parts(unittest.TestCase):
    def test_expressions(self):
        symbols = Symbols()
        symbols.value = {("", "A"): 500, ("X", "A"): 7, ("", "LONGER"): 9}
        for head, text, value in (("", "A + 2*3", 506), ("", "10-2-3", 5), ("", "-2*3+10", 4), ("", "***", 161604), ("", "**2", 804), ("", "-A", -500),
                                  ("X", "A", 7), ("X", "$A", 500), ("", "X$A*2", 14), ("X", "LONGER", 9), ("Y", "A", None), ("", " ", None)):
            symbols.head = head
            self.assertEqual(symbols.worth(text, 402), value, text)

    def test_texts(self):
        for operands, parts in (("5,A,B C", ("A,B C", "", "")), ("5,A,B C,500", ("A,B C", "500", ",500")), ("2,,,,500,NO,TE", (",,", "500", ",500,NO,TE")),
                                ("2,ABNOTE", ("AB", "", "NOTE"))):
            self.assertEqual(text_and_address(Statement(1, "           DAC " + operands)), parts)

    def test_data(self):
        said = {number: what for number, what, _ in look_at_data("00123 052\n00124-052\nA-B\n-7\n")}
        self.assertEqual(sorted(said), [2, 4])
        self.assertIn("-7 is punched as 0P", said[4])

    def test_words(self):
        for words, code in (([], 2), (["--core", "30000", "x"], 2), (["x", "y"], 2), (["--deck", "/nowhere"], 2), (["/nowhere"], 2)):
            with self.assertRaises(Failed) as failed:
                lint.main(words)
            self.assertEqual(failed.exception.code, code)


if __name__ == "__main__":
    unittest.main()
