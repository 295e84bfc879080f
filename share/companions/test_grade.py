"""Tests of what bin/grade goes by: what differs in two texts, what is a deck, whose a hand-in is, and that a program is built once."""

import os
import pathlib
import subprocess
import sys
import tempfile
import unittest

import compare
import hand_ins
from hand_ins import HandIn

BESIDE = pathlib.Path(__file__).resolve().parent
LONG = b"1" * 4096      # as many bytes as are read of a line at a time


class Differences(unittest.TestCase):
    """What came, what is wanted, and the difference in a line: None if there is none."""

    ROWS = (
        (b"42\n", b"42", None), (b"42", b"42\r\n\r\n", None), (b"42\r", b"42", None), (LONG, LONG + b"\r\n", None),
        (LONG[1:] + b"\n2", LONG[1:] + b"\r\n2", None), (LONG + b"\n2", LONG + b"\r\n2", None),
        (b"2580", b"002580", "line 1: 2580, wanted 002580"), (b"42 ", b"42", 'line 1: "42 ", wanted "42"'),
        (b"", b"42", "line 1 is missing: 42"), (b"42\n43", b"42", "line 2 is too much: 43"), (b"42\n\n43", b"42\n43", 'line 2: "", wanted "43"'),
        (b"a\tb", b"a\\x09b", "line 1: a\\x09b, wanted a\\x5cx09b"),
        (LONG + b"\n2", LONG + b"5\n2", "line 1, column 4097: ..." + "1" * 20 + ", wanted ..." + "1" * 20 + "5"),
    )
    RIGHT_SO_FAR = ((b"", b"42"), (b"4", b"42"), (b"42\n", b"42\n43"), (LONG, LONG + b"2"))
    NOT_SO_FAR = ((b"43", b"42"), (b"4\n", b"42"), (b"4\n2", b"42"), (b"42\n43", b"42"), (LONG + b"\n2", LONG + b"5"))

    def differ(self, came, wanted):
        with tempfile.TemporaryDirectory() as folder:
            paths = [pathlib.Path(folder, name) for name in ("came", "wanted")]
            for path, text in zip(paths, (came, wanted)):
                path.write_bytes(text)
            return compare.first_difference(*paths)

    def test_lines(self):
        for came, wanted, line in self.ROWS:
            with self.subTest(came=came[:20], wanted=wanted[:20]):
                difference = self.differ(came, wanted)
                self.assertEqual(difference and compare.in_a_line(difference, "line"), line)

    def test_so_far(self):
        for rows, is_right in ((self.RIGHT_SO_FAR, True), (self.NOT_SO_FAR, False)):
            for came, wanted in rows:
                with self.subTest(came=came[:20], wanted=wanted[:20]):
                    self.assertEqual(self.differ(came, wanted).is_prefix, is_right)


class HandIns(unittest.TestCase):

    def test_decks(self):
        for text, is_deck in ((b"48", True), (b"15]04000000011", True), (b"01010KLMNOPNOP\n           DENDKLMNOP", False), (b"     START H", False),
                              (b"3800024 0100", False)):
            with self.subTest(text=text):
                self.assertEqual(hand_ins.is_deck(text), is_deck)

    def test_links(self):
        with tempfile.TemporaryDirectory() as folder:
            pathlib.Path(folder, "solution").write_text("48")
            for target in ("solution", "nowhere"):
                link = pathlib.Path(folder, "link to " + target)
                link.symlink_to(target)
                with self.assertRaises(hand_ins.NotRun) as found:
                    hand_ins.read(HandIn("link", str(link)))
                self.assertEqual(found.exception.result, "link")

    def test_roster(self):
        found = [HandIn(name, name) for name in ("ann_1_file", "ann lee_2_file", "Zoe\u0301.txt", "ben")]
        ordered, others = hand_ins.by_roster(found, ["Zo\u00e9", "ann lee", "ann", "carl"])
        self.assertEqual([each.path for each in ordered], ["Zoe\u0301.txt", "ann lee_2_file", "ann_1_file", None, "ben"])
        self.assertEqual(others, ["ben"])


class Building(unittest.TestCase):
    """In a folder like the repository, with a program that is not built yet."""

    BUILDER = '#!/bin/sh\necho building >&2\ntop=${0%/bin/ibm1620}\nmkdir -p "$top/crates/ibm1620/out"\ncp "$top/program" "$top/crates/ibm1620/out/ibm1620"\n'
    PROGRAM = "#!/bin/sh\necho HALT 00000 STEPS 1 > report\n"

    def test_once(self):
        with tempfile.TemporaryDirectory() as made:
            top = pathlib.Path(made).resolve()
            for folder in ("bin", "share", "class", "examples/one-card"):
                (top / folder).mkdir(parents=True)
            (top / "share" / "companions").symlink_to(BESIDE)
            for name, text in (("bin/ibm1620", self.BUILDER), ("program", self.PROGRAM)):
                (top / name).write_text(text)
                (top / name).chmod(0o755)
            for name in ("class/ada", "class/ben"):
                (top / name).write_text("48")
            (top / "wanted").write_text("")
            self.assertEqual(self.grade(top), (0, "building\n"))

    def grade(self, top):
        environment = {name: value for name, value in os.environ.items() if name != "IBM1620"}
        code = f"import sys; sys.path.insert(0, {str(BESIDE)!r}); import common; common.TOP = {str(top)!r}; common.BUILT = common.TOP + " \
            "'/crates/ibm1620/out/ibm1620'; import grade; common.start(grade.main, sys.argv[1:])"
        ended = subprocess.run([sys.executable, "-B", "-c", code, "class", "--typed", "wanted"], cwd=top, env=environment,
                               stdout=subprocess.DEVNULL, stderr=subprocess.PIPE, check=False)
        return ended.returncode, ended.stderr.decode()


if __name__ == "__main__":
    unittest.main()
