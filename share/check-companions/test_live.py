"""bin/live at a terminal, with signals, and over a pack that changes; and the functions that it and bin/trace are made of."""

import fcntl
import os
import pty
import select
import signal
import subprocess
import tempfile
import termios
import time
import types
import unittest
from pathlib import Path

import common
import listing
import rehearsal
import sessions

LIVE = Path(__file__).resolve().parent.parent.parent / "bin" / "live"
PATIENCE = 60


def setUpModule():
    """A signal that is ignored here, as under nohup, gets a handler, so that the programs that are started hear it."""
    for number in (signal.SIGHUP, signal.SIGINT, signal.SIGTERM):
        if signal.getsignal(number) == signal.SIG_IGN:
            signal.signal(number, lambda *_: None)


class InFolder(unittest.TestCase):
    """A folder with a deck, and a temporary folder of its own, in which nothing may be left."""

    def setUp(self):
        made = tempfile.TemporaryDirectory(prefix="check-companions-")
        self.addCleanup(made.cleanup)
        self.folder = Path(made.name)
        (self.folder / "tmp").mkdir()
        (self.folder / "deck").write_text("38000360010048000000000000000000000012345|\n")

    def start(self, *words, **streams):
        environment = {**os.environ, "TMPDIR": str(self.folder / "tmp")}
        process = subprocess.Popen([LIVE, "--deck", "deck", *words], cwd=self.folder, env=environment, **streams)
        self.addCleanup(process.wait)
        self.addCleanup(process.kill)
        return process

    def wait(self, process, code):
        self.assertEqual(process.wait(PATIENCE), code)
        self.assertEqual(list((self.folder / "tmp").iterdir()), [])


class AtTerminal(InFolder):
    def setUp(self):
        super().setUp()
        self.terminal, other = pty.openpty()
        self.addCleanup(os.close, self.terminal)
        self.process = self.start("--typed", "typed", stdin=other, stdout=other, stderr=other, start_new_session=True,
                                  preexec_fn=lambda: fcntl.ioctl(other, termios.TIOCSCTTY, 0))
        os.close(other)

    def heard(self, wanted):
        """What comes until a text has come."""
        text, end = b"", time.monotonic() + PATIENCE
        while wanted not in text and time.monotonic() < end:
            if select.select([self.terminal], [], [], 0.1)[0]:
                try:
                    text += os.read(self.terminal, 4096)
                except OSError:     # the terminal has no other end any more
                    break
        self.assertIn(wanted, text)
        return text

    def type(self, text):
        os.write(self.terminal, text)

    def test_each_command_is_asked_for_and_end_of_file_writes(self):
        self.heard(b"debug> ")
        self.type(b"go\n")
        self.assertEqual(self.heard(b"debug> "), b"go\r\n12345HALT 00012 STEPS 2\r\ndebug> ")
        self.type(b"\x04")
        self.assertEqual(self.heard(b"\n"), b"\r\n")
        self.wait(self.process, 0)
        self.assertEqual((self.folder / "typed").read_text(), "12345")

    def test_interrupt_writes_nothing(self):
        self.heard(b"debug> ")
        self.type(b"go\n")
        self.heard(b"debug> ")
        self.type(b"\x03")
        self.wait(self.process, 130)
        self.assertFalse((self.folder / "typed").exists())


class OverPack(InFolder):
    """Whether a pack is written at the end, if somebody else does something to it meanwhile."""

    def setUp(self):
        super().setUp()
        self.pack = self.folder / "pack"
        # 00000 SK 00060, 00012 WDN 00060, 00024 H; from 00060 on sector 00000, one sector, and where its digits are.
        (self.folder / "deck").write_text("340006000701380006000702480000000000" + "0" * 24 + "10000000100060" + "\n")

    def session(self, meanwhile):
        process = self.start("--pack", "pack", stdin=subprocess.PIPE, stdout=subprocess.PIPE, stderr=subprocess.PIPE)
        self.addCleanup(process.stdout.close)
        self.addCleanup(process.stderr.close)
        process.stdin.write(b"go\n")
        process.stdin.flush()
        self.assertEqual(process.stdout.readline(), b"HALT 00024 STEPS 3\n")
        meanwhile()
        process.stdin.close()
        said = process.stderr.read()
        return process, said

    def refused(self, meanwhile, left):
        process, said = self.session(meanwhile)
        self.wait(process, 2)
        self.assertEqual(said, b"live: pack: has changed since the session began; nothing is written\n")
        self.assertEqual(self.pack.read_text() if self.pack.exists() else None, left)

    def written(self):
        process, said = self.session(lambda: None)
        self.wait(process, 0)
        self.assertEqual(said, b"")
        self.assertEqual(self.pack.read_text()[:14], "10000000100060")

    def test_pack_that_is_not_there_is_made(self):
        self.written()

    def test_pack_that_is_there_is_written(self):
        self.pack.write_text("5" * 200)
        self.written()

    def test_pack_that_another_makes_is_left(self):
        self.refused(lambda: self.pack.write_text("7"), "7")

    def test_pack_that_another_changes_is_left(self):
        self.pack.write_text("5" * 200)
        self.refused(lambda: self.pack.write_text("5" * 199 + "6"), "5" * 199 + "6")

    def test_pack_that_another_removes_is_not_made(self):
        self.pack.write_text("5" * 200)
        self.refused(self.pack.unlink, None)


class Signals(InFolder):
    def test_each_signal_leaves_no_folder(self):
        for number, code in ((signal.SIGTERM, 143), (signal.SIGHUP, 143), (signal.SIGINT, 130)):
            with self.subTest(number):
                process = self.start(stdin=subprocess.PIPE, stdout=subprocess.PIPE)
                process.stdin.write(b"go\n")
                process.stdin.flush()
                process.stdout.readline()
                process.send_signal(number)
                self.wait(process, code)
                process.stdin.close()
                process.stdout.close()


class Functions(unittest.TestCase):
    def subject(self, before, cards, is_deck):
        subject = sessions.Subject.__new__(sessions.Subject)
        subject.before, subject.cards, subject.is_deck = before, cards, is_deck
        subject.named, subject.given, subject.folder = "deck", {"data": "data", "script": "script"}, "/f"
        return subject

    def test_lines_are_counted_from_the_beginning_of_a_deck(self):
        deck = self.subject(46, 3, True)
        for line, counted in (
                ("AT 00012 STEPS 47", "AT 00012 STEPS 1"),
                ("AT 00012 STEPS 45", "AT 00012 STEPS 0"),
                ("42CHECK 03 00450 STEPS 51", "42CHECK 03 00450 STEPS 5"),
                ("LIMIT STEPS 46", "LIMIT STEPS 0"),
                ("JAM DATA 3", "JAM DECK 3"),
                ("JAM DATA 4", "JAM DATA 1"),
                ("JAM KEYS 4", "JAM KEYS 4"),
                ("I MADE 50 STEPS 50", "I MADE 50 STEPS 50")):
            self.assertEqual(deck.counted(line), counted)
        self.assertEqual(self.subject(0, 0, False).counted("AT 00012 STEPS 47"), "AT 00012 STEPS 47")

    def test_codes_of_the_end_of_a_run(self):
        for line, code in (("HALT 00012 STEPS 2", 0), ("CHECK 03 00450 STEPS 5", 3), ("LIMIT STEPS 4", 4), ("NEED CARDS 00000 STEPS 1", 5),
                           ("NEED KEYS 00000 STEPS 1", 6), ("JAM DECK 2", 9), ("", 12)):
            self.assertEqual(sessions.status_of(line), code)

    def test_files_that_are_named_twice(self):
        with tempfile.TemporaryDirectory() as folder:
            path = os.path.join(folder, "a")
            other = os.path.join(folder, "b")
            Path(path).write_text("1")
            os.link(path, other)
            sessions.check_distinct({"data": path, "keys": path, "typed": "/dev/null", "punched": "/dev/null"})
            for files in ({"data": path, "typed": other}, {"source": path, "pack": path}, {"typed": folder + "/c", "punched": folder + "/./c"}):
                with self.assertRaises(common.Failed):
                    sessions.check_distinct(files)

    def test_statements_of_a_listing(self):
        declaratives = {"DS", "DC", "DORG"}
        line = "00012 00594 ]0000000          TOTAL DC  8,0"
        self.assertEqual(listing.read_statement(line, declaratives)[:5], (12, 594, "TOTAL", "DC", 8))
        wide = "00003 100000 1                FAR   H"
        self.assertEqual(listing.read_statement(wide.replace(" 1      ", " 1       "), declaratives)[:4], (3, 100000, "FAR", "H"))
        self.assertIsNone(listing.read_statement("00001                         *A COMMENT", declaratives))
        self.assertIsNone(listing.read_statement("00002                    ", declaratives))

    def test_first_stop_tells_long_numbers_apart(self):
        trial = rehearsal.Rehearsal.__new__(rehearsal.Rehearsal)
        trial.before, trial.listing = 0, types.SimpleNamespace(at={})
        here = rehearsal.Place("", (), {(24, True): "."}, (("N", 0, 20),), 0, "", 0, "")
        old, new = "00000 10000000000000000000", "00000 10000000000000000001"
        for report, made, found in (
                ([old, "AT 00012 STEPS 5", new], 0, (1, ["CHANGED N 10000000000000000000 TO 10000000000000000001 BY . 00012 STEPS 6"])),
                ([old, "AT 00024 STEPS 5", old], 0, (1, [])),
                ([old, "AT 00024 STEPS 5", old], 3, (0, ["BREAK . 00024 STEPS 5"])),
                ([old, "HALT 00024 STEPS 5"], 3, (0, None))):
            self.assertEqual(trial.first_stop(here, report, made), found)


if __name__ == "__main__":
    unittest.main()
