"""Sessions that are done anew from the beginning, each by more commands than the one before, over copies of the files; and trial sessions, which
find how many steps lead to a stop."""

import collections
import filecmp
import os
import re

import common
import listing
import sessions
from common import ME, say
from sessions import DONE, END, NO_COMMAND, STOP, TOO_LONG

MARK, MARKED = "CLEAR 999999999999999", "NO STATEMENT 999999999999999"      # a command, and its line, which nothing else prints
HERE = re.compile(rf"{MARKED}\n(?:AT ([0-9]{{5}}) STEPS ([0-9]+)|({END}))\n")
REPORT = re.compile(rf"(?:{STOP}|{END})\n")
ROOM = 900_000      # bytes of a list of commands that a trial session may have

# Where a session is: what was typed to get here, the debugger's commands so far, the stops (the statement, or "." if it was set at an address, by the
# address and whether it was), the watches (name, first cell, count), how much of what the session prints was shown, the next address, the count of
# steps (None after a jam), and the line of the run's end.
Place = collections.namedtuple("Place", "typed past stops watches shown at steps ending")


class Unfit(common.Failed):
    """A command that can't be carried out: a line for the standard error, which is empty if it is said already. If the beginning of the session
    can't be, the companion ends."""


class NoCommand(Exception):
    """A line that is not a command."""


class Rehearsal:
    def __init__(self, subject):
        self.subject, self.before = subject, subject.before
        self.listing = listing.Listing(subject.path("listing"))
        self.pack, self.old_pack = subject.given.get("pack"), subject.path("old-pack")
        if self.pack and os.path.exists(self.pack):
            sessions.copy_file(self.pack, self.old_pack)
        subject.copy_inputs()

    def begin(self):
        """The place at the beginning. That of a deck is after the steps of the source that brings it in."""
        return self.go_to(Place("", (f"STEP {self.before}",) if self.subject.is_deck else (), {}, (), 0, "", 0, ""))

    def session(self, commands, *outputs, **streams):
        """A session over a fresh copy of the pack."""
        words = [*self.subject.words(commands), *outputs]
        if self.pack:
            self.subject.copy_pack(self.old_pack)
            words += ["--pack", self.subject.path("pack")]
        return self.subject.program.run(words, **streams)

    def report(self, commands):
        """The lines that a session prints, without what is typed and without the last one."""
        result = self.session(commands, "--typed", os.devnull)
        self.check(result)
        return common.lines_of(common.to_text(result.out))[:-1]

    def check(self, result):
        if result.code == NO_COMMAND:
            raise NoCommand
        if result.code == TOO_LONG:
            raise Unfit(f"{ME}: the commands have become too long for one session; UNDO takes the last one back")
        if result.code != DONE:
            self.subject.complain_of(result)
            raise Unfit("", sessions.code_of(result.code))

    def go_to(self, place, how=None):
        """Does the session of the commands of a place, and gives the place as it is then. Shows what is new: `all` of it; `last`, what is typed and the
        last stop or end; `none`, what is typed. One step more, which is not shown, tells where the session is."""
        result = self.session([*place.past, MARK, "STEP 1"])
        self.check(result)
        out = common.to_text(result.out)
        found = list(HERE.finditer(out))[-1]
        self.show_new(out[place.shown:found.start()], how)
        at, steps, ending = found.groups("")
        steps = steps or re.search(r"(?:STEPS ([0-9]+))?$", ending)[1]
        return place._replace(shown=found.start(), at=at, steps=None if steps is None else int(steps), ending=self.subject.counted(ending))

    def show_new(self, text, how):
        lines = REPORT.findall(text)
        if how == "all":
            shown = "\n".join(self.subject.counted(line) for line in text.split("\n"))
        elif how:
            shown = REPORT.sub("", text) + (self.subject.counted(lines[-1][:-1]) if how == "last" and lines else "")
        else:
            return
        say(shown, "\n" if shown and not shown.endswith("\n") else "", now=True)

    def look_ahead(self, here):
        """How many steps lead from a place to the next stop or change, and the lines to say there; no lines if the run ends before."""
        made, most = 0, 200
        shows = [f"SHOW {first} {count}" for _, first, count in here.watches]
        room = ROOM - sum(len(command) + 1 for command in here.past)
        while True:
            if shows:
                most = max(1, min(most, room // sum(len(command) + 1 for command in ("STEP 1", *shows))))
            ahead = [*shows, *(["STEP 1", *shows] * most)] if shows else [f"STEP {most}"]
            report = self.report([*here.past, *([f"STEP {made}"] if made else []), MARK, *ahead])
            steps, lines = self.first_stop(here, report[report.index(MARKED) + 1:], made)
            if steps < most or lines != []:
                return made + steps, lines or []
            made, most = made + most, most * 4

    def first_stop(self, here, report, made):
        """The first stop or change of a trial session from a place on, of which so many steps were made before: after how many more it comes, and
        its lines; None if the run ends, none if it does not."""
        steps, old, cells, by, count = 0, None, [], 0, 0
        watches, stops = here.watches, {address: number for (address, _), number in here.stops.items()}
        for line in report:
            if line.startswith("AT "):
                by, count = int(line[3:8]), int(line[15:])
                if by in stops and made + steps:
                    return steps, [f"BREAK {stops[by]} {by:05} STEPS {count - self.before}"]
                steps += 1
            elif re.fullmatch(r"[0-9]{5} [^ ]+", line):
                cells.append(line[6:])
                if len(cells) == len(watches):
                    statement = self.listing.at.get(by)
                    number = f"{statement.number:05}" if statement else "."
                    changed = [f"CHANGED {name} {a} TO {b} BY {number} {by:05} STEPS {count + 1 - self.before}"
                               for (name, *_), a, b in zip(watches, old or cells, cells) if a != b]
                    if changed:
                        return steps, changed
                    old, cells = cells, []
            else:
                return steps, None
        return steps, []

    def last_change(self, show, first, until):
        """The last step, of those from one count to another, that changes what a command shows."""
        report = self.report([*([f"STEP {first}"] if first else []), MARK, show, *["STEP 1", show] * (until - first)])
        shown = [line for line in report[report.index(MARKED) + 1:] if re.fullmatch(r"[0-9]{5} [^ ]+", line)]
        changes = [first + number for number, (old, new) in enumerate(zip(shown, shown[1:])) if old != new]
        return changes[-1] if changes else None

    def standing(self, here):
        """The commands that lead to a place; to the beginning of a deck by a step more, which reads the first card and is taken back."""
        return (f"STEP {self.before}", "STEP 1", "BACK 1") if self.is_unread(here) else here.past

    def is_unread(self, here):
        """Whether a place is the beginning of a deck, at which its first card is not read yet."""
        return self.subject.is_deck and here.steps == self.before

    def read(self, here, first, count):
        """Some cells as they are at a place."""
        try:
            return self.report([*self.standing(here), f"SHOW {first} {count}"])[-1][6:]
        except NoCommand:
            raise Unfit(f"{ME}: core has no {count} cells from {first} on; HELP has the commands") from None

    def console(self, here):
        """What the machine's console shows at a place, by the names in the line that the program says of it."""
        result = self.session(self.standing(here), "--typed", os.devnull, env={**os.environ, "IBM1620_CONSOLE": "yes"})
        self.check(result)
        said = common.to_text(result.said).rpartition("ibm1620: CONSOLE ")[2].split()
        return dict(zip(said[::2], said[1::2]))

    def write(self, here):
        """Does the session once more, now with the outputs and the pack of the user, and gives the program's code."""
        if self.pack and not self.is_pack_as_before():
            raise common.Failed(f"{ME}: {self.pack}: has changed since the session began; nothing is written")
        given = {"typed": os.devnull, "report": os.devnull, **self.subject.given}
        words = self.subject.words(here.past)
        for name in ("pack", *sessions.OUTPUTS):
            words += [f"--{name}", given[name]] if name in given else []
        result = self.subject.program.run(words)
        self.subject.complain(common.to_text(result.said))
        return sessions.code_of(result.code)

    def is_pack_as_before(self):
        if not os.path.exists(self.pack) or not os.path.exists(self.old_pack):
            return os.path.exists(self.pack) == os.path.exists(self.old_pack)
        return filecmp.cmp(self.pack, self.old_pack, shallow=False)
