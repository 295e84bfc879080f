"""Sessions of the program's debugger over a source or a deck, for the companions that are made of them."""

import contextlib
import os
import re
import shutil

import common
from common import CANNOT, HOST, ME, Failed

INPUTS = ("data", "keys", "script")
OUTPUTS = ("object", "image", "listing", "punched", "typed", "report")
DECK_OPTIONS = ("deck", "pack", "limit", "core", "punched", "typed", *INPUTS)
SOURCE_OPTIONS = (*DECK_OPTIONS[1:], "object", "image", "form")
OPTIONS = """
  --data FILE     the cards behind the deck
  --keys FILE     the lines of the keyboard
  --script FILE   the operator's script
  --pack FILE     the disk's pack, read and written; made if it is not there
  --limit N       the greatest number of steps; 1000000 without it
  --core N        core's positions: 20000, 40000 or 60000; 20000 without it
  --punched FILE  gets the punched cards; without it they are dropped
  --typed FILE    gets what the machine types
  --status        the code says how the run has ended: 0 by a halt, 3 by a check, 4 at the limit, 5 for want of cards, 6 of lines of the
                  keyboard, 9 by a jam; 12 if it has not ended
  --help, -h      this text
for a source alone:
  --form FORM     the form of the object deck, self or dense; self without it
  --object FILE   gets the object deck
  --image FILE    gets the image
"""
MOST = 999_999_999_999_999      # the greatest number that the program reads
CORE, LIMIT = 20_000, 1_000_000     # the positions of core, and the limit of steps, if the user names none
TOO_LONG, DONE, NO_COMMAND = 11, 12, 13     # codes of `debug`: the commands are too long, were carried out, or one of them is not a command
STATUS = {"HALT": 0, "CHECK": 3, "LIMIT": 4, "NEED CARDS": 5, "NEED KEYS": 6, "JAM": 9}
END = r"(?:(?:HALT|CHECK [0-9]+|NEED [A-Z]+) [0-9]{5} STEPS [0-9]+|LIMIT STEPS [0-9]+|JAM [A-Z]+ [0-9]+)"
STOP = r"(?:(?:BREAK [0-9]{5}|AT) [0-9]{5} STEPS [0-9]+)"
LAST_LINE = "SESSION ENDED"

# A deck is brought in by a source of its own. It halts, the operator clears the halt's digits bit by bit, and presses the Load key over the deck.
# Core, indicators and registers are then those of a machine that has just been turned on. All of this takes 46 steps.
LOADER = "     START H\n" + "".join(f"           DSC 50,0,{address}\n" for address in range(100, 400, 50)) + "           DENDSTART\n"
LOADER_SCRIPT = "HALT FLIP 402 2\nHALT FLIP 402 5\nHALT FLIP 403 3\nHALT FLIP 403 5\nHALT LOAD\n"
LOADER_STEPS = 46


def after_source(usage, words):
    """The plain words but for the source, which is named unless there is a deck."""
    if "deck" in words.given:
        return words.plain
    if not words.plain:
        raise common.wrong(usage, "a source or a deck is missing")
    return words.plain[1:]


def write_file(path, text):
    try:
        with open(path, "wb") as file:
            file.write(os.fsencode(text))
    except OSError as error:
        raise Failed(f"{ME}: {path}: {error.strerror}", HOST) from None


def copy_file(source, target):
    try:
        shutil.copyfile(source, target)
    except OSError as error:
        raise Failed(f"{ME}: {error.filename or target}: {error.strerror}", HOST) from None


def check_distinct(files):
    """Fails if an output or the pack is a file that is named twice: the program sees copies, and would write over it. `files`: paths by options."""
    seen = {}
    for name, path in files.items():
        same = os.path.realpath(path)
        if os.path.exists(same):
            if not os.path.isfile(same):
                continue
            status = os.stat(same)
            same = status.st_dev, status.st_ino
        if same in seen and (name == "pack" or name in OUTPUTS):
            raise Failed(f"{ME}: --{name} {path}: the same file as {seen[same]}", HOST)
        seen.setdefault(same, f"the source {path}" if name == "source" else f"--{name} {path}")


def status_of(ending):
    """The code that says how a run has ended, by the line of its end, which is empty if it has not."""
    return next((code for words, code in STATUS.items() if ending.startswith(words)), DONE)


def code_of(code):
    """The code of a process, as a shell has it: also if a signal has ended it."""
    return 128 - code if code < 0 else code


class Subject:
    """A source or a deck, with its files, of which the debugger is given sessions.

    `folder` is a temporary one. `words` are those of the user. Counts of steps, of a script and of a limit begin `before` steps after the Load
    key: those that load the deck. `counts_loading`: the steps that load the deck of a source count too, as they do for `debug`. Of the inputs
    `reads_once`, which are for one session alone, may be pipes.
    """

    def __init__(self, folder, words, counts_loading, reads_once=()):
        self.folder, self.given, self.handed = folder, words.given, words.handed
        self.program = common.Program()
        self.is_deck = "deck" in self.given
        self.named = self.given["deck"] if self.is_deck else words.plain[0]
        self.check_files(reads_once)
        self.inputs = {name: self.given[name] for name in INPUTS if name in self.given}
        self.source, self.cards, self.before, self.limit = self.named, 0, 0, None
        if self.is_deck:
            self.source, self.before = self.path("source"), LOADER_STEPS
            write_file(self.source, LOADER)
        if "script" in self.inputs:
            self.inputs["script"] = self.path("script")
            write_file(self.path("script"), common.read_file(self.given["script"]))
        self.check_words(reads_once)
        if not (self.is_deck or counts_loading):
            self.before = self.loading_steps()
        self.core = int(self.given.get("core", CORE))
        self.limit = min(int(self.given.get("limit", LIMIT)) + self.before, MOST)
        self.prepare_inputs()

    def path(self, name):
        return os.path.join(self.folder, name)

    def check_files(self, reads_once):
        common.check_file(self.named)
        for name in INPUTS:
            if name in self.given and name not in reads_once:
                common.check_file(self.given[name], "once" if name == "script" else "twice")
        files = {name: self.given[name] for name in (*INPUTS, "pack", *OUTPUTS) if name in self.given}
        check_distinct({"deck" if self.is_deck else "source": self.named, **files})

    def check_words(self, left_out):
        """Does a session without a command. What is wrong with the words or the source the program says of them as the user has named them."""
        own = ["--listing", self.path("listing"), "--object", self.path("object"), "--report", self.path("report")]
        inputs = {name: path for name, path in self.inputs.items() if name not in left_out}
        limit = ["--limit", self.given["limit"]] if "limit" in self.given else []
        result = self.program.run([*self.words([], inputs), *limit, *own])
        if result.code != DONE:
            report = common.read_file(self.path("report")) if os.path.exists(self.path("report")) else ""
            common.say(common.to_text(result.out) + report, "", now=True)
            self.complain_of(result)
            raise Failed("", code_of(result.code) or CANNOT)

    def loading_steps(self):
        """The steps in which the object deck loads itself: four of each card but the last, and one of that one."""
        cards = common.read_file(self.path("object")).count("\n")
        return 4 * (cards - 2) + 3 if self.given.get("form") == "dense" else 4 * (cards - 1) + 1

    def prepare_inputs(self):
        """Puts the deck in front of the data, and counts the lines of the script from its count 0 on."""
        if self.is_deck:
            deck = common.read_file(self.named)
            deck += "\n" if deck and not deck.endswith("\n") else ""
            self.cards = deck.count("\n")
            write_file(self.path("data"), deck + (common.read_file(self.given["data"]) if "data" in self.given else ""))
            self.inputs["data"] = self.path("data")
        if self.is_deck or "script" in self.inputs:
            script = common.read_file(self.path("script")) if "script" in self.inputs else ""
            later = re.sub(r"^AT ([0-9]+)", lambda found: f"AT {min(int(found[1]) + self.before, MOST)}", script, flags=re.M)
            write_file(self.path("script"), (LOADER_SCRIPT if self.is_deck else "") + later)
            self.inputs["script"] = self.path("script")

    def copy_inputs(self):
        """Lets the sessions read copies, so that they stay the same over files that change. A script and the data of a deck are copies already."""
        if not self.is_deck:
            copy_file(self.source, self.path("source"))
            self.source = self.path("source")
        for name, path in self.inputs.items():
            if path != self.path(name):
                copy_file(path, self.path(name))
                self.inputs[name] = self.path(name)

    def copy_pack(self, pack):
        """Puts a copy of a pack into the folder, or none if there is no pack."""
        with contextlib.suppress(FileNotFoundError):
            os.remove(self.path("pack"))
        if os.path.exists(pack):
            copy_file(pack, self.path("pack"))

    def words(self, commands, inputs=None):
        """The words for a session of these commands: all but those of the pack and the outputs."""
        write_file(self.path("commands"), "".join(f"{command}\n" for command in commands))
        words = ["debug", "--source", self.source, "--commands", self.path("commands"), *self.handed]
        for name, path in (self.inputs if inputs is None else inputs).items():
            words += [f"--{name}", path]
        for name in ("core", "form"):
            words += [f"--{name}", self.given[name]] if name in self.given else []
        return words if self.limit is None else [*words, "--limit", str(self.limit)]

    def counted(self, line):
        """A line of the session, in which the steps and the cards before those that count are not counted. It may end with what was typed."""
        if not self.before or not re.search(rf"(?:{STOP}|{END})$", line):
            return line
        begin, number = line[:line.rindex(" ") + 1], int(line[line.rindex(" ") + 1:])
        if begin.endswith(" STEPS "):
            return f"{begin}{max(number - self.before, 0)}"
        if self.is_deck and begin.endswith("JAM DATA "):
            return f"{begin[:-5]}DECK {number}" if number <= self.cards else f"{begin}{number - self.cards}"
        return line

    def complain_of(self, result):
        """Says what the program has said of why it failed, or else that it did."""
        self.complain(common.to_text(result.said) or f"{ME}: {self.program.path}: ended with code {code_of(result.code)}, and said nothing\n")

    def complain(self, said):
        """Says what the program has said, of the files as the user has named them."""
        names = {"source": self.named, **self.given}
        for line in common.lines_of(said):
            for name in ("source", *INPUTS):
                line = line.replace(f"--{name} {self.path(name)}:", f"--{name} {names.get(name, '')}:")
            found = re.match(r"(ibm1620: )--data .*?: line ([0-9]+)(, column .*)", line) if self.is_deck else None
            if found and int(found[2]) <= self.cards:
                line = f"{found[1]}--deck {self.named}: line {found[2]}{found[3]}"
            elif found:
                line = f"{found[1]}--data {self.given['data']}: line {int(found[2]) - self.cards}{found[3]}"
            common.complain(line)
