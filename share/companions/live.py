"""A debugger at the terminal, over a source or a deck. Each command that is typed goes after those before it, the session is done anew from the
beginning, and what is new is shown: over the same files a session prints the same. It reads copies of the files, the pack among them, and writes at
the end alone. For a count of GO, a stop at an address or a watch the debugger has no command: a trial session finds how many steps to make."""

import collections
import re
import sys

import common
import listing
import sessions
from common import ME, complain, say
from rehearsal import NoCommand, Rehearsal, Unfit

USAGE = """usage: {me} SOURCE [OPTION VALUE].., or {me} --deck DECK [OPTION VALUE]..
A debugger at the terminal, or over commands that come through a pipe; HELP, typed to it, shows its commands. Files are written at QUIT.
  --deck DECK     a deck in the place of the source; counts of steps are those of load
""" + sessions.OPTIONS[1:] + """  --listing FILE  gets the listing
  --report FILE   gets what the debugger prints
"""
HELP = """GO [n]         run to the next breakpoint, or to the end; n times
STEP n         execute n instructions, and show each
SKIP n         the same, and show the last place alone
BACK n         go n places back
BEFORE x       go back to before the step that changed x last, as if no more had been made
BREAK s        set a breakpoint at statement s of the source, or at a label
BREAK AT a     set one at the address a
CLEAR ..       clear it
WATCH x        let GO stop after each step that changes x, UNWATCH x no more
SHOW x         show the field that ends at x, or what is declared there
SHOW a n       show n cells of core from a on
LIGHTS         show the indicators that are on, IR-2, the switches, the arms of the drives, and how many cards and lines were read
UNDO           take the last command back, as if it had never been typed
HELP           show this
QUIT           end: what was punched, typed and put on the pack is written now (^D does the same, ^C writes nothing)
x and a are an address or a label, or one of these and + or - a number; after x a number of cells may follow.
Any other command of debug will do too. What looks odd in a source, lint tells without a run."""
LIGHTS = ("06 READ CHECK", "07 WRITE CHECK", "09 LAST CARD", "11 HIGH POSITIVE", "12 EQUAL ZERO", "14 OVERFLOW", "16 PARITY EVEN", "17 PARITY ODD",
          "36 DISK ADDRESS", "37 DISK LENGTH", "38 CYLINDER OVERFLOW")
TO_NUMBERS = str.maketrans(common.FLAGGED, common.NUMBERS)

Cells = collections.namedtuple("Cells", "first text kind")      # kind: field, text or digits


class Live:
    """The places at which the session was after each command, the last one being where it is."""

    def __init__(self, subject):
        self.rehearsal, self.before, self.is_deck, self.line = Rehearsal(subject), subject.before, subject.is_deck, ""
        self.listing, self.cards = self.rehearsal.listing, subject.cards
        self.signs = {character.pair: sign for sign, character in common.read_characters().items()}
        self.places = [self.rehearsal.begin()]

    @property
    def here(self):
        return self.places[-1]

    def carry_out(self, line):
        """Carries out a line that was typed."""
        self.line = line
        words = line.split(" ")
        try:
            if words[0] in COMMANDS:
                COMMANDS[words[0]](self, words)
            else:
                self.add([line])
        except NoCommand:
            raise Unfit(f"{ME}: no command: {line}; HELP has them") from None

    def add(self, commands, how="all", **changes):
        """Goes on by commands of the debugger. UNDO takes them back as one."""
        place = self.here._replace(typed=self.line, past=(*self.here.past, *commands), **changes)
        self.places.append(self.rehearsal.go_to(place, how) if commands else place)

    def where(self):
        return self.here.ending or f"AT {self.here.at} STEPS {self.here.steps - self.before}"

    def go(self, words):
        require(len(words) <= 2)
        count = number_of(words[1]) if len(words) == 2 else 1
        if not self.here.watches and not any(is_at for _, is_at in self.here.stops):
            self.add(["GO"] * count, "last" if count > 1 else "all")
            return
        old = len(self.places)
        while count and self.go_on():
            count -= 1
        self.places[old:] = self.places[-1:]

    def go_on(self):
        """GO, once, if there are watches or stops at addresses. Says whether it has come to a stop, and not to the run's end."""
        steps, lines = self.rehearsal.look_ahead(self.here)
        self.add([f"STEP {steps}"] if lines else ["GO"], "none" if lines else "last")
        for line in lines:
            say(line, now=True)
        return bool(lines)

    def skip(self, words):
        require(len(words) == 2 and words[1].isdigit())
        self.add([f"STEP {words[1]}"], "none")
        say(self.where(), now=True)

    def back(self, words):
        """BACK, which leads no further than to the beginning of a deck."""
        is_counted = self.is_deck and len(words) == 2 and self.here.steps is not None
        if is_counted and number_of(words[1]) > self.here.steps - self.before:
            say(f"NO {self.line}", now=True)
        else:
            self.add([self.line])

    def go_before(self, words):
        """Goes back to before the step that changed a place last: looks from the end, further and further back. The session is then one that has
        made only the steps before it."""
        if self.here.steps is None:
            raise Unfit(f"{ME}: a run that has ended by a jam has no count of steps: UNDO takes GO back")
        cells = self.cells_at(words[1:], whole=True)
        until, piece, step = self.here.steps, 1000, None
        while step is None and until > self.before:
            first = max(until - piece, self.before)
            step = self.rehearsal.last_change(f"SHOW {cells.first} {len(cells.text)}", first, until)
            until, piece = first, min(piece * 8, 25_000)
        if step is None:
            raise Unfit(f"{ME}: {words[1]} has not changed since the Load key")
        stops = [f"BREAK {int(number)}" for number in self.here.stops.values() if number != "."]
        self.places.append(self.rehearsal.go_to(self.here._replace(typed=self.line, past=(*stops, f"STEP {step}"))))
        say(self.where())
        self.show_cells(self.read(cells.first, len(cells.text), cells.kind))

    def set_stop(self, words):
        is_at = words[1:2] == ["AT"] and len(words) == 3
        require(is_at or len(words) == 2 and len(words[1]) <= 15)
        if is_at:
            address, number = self.find(words[2])[0], "."
        elif self.is_deck:
            raise Unfit(f"{ME}: a deck has no statements and labels: {words[0]} AT, and an address")
        else:
            number = int(words[1]) if words[1].isdigit() else self.labelled(words[1]).number
            address, number = self.listing.address_of(number), f"{number:05}"
        stops = {key: value for key, value in self.here.stops.items() if key != (address, is_at)}
        if words[0] == "BREAK" and address is not None:
            stops[address, is_at] = number
        self.add([] if is_at else [f"{words[0]} {int(number)}"], stops=stops)

    def set_watch(self, words):
        cells = self.cells_at(words[1:], whole=True)
        watches = tuple(watch for watch in self.here.watches if watch[0] != words[1])
        if words[0] == "WATCH":
            watches += ((words[1], cells.first, len(cells.text)),)
        self.add([], watches=watches)
        if words[0] == "WATCH":
            self.show_cells(cells)

    def show(self, words):
        """SHOW. A count of cells from a plain address on is a command of the debugger."""
        if len(words) == 3 and words[1].isdigit() and words[2].isdigit() and not self.rehearsal.is_unread(self.here):
            self.add([self.line])
        else:
            self.show_cells(self.cells_at(words[1:]))

    def labelled(self, label):
        if label not in self.listing.labelled:
            raise Unfit(f"{ME}: no label {label}")
        return self.listing.labelled[label]

    def find(self, word):
        found = self.listing.find(word)
        if found is None:
            raise Unfit(f"{ME}: no label {word}")
        return found

    def read(self, first, count, kind):
        return Cells(first, self.rehearsal.read(self.here, first, count), kind)

    def cells_at(self, words, whole=False):
        """The cells of a place, with a count of them if there is one. A field is as long as it is declared if it is wanted `whole`, else up to its
        flag, within a hundred digits."""
        require(1 <= len(words) <= 2)
        address, statement = self.find(words[0])
        if len(words) == 2:
            require(re.fullmatch(r"[0-9]{1,4}", words[1]))
            return self.read(address, int(words[1]), "digits")
        count, kind = listing.extent(statement)
        if kind != "field":
            return self.read(address - (kind == "text"), count, kind)
        if whole and count:
            return self.read(address - count + 1, count, kind)
        first = max(address - 99, 0)
        text = self.read(first, address - first + 1, kind).text
        flag = max(place for place in range(-1, len(text) - 1) if place < 0 or text[place] in common.FLAGS)
        begin = flag if flag >= 0 else max(len(text) - 10, 0)
        return Cells(first + begin, text[begin:], kind if flag >= 0 else "digits")

    def show_cells(self, cells):
        """Shows cells, and the number or the text that they are."""
        said = ""
        digits = cells.text.translate(TO_NUMBERS)
        if cells.kind == "field" and digits.isdigit():
            said = f"  {'-' if int(digits) and cells.text[-1] in common.FLAGGED else ''}{int(digits)}"
        elif cells.kind == "text":
            pairs = [digits[place:place + 2] for place in range(0, len(digits) - 1, 2)]
            said = "  " + "".join("@" if pair[1] in common.MARKS else self.signs.get(pair, "?") for pair in pairs)
        say(f"{cells.first:05} {cells.text}{said}", now=True)

    def show_lights(self, words):
        """Shows what the machine's console shows here. What was read stays read after BACK."""
        require(len(words) == 1)
        value = self.rehearsal.console(self.here)
        names = {light[:2]: light for light in LIGHTS}
        for code in value["ON"].split(","):
            say("ON NONE" if code == "-" else f"ON {names.get(code, code)}")
        say(f"IR2 {value['IR2']} SWITCHES {value['SWITCHES']} STOPS {value['STOPS']} ARMS {value['ARMS']}", now=True)
        if not self.rehearsal.is_unread(self.here):
            # The cards of a deck are data cards of its session.
            data = int(value["DATA"])
            deck = min(data, self.cards) if self.is_deck else int(value["DECK"])
            say(f"READ DECK {deck} DATA {data - deck if self.is_deck else data} KEYS {value['KEYS']}", now=True)

    def undo(self, words):
        """Takes the last command back. What it showed stays on the screen; the next command shows what comes after those that are left."""
        require(len(words) == 1)
        if len(self.places) == 1:
            raise Unfit(f"{ME}: there is no command to take back")
        complain(f"taken back: {self.places.pop().typed}")

    def help(self, words):
        require(len(words) == 1)
        complain(HELP)


COMMANDS = {"GO": Live.go, "SKIP": Live.skip, "BACK": Live.back, "BEFORE": Live.go_before, "BREAK": Live.set_stop, "CLEAR": Live.set_stop,
            "WATCH": Live.set_watch, "UNWATCH": Live.set_watch, "SHOW": Live.show, "LIGHTS": Live.show_lights, "UNDO": Live.undo, "HELP": Live.help}


def require(is_command):
    if not is_command:
        raise NoCommand


def number_of(word):
    require(re.fullmatch(r"[0-9]{1,5}", word) and int(word) > 0)
    return int(word)


def typed_lines():
    """The commands as they are typed, in capitals, with one blank between words. At a terminal each is asked for."""
    is_terminal = sys.stdin is not None and sys.stdin.isatty()
    while sys.stdin is not None:
        if is_terminal:
            complain("debug> ", "")
        line = sys.stdin.buffer.readline()
        if not line:
            if is_terminal:
                complain("")    # after ^D the shell's prompt begins a line
            return
        if line.strip():
            yield " ".join(common.to_text(line).upper().split())


def main(words):
    is_deck = "--deck" in words
    options = sessions.DECK_OPTIONS if is_deck else (*sessions.SOURCE_OPTIONS, "listing", "report")
    words = common.read_words(words, USAGE, options, ("status",), None if is_deck else ("source", "commands"))
    for word in sessions.after_source(USAGE, words):
        raise common.wrong(USAGE, f"{word}: no such word")
    with common.temporary_folder() as folder:
        live = Live(sessions.Subject(folder, words, True))
        for line in typed_lines():
            if line == "QUIT":
                break
            try:
                live.carry_out(line)
            except Unfit as why:
                if str(why):
                    complain(why)
        code = live.rehearsal.write(live.here)
        if code != sessions.DONE:
            return code
        return sessions.status_of(live.here.ending) if "status" in words.given else 0
