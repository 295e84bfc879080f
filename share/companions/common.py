"""What the companions share: words and failures, files and temporary folders, the program and its runs, the tables of share/."""

import collections
import contextlib
import os
import re
import resource
import shutil
import signal
import subprocess
import sys
import tempfile

ME = os.environ.get("IBM1620_ME") or "companion"    # the name by which the user called the script
SHARE = os.path.dirname(os.path.dirname(os.path.realpath(__file__)))    # has the tables, in the repository and if installed
TOP = os.path.dirname(SHARE) if os.path.basename(SHARE) == "share" else os.path.dirname(os.path.dirname(SHARE))
BUILT = os.path.join(TOP, "crates", "ibm1620", "out", "ibm1620")        # the program, in the repository alone
HOST, CANNOT = 7, 126       # codes: a file or the standard output failed; the work could not begin
READS = {"twice": "no file that can be read twice", "many times": "no file that can be read many times"}
NUMBERS = "0123456789"
FLAGGED = "]JKLMNOPQR"      # the digits 0 to 9 with a flag
FLAGS = FLAGGED + "!\"*"    # every digit with a flag
MARKS = "|!"                # the record mark, without and with a flag


class Failed(Exception):
    """Why a companion ends: lines for the standard error (none if they are empty), and its code."""

    def __init__(self, text, code=2):
        super().__init__(text)
        self.code = code


class Ended(BaseException):
    """A signal that ends the companion. It passes every `except Exception`, and every `with` tidies up."""

    def __init__(self, code):
        super().__init__(code)
        self.code = code


# Words.

Words = collections.namedtuple("Words", "plain given handed")


def wrong(usage, what):
    """The failure for a wrong word: what is wrong, and the first line of the usage."""
    return Failed(f"{ME}: {what}\n{usage_line(usage)}")


def usage_line(usage):
    return usage.format(me=ME).split("\n", 1)[0]


def read_words(words, usage, options=(), flags=(), refused=None):
    """Sorts the words: `plain` ones in a list; `given`, each option's value (or True for a flag) by its name without the `--`; `handed`, the
    options with their values that the program gets: only if `refused` has the names that may not be among them, else there are none.
    `usage` has a first line "usage: {me} ..", and a line for each option. Prints it for --help and -h, and ends with code 0."""
    plain, given, handed = [], {}, []
    left = collections.deque(words)
    while left:
        word = left.popleft()
        if word in ("--help", "-h"):
            say(usage.format(me=ME).rstrip("\n"))
            raise Failed("", 0)
        name = word[2:]
        if word == "-" or word and not word.startswith("-"):
            plain.append(word)
        elif name in given or word in handed[::2]:
            raise wrong(usage, f"{word} is given twice")
        elif word == f"--{name}" and name in flags:
            given[name] = True
        elif word == f"--{name}" and (name in options or name and refused is not None and name not in refused):
            if not left or not left[0] or left[0].startswith("--"):
                raise wrong(usage, f"{word} needs a value after it")
            if name in options:
                given[name] = left.popleft()
            else:
                handed += [word, left.popleft()]
        else:
            raise wrong(usage, f"{word}: no such option" if word else "a word is empty")
    return Words(plain, given, handed)


def number_of(usage, text, least, most, name):
    """The number that a word says; `name` is what the failure calls it."""
    if not re.fullmatch(r"[0-9]{1,15}", text) or not least <= int(text) <= most:
        raise wrong(usage, f"{name} {text}: not a number from {least} to {most}")
    return int(text)


# Output.

def say(text="", end="\n", now=False):
    """Writes to the standard output. `now`: at once, for somebody who waits."""
    try:
        sys.stdout.buffer.write(os.fsencode(text + end))
        if now:
            sys.stdout.buffer.flush()
    except (OSError, AttributeError) as error:
        raise output_failed(error) from None


def complain(text, end="\n"):
    """Writes a line to the standard error, which is lost if that fails."""
    with contextlib.suppress(OSError):
        if sys.stderr is not None:      # if it is closed, another file may have its number
            os.write(2, os.fsencode(f"{text}{end}"))


def output_failed(error):
    return Failed(f"{ME}: the standard output can't be written: {getattr(error, 'strerror', None) or 'it is closed'}", HOST)


def start(main, words):
    """Runs `main` over the words and ends the process with the code that it returns (0 for None), or with the code of a failure or a signal."""
    for number in (signal.SIGINT, signal.SIGTERM, signal.SIGHUP):
        if signal.getsignal(number) != signal.SIG_IGN:
            signal.signal(number, end_by)
    try:
        try:
            code = main(words) or 0
        finally:
            if sys.stdout is not None:
                sys.stdout.buffer.flush()
    except Failed as why:
        code = why.code
        if str(why):
            complain(why)
    except Ended as why:
        code = why.code
    except OSError as error:
        code = HOST
        complain(output_failed(error) if error.filename is None else f"{ME}: {error.filename}: {error.strerror}")
    os._exit(code)      # a stream that failed has been told of; Python must not try it again


def end_by(number, _):
    for each in (signal.SIGINT, signal.SIGTERM, signal.SIGHUP):
        signal.signal(each, signal.SIG_IGN)
    raise Ended(130 if number == signal.SIGINT else 143)


# Files.

def check_file(path, reads="twice"):
    """Fails if the file can't be read: `twice`, `many times` or, from a pipe too, `once`."""
    if not os.path.exists(path):
        raise Failed(f"{ME}: {path}: no such file")
    if reads == "once" and os.path.isdir(path):
        raise Failed(f"{ME}: {path}: a folder, and no file")
    if reads != "once" and not os.path.isfile(path):
        raise Failed(f"{ME}: {path}: {READS[reads]}")
    if not os.access(path, os.R_OK):
        raise Failed(f"{ME}: {path}: may not be read")


def read_file(path):
    """The text of a file, a character for each byte; `say` and `os.fsencode` make the same bytes of it."""
    try:
        with open(path, "rb") as file:
            return to_text(file.read())
    except OSError as error:
        raise Failed(f"{ME}: {path}: {error.strerror}", HOST) from None


def read_input(path):
    """The text of a file that is read once, or of the standard input, if its name is -."""
    if path != "-":
        check_file(path, "once")
        return read_file(path)
    if sys.stdin is None:
        raise Failed(f"{ME}: the standard input can't be read: it is closed", HOST)
    return to_text(sys.stdin.buffer.read())


def to_text(data):
    return data.decode("ascii", "surrogateescape")


def lines_of(text):
    """The lines of a text, without their line ends, LF or CR LF."""
    lines = text.split("\n")
    return [line[:-1] if line.endswith("\r") else line for line in (lines if lines[-1] else lines[:-1])]


@contextlib.contextmanager
def temporary_folder():
    """A folder in TMPDIR that is removed at the end, also if a signal or a failure is the end."""
    try:
        folder = tempfile.mkdtemp(prefix="ibm1620-", dir=os.environ.get("TMPDIR") or None)
    except OSError as error:
        raise Failed(f"{ME}: no temporary folder could be made: {error.strerror}; set TMPDIR to a folder that may be written", CANNOT) from None
    try:
        yield folder
    finally:
        shutil.rmtree(folder, ignore_errors=True)


# The program.

Result = collections.namedtuple("Result", "code out said late")     # a code below 0 is a signal's; `late` if the time was up


class Program:
    """The program that the variable IBM1620 names, or else the `ibm1620` beside the scripts, which is built once before its first run."""

    def __init__(self):
        named = os.environ.get("IBM1620")
        beside = os.path.join(TOP, "bin", "ibm1620")
        self.path = shutil.which(named or beside)
        self.builder = None if named or os.path.basename(SHARE) != "share" else beside
        if self.path is None:
            raise Failed(f"{ME}: {named or beside}: no program; IBM1620 can name one")
        self.path = os.path.abspath(self.path)

    def build(self):
        """Builds the program if that is needed, and shows how far the build is. A companion with many runs calls this first."""
        if self.builder:
            deck = os.path.join(TOP, "examples", "one-card", "deck.txt")
            with running([self.builder, "load", "--deck", deck], signal.SIGINT, stdin=subprocess.DEVNULL, stdout=subprocess.DEVNULL) as process:
                if process.wait():
                    raise Failed("", CANNOT)    # bin/ibm1620 has said why
            self.builder, self.path = None, BUILT

    def begin(self, words, **streams):
        """A context with a process of the program, as `subprocess.Popen` makes it with these streams; it is ended if the context fails."""
        self.build()
        return running([self.path, *words], restore_signals=False, **streams)

    def run(self, words, given=b"", seconds=None, file_bytes=None, **streams):
        """Runs the program with the bytes `given` on its standard input, at most so many seconds, and writing at most so many bytes to a file.
        Its output and its standard error are kept. `streams` has others, if there are any (stdin=None, stderr=None: the companion's own)."""
        streams = {**dict.fromkeys(("stdin", "stdout", "stderr"), subprocess.PIPE), **streams}
        if file_bytes is not None:
            streams["preexec_fn"] = lambda: resource.setrlimit(resource.RLIMIT_FSIZE, (file_bytes, file_bytes))
        with self.begin(words, **streams) as process:
            try:
                out, said = process.communicate(given if process.stdin else None, seconds)
                late = False
            except subprocess.TimeoutExpired:
                end(process, signal.SIGKILL)
                out, said = process.communicate()
                late = True
        return Result(process.returncode, out or b"", said or b"", late)


@contextlib.contextmanager
def running(line, number=signal.SIGTERM, **options):
    """A process in a session of its own, unless the options say otherwise; if the context fails, its group gets this signal and, two seconds later,
    the last one."""
    try:
        process = subprocess.Popen(line, **{"start_new_session": True, **options})
    except OSError as error:
        raise Failed(f"{ME}: {line[0]}: {error.strerror}", CANNOT) from None
    try:
        yield process
    finally:
        if process.poll() is None:
            end(process, number)
            try:
                process.wait(2)
            except subprocess.TimeoutExpired:
                end(process, signal.SIGKILL)
        for stream in (process.stdin, process.stdout, process.stderr):
            if stream:
                with contextlib.suppress(OSError):
                    stream.close()
        process.wait()


def end(process, number):
    with contextlib.suppress(ProcessLookupError):
        if os.getpgid(process.pid) == process.pid:
            os.killpg(process.pid, number)
        else:
            process.send_signal(number)


# The tables of share/, whose heads say what their columns are, and the digits of core as the program writes them.

Operation = collections.namedtuple("Operation", "kind code name operands cells words")
Character = collections.namedtuple("Character", "sign holes digit pair")


def table_rows(name):
    text = read_file(os.path.join(SHARE, name))
    return text.split("\n\n", 1)[1].splitlines()


def read_operations():
    """The operations in the table's order. A declarative has no code (None); a unique mnemonic has the digits of its Q as operands."""
    rows, kind = [], ""
    for row in table_rows("operations.txt"):
        if not re.match(r"(--|[0-9][0-9]) ", row):
            kind = row
            continue
        field = (row.split(None, 4) + [""] * 4)[:5]
        rows.append(Operation(kind, None if field[0] == "--" else int(field[0]), *field[1:]))
    return rows


def read_characters():
    """The characters of cards, by their sign. A digit or a pair that there is not is None."""
    table = {}
    for row in table_rows("characters.txt"):
        holes, digit, pair = row[1:].split()
        table[row[0]] = Character(row[0], holes, *(None if value == "-" else value for value in (digit, pair)))
    return table


def digit_of(character):
    """The value of a digit of core, 0 for what has none."""
    place = (NUMBERS + FLAGGED).find(character or " ")
    return place % 10 if place >= 0 else 0


def has_flag(character):
    return bool(character) and character in FLAGS
