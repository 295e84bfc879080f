"""The console of the machine in a browser: reads the words, and serves the page or writes a record. bin/console starts it."""

import sys

if sys.version_info < (3, 9):
    sys.stderr.write("this python3 is version %d.%d; the console needs version 3.9 or later\n" % sys.version_info[:2])
    sys.exit(126)

import os
import re
import shutil
import signal
import stat
import subprocess
import tempfile

from address import read_token, write_address
from answers import FILES, LIMIT, Answers, find_examples, read_file
from exhibit import Visits, read_languages, read_settings
from loop import Loop
from page import read_page
from program import SECONDS_MOST, SECONDS_OF_RECORD, Program, bound_files
from records import as_page, record
from runs import Inputs
from signs import Refused, script_of, to_text
from store import LIMIT_MOST, SOURCE_MOST, Store
from temporary import make_folder
from web import Server

HERE = os.path.dirname(os.path.realpath(__file__))
ME = os.environ.get("IBM1620_ME", "console")
USAGE = f"""usage: {ME} [--source FILE | --deck FILE | --exhibit] [OPTION VALUE]..
Without a source or a deck the console begins with the examples.
  --source FILE      the source
  --deck FILE        a deck
  --data FILE        the data cards
  --keys FILE        the lines of the keyboard
  --script FILE      the operator's script
  --pack FILE        the pack of the disk drives, which is only read
  --core N           20000, 40000 or 60000 positions; 20000 without it
  --limit N          steps at most; 1000000 without it
  --record OUT.html  writes the run as one page, and serves nothing
  --steps N          steps of the record at most; 10000 without it
  --port N           the port; 1620 without it, and 0 takes one that is free
  --address FILE.html  gets a page that leads to the console
  --exhibit          a panel for visitors, which begins again by itself
  --idle SECONDS     of the exhibit: until it begins again; 60 without it
  --pace CHARACTERS  of the exhibit: a second; 10 without it
  --language XX      of the exhibit, as en or de; en without it
  --help, -h         this text"""
OPTIONS = ("source", "deck", *FILES, "core", "limit", "port", "address", "record", "steps", "idle", "pace", "language")
SERVING = {"port", "address"}
VISITING = {"exhibit", "idle", "pace", "language"}
PORT, STEPS = 1620, 10_000
IDLE, PACE = 60, 10     # seconds until the exhibit begins again by itself; characters a second


class Failed(Exception):
    """Why the console ends, in a line or more for the user, and its code."""

    def __init__(self, text, code):
        super().__init__(text)
        self.code = code


def wrong(what):
    """The failure for wrong words."""
    return Failed(f"{ME}: {what}\n{USAGE.splitlines()[0]}", 2)


def read_words(words):
    """The options, by their names; each at most once."""
    if words in (["--help"], ["-h"]):
        say(USAGE)
        raise Failed("", 0)
    given, place = {}, 0
    while place < len(words):
        name = words[place][2:]
        if words[place] == "--exhibit" and name not in given:
            given[name] = True
            place += 1
            continue
        value = words[place + 1] if place + 1 < len(words) else ""
        if not words[place].startswith("--") or name not in OPTIONS or name in given:
            raise wrong(f"{words[place]}: " + ("given twice" if name in given else "no such option"))
        if not value or value.startswith("-"):
            raise wrong(f"--{name} needs a value after it")
        given[name] = value
        place += 2
    kinds = [kind for kind in ("source", "deck") if kind in given]
    allowed = SERVING | VISITING if "exhibit" in given else set(given) - VISITING if kinds else SERVING
    if len(kinds) == 2 or set(given) - allowed or "steps" in given and "record" not in given or SERVING & set(given) and "record" in given:
        raise wrong(" ".join(f"--{name}" for name in given) + ": these do not go together, or another one is missing")
    is_free_port_good = "port" not in given and "exhibit" not in given      # an exhibit is looked for where it was
    number(given, "port", PORT, 0, 65535)
    given["port"] = (given["port"], 0) if is_free_port_good else (given["port"],)
    number(given, "limit", LIMIT, 1, LIMIT_MOST)
    number(given, "steps", STEPS, 1, LIMIT_MOST)
    number(given, "idle", IDLE, 5, 3600)
    number(given, "pace", PACE, 1, 1000)
    if given.setdefault("core", "20000") not in ("20000", "40000", "60000"):
        raise wrong(f"--core {given['core']}: not 20000, 40000 or 60000")
    if not re.fullmatch(r"[a-z]{2,3}", given.setdefault("language", "en")):
        raise wrong(f"--language {given['language']}: not two or three small letters")
    given["kind"] = kinds[0] if kinds else None
    return given


def number(given, name, usual, least, most):
    text = given.get(name, str(usual))
    if not re.fullmatch(r"[0-9]{1,9}", text) or not least <= int(text) <= most:
        raise wrong(f"--{name} {text}: not a number from {least} to {most}")
    given[name] = int(text)


def read_inputs(given):
    """The inputs of the files that are named, or None where none is."""
    if not given["kind"]:
        return None
    parts = {}
    for name, most in ((given["kind"], SOURCE_MOST), *FILES.items()):
        if name not in given:
            continue
        path = given[name]
        try:
            if name == "pack" and not os.path.exists(path):     # as for the program, a pack that is not there is one of zeros
                continue
            parts[name] = read_file(path, most)
        except OSError as error:
            raise Failed(f"{ME}: --{name} {path}: {error.strerror}", 7) from None
        except Refused as why:
            raise Failed(f"{ME}: --{name} {why}", 11) from None
    return Inputs(given["kind"], parts[given["kind"]], parts.get("data", b""), parts.get("keys", b""), script_of(parts.get("script", b"")),
                  parts.get("pack") or None, int(given["core"]), given["limit"])


def as_text(inputs):
    """Inputs as the page reads them."""
    made = inputs._asdict()
    return {name: to_text(value) if isinstance(value, bytes) else list(value) if isinstance(value, tuple) else value for name, value in made.items()}


def say(text):
    """Prints a line at once."""
    if sys.stdout is None:
        raise Failed(f"{ME}: the standard output can't be written: it is closed", 7)
    try:
        print(text, flush=True)
    except OSError as error:
        raise Failed(f"{ME}: the standard output can't be written: {error.strerror}", 7) from None


def look_at_record(path, inputs):
    """A record is not written over what it is made of."""
    for name in inputs:
        if os.path.exists(path) and os.path.samefile(path, name) and stat.S_ISREG(os.stat(path).st_mode):
            raise Failed(f"{ME}: --record {path}: is the file of another option too", 7)


def write_record(path, data):
    """Writes the file whole or not at all, where it is a file; what was there before stays until the new one is written."""
    try:
        if os.path.exists(path) and not stat.S_ISREG(os.stat(path).st_mode):
            with open(path, "wb") as file:
                file.write(data)
            return
        target = os.path.realpath(path)
        if os.path.exists(target) and not os.access(target, os.W_OK):
            raise PermissionError(13, os.strerror(13))
        handle, made = tempfile.mkstemp(prefix=".ibm1620-", dir=os.path.dirname(target))
        try:
            with open(handle, "wb") as file:
                file.write(data)
            mask = os.umask(0)
            os.umask(mask)
            os.chmod(made, stat.S_IMODE(os.stat(target).st_mode) if os.path.exists(target) else 0o666 & ~mask)
            os.replace(made, target)
        except BaseException:
            os.unlink(made)
            raise
    except OSError as error:
        raise Failed(f"{ME}: --record {path}: {error.strerror}", 7) from None


def make_record(loop, store, given, inputs, page, rule):
    async def work():
        return await record(await store.make(inputs), given["steps"])
    look_at_record(given["record"], [given[name] for name in (given["kind"], *FILES) if name in given and os.path.exists(given[name])])
    found = loop.run(work())
    if loop.stopped:
        return
    made, end, last = found
    data = as_page(page, rule, made)
    write_record(given["record"], data)
    rest = "" if last == end["n"] else f", and the run goes on to {end['line']}"
    say(f"RECORDED STEPS {last} BYTES {len(data)}: {end['line'] if not rest else 'the first steps' + rest}")


def answers_for(given, store, inputs, examples):
    """What answers the requests of the page: of visitors, or of a user who debugs."""
    found = find_examples(examples)
    if "exhibit" in given:
        return Visits(store, found, read_settings(HERE), given["idle"], given["pace"])
    return Answers(store, found, as_text(inputs) if inputs else None)


def serve(loop, answers, given, page, rule):
    """Serves the page until a signal comes."""
    path = given.get("address")
    try:
        token = read_token(path) if path else None
    except OSError as error:
        raise Failed(f"{ME}: --address {path}: {error.strerror}", 7) from None
    try:
        server = Server(loop, given["port"], answers, page.encode(), rule, token)
    except OSError as error:
        raise Failed(f"{ME}: port {given['port'][0]}: {error.strerror}; --port can name another one, and 0 takes one that is free", 7) from None
    if path:
        try:
            write_address(path, server.address)
        except OSError as error:
            raise Failed(f"{ME}: --address {path}: {error.strerror}", 7) from None
    say(f"{path} leads to the console: open it in a browser.\n^C ends it." if path else f"The console is at {server.address}\n^C ends it.")
    loop.run()


def main(words):
    given = read_words(words)
    inputs = read_inputs(given)
    program = os.environ["IBM1620_PROGRAM"]
    build = os.environ.get("IBM1620_BUILD")
    if build and subprocess.run([build, "load", "--deck", os.path.join(os.environ["IBM1620_EXAMPLES"], "one-card", "deck.txt")],
                                stdin=subprocess.DEVNULL, stdout=subprocess.DEVNULL, check=False).returncode:
        return 126      # what is wrong has been told by the build
    try:
        languages = read_languages(HERE, given["language"])
        page, rule = read_page(HERE, "exhibit" if "exhibit" in given else "page", languages)
    except KeyError:
        raise Failed(f"{ME}: --language {given['language']}: there is no file words-{given['language']}.json in {HERE}", 2) from None
    except OSError as error:
        raise Failed(f"{ME}: {error.filename}: {error.strerror}", 126) from None
    bound_files()
    loop = Loop()
    try:
        folder, lock = make_folder()
    except OSError as error:
        raise Failed(f"{ME}: no folder could be made for the files of the runs: {error.strerror}; set TMPDIR to one that may be written", 7) from None
    try:
        store = Store(loop, Program(loop, program, folder, SECONDS_OF_RECORD if "record" in given else SECONDS_MOST), folder)
        if "record" in given:
            make_record(loop, store, given, inputs, page, rule)
        else:
            serve(loop, answers_for(given, store, inputs, os.environ.get("IBM1620_EXAMPLES", "")), given, page, rule)
        return 128 + loop.stopped if loop.stopped and ("record" in given or loop.stopped != signal.SIGINT) else 0
    except Refused as why:
        text = str(why).replace("\n", f"\n{ME}: ")
        raise Failed(f"{ME}: {text}", 1) from None
    finally:
        loop.close()
        shutil.rmtree(folder, ignore_errors=True)
        os.close(lock)


if __name__ == "__main__":
    try:
        code = main(sys.argv[1:])
    except Failed as why:
        try:
            if sys.stderr is not None and str(why):      # else another file may have its number
                os.write(2, f"{why}\n".encode("utf-8", "surrogateescape"))
        except OSError:
            pass
        code = why.code
    # What could not be written has been told; the interpreter shall not try again.
    os._exit(code)
