"""The hand-ins of a class: what lies in its folder, whose each one is, and what it has. Nothing in them is trusted, and no link is followed."""

import collections
import errno
import os
import re
import stat
import unicodedata

import common

MOST = 4_000_000    # bytes of a hand-in, as of a source
SOURCE_END = re.compile(rb"^.{11}DEND", re.MULTILINE)
INSTRUCTION = re.compile(rb"[0-9][0-9][]0-9J-R|!]{0,10}")

# A hand-in: the name by which the table has it, and its file, or else why there is none to run: its result and what is told of it.
HandIn = collections.namedtuple("HandIn", "name path result why", defaults=("", ""))


class NotRun(Exception):
    """A hand-in that can't be run: its result, and what is told of it."""

    def __init__(self, result, why):
        super().__init__(result, why)
        self.result, self.why = result, why


def listed(folder, chosen=None):
    """The hand-ins of a class: each file of the folder, and each folder in it, which is that of a pupil and has one file, or the file `chosen`."""
    found = []
    for entry in entries(folder):
        if entry.is_dir(follow_symlinks=False):
            found.append(in_folder(entry, chosen))
        else:
            found.append(HandIn(entry.name, entry.path))
    return found


def in_folder(entry, chosen):
    files = [each for each in entries(entry.path) if not each.is_dir(follow_symlinks=False)]
    if chosen is not None:
        files = [each for each in files if each.name == chosen]
    if not files:
        return missing(entry.name)
    if len(files) > 1:
        return HandIn(entry.name, None, "unclear", "the folder has several files: " + ", ".join(each.name for each in files))
    return HandIn(entry.name, files[0].path)


def missing(name):
    return HandIn(name, None, "missing", "nothing handed in")


def entries(folder):
    """What lies in a folder, by name. Hidden names are left out."""
    try:
        with os.scandir(folder) as found:
            return sorted((each for each in found if not each.name.startswith(".")), key=lambda each: os.fsencode(each.name))
    except OSError as error:
        raise common.Failed(f"{common.ME}: {folder}: {error.strerror}", common.HOST) from None


def by_roster(found, names):
    """The hand-ins in the order of a roster, each under its name there, and those that nobody's name has, whose names come too. A name has
    the file or the folder of that name, with an ending or without, or with more after a `_`."""
    of_name = {name: [] for name in names}
    others = []
    for hand_in in found:
        owners = [name for name in names if is_of(composed(name), composed(hand_in.name))]
        (of_name[max(owners, key=len)] if owners else others).append(hand_in)
    ordered = []
    for name, own in of_name.items():
        ordered += [own[0]._replace(name=name)] if len(own) == 1 else own or [missing(name)]
    return ordered + others, [hand_in.name for hand_in in others]


def is_of(name, file):
    return name in (file, file.rpartition(".")[0]) or file.startswith(name + "_")


def composed(name):
    """A name in one form: some systems write a letter and its accent as two characters."""
    return unicodedata.normalize("NFC", name)


def read(hand_in):
    """The bytes of a hand-in."""
    if hand_in.path is None:
        raise NotRun(hand_in.result, hand_in.why)
    try:
        number = os.open(hand_in.path, os.O_RDONLY | os.O_NOFOLLOW | os.O_NONBLOCK | os.O_CLOEXEC)
        with open(number, "rb") as file:
            if not stat.S_ISREG(os.fstat(number).st_mode):
                raise NotRun("failed", "neither a file nor a folder")
            text = file.read(MOST + 1)
    except OSError as error:
        if error.errno == errno.ELOOP:
            raise NotRun("link", "a link is not followed: hand in the file itself") from None
        raise NotRun("failed", "may not be read" if error.errno == errno.EACCES else error.strerror) from None
    if not text.strip():
        raise NotRun("empty", "nothing is in the file")
    if len(text) > MOST:
        raise NotRun("too long", f"over {MOST} bytes")
    return text


def is_deck(text):
    """Whether a hand-in is a deck. A deck begins with an instruction: the first twelve columns of its first card are digits, with flags or
    without. A statement may begin so too, with its page, its line and a label; but a source has DEND in columns 12 to 15 of a line."""
    columns = text.split(b"\n", 1)[0].rstrip(b"\r")[:12]
    return bool(INSTRUCTION.fullmatch(columns)) and not SOURCE_END.search(text)
