"""Makes records of the programs of the lessons: pages that a browser opens from a file, with no server and without the program, and an index that shows
each next to its source."""

import html
import subprocess
import tempfile
from pathlib import Path
from typing import NamedTuple

from card import framed

STYLE = """body { margin: 0 auto; max-width: 110em; padding: 0 1em; font: 16px/1.4 sans-serif }
section { display: flex; flex-wrap: wrap; gap: 1em }
pre { font: 13px/1.3 monospace; background: #f4f1e8; padding: .6em; margin: 0; overflow-x: auto; flex: 1 1 24em }
iframe { flex: 3 1 60em; height: 46em; border: 1px solid #bbb }
"""
TITLES = {"data": "Cards:\n", "keys": "Keyboard:\n"}
CARDS = "000100\n001000\n000250\n"


class Lesson(NamedTuple):
    """A program of a lesson: the files below examples/ that make it, and the lines, or the file, of its cards and of its keyboard."""
    lesson: int
    name: str
    files: tuple
    data: str = ""
    keys: str = ""

    def kind(self):
        return "deck" if self.files[0].endswith("deck.txt") else "source"


PROGRAMS = (
    Lesson(1, "one-card", ("one-card/deck.txt",)),
    Lesson(2, "write-text", ("write-text/deck.txt",)),
    Lesson(3, "add-two-without-tables", ("add-two/deck.txt",)),
    Lesson(3, "add-two", ("tables/deck.txt", "add-two/deck.txt")),
    Lesson(4, "first-source", ("first-source/source.txt",)),
    Lesson(5, "squares", ("programs/squares/source.txt",)),
    Lesson(5, "sums", ("lessons/sums.txt",)),
    Lesson(6, "payroll", ("payroll/source.txt",), "payroll/data.txt"),
    Lesson(6, "largest", ("lessons/largest.txt",), CARDS),
    Lesson(7, "calendar", ("programs/calendar/source.txt",), "", "071969\n\n"),
    Lesson(7, "product", ("lessons/product.txt",)),
    Lesson(8, "changes", ("lessons/changes.txt",)))


def texts_of(top, program):
    """The texts of a program: its source or deck, its cards and the lines of its keyboard, by the options of the console."""
    def read(name):
        return name if "\n" in name or not name else (top / "examples" / name).read_text(encoding="utf-8")
    return {program.kind(): "".join(map(read, program.files)), "data": read(program.data), "keys": read(program.keys)}


def record(top, program, folder):
    """Makes the record of a program by bin/console."""
    with tempfile.TemporaryDirectory() as made:
        words = [str(top / "bin" / "console"), "--steps", "20000", "--record", str(folder / f"{program.name}.html")]
        for option, text in texts_of(top, program).items():
            if text:
                path = Path(made) / f"{option}.txt"
                path.write_text(text, encoding="utf-8")
                words += [f"--{option}", str(path)]
        subprocess.run(words, stdin=subprocess.DEVNULL, stdout=subprocess.DEVNULL, check=True)


def index(top):
    """The page that has the source and the record of each program side by side."""
    made = ["<h1>The programs of the lessons</h1>\n<p>Go through each program step by step: <b>SIE</b> makes one step, <b>Back</b> goes one back, "
            "<b>START</b> lets it run. These pages need no program and no network. Nothing can be changed in them.</p>\n"]
    for program in PROGRAMS:
        texts = [TITLES.get(option, "") + text for option, text in texts_of(top, program).items() if text]
        source = html.escape("\n".join(texts), quote=False)
        made.append(f'<h2>Lesson {program.lesson}: <a href="{program.name}.html">{program.name}</a></h2>\n<section><pre>{source}</pre>\n'
                    f'<iframe src="{program.name}.html" title="{program.name}" loading="lazy"></iframe></section>\n')
    return framed("The programs of the lessons", STYLE, "".join(made))


def make_records(top, folder):
    """Makes all records in a folder, with their index."""
    folder.mkdir(parents=True)
    for program in PROGRAMS:
        record(top, program, folder)
    (folder / "index.html").write_text(index(top), encoding="utf-8")
