"""Runs the programs of a class over the same cards and keys, and compares what each types and punches with what is wanted."""

import os
import re

import class_runs
import class_told
import common
import hand_ins
from class_runs import DataSet, Limits

USAGE = """usage: {me} FOLDER --typed WANTED | --task TASK [OPTION VALUE]..
FOLDER has the hand-ins: files, or a folder with a file for each pupil.
  --typed WANTED     the text that each program has to type
  --punched WANTED   the cards that it has to punch
  --data FILE        the cards that it reads
  --keys FILE        the lines of the keyboard
  --task TASK        a folder with grade.txt, instead of these four: a line is points|data|keys|typed|punched|title
  --script FILE      the operator's script
  --pack FILE        the pack of the disk drives; each run has a copy
  --core N           20000, 40000 or 60000 positions
  --limit STEPS      steps of a run at most (1000000 without it)
  --seconds N        seconds that a run may take a processor (10 without it)
  --bytes N          bytes at most in a file that a run writes (1000000 without it)
  --names ROSTER     a name a line: the table has their order, and tells who has handed nothing in
  --file NAME        the file in a pupil's folder that counts
  --feedback FOLDER  a new folder, which gets a text for each pupil
  --csv              a table for a spreadsheet
  --help, -h         this text
"""
OPTIONS = ("typed", "punched", "data", "keys", "task", "script", "pack", "core", "limit", "seconds", "bytes", "names", "file", "feedback")
MOST = 999_999_999_999      # of a limit


def main(words):
    folder, given, limits = read_words(words)
    sets = data_sets(given)
    check_inputs(folder, given, sets)
    found, others = hand_ins.listed(folder, given.get("file")), []
    if "names" in given:
        names = [line.strip() for line in lines_in(given["names"]) if line.strip()]
        found, others = hand_ins.by_roster(found, list(dict.fromkeys(names)))
    if not found:
        raise common.Failed(f"{common.ME}: {folder}: no files")
    with common.temporary_folder() as work:
        marks = class_runs.Runner(work, limits, sets, given).grade_all(found)
    if "csv" in given:
        class_told.print_csv(marks, sets)
    else:
        class_told.print_table(marks, sets)
        class_told.print_summary(marks, sets, others, given.get("names"))
    if "feedback" in given:
        class_told.write_feedback(given["feedback"], marks, sets)
    return 0 if all(map(class_told.is_right, marks)) else 1


def read_words(words):
    """The folder, the options and the limits."""
    plain, given, _ = common.read_words(words, USAGE, OPTIONS, ("csv",))
    if len(plain) != 1:
        raise common.wrong(USAGE, f"{plain[1]}: one word too many" if plain else "no folder is given")
    if "task" in given and any(name in given for name in ("typed", "punched", "data", "keys")):
        raise common.wrong(USAGE, "--task has the data and what is wanted: it goes without --typed, --punched, --data and --keys")
    if not any(name in given for name in ("typed", "punched", "task")):
        raise common.wrong(USAGE, "nothing is wanted: give --typed, --punched or --task")
    if given.get("core", "20000") not in ("20000", "40000", "60000"):
        raise common.wrong(USAGE, f"--core {given['core']}: not 20000, 40000 or 60000")
    numbers = [common.number_of(USAGE, given.get(name, usual), 1, MOST, f"--{name}")
               for name, usual in (("limit", "1000000"), ("seconds", "10"), ("bytes", "1000000"))]
    return plain[0], given, Limits(*numbers)


def check_inputs(folder, given, sets):
    """Fails if a file or folder that the words name can't be used."""
    for each in (folder, given.get("task", folder)):
        if not os.path.isdir(each):
            raise common.Failed(f"{common.ME}: {each}: no such folder")
    paths = [path for data_set in sets for path in (data_set.typed, data_set.punched, data_set.data, data_set.keys)]
    for path in [*paths, given.get("script"), given.get("pack"), given.get("names")]:
        if path:
            common.check_file(path, "many times")
    feedback_folder = given.get("feedback")
    if feedback_folder and os.path.lexists(feedback_folder) and not (os.path.isdir(feedback_folder) and not os.listdir(feedback_folder)):
        raise common.Failed(f"{common.ME}: {feedback_folder}: is there, and not an empty folder; name a new one")


def data_sets(given):
    """The data sets that the words name: those of a task, or one."""
    if "task" not in given:
        return [DataSet(None, given.get("data"), given.get("keys"), given.get("typed"), given.get("punched"), "")]
    path = os.path.join(given["task"], "grade.txt")
    common.check_file(path)
    sets = []
    for number, line in enumerate(lines_in(path), 1):
        if line.strip() and not line.startswith("#"):
            sets.append(data_set_of(line, given["task"], f"{common.ME}: {path}: line {number}"))
    if not sets:
        raise common.Failed(f"{common.ME}: {path}: no line has a data set")
    return sets


def lines_in(path):
    """The lines of a text of the teacher's, as names are read; it may begin with a byte order mark."""
    return common.lines_of(os.fsdecode(os.fsencode(common.read_file(path))).lstrip("\ufeff"))


def data_set_of(line, folder, where):
    parts = [part.strip() for part in line.split("|", 5)]
    if len(parts) != 6:
        raise common.Failed(f"{where}: not points|data|keys|typed|punched|title")
    if not re.fullmatch("[0-9]{1,4}", parts[0]):
        raise common.Failed(f"{where}: the points are not a number from 0 to 9999: {parts[0]}")
    files = [None if name in ("", "-") else os.path.join(folder, name) for name in parts[1:5]]
    if not files[2] and not files[3]:
        raise common.Failed(f"{where}: neither a typed text nor punched cards are wanted")
    return DataSet(int(parts[0]), *files, parts[5] or parts[1])
