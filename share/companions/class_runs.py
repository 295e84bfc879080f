"""Runs the hand-ins of a class, some at a time and within limits, and judges each run by what is wanted."""

import collections
import concurrent.futures
import contextlib
import os
import re
import shutil
import signal
import subprocess
import tempfile
import threading

import common
import compare
import hand_ins

INPUTS = ("data", "keys", "script", "pack")
TEXTS = ("typed", "punched")
OWN = (*TEXTS, "report", "said", *INPUTS)   # files in the folder of a run
PACK = 8_000_000    # bytes of a pack; a run that writes its last sector makes a file of that length
SAID_MOST = 50_000  # bytes of what the program says that are kept
STOPS = {3: "check", 4: "limit", 5: "needs cards", 6: "needs keys", 9: "jam"}
NOT_OURS = (2, 10, 15)      # codes that no hand-in causes: the teacher's words or script are wrong
LIMITED = 'ulimit -f "$0" && ulimit -S -t "$1" && shift && exec "$@"'    # the shell's words; it becomes the program
WAITS = 10          # a run on a busy computer may last this many times as long as it takes a processor
TOO_SLOW = 124

# What is wanted of a program over one set of cards and keys; a file that there is not is None. Points are None if none are given.
DataSet = collections.namedtuple("DataSet", "points data keys typed punched title")
Limits = collections.namedtuple("Limits", "steps seconds bytes")
# A run: its result, its code (None if there was no run), the report line or another reason, what the program said, and what its texts are.
Outcome = collections.namedtuple("Outcome", "result code what said compared", defaults=("", ()))
# A hand-in with the outcome of each data set, and whether it was taken as a deck or a source (None if there was no run).
Mark = collections.namedtuple("Mark", "hand_in kind outcomes")
# How what a program typed or punched differs from what is wanted, None if it does not; and whether there was nothing at all.
Compared = collections.namedtuple("Compared", "name difference is_empty")


class Runner:
    """Runs hand-ins, each in a folder of its own, within limits."""

    def __init__(self, folder, limits, sets, given):
        """`given` has the words that hold for each run: the script, the pack and the size of core."""
        self.program = common.Program()
        self.program.build()
        self.folder, self.limits, self.sets, self.given = folder, limits, sets, given
        self.lock, self.processes, self.is_over = threading.Lock(), set(), False

    def grade_all(self, found):
        """The marks of hand-ins, in their order. As many run at once as there are processors."""
        pool = concurrent.futures.ThreadPoolExecutor(len(os.sched_getaffinity(0)))
        try:
            return list(pool.map(self.grade, found))
        except BaseException:
            self.stop()
            raise
        finally:
            pool.shutdown(cancel_futures=True)

    def stop(self):
        with self.lock:
            self.is_over = True
            for process in self.processes:
                common.end(process, signal.SIGKILL)

    def grade(self, hand_in):
        try:
            text = hand_ins.read(hand_in)
        except hand_ins.NotRun as why:
            code = common.HOST if why.result == "failed" else None
            return Mark(hand_in, None, [Outcome(why.result, code, why.why)] * len(self.sets))
        kind = "deck" if hand_ins.is_deck(text) else "source"
        outcomes = []
        for data_set in self.sets:
            is_refused = outcomes and outcomes[0].result == "refused"
            outcomes.append(outcomes[0] if is_refused else self.run(hand_in, text, kind, data_set))
        return Mark(hand_in, kind, outcomes)

    def run(self, hand_in, text, kind, data_set):
        name = os.path.basename(hand_in.path)
        if not re.fullmatch(r"[A-Za-z0-9][A-Za-z0-9 ._()+-]*", name) or name in OWN:
            name = "program"
        try:
            with contextlib.ExitStack() as stack:
                place = stack.enter_context(tempfile.TemporaryDirectory(dir=self.folder))
                with open(os.path.join(place, name), "wb") as file:
                    file.write(text)
                words = ["load", "--deck", name] if kind == "deck" else ["run", "--source", name]
                words += ["--punched", "punched" if data_set.punched else os.devnull, *self.furnish(place, data_set)]
                return judge(place, self.call(place, words), data_set, self.limits)
        except OSError as error:
            raise common.Failed(f"{common.ME}: {self.folder}: {error.strerror}", common.HOST) from None

    def furnish(self, place, data_set):
        """Puts the inputs of a run into its folder, and gives their options. A pack is a copy, and what is only read a link to the teacher's file."""
        files = {**self.given, "data": data_set.data, "keys": data_set.keys}
        options = []
        for name in INPUTS:
            if files.get(name):
                put = shutil.copyfile if name == "pack" else os.symlink
                put(os.path.abspath(files[name]), os.path.join(place, name))
                options += [f"--{name}", name]
        return options

    def call(self, place, words):
        """Runs the program in this folder, and gives its code."""
        most = max(self.limits.bytes, PACK if "--pack" in words else 0)
        line = ["/bin/sh", "-c", LIMITED, str(-(-most // 512)), str(self.limits.seconds), self.program.path, *words,
                "--typed", "typed", "--report", "report", "--limit", str(self.limits.steps)]
        line += ["--core", self.given["core"]] if "core" in self.given else []
        with contextlib.ExitStack() as stack:
            said = stack.enter_context(open(os.path.join(place, "said"), "wb"))
            with self.lock:
                if self.is_over:
                    raise common.Ended(130)
                process = stack.enter_context(common.running(
                    line, cwd=place, restore_signals=False, stdin=subprocess.DEVNULL, stdout=subprocess.DEVNULL, stderr=said))
                self.processes.add(process)
            try:
                code = process.wait(self.limits.seconds * WAITS)
                return TOO_SLOW if code == -signal.SIGXCPU else code
            except subprocess.TimeoutExpired:
                common.end(process, signal.SIGKILL)
                return TOO_SLOW
            finally:
                with self.lock:
                    self.processes.discard(process)


def judge(place, code, data_set, limits):
    """The outcome of a run that ended with this code and left its files in a folder."""
    report = beginning(place, "report").partition("\n")[0]
    said = beginning(place, "said")
    if code in NOT_OURS or report.startswith("TOO LONG SCRIPT"):
        raise common.Failed(f"{said.rstrip()}\n{common.ME}: so no hand-in can be run")
    is_long = any(os.path.getsize(existing(place, name)) > limits.bytes for name in TEXTS)
    if code == 7 and "File too large" in said or is_long:
        result, what = "too much text", f"over {limits.bytes} bytes in a file"
    elif code == TOO_SLOW:
        result, what = "too slow", f"over {limits.seconds} seconds"
    elif code == 0 or code in STOPS:
        result, what = STOPS.get(code, "right"), report
    else:
        code = code if code >= 0 else 128 - code    # as a shell has it, if a signal ended the program
        return Outcome("refused" if code == 1 else "failed", code, report or said.partition("\n")[0] or "ended by a signal", said)
    compared = [compared_text(place, name, getattr(data_set, name)) for name in TEXTS if getattr(data_set, name)]
    if result == "right" and any(each.difference for each in compared):
        result = "other text"
    return Outcome(result, code, what, said, compared)


def compared_text(place, name, wanted):
    came = existing(place, name)
    return Compared(name, compare.first_difference(came, wanted), os.path.getsize(came) == 0)


def existing(place, name):
    """The path of a file of a run; a run that ended before it opened its files has left none."""
    path = os.path.join(place, name)
    return path if os.path.exists(path) else os.devnull


def beginning(place, name):
    with open(existing(place, name), "rb") as file:
        return common.to_text(file.read(SAID_MOST))
