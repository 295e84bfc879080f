"""The console's line: how it is read, what the page has of it, what a program is told that does not say it, and how many runs a step and a record
take.
"""

import os
import sys
import tempfile
import time
from pathlib import Path

from harness import EXAMPLES, TOP, Console, is_left_clean, program, run_console
from records import words_of

sys.path.append(str(TOP / "share" / "console"))     # behind the folder of the checks, which has files of the same names

from told import Part, about, parted

COUNTING = """#!/bin/sh
echo >> {counts}
exec {program} "$@"
"""
# The program without the line, as an older one.
WITHOUT = """#!/bin/sh
unset IBM1620_CONSOLE
exec {program} "$@"
"""
# The program with a statement in front of the line and a part of an instruction at its end, where it says none.
PARTED = """#!/bin/sh
{program} "$@" 2> said.err
code=$?
awk '/^ibm1620: CONSOLE / && /CELLS 26/ && !/ PART / {{
    print "ibm1620: it is about P: the field whose units stand at 00031, in the chain from 00018"
    print "ibm1620: statement 2 stands at IR:"
    print "ibm1620:            CONSOLE"
    $0 = $0 " PART P AT 00031"
}}
{{ print }}' said.err >&2
exit $code
"""
CHAIN = "410000000000260003J000000000000|"       # P is found at 00031, where a record mark stands in the place of a digit
CONSOLE_LINE = "CONSOLE IR 00402 CELLS 210040000412 IR2 00000 ON 09,11 SWITCHES 01 STOPS IO ARMS 000,005,000,000 DECK 39 DATA 1 KEYS 0"


class Counting:
    """The program behind a script that counts its runs."""

    def __init__(self, folder, name, text):
        self.path, self.counts = Path(folder, name), Path(folder, name + "-counts")
        self.counts.touch()
        self.path.write_text(text.format(program=program(), counts=self.counts))
        self.path.chmod(0o755)

    def runs(self):
        """How many there were, once no more of them come."""
        found = -1
        while found != self.counts.stat().st_size:
            found = self.counts.stat().st_size
            time.sleep(.3)
        return found


def check(checks):
    readings(checks)
    with tempfile.TemporaryDirectory() as folder:
        parts(checks, Counting(folder, "parted", PARTED))
        strangers(checks, Counting(folder, "silent", WITHOUT), Path(folder, "out.html"))
        costs(checks, Counting(folder, "counted", COUNTING), Path(folder, "out.html"))


def readings(checks):
    """The line as the program says it: with a part or without, with a statement in front of it or without."""
    for part, wanted in (("", None), (" PART INSTRUCTION AT 00014", Part("INSTRUCTION", 14, None, None)), (" PART P AT 00408", Part("P", 408, None, None)),
                         (" PART Q AT 12345", Part("Q", 12345, None, None)), (" PART ACTION AT 00412 P 00400 Q 00412", Part("ACTION", 412, 400, 412)),
                         (" PART ACTION AT - P 00400 Q -", Part("ACTION", None, 400, None))):
        for front in ([], ["statement 7 stands at IR:", "     START A   SUM,ONE"], ["statement 12345 stands at IR:", ""]):
            told, others = parted(["check 03", *front, CONSOLE_LINE + part, "line 1"])
            checks.want(f"the line{part} behind {front}", (told and told.part, told and told.arms, others), (wanted, (0, 5, 0, 0), ["check 03", "line 1"]))
    for bad in (" PART", " PART P", " PART P AT -", " PART INSTRUCTION AT 00014 P 00400", " PART ACTION AT 00412", " PART R AT 00412", " KEYS 0"):
        checks.want(f"no line{bad}", parted([CONSOLE_LINE + bad]), (None, [CONSOLE_LINE + bad]))
    sentences = [about(parted([CONSOLE_LINE + part])[0]) for part in (" PART Q AT 00413", " PART P AT 00500", " PART ACTION AT - P 00400 Q -")]
    checks.want("a sentence for each part", sentences, [
        "The check is about Q, by the digits whose units stand at 00413.",
        "The check is about P, by the digits whose units stand at 00500, in the chain from 00408.",
        "The check is about what the instruction does with P 00400."])


def parts(checks, counted):
    """A stop, by a program that says which part it is about: the page has a sentence for it, and a halt has none."""
    console = Console(program_path=str(counted.path))
    end = console.make("deck", CHAIN)["end"]
    checks.want("the part that a check is about", [end["line"], end["about"]],
                ["CHECK 03 00012 STEPS 2", "The check is about P, by the digits whose units stand at 00031, in the chain from 00018."])
    checks.want("it is told once", [line for line in end["said"] if "it is about" in line or "stands at IR" in line or "CONSOLE" in line], [])
    checks.want("a halt is about none", console.make("deck", "480000000000")["end"]["about"], "")
    checks.want("nothing is left of a program that says parts", is_left_clean(console), True)


def strangers(checks, silent, out):
    """What is said of a program that does not say the line, and of one that is no ibm1620."""
    source = EXAMPLES / "first-source" / "source.txt"
    for path in (str(silent.path), "/bin/true", "/bin/cat", "/bin/false"):
        for words in (["--source", source], ["--deck", EXAMPLES / "one-card" / "deck.txt"]):
            done = run_console(*words, "--record", out, env=dict(os.environ, IBM1620=path))
            name = os.path.realpath(path)
            checks.want(f"a record by {path}, {words[0]}", (done.returncode, done.stderr, out.exists()),
                        (1, f"console: {name} does not answer as ibm1620 of this version does; see which program IBM1620 names\n", False))
    console = Console(program_path=str(silent.path))
    status, found = console.ask("inputs", {"kind": "deck", "text": "480000000000"})
    checks.want("the page is told so", (status, "does not answer as ibm1620" in found["error"]), (503, True))
    checks.want("nothing is left of a program that does not say the line", is_left_clean(console), True)


def costs(checks, counted, out):
    """A step takes one run of the program, and a record not many more than that."""
    many, console = 10, Console(program_path=str(counted.path))
    example = console.example("programs/records")
    run = console.make(example["kind"], example["text"], example["data"], pack=example["pack"], limit=5000)
    began = counted.runs()
    for n in range(20, 20 + many):
        console.state(run, n)
        console.panel(run, n)
    # A step or two more are worked out ahead.
    checks.want("the runs of ten steps", counted.runs() - began, lambda found: many <= found <= many + 2)
    checks.want("nothing is left of a console that was counted", is_left_clean(console), True)
    began = counted.runs()
    done = run_console(*words_of("programs/records"), "--record", out, env=dict(os.environ, IBM1620=str(counted.path)))
    checks.want("the runs of a record", (done.returncode, done.stderr, counted.runs() - began), lambda found: found[:2] == (0, "") and found[2] < 25)
