"""Shows each instruction that a program executes, from its beginning or before its end."""

import collections
import contextlib
import itertools
import os
import subprocess

import common
import listing
import sessions
from common import wrong
from sessions import DONE, LAST_LINE

USAGE = """usage: {me} SOURCE [--last] COUNT [OPTION VALUE].., or {me} --deck DECK [--last] COUNT [OPTION VALUE]..
Shows each instruction that a program executes: the count of its step, its address, the number of its statement, and the statement. Counts of
steps, also those of a script and of --limit, are those of run. What the program types goes to the standard error.
  COUNT           how many steps: the first ones
  --last COUNT    the last ones before the end
  --deck DECK     shows a deck, with the twelve digits that are executed; counts are those of load
""" + sessions.OPTIONS[1:]
REFUSED = ("source", "commands", "listing", "report")
WITH_DIGITS = 30_000    # steps whose digits are shown: a list of commands has a million bytes at most


def main(words):
    is_deck = "--deck" in words
    options = sessions.DECK_OPTIONS if is_deck else sessions.SOURCE_OPTIONS
    words = common.read_words(words, USAGE, (*options, "last"), ("status",), None if is_deck else REFUSED)
    is_last = "last" in words.given
    counts = [word for word in (words.given.get("last"), *sessions.after_source(USAGE, words)) if word]
    if len(counts) != 1:
        raise wrong(USAGE, f"{counts[1]}: no such word" if counts else "a count of steps is missing")
    count = common.number_of(USAGE, counts[0], 1, 999_999_999, "COUNT")
    with common.temporary_folder() as folder:
        subject = sessions.Subject(folder, words, False, () if is_deck else ("data", "keys"))
        ending = (trace_deck if is_deck else trace_source)(subject, count, is_last)
        return sessions.status_of(ending) if "status" in words.given else 0


def trace_source(subject, count, is_last):
    """Shows the steps with their statements, and returns the line of the run's end. Of several instructions at one address it shows the last."""
    statements = listing.Listing(subject.path("listing")).at
    ending = ""
    with session(subject, [f"STEP {sessions.MOST if is_last else subject.before + count}"], outputs_of(subject)) as lines:
        for step, what in steps_of(subject, lines, count, is_last):
            if not step:
                ending = what
                common.say(ending)
                continue
            statement = statements.get(what)
            common.say(f"{step:8}  {what:05}  " + (f"{statement.number:05} {statement.text}" if statement else "  -   "))
    return ending


def trace_deck(subject, count, is_last):
    """Shows the steps with their digits, and returns the line of the run's end. A first session says which addresses are executed, and writes
    nothing; a second one shows what lies there before each step."""
    dropped = ["--punched", os.devnull, "--typed", os.devnull]
    if "pack" in subject.given:
        subject.copy_pack(subject.given["pack"])
        dropped += ["--pack", subject.path("pack")]
    with session(subject, [f"STEP {sessions.MOST if is_last else subject.before + count}"], dropped, is_told=False) as lines:
        steps = list(steps_of(subject, lines, count, is_last))
    ending = "" if not steps or steps[-1][0] else steps.pop()[1]
    with session(subject, commands_of(subject, steps), outputs_of(subject)) as lines:
        # The lines of the steps before the first one that is shown, and of that one and of BACK.
        lines = itertools.islice(lines, subject.before + steps[0][0] + 1 if steps else 0, None)
        for number, (step, address) in enumerate(steps):
            has_digits = number < WITH_DIGITS and address < subject.core
            digits = next(lines, "").partition(" ")[2] if has_digits else ""
            if next(lines, None) is None:
                break
            common.say(f"{step:8}  {address:05}  {digits[:2]} {digits[2:7]} {digits[7:]}".rstrip())
        else:
            common.say(f"{ending}\n" if ending else "", "")
    return ending


def commands_of(subject, steps):
    """The commands that show what lies at the address of each step before it is made. Before the first step of a deck its card is not read yet: so
    that step is made, and taken back."""
    commands = [f"STEP {subject.before + steps[0][0]}", "BACK 1"] if steps else []
    for _, address in steps[:WITH_DIGITS]:
        if address < subject.core:
            commands.append(f"SHOW {address} {min(12, subject.core - address)}")
        commands.append("STEP 1")
    return commands + ([f"STEP {len(steps) - WITH_DIGITS}"] if len(steps) > WITH_DIGITS else [])


def steps_of(subject, lines, count, is_last):
    """Each step that is to be shown, its count and its address; and last of all, if the run has ended, 0 and the line of its end. There are no last
    steps if the session fails before the end."""
    def each():
        for line in lines:
            if line.startswith("AT "):
                _, address, _, made = line.split(" ")
                if int(made) >= subject.before:
                    yield int(made) - subject.before + 1, int(address)
            elif line != LAST_LINE:
                yield 0, subject.counted(line)
    if not is_last:
        return each()
    kept = collections.deque(each(), count + 1)
    return kept if kept and not kept[-1][0] else ()


def outputs_of(subject):
    """The words for the outputs and the pack. What is typed is kept for the end if no file is named for it."""
    words = [] if "typed" in subject.given else ["--typed", subject.path("typed")]
    for name in ("pack", *sessions.OUTPUTS):
        words += [f"--{name}", subject.given[name]] if name in subject.given else []
    return words


@contextlib.contextmanager
def session(subject, commands, outputs, is_told=True):
    """The lines of a session, as they come. After the last one the standard error gets what the program has said and, if `is_told`, typed."""
    with open(subject.path("said"), "w+b") as said:
        words = [*subject.words(commands), *outputs]
        with subject.program.begin(words, stdout=subprocess.PIPE, stderr=said, start_new_session=False) as process:
            yield (common.to_text(line.rstrip(b"\n")) for line in process.stdout)
            process.wait()
        common.say("", "", now=True)
        if is_told or process.returncode != DONE:
            subject.complain(common.read_file(subject.path("said")))
    if is_told and os.path.exists(subject.path("typed")):
        common.complain(common.read_file(subject.path("typed")), "")
    if process.returncode != DONE:
        raise common.Failed("", sessions.code_of(process.returncode))
