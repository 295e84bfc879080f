"""What is told of a class: the table, for people or a spreadsheet, its summary, and a text for each pupil."""

import contextlib
import os
import re

import common
import compare

TEXTS = {"typed": ("line", "is", "text"), "punched": ("punched card", "are", "cards")}     # what a line is called, and all of it
HINTS = {
    "needs cards": "does the program ask BNLC or BLC after each card whether it was the last one?",
    "limit": "is there a branch that goes back for ever, or a halt that is never reached?",
    "too slow": "does the program type or loop for ever?",
    "too much text": "does the program type for ever, or a field without a record mark at its end?",
    "empty": "was the file saved before it was handed in?",
    "link": "copy the file itself into the folder.",
}


def head_of(sets):
    return ["NAME", *([] if sets[0].points is None else ["POINTS"]), "RESULT", "CODE", "WHAT"]


def table_rows(marks, sets):
    """A row for each hand-in: its name, its points if there are any, its result, its code, and what the first data set shows that is not right."""
    for mark in marks:
        number = next((place for place, outcome in enumerate(mark.outcomes) if outcome.result != "right"), 0)
        outcome = mark.outcomes[number]
        title = f"{sets[number].title}: " if sets[number].title and outcome.compared and outcome.result != "right" else ""
        points = [] if sets[0].points is None else [str(points_of(mark, sets))]
        code = "-" if outcome.code is None else str(outcome.code)
        yield [shown(mark.hand_in.name), *points, outcome.result, code, shown(title + in_short(outcome))]


def in_short(outcome):
    """A run in a line: its report, of a halt with another text the first difference, and of a stop what was right up to there."""
    if outcome.result == "right":
        return outcome.what
    if outcome.result == "other text":
        return next(in_a_line(each) for each in outcome.compared if each.difference)
    return "; ".join([outcome.what, *map(so_far, outcome.compared)])


def so_far(each):
    """What a program had typed or punched right when it was stopped."""
    _, verb, subject = TEXTS[each.name]
    if each.is_empty and each.difference:
        return f"nothing was {each.name}"
    if each.difference and not each.difference.is_prefix:
        return in_a_line(each)
    return f"the {subject} {verb} right" if not each.difference else f"the {subject} so far {verb} right"


def in_a_line(each):
    return compare.in_a_line(each.difference, TEXTS[each.name][0])


def points_of(mark, sets):
    return sum(data_set.points for data_set, outcome in zip(sets, mark.outcomes) if outcome.result == "right")


def is_right(mark):
    return all(outcome.result == "right" for outcome in mark.outcomes)


def shown(text):
    """A text in which control characters are shown as the program shows them."""
    return re.sub(r"[\x00-\x1f\x7f]", lambda found: f"\\x{ord(found[0]):02x}", text)


def print_table(marks, sets):
    rows = [head_of(sets), *table_rows(marks, sets)]
    widths = [max(len(row[place]) for row in rows) for place in range(len(rows[0]) - 1)]
    for row in rows:
        common.say("  ".join([cell.ljust(width) for cell, width in zip(row, widths)] + row[-1:]))


def print_summary(marks, sets, others, roster):
    common.say(f"{sum(map(is_right, marks))} of {len(marks)} right")
    if sets[0].points is not None:
        points, most = sum(points_of(mark, sets) for mark in marks), sum(data_set.points for data_set in sets)
        common.say(f"{points} of {most * len(marks)} points, {points / len(marks):.1f} of {most} on average")
        for number, data_set in enumerate(sets):
            right = sum(mark.outcomes[number].result == "right" for mark in marks)
            common.say(f"{data_set.title}, {in_points(data_set.points)}: {right} of {len(marks)} right")
    if others:
        common.say(f"not in {roster}: " + ", ".join(map(shown, others)))


def in_points(points):
    return f"{points} point" + ("s" if points != 1 else "")


def print_csv(marks, sets):
    """The table for a spreadsheet."""
    head = head_of(sets)
    common.say(",".join(head).lower())
    for row in table_rows(marks, sets):
        common.say(",".join(cell.strip("-") if name in ("POINTS", "CODE") else csv_cell(cell) for name, cell in zip(head, row)))


def csv_cell(text):
    """A text in quotes. It is no formula: a `'` is put before what would begin one."""
    safe = "'" + text if text.startswith(("=", "+", "-", "@")) else text
    return '"' + safe.replace('"', '""') + '"'


# The feedback.

def write_feedback(folder, marks, sets):
    """A text for each hand-in, in a folder that is empty before."""
    try:
        os.makedirs(folder, exist_ok=True)
        for mark in marks:
            name = mark.hand_in.name.replace("/", "-")
            names = [name if name.endswith(".txt") else name + ".txt", name + ".txt"]
            with open_new(folder, names) as file:
                file.write(os.fsencode("\n".join(feedback(mark, sets)) + "\n"))
    except OSError as error:
        raise common.Failed(f"{common.ME}: {folder}: {error.strerror}", common.HOST) from None


def open_new(folder, names):
    """A new file of the first of these names that is free."""
    for name in names:
        with contextlib.suppress(FileExistsError):
            return open(os.path.join(folder, name), "xb")
    raise common.Failed(f"{common.ME}: {folder}: two hand-ins would have the file {names[-1]}", common.HOST)


def feedback(mark, sets):
    """The lines of a hand-in's feedback."""
    points = "" if sets[0].points is None else f", {points_of(mark, sets)} of {in_points(sum(each.points for each in sets))}"
    yield shown(mark.hand_in.name) + ": " + ("right" if is_right(mark) else "not right yet" if mark.kind else mark.outcomes[0].result) + points
    if mark.kind is None:
        yield from details(mark.outcomes[0])
        return
    yield f"It was taken as a {mark.kind}."
    for data_set, outcome in zip(sets, mark.outcomes):
        points = "" if data_set.points is None else f", {data_set.points if outcome.result == 'right' else 0} of {in_points(data_set.points)}"
        yield ""
        yield (f"{data_set.title}: " if data_set.title else "") + outcome.result + points
        yield from details(outcome)
        if outcome.result == "refused":
            return


def details(outcome):
    """What there is to say of a run: the report, what the program said, where its text differs first, and a hint."""
    if not outcome.said.startswith(outcome.what):
        yield "  " + shown(outcome.what)
    for line in common.lines_of(outcome.said):
        if outcome.result != "too much text" and not line.startswith("ibm1620: CONSOLE "):
            yield "  " + line
    for each in outcome.compared:
        yield from both_sides(each)
    hint = HINTS.get(outcome.result) or next((hint_of(each.difference) for each in outcome.compared if each.difference), "")
    if hint:
        yield "  hint: " + hint


def both_sides(each):
    """The text around the first difference, as it came and as it is wanted, and a mark below it."""
    line, verb, subject = TEXTS[each.name]
    difference = each.difference
    if difference is None:
        yield f"  The {subject} {verb} right."
        return
    begin = f"The {subject} so far {verb} right, up to" if difference.is_prefix and not each.is_empty else "The first difference:"
    yield f"  {begin} {line} {difference.line}, column {difference.column}"
    for name, text in ((each.name, difference.came), ("wanted", difference.wanted)):
        around, before = (f"(no such {line})", 0) if text is None else compare.around(difference, text, 60)
        yield f"    {name:8}" + around
    if difference.came is not None and difference.wanted is not None:
        yield " " * (12 + before) + "^"


def hint_of(difference):
    """What a difference is likely due to, if that can be told."""
    came, wanted = (text or b"" for text in (difference.came, difference.wanted))
    place = difference.column - 1 - difference.skipped
    pair = common.to_text(came[place:place + 1]), common.to_text(wanted[place:place + 1])
    if difference.wanted is None:
        return "the program goes on where nothing more is wanted: does it halt in time?"
    if difference.came is None:
        return "the end is missing: does the program halt too early?"
    if came.rstrip() == wanted.rstrip():
        return "only blanks at the end of the line differ."
    if pair[0] and pair[0] in common.FLAGGED and pair[1] == str(common.digit_of(pair[0])):
        return f"{pair[0]} is the digit {pair[1]} with a flag: CF clears the flag before the field is typed."
    if not pair[1]:
        return "the line goes on: is a record mark missing after the field, or RCTY after the line?"
    if difference.skipped == 0 and came.strip(b" 0") == wanted.strip(b" 0"):
        return "only zeros and blanks at the ends differ: is the field longer or shorter than it should be?"
    return ""
