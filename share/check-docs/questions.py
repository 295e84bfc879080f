"""A newcomer's questions: whether the words that answer each are on its page, and the page is reached from README.md by two links at most."""

import re

from links import reached

LINKS = 2


def questions_of(text):
    """The questions of a text: the number of the line, the question, the page and the words of each."""
    for number, line in enumerate(text.split("\n"), 1):
        if line and not line.startswith("#"):
            yield (number, *(line.split("|", 2) + ["", ""])[:3])


def look_at_questions(text, top):
    """What is wrong with the answer to each question, or nothing."""
    pages = {path.relative_to(top).as_posix(): path for path in reached(top / "README.md", LINKS) if top in path.parents}
    for number, question, page, words in questions_of(text):
        yield number, wrong_with(question, page, words, pages)


def wrong_with(question, page, words, pages):
    if not words:
        return f"{question} - a line is QUESTION|PAGE|WORDS"
    if page not in pages:
        return f"{question} - {page} is not reached from README.md by {LINKS} links"
    if line_with(words, pages[page]) is None:
        others = [f"{name}:{line_with(words, path)}" for name, path in pages.items() if line_with(words, path)]
        return f"{question} - {page} does not have the words \"{words}\"" + (f", but {others[0]} has them" if others else "")
    return ""


def line_with(words, path):
    """The number of the line in which these words begin, or nothing. Between two words may be an end of a line."""
    text = path.read_text(encoding="utf-8", errors="replace")
    found = re.search(r"\s+".join(map(re.escape, words.split())), text)
    return found and text.count("\n", 0, found.start()) + 1
