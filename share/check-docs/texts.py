"""The parts of a page: its prose, its blocks of code, its headings, and the words in backticks."""

import re
from collections import Counter
from functools import cache, cached_property

from markdown import HEADING, anchor

SPAN = re.compile(r"(?P<ticks>`+)(?P<code>(?:(?!\n\n).)+?)(?<!`)(?P=ticks)(?!`)", re.DOTALL)
COMMENT = re.compile(r"<!-- .* -->")


class Page:
    """A page of text. `prose` and `code` have as many lines as `lines`; in each of the two, the lines of the other kind are empty."""

    def __init__(self, path):
        self.path = path
        self.lines = path.read_text(encoding="utf-8", errors="surrogateescape").split("\n")
        kinds = list(kinds_of(self.lines))
        self.prose = ["" if is_code else line for line, is_code in zip(self.lines, kinds)]
        self.code = "\n".join(line if is_code else "" for line, is_code in zip(self.lines, kinds))

    @cached_property
    def headings(self):
        """The headings: the number of the line, the level, the title and the anchor of each, as GitHub makes it."""
        found, seen = [], Counter()
        for number, line in enumerate(self.prose, 1):
            heading = HEADING.match(line)
            if heading:
                name = anchor(heading[2])
                found.append((number, len(heading[1]), heading[2], f"{name}-{seen[name]}" if seen[name] else name))
                seen[name] += 1
        return found

    @cached_property
    def anchors(self):
        return {name for *_, name in self.headings}

    @cached_property
    def spans(self):
        """The words in backticks in the prose: the number of the line and the text of each."""
        text = "\n".join(self.prose)
        return [(line_at(text, found.start()), found["code"]) for found in SPAN.finditer(text)]


def kinds_of(lines):
    """For each line, whether it is code: indented by four blanks, between fences, or a comment that readers don't see."""
    is_fenced = False
    for line in lines:
        is_fence = line.lstrip().startswith("```")
        is_fenced ^= is_fence
        yield is_fence or is_fenced or line.startswith("    ") or bool(COMMENT.fullmatch(line))


def line_at(text, place):
    """The number of the line that has this place of a text."""
    return text.count("\n", 0, place) + 1


@cache
def page_at(path):
    return Page(path)
