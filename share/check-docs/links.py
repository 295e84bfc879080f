"""The links of a page: whether they lead to a file and a heading, and the pages that they reach."""

import re
from os.path import normpath

from texts import SPAN, line_at, page_at

LINK = re.compile(r"\[(?:[^][]|\[[^][]*\](?:\([^)\s]+\))?)*\]\(([^)\s]+)\)")
ELSEWHERE = re.compile(r"[a-z]+:")


def links_of(page):
    """The links and pictures of a page that lead into the repository: the number of the line, the path and the part after `#` of each."""
    text = SPAN.sub(lambda found: re.sub(r"[^\n]", "x", found[0]), "\n".join(page.prose))
    for number, target in sorted({(line_at(text, found.start(1)), target) for found in LINK.finditer(text) for target in targets_of(found)}):
        if not ELSEWHERE.match(target):
            path, _, part = target.partition("#")
            yield number, page.path.parent / path if path else page.path, part


def targets_of(found):
    """The targets of a link: its own, and the target of a picture within its text."""
    return [found[1], *(inner[1] for inner in LINK.finditer(found[0][1:]))]


def look_at_links(page, top):
    """What is wrong with each link of a page, or nothing."""
    for number, path, part in links_of(page):
        yield number, wrong_with(path, part, top)


def wrong_with(path, part, top):
    shown = normpath(path)
    if not path.exists():
        return f"a link to {shown_from(shown, top)}, which is missing"
    if part and (path.suffix != ".md" or part not in page_at(path.resolve()).anchors):
        return f"a link to #{part} of {shown_from(shown, top)}, which has no such heading"
    return ""


def shown_from(path, top):
    return path[len(str(top)) + 1:] if path.startswith(f"{top}/") else path


def reached(page, links):
    """The pages that are reached from a page by that many links at most, each with the links that it takes. A folder is its README.md."""
    found = {page.resolve(): 0}
    for count in range(1, links + 1):
        for path in [path for path, taken in found.items() if taken == count - 1 and path.suffix == ".md"]:
            for _, target, _ in links_of(page_at(path)):
                target = (target / "README.md" if target.is_dir() else target).resolve()
                if target.is_file():
                    found.setdefault(target, count)
    return found
