"""The form of a page: how wide the rows of its tables are, and its contents, the list of links to its headings of level 2."""

COLUMNS = 100
WIDTH = 120
LENGTH = 200
BEGIN, END = "<!-- contents -->", "<!-- /contents -->"
# Scripts write these pages, and nobody reads them from top to bottom.
WRITTEN = ("diagnostics/PLANTED.md",)


def look_at_tables(page):
    """What is wrong with each row of a table, or nothing."""
    for number, line in enumerate(page.prose, 1):
        if line.lstrip().startswith("|"):
            yield number, f"a row of {len(line)} columns; at most {COLUMNS} can be read in a terminal" if len(line) > COLUMNS else ""


def look_at_contents(page):
    """What is wrong with the contents, or nothing, if a page has them or has to have them."""
    length = len(page.lines) - 1
    first, last = place_of_contents(page.lines)
    if first is None:
        if length > LENGTH:
            yield 1, f"{length} lines without contents: put the lines {BEGIN} and {END} below the first paragraph, and call bin/check-docs --contents"
    elif last is None:
        yield first, f"{BEGIN} without {END} below it"
    else:
        is_right = page.lines[first:last] == contents_of(page)
        yield first, "" if is_right else "the contents differ from the headings: bin/check-docs --contents writes them"


def place_of_contents(lines):
    """The place of the first line of the contents, and the place after the last; nothing for a mark that is missing."""
    first = lines.index(BEGIN) + 1 if BEGIN in lines else None
    last = lines.index(END, first) if first and END in lines[first:] else None
    return first, last


def contents_of(page):
    """The lines of the contents: the links one after the other, so that they take few lines."""
    links = [f"[{title}](#{name})" for _, level, title, name in page.headings if level == 2]
    lines = [""]
    for number, link in enumerate(links, 1):
        link += " ·" if number < len(links) else ""
        if lines[-1] and len(lines[-1]) + len(link) >= WIDTH:
            lines.append("")
        lines[-1] += (" " if lines[-1] else "") + link
    return lines if links else []


def fill_contents(page):
    """Writes the contents into a page that has the marks, and says whether they are new."""
    first, last = place_of_contents(page.lines)
    if last is None or page.lines[first:last] == contents_of(page):
        return False
    page.path.write_text("\n".join([*page.lines[:first], *contents_of(page), *page.lines[last:]]), encoding="utf-8", errors="surrogateescape")
    return True
