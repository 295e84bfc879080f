"""All that is looked at in the pages and in the comments of the crates, and the two things that are written."""

import patterns
from links import look_at_links
from names import look_at_names
from shape import WRITTEN, fill_contents, look_at_contents, look_at_tables
from texts import page_at

FORMS = ("*.md", "docs/**/*.md", "crates/*.md", "diagnostics/*.md", "examples/**/about.txt")


def text_pages(top):
    """The pages for people."""
    return [page for form in FORMS for page in sorted(top.glob(form))]


def crates_of(folder, top):
    """The crates of the folder crates/, or the crate that the folder is; another folder has none."""
    found = [folder] if folder.parent == top / "crates" else sorted(folder.iterdir()) if folder == top / "crates" else []
    return [path for path in found if path.is_dir()]


def name_of(path, top):
    return path.relative_to(top).as_posix() if path.is_relative_to(top) else ""


def look_at(path, top):
    """What is wrong with each link, name, row of a table and so on of a page, or nothing. A page elsewhere may have any hard turns of phrase."""
    page, name = page_at(path), name_of(path, top)
    yield from look_at_links(page, top)
    yield from look_at_names(page, top)
    if name not in WRITTEN:
        yield from look_at_tables(page)
        yield from look_at_contents(page)
    if name:
        yield from look_at_turns(name, turns_of_page(page))


def look_at_crate(crate, top):
    yield from look_at_turns(name_of(crate, top), patterns.turns_of_crate(crate))


def look_at_turns(name, turns):
    """What is wrong with the hard turns of a page or a crate, or nothing. If it has fewer than it may have, a line says so."""
    turns, limit = list(turns), patterns.allowed(patterns.ALLOWED.read_text(encoding="utf-8")).get(name, 0)
    if len(turns) < limit:
        print(f"{name}: {len(turns)} hard turns of phrase, and {limit} are allowed: bin/check-docs --lower writes the lower number")
    if turns or limit:
        yield 0, patterns.wrong_with(turns, limit)


def turns_of_page(page):
    return patterns.found_in(patterns.prose_of(page))


def fill_all(top):
    """Writes the contents of all pages, and prints the names of the pages that have new ones."""
    for page in text_pages(top):
        if fill_contents(page_at(page)):
            print(f"{name_of(page, top)}: new contents")


def lower_all(top):
    """Writes the numbers of hard turns that are lower than those in patterns.txt."""
    counts = {name_of(page, top): len(list(turns_of_page(page_at(page)))) for page in text_pages(top)}
    counts.update((name_of(crate, top), len(list(patterns.turns_of_crate(crate)))) for crate in crates_of(top / "crates", top))
    text = patterns.ALLOWED.read_text(encoding="utf-8")
    patterns.ALLOWED.write_text(patterns.lowered(text, counts), encoding="utf-8")
