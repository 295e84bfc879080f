"""Makes HTML of the pages, for a browser that reads them from a file: each with the list of its sections and a box to search all pages, and an index."""

import html
import json
import re
from collections import Counter
from os.path import dirname, join, normpath, relpath
from pathlib import Path

from markdown import anchor, blocks, plain, sections

STYLE = """body { margin: 0 auto; max-width: 78em; padding: 0 1em; font: 16px/1.45 sans-serif; color: #222; background: #fff }
nav { border-bottom: 1px solid #bbb; padding: .6em 0 }
nav input { font: inherit; width: 22em }
#found { margin: .4em 0 0; padding-left: 1.2em }
aside { float: right; max-width: 20em; margin: 1em 0 1em 2em; padding: 0 1em; border-left: 3px solid #bbb; font-size: .85em }
aside ul { padding-left: 1em }
pre { background: #f4f1e8; padding: .6em; overflow-x: auto; font: 13px/1.35 monospace }
code { background: #f4f1e8; font: 14px monospace }
table { border-collapse: collapse }
td, th { border: 1px solid #bbb; padding: .25em .6em; text-align: left; vertical-align: top }
img { max-width: 100% }
@media print { nav, aside { display: none } pre { white-space: pre-wrap } #sheets h2:not(:first-of-type) { break-before: page } }
"""
# The script of the search; the sections of all pages stand in front of it, as PAGES.
SEARCH = """
const box = document.getElementById("search"), found = document.getElementById("found");
function search() {
    const words = box.value.toLowerCase().split(/\\s+/).filter(Boolean);
    found.replaceChildren();
    if (!words.length) return;
    const all = PAGES.filter(([, page, title, text]) => words.every(word => (page + " " + title + " " + text).toLowerCase().includes(word)));
    const rank = ([, , title]) => words.every(word => title.toLowerCase().includes(word)) ? 0 : 1;
    all.sort((one, other) => rank(one) - rank(other));
    for (const [place, page, title, text] of all.slice(0, 30)) {
        const item = document.createElement("li"), link = document.createElement("a");
        link.href = document.body.dataset.top + place;
        link.textContent = page === title ? page : page + ": " + title;
        const at = Math.max(0, text.toLowerCase().indexOf(words[0]) - 40);
        item.append(link, " ", text.slice(at, at + 120));
        found.append(item);
    }
    if (all.length > 30) found.append("and " + (all.length - 30) + " more");
    if (!all.length) found.append("no section has all of these words");
}
box.addEventListener("input", search);
search();
"""


# A page that pupils don't get: it is neither in the index nor found by the search.
APART = "docs/teach/answers.md"


def pages_of(top):
    """The pages, by their names from the top."""
    named = [top / "README.md", *sorted((top / "docs").rglob("*.md")), top / "CONTRIBUTING.md", top / "CHANGELOG.md"]
    return {page.relative_to(top).as_posix(): page.read_text(encoding="utf-8") for page in named}


def place_of(name, pages):
    """Where the links of a page lead in HTML, which stands in a folder beside the pages: to pages in HTML, and to files that are not pages."""
    def place(target):
        path, mark, part = target.partition("#")
        if not path or re.match(r"\w+:", path):
            return target
        whole = normpath(join(dirname(name), path))
        if whole in pages:
            whole = "html/" + whole[:-3] + ".html"
        return relpath(whole, dirname("html/" + name)) + mark + part
    return place


def framed(name, title, top, body):
    """A whole page of this name; `top` leads from it to the folder of all."""
    return (f'<!DOCTYPE html>\n<html lang="en">\n<head>\n<meta charset="utf-8">\n<meta name="viewport" content="width=device-width">\n'
            f'<title>{html.escape(title)}</title>\n<link rel="stylesheet" href="{top}pages.css">\n</head>\n<body id="{name}" data-top="{top}">\n'
            f'<nav><a href="{top}index.html">All pages</a> <label>Search <input type="search" id="search" autocomplete="off"></label>'
            f'<ol id="found"></ol></nav>\n<main>\n{body}\n</main>\n<script src="{top}search.js"></script>\n</body>\n</html>\n')


def page_of(name, text, pages):
    """The HTML of a page."""
    own = sections(text)
    links = "".join(f'<li><a href="#{anchor(title)}">{html.escape(plain(title))}</a></li>' for level, title, _ in own if level == 2)
    contents = f"<aside><ul>{links}</ul></aside>\n" if links else ""
    body = blocks(text.split("\n"), place_of(name, pages))
    return framed(Path(name).stem, plain(own[0][1]), "../" * name.count("/"), contents + body)


def index_of(pages):
    """The index: each page with its sections."""
    made = ["<h1>All pages</h1>"]
    for name, text in pages.items():
        place = name[:-3] + ".html"
        first, *rest = sections(text)
        items = "".join(f'<li><a href="{place}#{anchor(title)}">{html.escape(plain(title))}</a></li>' for level, title, _ in rest if level == 2)
        made.append(f'<h2><a href="{place}">{html.escape(plain(first[1]))}</a></h2>\n<ul>{items}</ul>')
    return framed("index", "All pages", "", "\n".join(made))


def search_of(pages):
    """The script that finds sections by their words."""
    rows = []
    for name, text in pages.items():
        own = sections(text)
        for level, title, words in own:
            place = name[:-3] + ".html" + ("" if level == 1 else "#" + anchor(title))
            rows.append([place, plain(own[0][1]), plain(title), " ".join(plain(words).split())])
    return "const PAGES = " + json.dumps(rows, ensure_ascii=False) + ";" + SEARCH


def words_of(text):
    return Counter(re.findall(r"\w+", html.unescape(text)))


def wrong_in(made, pages):
    """What is wrong in the pages that were made: words of a page that its HTML lacks, and links to sections that are not there."""
    for name, text in pages.items():
        source = re.sub(r"<!--.*?-->|\]\([^)\s]+\)|^ *\d+\. |</?code>", " ", text, flags=re.MULTILINE)
        lost = words_of(source) - words_of(re.sub(r"<(?!img)[^>]*>", " ", made[name]))
        if lost:
            yield f"{name}: its HTML lacks {' '.join(lost)}"
        for link, part in re.findall(r'<a href="([^"#:]*)#([^"]*)"', made[name]):
            whole = normpath(join(dirname(name), link))[:-5] + ".md" if link else name
            if f'id="{part}"' not in made.get(whole, ""):
                yield f"{name}: no section {link}#{part}"


def make_pages(top, folder):
    """Makes all pages of the repository `top` in a folder, and gives what is wrong in them."""
    pages = pages_of(top)
    made = {name: page_of(name, text, pages) for name, text in pages.items()}
    wrong = list(wrong_in(made, pages))
    for name, text in made.items():
        path = folder / (name[:-3] + ".html")
        path.parent.mkdir(parents=True, exist_ok=True)
        path.write_text(text, encoding="utf-8")
    pages.pop(APART)
    (folder / "index.html").write_text(index_of(pages), encoding="utf-8")
    (folder / "search.js").write_text(search_of(pages), encoding="utf-8")
    (folder / "pages.css").write_text(STYLE, encoding="utf-8")
    return wrong
