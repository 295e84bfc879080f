"""The paths and the names of the code that a page shows in backticks: whether the repository has them."""

import re
from functools import cache
from pathlib import Path

OTHERS = Path(__file__).resolve().parent / "names.txt"
SOURCES = ("crates", "bin", "share", "examples", "diagnostics", "bench", ".ci", "crates.txt", "HANDLES")
SCRIPTS = ("bin", "share/companions", "share/console", "share/make")
ELSEWHERE = ("..", "PREFIX")
INSTALLED = ("share/doc", "share/ibm1620/")
SUFFIXES = "antt|cff|css|edit|html|js|json|md|png|py|rt|sh|svg|txt"
PATH = re.compile(r"(?:[\w.*{},-]+/)+[\w.*{},-]*")
FILE = re.compile(r"[\w-]+\.(?:%s)$" % SUFFIXES)
ANY = re.compile(r"\b[A-Z]+\b(?!\.md\b)")
NAME = re.compile(r"\b\w+(?:::\w+)+\b|\b\w+_\w+\b|\b\w*[a-z][A-Z]\w*\b")
BRACES = re.compile(r"\{([^{}]*)\}")


@cache
def files_of(top):
    """The files and folders of the repository, by their paths from its top, without what a build leaves."""
    roots = [*(top / name for name in (*SOURCES, "docs")), *(path for path in top.glob("*.*") if path.is_file())]
    paths = {path.relative_to(top) for root in roots if root.exists() for path in (root, *root.rglob("*"))}
    return sorted(path.as_posix() for path in paths if not {"out", "__pycache__", ".git"} & set(path.parts))


@cache
def folders_of(top):
    """The names of all folders."""
    return {part for path in files_of(top) for part in path.split("/")[:-1]}


@cache
def endings_of(top):
    """All paths by which a page may name a file or folder: from the top, or from any folder above it."""
    return {"/".join(parts[at:]) for parts in (path.split("/") for path in files_of(top)) for at in range(len(parts))}


def sources_of(top, folders):
    """The texts of the sources in some folders, without their pages."""
    starts = tuple(f"{folder}/" for folder in folders)
    for path in (top / name for name in files_of(top) if f"{name}/".startswith(starts)):
        if path.is_file() and path.suffix != ".md" and path.name != "about.txt":
            yield path.read_text(encoding="utf-8", errors="replace")


@cache
def others():
    """The names that are not of this repository, and files that readers make."""
    return {word for line in OTHERS.read_text(encoding="utf-8").split("\n") if not line.startswith("#") for word in line.split()}


@cache
def words_of(top):
    """All words of the sources and of their paths, and the names of others."""
    words = {*others(), *re.findall(r"\w+", "\n".join(files_of(top)))}
    for text in sources_of(top, SOURCES):
        words.update(re.findall(r"\w+", text))
    return words


@cache
def scripts_of(top):
    return "\n".join(sources_of(top, SCRIPTS))


def look_at_names(page, top):
    """What is wrong with each path and each name that a page shows in backticks, or nothing."""
    for number, text in page.spans:
        for word in text.split():
            word = word.strip(",;:()|")
            if is_path(word, text, top):
                yield number, "" if has_path(word, page, top) else f"`{word}`: no such file or folder, and no command of the page has that name"
            else:
                yield from ((number, slip) for slip in look_at_words(word, page, top))


def look_at_words(word, page, top):
    for name in NAME.findall(word):
        missing = [part for part in name.split("::") if part not in words_of(top) and not is_in_code(part, page)]
        yield f"`{name}`: {missing[0]} is found nowhere in the sources" if missing else ""


def is_in_code(word, page):
    return bool(re.search(rf"(?<![\w-]){re.escape(word)}(?![\w-])", page.code))


def is_path(word, text, top):
    """Whether a word is a path that the repository has to have: it begins with the name of a folder there, or ends as a file does. A file's name
    without a folder has to be alone in its backticks: in a command it is the reader's own file."""
    first, slash, _ = word.removeprefix("./").partition("/")
    if not slash:
        return word == text and bool(FILE.fullmatch(word))
    return bool(PATH.fullmatch(word)) and (first in folders_of(top) or bool(FILE.search(word)) and first not in ELSEWHERE)


def has_path(word, page, top):
    """Whether a file or folder has this path, or is made: by a build, an installation, a command of the page, or a script."""
    word = word.removeprefix("./")
    if is_in_code(word, page) or word.startswith(INSTALLED) or "out" in word.split("/") or word in others():
        return True
    return all(has_ending(each.rstrip("/"), top) for each in spread(word)) or is_made(word, top)


def is_made(word, top):
    """Whether a script makes the file: it has the name in quotes. A file in HTML is also made of a page, or has its name without the ending there."""
    stem = word.rpartition("/")[2].removesuffix(".html")
    is_html = stem + ".html" == word.rpartition("/")[2]
    names = (word, stem, f"{stem}.html") if is_html else (word,)
    return any(f'"{name}"' in scripts_of(top) for name in names) or is_html and has_ending(word[:-4] + "md", top)


def has_ending(path, top):
    """Whether a file or folder has this path. A `*` is any name, and so are capitals (NAME), except in the name of a page."""
    form = path if path in endings_of(top) else ANY.sub("*", path)
    if "*" not in form:
        return form in endings_of(top)
    found = re.compile(re.escape(form).replace(r"\*", "[^/]*"))
    return any(found.fullmatch(ending) for ending in endings_of(top))


def spread(word):
    """The words that a shell makes of one with braces."""
    found = BRACES.search(word)
    if not found:
        return [word]
    return [each for part in found[1].split(",") for each in spread(word[:found.start()] + part + word[found.end():])]
