"""Makes the files by which vim, nano and VS Code know a source, a deck, an operator's script and the debugger's commands: share/editors. The operations and
characters come from the tables of share/, the words of scripts and commands from the tables of the pages."""

import json
import re

from markdown import table_below
from tables import characters, operations

NOTE = "Made by bin/operation-places from share/operations.txt; it also looks whether the two agree."
# The columns at which the fields of a line begin, and on a card its instructions.
SHEET = (6, 12, 16, 76)
CARD = (13, 25, 37, 49, 61, 73)
NAMES = {"sps": ("source.txt", ["sps"]), "ibm1620deck": ("deck.txt", ["deck"]), "ibm1620script": ("script.txt", ["script1620"]),
         "ibm1620debug": ("commands.txt", ["debug1620"])}
FIRST = r"^     (\*|[A-Z0-9 ]{6}[A-Z0-9]{1,4})"
FLAGGED = r'[]J-R!*"]'
MARKS = r"[|}]"


def padded(names):
    """A pattern of names that fill a field of four columns, or end the line."""
    parts = []
    for size in range(4, 0, -1):
        own = "|".join(name for name in names if len(name) == size)
        if own:
            parts.append(f"({own})" + {4: "", 3: "( |$)", 2: "(  | ?$)", 1: "(   | ? ?$)"}[size])
    return "(" + "|".join(parts) + ")"


def words_of(top, page, heading):
    """The words in capitals that the first column of a table of a page has, in their order."""
    rows = table_below((top / "docs" / page).read_text(encoding="utf-8"), heading)
    return list(dict.fromkeys(word for row in rows for word in re.findall(r"\b[A-Z]{2,}\b", row[0])))


class Language:
    """What the editors have to know of the four kinds of texts."""

    def __init__(self, top):
        rows = operations(top)
        self.instructions = padded([row.name for row in rows if not row.is_declarative()]
                                   + sorted({row.code for row in rows if not row.is_declarative()}))
        self.declaratives = padded([row.name for row in rows if row.is_declarative()])
        self.on_cards = "".join(row[0] for row in characters(top))
        self.words = {"ibm1620script": ["AT", "HALT", *words_of(top, "formats.md", "The action is one of these:")],
                      "ibm1620debug": words_of(top, "debugger.md", "## The commands")}

    def bad_character(self, bracket="]"):
        """A pattern of the characters that no card has."""
        return f"[^{bracket}{''.join(sorted(self.on_cards.replace(']', ''), key=lambda sign: sign == '-'))}]"


def vim(language):
    """The files for vim, by their names."""
    def syntax(name, lines):
        return "\n".join([f'" {NOTE}', 'if exists("b:current_syntax") | finish | endif', *lines, f'let b:current_syntax = "{name}"', ""])

    def match(group, link, pattern):
        return [f"syn match {group} /\\v{pattern}/", f"hi def link {group} {link}"]

    def groups(pattern):
        return pattern.replace("(", "%(")
    detected = [f'" {NOTE}']
    for name, (file, endings) in NAMES.items():
        detected.append(f"au BufRead,BufNewFile {','.join(['*.' + ending for ending in endings] + [file])} set filetype={name}")
    detected += ["au BufRead *.txt if search('\\v^.{5}[A-Z0-9 ]{6}DEND', 'nw') | set filetype=sps | endif", ""]
    files = {"ftdetect/ibm1620.vim": "\n".join(detected)}
    files["syntax/sps.vim"] = syntax("sps", [
        *match("spsLabel", "Identifier", "%6c[A-Z0-9 ]{1,6}"), *match("spsUnknown", "Error", "%12c\\S.{0,3}"),
        *match("spsInstruction", "Statement", "%12c" + groups(language.instructions)),
        *match("spsDeclarative", "Type", "%12c" + groups(language.declaratives)),
        *match("spsComment", "Comment", "^.{5}\\*.*$"), *match("spsFree", "Comment", "%76c.{1,5}"), *match("spsTooLong", "Error", "%81c.*")])
    files["syntax/ibm1620deck.vim"] = syntax("ibm1620deck", [
        *match("deckBad", "Error", language.bad_character().replace("/", "\\/")), *match("deckFlagged", "Special", FLAGGED),
        *match("deckMark", "Statement", MARKS), *match("deckTooLong", "Error", "%81c.*")])
    for name, words in language.words.items():
        files[f"syntax/{name}.vim"] = syntax(name, [
            f"syn keyword {name}Word {' '.join(words)}", f"hi def link {name}Word Statement", *match(f"{name}Number", "Number", "<\\d{1,15}>"),
            *match(f"{name}Bad", "Error", "[a-z]+|  +|^ | $")])
    for name, columns in (("sps", SHEET), ("ibm1620deck", CARD)):
        tabs = "if has('vartabs') | setlocal expandtab vartabstop=5,6,4 varsofttabstop=5,6,4 | endif\n" if name == "sps" else ""
        files[f"ftplugin/{name}.vim"] = f'" {NOTE}\nsetlocal colorcolumn={",".join(map(str, columns))} textwidth=0\n{tabs}'
    return {f"vim/{name}": text for name, text in files.items()}


def nano(language):
    """The file for nano. A rule that comes later goes over those before it."""
    def named(name):
        file, endings = NAMES[name]
        return f'syntax {name} "(\\.({"|".join(endings)})|(^|/){file.replace(".", chr(92) + ".")})$"'
    lines = [f"# {NOTE}", "", named("sps"), f'header "{FIRST}"', 'color brightred "^.{11}[^ ].{0,3}"', f'color green "^.{{11}}{language.instructions}"',
             f'color magenta "^.{{11}}{language.declaratives}"', 'color yellow "^.{11}"', 'color cyan "^.{5}"', 'color cyan "^.{5}\\*.*"', "",
             named("ibm1620deck"), f'color brightred "{language.bad_character()}"', f'color yellow "{FLAGGED}"', f'color green "{MARKS}"']
    for name, words in language.words.items():
        lines += ["", named(name), 'color brightred "[a-z]+|  +|^ | $"', f'color green "\\<({"|".join(words)})\\>"', 'color yellow "\\<[0-9]+\\>"']
    return {"nano/ibm1620.nanorc": "\n".join([*lines, ""])}


def vscode(language):
    """The extension for VS Code."""
    def rule(scope, pattern):
        return {"name": f"{scope}.ibm1620", "match": pattern}

    def field(pattern, scope):
        return {"match": f"^(.{{5}})([A-Z0-9 ]{{6}})({pattern.replace('(', '(?:')})(.{{0,60}})(.*)$", "captures": {
            "1": {"name": "comment.ibm1620"}, "2": {"name": "entity.name.function.ibm1620"}, "3": {"name": f"{scope}.ibm1620"},
            "5": {"name": "comment.ibm1620"}}}
    rules = {
        "sps": [rule("comment.line", "^.{5}\\*.*$"), field(language.instructions, "keyword.control"), field(language.declaratives, "storage.type"),
                field("\\S.{0,3}", "invalid.illegal")],
        "ibm1620deck": [rule("invalid.illegal", language.bad_character("\\]")), rule("constant.character", FLAGGED.replace("[]", "[\\]")), rule("keyword.control", MARKS)]}
    for name, words in language.words.items():
        rules[name] = [rule("invalid.illegal", "[a-z]+|  +|^ | $"), rule("keyword.control", f"\\b({'|'.join(words)})\\b"),
                       rule("constant.numeric", "\\b\\d+\\b")]
    files = {f"syntaxes/{name}.tmLanguage.json": {"scopeName": f"source.{name}", "patterns": patterns} for name, patterns in rules.items()}
    languages = [{"id": name, "extensions": ["." + ending for ending in endings], "filenames": [file]} for name, (file, endings) in NAMES.items()]
    languages[0]["firstLine"] = FIRST
    files["package.json"] = {
        "name": "ibm1620", "publisher": "ibm1620", "version": "1.0.0", "description": NOTE, "engines": {"vscode": "^1.50.0"},
        "contributes": {
            "languages": languages,
            "grammars": [{"language": name, "scopeName": f"source.{name}", "path": f"./syntaxes/{name}.tmLanguage.json"} for name in NAMES],
            "configurationDefaults": {f"[{name}]": {"editor.rulers": [column - 1 for column in columns]}
                                      for name, columns in (("sps", SHEET), ("ibm1620deck", CARD))}}}
    return {f"vscode/{name}": json.dumps(value, indent=1) + "\n" for name, value in files.items()}


def editor_files(top):
    """The files of share/editors, by their names there, with their texts."""
    language = Language(top)
    return {**vim(language), **nano(language), **vscode(language)}


def stale(top, writes=False):
    """The files of share/editors that are not as they are made now, or not made any more; these are written, or taken away, if it is asked for."""
    folder = top / "share" / "editors"
    made = editor_files(top)
    there = {path.relative_to(folder).as_posix(): path.read_text(encoding="utf-8") for path in folder.rglob("*") if path.is_file()}
    wrong = sorted(name for name in {*made, *there} if made.get(name) != there.get(name))
    for name in wrong if writes else ():
        path = folder / name
        if name in made:
            path.parent.mkdir(parents=True, exist_ok=True)
            path.write_text(made[name], encoding="utf-8")
        else:
            path.unlink()
    return wrong
