"""Makes HTML of the Markdown that the pages of this repository use: headings, paragraphs, lists, tables, blocks of code, images, links, bold, italic
and code. A comment is left out."""

import html
import re

TOKEN = re.compile(
    r"(?P<ticks>`+)(?P<code>.+?)(?<!`)(?P=ticks)(?!`)"
    r"|!\[(?P<alt>[^]]*)\]\((?P<image>[^)\s]+)\)"
    r"|\[(?P<text>(?:`[^`]*`|[^][])*)\]\((?P<link>[^)\s]+)\)"
    r"|\*\*(?P<bold>.+?)\*\*"
    r"|(?<![\w*])\*(?=[^\s*])(?P<italic>.+?)(?<=[^\s*])\*(?![\w*])"
    r"|(?P<raw></?code>|&#\d+;)"
    r"|(?P<plain>[&<>])", re.DOTALL)
ITEM = re.compile(r"( *)([-*]|\d+\.) +")
HEADING = re.compile(r"(#{1,4}) +(.*)")


def anchor(title):
    """The name by which a link finds a heading, as GitHub makes it."""
    return re.sub(r"[^\w\- ]", "", plain(title).lower()).replace(" ", "-")


def plain(text):
    """A text without its marks."""
    return html.unescape(re.sub(r"<[^>]*>", "", inline(text, lambda target: target)))


def inline(text, place):
    """The HTML of a text within a line; `place` gives where a link leads in HTML."""
    def made(found):
        part = found.groupdict()
        if part["code"] is not None:
            return f"<code>{html.escape(part['code'], quote=False)}</code>"
        if part["image"]:
            return f'<img src="{place(part["image"])}" alt="{html.escape(part["alt"])}">'
        if part["link"]:
            return f'<a href="{html.escape(place(part["link"]))}">{inline(part["text"], place)}</a>'
        if part["bold"]:
            return f"<strong>{inline(part['bold'], place)}</strong>"
        if part["italic"]:
            return f"<em>{inline(part['italic'], place)}</em>"
        return part["raw"] or html.escape(part["plain"])
    return TOKEN.sub(made, text)


def cells(line):
    """The cells of a line of a table. A `\\|` is a character of a cell."""
    parts = re.split(r"(?<!\\)\|", line.strip().strip("|") if not line.rstrip().endswith("\\|") else line.strip()[1:])
    return [part.strip().replace("\\|", "|") for part in parts]


def table_below(text, heading):
    """The first table below a heading of a page: its rows, each a list of cells, without the row of titles."""
    section = text.split(f"\n{heading}\n", 1)[1]
    found = re.search(r"^\|.*\n\|[-| ]+\|\n((?:\|.*\n)+)", section, re.MULTILINE)
    return [cells(line) for line in found[1].splitlines()]


def table(lines, place):
    head, rows = cells(lines[0]), [cells(line) for line in lines[2:]]
    made = ["<table>", "<tr>" + "".join(f"<th>{inline(cell, place)}</th>" for cell in head) + "</tr>"]
    made += ["<tr>" + "".join(f"<td>{inline(cell, place)}</td>" for cell in row) + "</tr>" for row in rows]
    return "\n".join([*made, "</table>"])


def item_list(lines, place):
    """A list, with what is indented below its items."""
    kind = "ol" if re.match(r" *\d", lines[0]) else "ul"
    items = []
    for line in lines:
        found = ITEM.match(line)
        if found and not found[1]:
            items.append([line[found.end():]])
        else:
            items[-1].append(line[3:] if kind == "ol" else line[2:])
    made = [f"<li>{blocks(item, place, is_item=True)}</li>" for item in items]
    return "\n".join([f"<{kind}>", *made, f"</{kind}>"])


def taken(lines, goes_on):
    """The lines up to the first one that does not belong there, without empty ones at their end."""
    number = next((number for number, line in enumerate(lines) if not goes_on(line)), len(lines))
    while not lines[number - 1].strip():
        number -= 1
    return number


def is_of_list(line):
    return not line.strip() or line.startswith("  ") or ITEM.match(line)


def block(lines, place, is_item):
    """The HTML of the block that begins with the first of these lines, and how many lines it has."""
    first = lines[0]
    heading = HEADING.match(first)
    if first.startswith("<!--"):
        return "", 1
    if heading:
        level = len(heading[1])
        return f'<h{level} id="{anchor(heading[2])}">{inline(heading[2], place)}</h{level}>', 1
    if first.startswith("```"):
        end = lines.index("```", 1)
        return f"<pre>{html.escape(chr(10).join(lines[1:end]), quote=False)}</pre>", end + 1
    if first.startswith("    "):
        number = taken(lines, lambda line: line.startswith("    ") or not line.strip())
        return f"<pre>{html.escape(chr(10).join(line[4:] for line in lines[:number]), quote=False)}</pre>", number
    if first.startswith("|"):
        number = taken(lines, lambda line: line.startswith("|"))
        return table(lines[:number], place), number
    if ITEM.match(first):
        number = taken(lines, is_of_list)
        return item_list(lines[:number], place), number
    quoted = first.startswith("> ")
    number = taken(lines, lambda line: line.strip() and not HEADING.match(line) and not line.startswith(("|", "```", "<!--"))
                   and (line is first or not ITEM.match(line)))
    text = inline("\n".join(line[2:] if quoted else line for line in lines[:number]), place)
    made = text if is_item else f"<p>{text}</p>"
    return f"<blockquote>{made}</blockquote>" if quoted else made, number


def blocks(lines, place, is_item=False):
    """The HTML of some lines."""
    made = []
    while lines:
        if not lines[0].strip():
            lines = lines[1:]
            continue
        text, number = block(lines, place, is_item)
        made.append(text)
        lines = lines[number:]
        is_item = False
    return "\n".join(made)


def sections(text):
    """The sections of a page: the level, the title and the text of each heading up to the next."""
    found = []
    is_code = False
    for line in text.split("\n"):
        is_code ^= line.startswith("```")
        heading = not is_code and HEADING.match(line)
        if heading:
            found.append((len(heading[1]), heading[2], []))
        elif found and not line.startswith("<!--"):
            found[-1][2].append(line)
    return [(level, title, "\n".join(lines)) for level, title, lines in found]
