"""The page: one text of the files beside this one, and the rule under which a browser runs it."""

import base64
import hashlib
import json
import os

PAGES = {
    "page": (("style", ("machine.css", "page.css")),
             ("script", ("core.js", "engines.js", "cards.js", "view.js", "words.js", "panel.js", "typewriter.js", "drawing.js", "listing.js", "running.js",
                         "controls.js"))),
    "exhibit": (("style", ("machine.css", "exhibit.css")),
                ("script", ("core.js", "engines.js", "cards.js", "view.js", "words.js", "panel.js", "typewriter.js", "visit.js"))),
}
WORDS = '<script type="application/json" id="words"></script>'
TABLES = ("operations", "characters")
RECORD = '<script type="application/json" id="record"></script>'


def read_page(folder, name, words):
    """A page, with its words, its style and its script in it, and the rule: its own style and script, and nothing from elsewhere."""
    def read(name):
        with open(os.path.join(folder, name), encoding="utf-8") as file:
            return file.read()
    page = read(name + ".html")
    for table in TABLES:
        place = f'<script type="text/plain" id="{table}">'
        page = page.replace(place, place + "\n" + read(os.path.join(os.pardir, table + ".txt")))
    page = page.replace(WORDS, WORDS.replace("></", ">" + json.dumps(words).replace("<", "\\u003c") + "</"))
    rules = ["default-src 'none'", "connect-src 'self'", "img-src data:", "base-uri 'none'", "form-action 'none'", "frame-ancestors 'none'"]
    for tag, names in PAGES[name]:
        text = "\n" + "".join(read(name) for name in names)
        page = page.replace(f"<{tag}></{tag}>", f"<{tag}>{text}</{tag}>")
        rules.append(f"{tag}-src 'sha256-{base64.b64encode(hashlib.sha256(text.encode()).digest()).decode()}'")
    return page, "; ".join(rules)
