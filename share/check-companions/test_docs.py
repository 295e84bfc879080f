"""What check-docs refuses in a page, in a small repository of its own."""

import tempfile
import unittest
from pathlib import Path

import patterns
from links import look_at_links, reached
from names import look_at_names
from questions import look_at_questions
from shape import contents_of, fill_contents, look_at_contents, look_at_tables
from texts import Page

FILES = {
    "bin/tool": 'HIGH_BIT = 1\nopen("made.txt")\n',
    "crates/one/src/lib.rt": "pub struct Core;\nimpl Core { fn new() {} }\n",
    "crates/one/src/out.md": "page_word\n",
    "examples/sum/deck.txt": "123\n",
    "docs/picture.svg": "",
    "docs/other.md": "# Other\n\n## A part\n\n## A part\n\n## `run`, and *more*\n",
}


class InRepository(unittest.TestCase):
    def setUp(self):
        made = tempfile.TemporaryDirectory(prefix="check-companions-")
        self.addCleanup(made.cleanup)
        self.top = Path(made.name).resolve()
        for name, text in FILES.items():
            self.write(name, text)

    def write(self, name, text):
        path = self.top / name
        path.parent.mkdir(parents=True, exist_ok=True)
        path.write_text(text)
        return path

    def page(self, *lines, name="docs/page.md"):
        return Page(self.write(name, "\n".join(lines) + "\n"))

    def slips(self, looked_at):
        """The numbers of the lines that are right, and of those that are wrong."""
        looked_at = list(looked_at)
        return [number for number, slip in looked_at if not slip], [number for number, slip in looked_at if slip]

    def test_links(self):
        page = self.page("[a](other.md) and [b](none.md)", "![c](picture.svg) ![d](none.svg)", "[e](other.md#a-part-1)", "[f](other.md#a-part-2)",
                         "[g](other.md#run-and-more) [`h`](../bin)", "[i](#top) [j](#below)", "# Below", "`[k](none.md)`", "    [l](none.md)",
                         "[m](https://nowhere.example/x) [over", "a line](none.md)", "[![n](none.svg)](other.md)")
        right, wrong = self.slips(look_at_links(page, self.top))
        self.assertEqual(right, [1, 2, 3, 5, 5, 6, 12])
        self.assertEqual(wrong, [1, 2, 4, 6, 11, 12])

    def test_paths(self):
        right = ("bin/tool", "bin/", "crates/one/src/lib.rt", "src/lib.rt", "one/src", "crates/*/src", "crates/NAME/src", "src/{lib.rt,out.md}",
                 "deck.txt", "made.txt", "page.html", "crates/one/out/x", "share/doc/x", "shown.txt", "/dev/null", "~/bin/none", "PREFIX/none",
                 "tool --deck none.txt", "a/b")
        wrong = ("bin/none", "src/none.rt", "crates/*/none", "src/{lib,out}.rt", "none.txt", "none.html", "tool --deck examples/none", "./bin/none")
        for words, answer in ((right, ""), (wrong, "no such file")):
            for word in words:
                page = self.page(f"See `{word}`.", "", "    $ tool > shown.txt")
                self.assertTrue(all(answer in slip if answer else not slip for _, slip in look_at_names(page, self.top)), word)
                self.assertTrue(not answer or list(look_at_names(page, self.top)), word)

    def test_names(self):
        page = self.page("`HIGH_BIT` `Core::new(..)` `TOTAL` `--deck` `00012` and `IN_BLOCK`", "`low_bit`", "`Core::old`", "`is over", "two_lines`",
                         "`page_word`", "", "    $ echo IN_BLOCK")
        right, wrong = self.slips(look_at_names(page, self.top))
        self.assertEqual((right, wrong), ([1, 1, 1], [2, 3, 4, 6]))

    def test_tables(self):
        page = self.page("| " + "a" * 96 + " |", "| " + "a" * 97 + " |", "a" * 120, "    | " + "a" * 120)
        self.assertEqual(self.slips(look_at_tables(page)), ([1], [2]))

    def test_contents(self):
        head = ("# Page", "", "About.", "")
        parts = [f"## Part {number}, which has *a long* name" for number in range(20)]
        self.assertEqual(self.slips(look_at_contents(self.page(*head, *[""] * 196))), ([], []))
        self.assertEqual(self.slips(look_at_contents(self.page(*head, *[""] * 197))), ([], [1]))
        self.assertEqual(self.slips(look_at_contents(self.page(*head, "<!-- contents -->"))), ([], [5]))
        page = self.page(*head, "<!-- contents -->", "old", "<!-- /contents -->", *parts, "### Deep")
        self.assertEqual(self.slips(look_at_contents(page)), ([], [5]))
        before = page.lines
        self.assertTrue(fill_contents(page))
        page = Page(page.path)
        self.assertFalse(fill_contents(page))
        self.assertEqual(self.slips(look_at_contents(page)), ([5], []))
        self.assertEqual([*page.lines[:5], "old", *page.lines[5 + len(contents_of(page)):]], before)
        self.assertEqual(" ".join(contents_of(page)).count("](#part-"), 20)
        self.assertLess(max(map(len, contents_of(page))), 121)
        self.assertEqual(self.slips(look_at_links(page, self.top))[1], [])

    def test_patterns(self):
        for name, text in (("where", "Where it fails"), ("behind", "the card behind it"), ("stands", "It stood there"), ("what", "see what it does"),
                           ("is told", "A fault is told of"), ("comes to", "It comes to 5"), ("that of", "as that of A"), ("is none", "a B is none."),
                           ("but for", "all but for A"), ("in the place of", "A besides"), ("goes by", "It goes by A"), ("the one", "such a card"),
                           (patterns.LONG, "A" + " a" * 35)):
            page = self.page("# What is behind", "", "No turn.", text, "    where", "", "- `where` [so](what.md)")
            self.assertEqual([(name, 4)], list(patterns.found_in(patterns.prose_of(page))), name)
        self.assertEqual(list(patterns.found_in(["What is it? No, `what", "behind` it. There is no such card."])), [])
        self.assertEqual(list(patterns.paragraphs(["One of 20.", "1. Two of 20. So", "- three - it", "| four | five is six words long |"])),
                         [(1, "One of 20."), (2, "Two of 20. So"), (3, "three - it"), (4, " five is six words long ")])
        self.assertEqual(list(patterns.found_in(["| a | the cards that lie behind |"])), [("behind", 1)])

    def test_patterns_of_comments(self):
        self.write("crates/one/src/lib.rt", "//! Behind it.\nlet behind = 1;\n    // but\n    // for `behind`\n")
        self.write("crates/one/specs/Lib.antt", "-- where\n\n--\nwhere\n")
        self.write("crates/one/proofs/Lib.antt", "-- where\n")
        self.assertEqual(list(patterns.turns_of_crate(self.top / "crates" / "one")),
                         [("where", "specs/Lib.antt:1"), ("behind", "src/lib.rt:1"), ("but for", "src/lib.rt:3")])

    def test_numbers_of_patterns(self):
        text = "# Head 7\n\na.md 5\nb.md 5\nc.md 5\nd.md 5\n"
        self.assertEqual(patterns.allowed(text), {"a.md": 5, "b.md": 5, "c.md": 5, "d.md": 5})
        self.assertEqual(patterns.lowered(text, {"a.md": 3, "b.md": 9, "c.md": 0, "new.md": 4}), "# Head 7\n\na.md 3\nb.md 5\n")
        self.assertEqual(patterns.wrong_with([("where", 1)], 1), "")
        self.assertIn("    where: 1 3\n    x: 2", patterns.wrong_with([("where", 1), ("x", 2), ("where", 3)], 2) + "\n")

    def test_questions(self):
        self.page("[one](docs/one.md) [folder](docs/sub/)", name="README.md")
        self.page("The answer", "is 42. [two](two.md)", name="docs/one.md")
        self.page("Two. [three](three.md)", name="docs/two.md")
        self.page("Three.", name="docs/three.md")
        self.page("Sub.", name="docs/sub/README.md")
        names = {path.relative_to(self.top).as_posix(): count for path, count in reached(self.top / "README.md", 2).items()}
        self.assertEqual(names, {"README.md": 0, "docs/one.md": 1, "docs/sub/README.md": 1, "docs/two.md": 2})
        text = "# Head\nA?|docs/one.md|answer is 42\nB?|docs/two.md|Two.\nC?|docs/three.md|Three.\nD?|docs/two.md|answer is\nE?|docs/two.md\n"
        self.assertEqual(self.slips(look_at_questions(text, self.top)), ([2, 3], [4, 5, 6]))


if __name__ == "__main__":
    unittest.main()
