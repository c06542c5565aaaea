#!/usr/bin/python3
"""Which words of a page one may look up in the table of rules, and that each is looked for there."""
import pathlib
import sys
import tempfile
import unittest
import unittest.mock

sys.path.insert(0, str(pathlib.Path(__file__).resolve().parents[2] / "tools" / "lib"))

import lookups

PAGE = """# Fields
## Sizes of a field
`WIDTH w h` and `--port P` and `InvalidFormat`, as `width=3` or `W`.

    `HIDDEN` stands in an example

`WIDTH` again, `NAME: a message`, `0.5`, `evicted`, `two words`, `Ulm`.
"""


def row(words, page="FIELDS: Other"):
    return {"look for": words, "page": page}


class CodeWords(unittest.TestCase):
    def test_capitals_options_and_single_words_count_once(self):
        self.assertEqual(lookups.code_words(PAGE), ["WIDTH", "--port", "InvalidFormat", "evicted"])

    def test_letters_numbers_messages_and_examples_do_not(self):
        for text in ("W", "0.5", "NAME: a message", "two words", "Ulm", "/wms", "#"):
            self.assertIsNone(lookups.code_word(text), text)


class Checked(unittest.TestCase):
    def missing(self, *table):
        """What isn't looked for of PAGE in a table."""
        with tempfile.TemporaryDirectory() as folder:
            page = pathlib.Path(folder) / "FIELDS.md"
            page.write_text(PAGE, encoding="utf-8")
            with unittest.mock.patch.object(lookups, "PAGES", [page]):
                return [what.partition(" in ")[0].partition(": the ")[2] for what, is_there in lookups.check(table) if not is_there]

    def test_a_word_stands_whole_in_some_row(self):
        self.assertEqual(self.missing(row("sizes of a field, `WIDTH`, `--port`"), row("`InvalidFormat`, `evicted`")), [])
        found = self.missing(row("sizes of a field, `MAXWIDTH`, `--port-range`"), row("`invalidformat`, not-evicted"))
        self.assertEqual(found, ["code word WIDTH", "code word --port", "code word InvalidFormat", "code word evicted"])

    def test_a_heading_stands_in_one_of_its_own_rows(self):
        words = row("`WIDTH`, `--port`, `InvalidFormat`, `evicted`, sizes of a field")
        self.assertEqual(self.missing(words), [])
        self.assertEqual(self.missing(words, row("sizes", "FIELDS: Sizes of a field")), ["heading Sizes of a field"])
        self.assertEqual(self.missing(words, row("Sizes of a Field", "FIELDS: Sizes of a field")), [])


if __name__ == "__main__":
    unittest.main()
