#!/usr/bin/python3
"""The date of the rules: when a changed page makes it too old, and that a changed date alone doesn't."""
import pathlib
import sys
import tempfile
import unittest
import unittest.mock

sys.path.insert(0, str(pathlib.Path(__file__).resolve().parents[2] / "tools" / "lib"))

import dated


class Dated(unittest.TestCase):
    def setUp(self):
        self.folder = tempfile.TemporaryDirectory()
        self.addCleanup(self.folder.cleanup)
        top = pathlib.Path(self.folder.name)
        self.page, self.printed, self.kept = top / "PAGE.md", top / "version.rt", top / "rules.date"
        self.page.write_text("A tile is square. `1.2, rules of 2001-02-03`\n", encoding="utf-8")
        self.printed.write_text('"1.2, rules of 2001-02-03"\n', encoding="utf-8")
        changed = {"DOCS": top / "docs", "PAGES": [self.page], "KEPT": self.kept, "PRINTED": [self.printed, self.page]}
        patched = unittest.mock.patch.multiple(dated, **changed)
        patched.start()
        self.addCleanup(patched.stop)
        dated.write("2001-02-03")

    def outcome(self):
        """Whether the sum is that of the pages, and whether each place has the day."""
        return [is_there for _, is_there in dated.check()]

    def test_the_day_of_the_last_change_is_printed(self):
        self.assertEqual(self.outcome(), [True, True, True])

    def test_a_changed_page_wants_a_new_day(self):
        self.page.write_text("A tile is round. `1.2, rules of 2001-02-03`\n", encoding="utf-8")
        self.assertEqual(self.outcome(), [False, True, True])
        dated.write("2004-05-06")
        self.assertEqual(self.outcome(), [True, False, False])

    def test_the_printed_day_alone_changes_no_sum(self):
        self.page.write_text("A tile is square. `1.2, rules of 2007-08-09`\n", encoding="utf-8")
        self.assertEqual(self.outcome(), [True, True, False])

    def test_an_unchanged_page_keeps_its_day(self):
        dated.write("2004-05-06")
        self.assertEqual(self.kept.read_text(encoding="utf-8").split()[0], "2001-02-03")

    def test_a_place_without_a_day_is_found(self):
        self.printed.write_text('"1.2"\n', encoding="utf-8")
        self.assertEqual(self.outcome(), [True, False, True])


if __name__ == "__main__":
    unittest.main()
