#!/usr/bin/python3
"""Conditions of labels and layers by MapServer's rules (deploy/lib/mapconvert/conditions.py)."""
import pathlib
import sys
import unittest

sys.path.insert(0, str(pathlib.Path(__file__).resolve().parents[1] / "lib"))

import loading  # noqa: F401
from mapconvert import conditions

VALUES = {"name": "oak tree", "no": "7", "empty": "", "place": "M\u00fcnchen", "odd": "0x10"}


def holds(source, item=None):
    """Whether a condition holds; nothing where it isn't known."""
    try:
        return conditions.label_holds(source, item, VALUES)
    except conditions.texts.NoText:
        return None


class Conditions(unittest.TestCase):
    def those(self, is_true, *sources):
        for source in sources:
            self.assertIs(holds(f"({source})"), is_true, source)

    def test_numbers(self):
        self.those(True, "[no] = 7", "[NO] == 7.0", "[no] >= 7", "[no] < 7.5", "[no] ne 8", "[no] * 2 - 4 / 2 = 12", "0 -[no] = -7", "7 - -1 = 8", "2 + 3 * 4 = 14", "5", "[empty] = 0", "1e1 = 10")
        self.those(False, "[no] = 8", "[no] > 7", "[no] lt 7", "[no] != 7", "0", "[name]", "10 - 4 - 3 = 9")

    def test_texts(self):
        self.those(True, "\"[name]\" = 'oak tree'", "'[Name]' eq \"oak tree\"", "'[name]' =* 'OAK Tree'", "'[name]' > 'oak'", "'[no]' = '7'", "'a' + 'b' = 'ab'", "'B' < 'a'")
        self.those(False, "'[name]' = 'Oak tree'", "'[name]' = 'oak'", "'[no]' = '07'", "'[empty]' != ''", "'[place]' =* 'M\u00dcNCHEN'")

    def test_lists_and_patterns(self):
        self.those(True, "'[name]' in 'fir,oak tree'", "[no] IN '6,7.0'", "'[name]' ~ '^oak'", "'[name]' ~* 'TREE$'", "'[name]' ~ 'k.t|fir'", "'[place]' ~ 'nchen$'")
        self.those(False, "'[name]' in 'fir, oak tree'", "[no] in '6,70'", "'[name]' ~ '^tree'", "'[name]' ~ 'TREE'", "'[name]' in ''")

    def test_and_comes_before_or_and_not_before_both(self):
        self.those(True, "1 or 0 and 0", "NOT 0 AND 1", "not (1 and 0)", "![no] = 8", "[no] = 7 && '[name]' ~ 'oak' || 0", "(0 or 1) and (1 or 0)")
        self.those(False, "(1 or 0) and 0", "NOT 1 OR 0", "not [no] = 7", "!(![no] = 8)")

    def test_functions(self):
        self.those(True, "length('[name]') = 8", "length('[place]') = 8", "upper('[name]') = 'OAK TREE'", "lower('\u00dcB') = '\u00dcb'")

    def test_what_is_not_known_holds_for_nobody(self):
        self.those(
            None, "'[name]' = 7", "[no] = '7'", "'[name]'", "[other] = 1", "'[other]' = ''", "'a [name]' = 'a oak tree'", "[no] % 2 = 1", "2 ^ 2 = 4", "1 = 1 = 1", "(1", "1)", "",
            "1 or [other]", "0 and '[name]'", "[no] = `2001`", "sin([no]) = 0", "length([no]) = 1", "round([no], 5) = 5", "1 / 0 = 1", "[odd] = 0", "'[name]' ~ '[a-z]'", "'[name]' ~ 'a{2}'", "'[name]' ~ '('",
            "'[name]' + 1 = 'x'", "[no] in 7", "true", "'a' and 1", "tostring(1, '%d') = '1'", "'[place]' ~ '^M.*nchen$'", "-[no] = -7", "[no] -1 = 6", "[no]-1 = 6", ".5 = 0.5",
        )

    def test_what_stands_in_no_brackets_goes_by_the_item(self):
        rows = [
            ('"oak tree"', True), ('"Oak tree"', False), ('"OAK TREE"i', True), ("{fir,oak tree}", True), ("{fir,oak}", False), ("/^oak/", True), ("/TREE/", False), ("/TREE/i", True),
            ("{OAK TREE}i", None), ("oak tree", None), ("/[a-z]/", None),
        ]
        for source, is_true in rows:
            self.assertIs(holds(source, "NAME"), is_true, source)
            self.assertIsNone(holds(source), source)
            self.assertIsNone(holds(source, "other"), source)

    def test_an_empty_one_always_holds(self):
        self.assertIs(holds('""'), True)

    def test_a_condition_of_a_layer_holds_whatever_else_is_asked_for(self):
        for source, is_true in ((None, True), ("", True), ("1", True), ("NOT 0", True), ("(1 = 1)", True), ("0", False), ("!1", False), ("(1 > 2)", False)):
            self.assertIs(conditions.of_layer(source), is_true, source)
        for source in ("[park]", "![park]", "1 or [park]", "'[park]' = ''", "yes", "("):
            with self.assertRaises(conditions.Unknown, msg=source):
                conditions.of_layer(source)


if __name__ == "__main__":
    unittest.main()
