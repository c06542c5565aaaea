#!/usr/bin/python3
"""Which texts are logical expressions (deploy/lib/mapfile.py), by the grammar of docs/MAPFILE.md."""
import pathlib
import sys
import unittest

sys.path.insert(0, str(pathlib.Path(__file__).resolve().parents[1] / "lib"))

import loading  # noqa: F401
import mapfile


def fault(text):
    return mapfile.Logic(text).fault()


class Expressions(unittest.TestCase):
    def test_each_comparison_is_read(self):
        for sign in ("=", "==", "=*", "!=", "<", "<=", ">", ">=", "eq", "NE", "Lt", "gt", "le", "ge", "in"):
            self.assertIsNone(fault(f'([a] {sign} "b")'), sign)
            self.assertIsNone(fault(f"('b' {sign} 12.5)"), sign)

    def test_parts_are_combined(self):
        for text in ("([a] = 1 AND [b] = 2)", "([a] = 1 && [b] = 2 || [c] = 3)", "(NOT ([a] = 1) or ! [b] = -2e3)", "( [a]=1AND[b]=2 )"):
            self.assertIsNone(fault(text), text)

    def test_the_fault_is_where_no_reading_goes_on(self):
        rows = [
            ("[a] = 1", 0),
            # the end of what was read, and a blank after it
            ("([a] ~ 'b')", 5), ("([a])", 4), ("([a] = )", 7), ("([a] = 1", 8), ("([a] = 1 [b])", 9), ("([a] = 1) x", 9),
            ("([] = 1)", 1), ("([a] = length('b'))", 7), ("([a] = 1 AND)", 12),
        ]
        for text, at in rows:
            self.assertEqual(fault(text), at, text)

    def test_a_number_has_at_most_a_million_million(self):
        self.assertIsNone(fault("([a] < 1000000000000)"))
        self.assertEqual(fault("([a] < 1000000000001)"), 7)
        self.assertEqual(fault("([a] < -1e13)"), 7)

    def test_brackets_and_negations_go_64_deep(self):
        self.assertIsNone(fault("(" * 64 + "[a] = 1" + ")" * 64))
        self.assertEqual(fault("(" * 65 + "[a] = 1" + ")" * 65), 65)
        # the outer bracket is one
        self.assertIsNone(fault("(" + "!" * 63 + "[a] = 1)"))
        self.assertEqual(fault("(" + "!" * 64 + "[a] = 1)"), 65)

    def test_depth_is_that_of_one_part(self):
        self.assertIsNone(fault("(" + " AND ".join(["(" * 63 + "[a] = 1" + ")" * 63] * 2) + ")"))


if __name__ == "__main__":
    unittest.main()
