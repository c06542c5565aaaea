#!/usr/bin/python3
"""Texts of labels by the rules of MapServer's expressions (deploy/lib/mapconvert/texts.py)."""
import pathlib
import sys
import unittest

sys.path.insert(0, str(pathlib.Path(__file__).resolve().parents[1] / "lib"))

import loading  # noqa: F401
from mapconvert import texts

VALUES = {"name": "l\u00fcbeck am see", "pop": "1234567.8", "no": "7", "empty": ""}


def text(source):
    return texts.label_text(source, VALUES)


class Texts(unittest.TestCase):
    def test_items_stand_in_brackets(self):
        self.assertEqual(text("[name]"), "l\u00fcbeck am see")
        self.assertEqual(text('"[NO]: [name] [unknown]."'), "7: l\u00fcbeck am see .")
        # one quote alone is a character
        self.assertEqual(text('"'), '"')

    def test_texts_are_joined_and_numbers_added(self):
        rows = [("('a' + \"b\")", "ab"), ("([no] + 1)", "71"), ("(1 + 2)", "3"), ("('[no]' + ' x')", "7 x"), ("([no] * 1 + 1)", "8"), ("([no] - 10)", "-3")]
        for source, made in rows:
            self.assertEqual(text(source), made, source)

    def test_products_come_before_sums_and_brackets_before_both(self):
        rows = [("(2 + 3 * 4)", "14"), ("((2 + 3) * 4)", "20"), ("(10 - 4 - 3)", "3"), ("(24 / 4 / 2)", "3"), ("(-3 * -2)", "6"), ("(1 / 8)", "0.125")]
        for source, made in rows:
            self.assertEqual(text(source), made, source)

    def test_numbers_have_six_digits(self):
        self.assertEqual([text("(1 / 3)"), text("(1000000 * 3)"), text("(2.50 * 1)")], ["0.333333", "3e+06", "2.5"])

    def test_functions(self):
        rows = [
            ("(upper([name]))", "L\u00dcBECK AM SEE"), ("(lower('ABc'))", "abc"), ("(initcap('aB cD'))", "Ab Cd"), ("(firstcap('aB cD'))", "Ab cd"),
            ("(length('abcd'))", "4"), ("(commify('1234567.25'))", "1,234,567.25"), ("(commify('-1234'))", "-1,234"), ("(commify('123'))", "123"),
            ("(tostring([pop], '%.1f'))", "1234567.8"), ("(tostring(5, '%03d'))", "005"), ("(round([pop], 100) / 1000)", "1234.6"),
            ("(round(-2.5, 1))", "-3"), ("(round(7, 5))", "5"), ("(UPPER('a' + 'b') + length(''))", "AB0"),
        ]
        for source, made in rows:
            self.assertEqual(text(source), made, source)

    def test_a_text_that_begins_with_a_number_counts_as_that(self):
        self.assertEqual([texts.number_of(value) for value in ("12.5 km", " -3e2x", "x", "", ".5", 4.0)], [12.5, -300.0, 0.0, 0.0, 0.5, 4.0])

    def test_what_is_not_read_makes_no_text(self):
        for source in ("(1 +)", "(1 2)", "('a)", "(length('a', 'b'))", "(sin(1))", "(1 / 0)", "(1 = 2)", "(tostring(1, '%q'))", "(round(1, 0))", "((1)", "()", "(upper('a')"):
            with self.assertRaises(texts.NoText, msg=source):
                text(source)


if __name__ == "__main__":
    unittest.main()
