#!/usr/bin/python3
"""Numbers and tokens of a mapfile (deploy/lib/mapfile.py)."""
import decimal
import os
import pathlib
import sys
import tempfile
import unittest

sys.path.insert(0, str(pathlib.Path(__file__).resolve().parents[1] / "lib"))

import loading  # noqa: F401
import mapfile


def read(source):
    """The tokens of a text, each with its shape and line, and what was found wrong with it and noted."""
    wrong, notes = [], []
    reader = mapfile.Reader(source, lambda *found: wrong.append(found), lambda *found: notes.append(found))
    return [(token.shape, token.text, token.line) for token in reader.tokens], wrong, notes


class Numbers(unittest.TestCase):
    def test_numbers_are_rounded_to_millionths_a_half_away_from_zero(self):
        rows = [("12.3456785", "12.345679"), ("-12.3456785", "-12.345679"), ("12.3456784", "12.345678"), ("+.5", "0.500000"),
                ("7.", "7.000000"), ("2.5e3", "2500.000000"), ("25E-1", "2.500000")]
        for text, number in rows:
            self.assertEqual(mapfile.millionths(text), decimal.Decimal(number), text)

    def test_what_is_no_number_has_none(self):
        for text in ("", ".", "e5", "1e", "0x10", "1,5", "12 ", "--3", "\u0661\u0662"):
            self.assertIsNone(mapfile.millionths(text), text)

    def test_numbers_beyond_the_digits_of_a_decimal_are_large(self):
        for text in ("1e40", "1e999999999999999999999"):
            self.assertGreater(mapfile.millionths(text), 10**12, text)
            self.assertLess(mapfile.millionths("-" + text), -(10**12), text)

    def test_numbers_near_zero_are_zero(self):
        for text in ("4e-7", "1e-999999999999999999999", "0e999999999999999999999"):
            self.assertEqual(mapfile.millionths(text), 0, text)

    def test_counts_are_rounded_twice(self):
        # 2.4999995 is 2.500000 in millionths
        for text, counted in (("2.4", 2), ("2.5", 3), ("-2.5", -3), ("2.4999995", 3), ("x", None)):
            self.assertEqual(mapfile.count(text), counted, text)


class Tokens(unittest.TestCase):
    def test_tokens_have_shapes_and_the_lines_where_they_begin(self):
        source = "MAP # a comment \"not a text\"\n  NAME 'two\nlines'\n{a,b}([x] = \")\")END"
        self.assertEqual(read(source)[0], [
            ("word", "MAP", 1), ("word", "NAME", 2), ("text", "two\nlines", 2), ("list", "a,b", 4), ("logic", '([x] = ")")', 4),
            ("word", "END", 4),
        ])

    def test_brackets_of_an_expression_may_stand_in_each_other(self):
        self.assertEqual(read("((1 = 1) OR (2 = 3)) x")[0], [("logic", "((1 = 1) OR (2 = 3))", 1), ("word", "x", 1)])

    def test_what_is_not_closed_goes_to_the_end(self):
        for source in ("a\n'b c", "a\n{b c", "a\n(b c"):
            tokens, wrong, _ = read(source)
            self.assertEqual(len(tokens), 2, source)
            self.assertEqual(wrong, [(2, mapfile.NOT_CLOSED)], source)

    def test_a_comment_of_mapserver_is_left_out_and_reported(self):
        tokens, wrong, _ = read("a /* b\nc */ d")
        self.assertEqual(tokens, [("word", "a", 1), ("word", "d", 2)])
        self.assertEqual(wrong, [(1, mapfile.COMMENT)])

    def test_stray_brackets_are_reported(self):
        self.assertEqual(read("a\n) b }")[1], [(2, mapfile.STRAY), (2, mapfile.STRAY)])

    def test_a_backslash_before_the_quote_is_noted(self):
        tokens, wrong, notes = read("\n'a\\'")
        self.assertEqual((tokens, wrong, notes), ([("text", "a\\", 2)], [], [(2, mapfile.BACKSLASH)]))

    def test_control_characters_and_bytes_that_are_no_utf_8_are_reported(self):
        # a text may have tabs and ends of lines, a word none
        self.assertEqual(read("'a\tb\nc'")[1], [])
        self.assertEqual(read("'a\x07'")[1], [(1, mapfile.CONTROL)])
        self.assertEqual(read("a\x0bb")[1], [(1, mapfile.CONTROL)])
        self.assertEqual(read(b"\n'\xe4'".decode("utf-8", "surrogateescape"))[1], [(2, mapfile.NOT_UTF8)])

    def test_a_text_has_at_most_65536_bytes(self):
        # two bytes each
        self.assertEqual(read("'" + "\u00e4" * 32_768 + "'")[1], [])
        self.assertEqual(read("'" + "\u00e4" * 32_768 + "x'")[1], [(1, mapfile.TOO_LONG)])

    def test_an_end_is_a_word(self):
        ends = [mapfile.Token(shape, text, 1).is_end() for shape, text in (("word", "end"), ("text", "END"), ("word", "ENDS"))]
        self.assertEqual(ends, [True, False, False])

    def test_tokens_are_shown_with_what_encloses_them(self):
        rows = [("word", "abc", "abc"), ("text", "a\nb", '"a?b"'), ("list", "a,b", "{a,b}"), ("text", "x" * 41, '"' + "x" * 40 + '.."')]
        for shape, text, shown in rows:
            self.assertEqual(str(mapfile.Token(shape, text, 1)), shown)


class Included(unittest.TestCase):
    def write(self, **files):
        folder = tempfile.TemporaryDirectory()
        self.addCleanup(folder.cleanup)
        for name, text in files.items():
            path = os.path.join(folder.name, name.replace("_", "/"))
            os.makedirs(os.path.dirname(path), exist_ok=True)
            with open(path, "w", encoding="utf-8") as file:
                file.write(text)
        return folder.name

    def found(self, folder, name):
        read = mapfile.included(os.path.join(folder, name), folder)
        return [(token.text, os.path.relpath(path, folder), line) for token, (path, line) in read]

    def test_files_stand_in_place_of_their_names(self):
        folder = self.write(a="one\nINCLUDE 'sub/b' two", sub_b="\n\nthree include \"c\"", c="four")
        # names are those of files below the folder of the first
        self.assertEqual(self.found(folder, "a"), [("one", "a", 1), ("three", "sub/b", 3), ("four", "c", 1), ("two", "a", 2)])

    def test_a_file_that_is_missing_gives_nothing(self):
        folder = self.write(a="one INCLUDE 'b' two")
        self.assertEqual([text for text, _, _ in self.found(folder, "a")], ["one", "two"])

    def test_files_include_each_other_five_deep(self):
        folder = self.write(a="x INCLUDE 'a'")
        # the file itself and five below it; the last one's INCLUDE stays a word
        self.assertEqual([text for text, _, _ in self.found(folder, "a")], ["x"] * 6 + ["INCLUDE", "a"])


if __name__ == "__main__":
    unittest.main()
