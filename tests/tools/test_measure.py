#!/usr/bin/python3
"""What tools/measure.py counts of Python, and that the repository has no more of a kind than its limit."""
import pathlib
import sys
import unittest

sys.path.insert(0, str(pathlib.Path(__file__).resolve().parents[1] / "lib"))

import loading

measure = loading.script("tools/measure.py")


def function(lines, head="def f():", indent=""):
    """A function with a docstring, a blank line, a comment and so many further lines."""
    body = ['    """What it does."""', "", "    # why", *(f"    a{number} = {number}" for number in range(lines - 1))]
    return "".join(f"{indent}{line}\n" for line in [head, *body])


def found(text, file="a.py"):
    return [(kind, name.partition(": ")[2] or name) for kind, name in measure.found_in(file, text)]


class Lengths(unittest.TestCase):
    def test_docstring_blank_lines_and_comments_do_not_count(self):
        self.assertEqual(found('"""A."""\n' + function(30)), [])
        self.assertEqual(found('"""A."""\n' + function(31)), [(measure.LONG, "f: 31")])

    def test_functions_within_others_count_for_themselves(self):
        self.assertEqual(found('"""A."""\n' + function(20) + function(15, "def g():", "    ")), [])
        self.assertEqual(found('"""A."""\n' + function(2) + function(33, "def g():", "    ")), [(measure.LONG, "f.g: 33")])

    def test_a_file_has_400_lines_at_most(self):
        self.assertEqual(found('"""A."""\n' + 399 * "#\n"), [])
        self.assertEqual(found('"""A."""\n' + 400 * "#\n", "b.py"), [(measure.LARGE, "401")])


class Parameters(unittest.TestCase):
    def test_self_does_not_count_and_all_kinds_do(self):
        self.assertEqual(found('"""A."""\nclass A:\n    """B."""\n    def f(self, a, b, /, c, *d): pass\n'), [])
        self.assertEqual(found('"""A."""\ndef f(a, *b, c, d=1, **e): pass\n'), [(measure.WIDE, "f: 5")])


class Docstrings(unittest.TestCase):
    def test_a_module_wants_one(self):
        self.assertEqual(found("a = 1\n", "b/c.py"), [(measure.BARE, "b/c.py")])

    def test_a_function_of_four_lines_wants_one(self):
        self.assertEqual(found('"""A."""\ndef f():\n    a = 1\n    return a\n'), [])
        self.assertEqual(found('"""A."""\ndef f():\n    a = 1\n    b = 2\n    return a\n'), [(measure.BARE, "f")])

    def test_a_class_wants_one_but_in_tests(self):
        self.assertEqual(found('"""A."""\nclass A: pass\n'), [(measure.BARE, "A")])
        self.assertEqual(found('"""A."""\nclass A: pass\n', "b/test_c.py"), [])

    def test_main_private_and_inner_functions_and_tests_do_not(self):
        body = "(a):\n    b = 1\n    c = 2\n    return b\n"
        self.assertEqual(found('"""A."""\n' + "".join(f"def {name}{body}" for name in ("main", "_f", "test_f"))), [])
        self.assertEqual(found('"""A."""\ndef f():\n    """B."""\n    def g():\n        a = 1\n        b = 2\n        return a\n'), [])


class Repository(unittest.TestCase):
    def test_nothing_has_grown(self):
        self.assertEqual(measure.grown(measure.measured()), [])

    def test_one_more_than_a_limit_is_too_many(self):
        full = {kind: ["a"] * limit for kind, limit in measure.LIMITS.items()}
        self.assertEqual(measure.grown(full), [])
        full[measure.WIDE].append("a")
        self.assertEqual(len(measure.grown(full)), 1)


if __name__ == "__main__":
    unittest.main()
