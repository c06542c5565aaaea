#!/usr/bin/python3
"""Whether the gate can start each script of tests/gate/, and knows how."""
import ast
import os
import pathlib
import re
import unittest

GATE = pathlib.Path(__file__).resolve().parents[1] / "gate"
# PROGRAM, REFUSALS and numbers are the words of a call.
FORM = re.compile(r"^Gate:( (PROGRAM|REFUSALS|\d+)( (PROGRAM|\d+))*;)?( needs \w+;)? [1-9]\d* s$", re.M)


class Scripts(unittest.TestCase):
    def setUp(self):
        self.paths = [path for path in sorted(GATE.iterdir()) if path.name != "__pycache__"]

    def test_nothing_else_lies_there(self):
        self.assertGreater(len(self.paths), 30)
        self.assertEqual([], [path.name for path in self.paths if not path.is_file()])

    def test_each_script_can_be_started(self):
        self.assertEqual([], [path.name for path in self.paths if not os.access(path, os.X_OK)])

    def test_each_says_how_once(self):
        documents = {path.name: ast.get_docstring(ast.parse(path.read_text(encoding="utf-8"))) or "" for path in self.paths}
        counts = {name: len(FORM.findall(text)) for name, text in documents.items()}
        self.assertEqual({name: 1 for name in documents}, counts)


if __name__ == "__main__":
    unittest.main()
