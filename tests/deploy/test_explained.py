#!/usr/bin/python3
"""That each server which a unit, the image, a script or a document's command starts is told to explain how it ends."""
import pathlib
import re
import sys
import unittest

sys.path.insert(0, str(pathlib.Path(__file__).resolve().parents[1] / "lib"))

import loading  # noqa: F401

TOP = pathlib.Path(__file__).resolve().parents[2]
# A command of a document, a unit or the image, and the words of a script.
FORMS = {
    "*.md": r"^ {4}.*\bmapservd serve\b.*",
    "*.service": r"^ExecStart=.*\bmapservd serve\b.*",
    "Containerfile": r'^CMD \["serve".*',
    "up": r'^ *words = .*"serve".*',
    "serve": r'^ *words \+?= .*"serve".*',
}
# How many servers each starts.
FOUND = {
    "README.md": 1, "docs/OPERATING.md": 4, "docs/CLIENTS.md": 1, "deploy/README.md": 1, "deploy/system/kesmoch@.service": 1, "deploy/system/Containerfile": 1, "deploy/up": 1,
    "demo/serve": 2,
}


def commands_of(path):
    """The lines of a file that start a server."""
    form = next((form for name, form in FORMS.items() if path.match(name)), None)
    return re.findall(form, path.read_text(encoding="utf-8"), re.MULTILINE) if form else []


class Servers(unittest.TestCase):
    def test_each_explains_how_it_ends(self):
        paths = [path for folder in ("", "docs", "deploy", "deploy/system", "demo") for path in sorted((TOP / folder).iterdir()) if path.is_file()]
        found = {str(path.relative_to(TOP)): commands for path in paths if (commands := commands_of(path))}
        self.assertEqual({name: len(commands) for name, commands in found.items()}, FOUND)
        self.assertEqual([line for commands in found.values() for line in commands if "--explain" not in line], [])


if __name__ == "__main__":
    unittest.main()
