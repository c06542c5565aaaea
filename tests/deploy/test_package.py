#!/usr/bin/python3
"""What deploy/package lays out for a package; none is made."""
import os
import pathlib
import stat
import sys
import tempfile
import unittest

sys.path.insert(0, str(pathlib.Path(__file__).resolve().parents[1] / "lib"))

import loading

package = loading.script("deploy/package")


class Packages(unittest.TestCase):
    def setUp(self):
        folder = tempfile.TemporaryDirectory()
        self.addCleanup(folder.cleanup)
        self.folder = folder.name
        program = os.path.join(self.folder, "program")
        with open(program, "wb") as file:
            file.write(b"\x7fELF")
        tree = package.Tree(os.path.join(self.folder, "tree"))
        package.fill(tree, program)
        package.describe(tree, {"version": "7.2", "maintainer": "a <b@c>", "date": "today"})

    def path(self, *parts):
        return os.path.join(self.folder, "tree", *parts)

    def read(self, *parts):
        with open(self.path(*parts), encoding="utf-8") as file:
            return file.read()

    def test_scripts_and_all_that_they_import_are_there(self):
        for folder in ("", "mapconvert"):
            sources = {name for name in os.listdir(os.path.join(loading.TOP, "deploy", "lib", folder)) if name.endswith(".py")}
            there = {name for name in os.listdir(self.path("stage/usr/lib/kesmoch/lib", folder)) if name.endswith(".py")}
            self.assertEqual(there, sources)
        for name in ("usr/bin/mapservd", "usr/lib/kesmoch/batch", "usr/lib/kesmoch/rotate", "usr/lib/kesmoch/up"):
            self.assertEqual(stat.S_IMODE(os.stat(self.path("stage", name)).st_mode), 0o755, name)
        self.assertFalse(os.path.exists(self.path("stage/usr/lib/kesmoch/tests")))

    def test_units_name_the_folders_of_a_package(self):
        units = os.listdir(self.path("stage/lib/systemd/system"))
        self.assertEqual(len(units), 5)
        for name in units:
            text = self.read("stage/lib/systemd/system", name)
            self.assertNotIn("/usr/local/", text, name)
            self.assertIn("/usr/", text, name)

    def test_what_is_described_is_filled_in(self):
        self.assertIn("Maintainer: a <b@c>\n", self.read("debian/control"))
        self.assertTrue(self.read("debian/changelog").startswith("kesmoch (7.2) "))
        self.assertEqual(self.read("debian/kesmoch.install"), "stage/etc /\nstage/lib /\nstage/usr /\n")


if __name__ == "__main__":
    unittest.main()
