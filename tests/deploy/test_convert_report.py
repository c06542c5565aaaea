#!/usr/bin/python3
"""The report of deploy/convert: where blocks and keywords stand, and what is said of them."""
import os
import pathlib
import sys
import tempfile
import unittest

sys.path.insert(0, str(pathlib.Path(__file__).resolve().parents[1] / "lib"))

import loading  # noqa: F401
from mapconvert import leftovers
from mapconvert.report import Locator, Report

MAP = """MAP
  NAME 'm' STATUS ON
  TEMPLATEPATTERN 'x'
  WEB METADATA
    'wms_title' 'LAYER'
    'wms_abstract' 'x' 'ows_denied_ip_list' '10.0.0.7' 'wfs_denied_ip_list' '10.0.0.8'
  END END
  LAYER NAME 'a' TYPE POINT
    STATUS DEFAULT
    INCLUDE 'part'
    PROCESSING 'BANDS=1'
    PROCESSING 'ITEMS=x'
    CLASS EXPRESSION 'END'i
      STYLE COLOR 1 2 3 END
      STYLE
        PATTERN 5 6 END
        INITIALGAP 4
      END
    END
    CLUSTER END END
  DEBUG 3 LAYER NAME 'b' TYPE LINE
    OFFSITE 1 2 3
    METADATA 'wms_timeitem' 'year' 'wms_timedefault' '2005' END
  END
END
"""
PART = "\n  LABELITEM 'n'\n  IDENTIFY TOLERANCE 5 END\n"


class Reading(unittest.TestCase):
    def setUp(self):
        folder = tempfile.TemporaryDirectory()
        self.addCleanup(folder.cleanup)
        self.path, self.part = os.path.join(folder.name, "m.map"), os.path.join(folder.name, "part")
        for path, text in ((self.path, MAP), (self.part, PART)):
            with open(path, "w", encoding="utf-8") as file:
                file.write(text)
        self.locator = Locator(self.path)


class Places(Reading):
    def at(self, line):
        return self.path, line

    def test_keywords_have_the_line_where_they_stand(self):
        self.assertEqual(self.locator.map.at("NAME"), self.at(2))
        layer = self.locator.layer(1, 2)
        self.assertEqual((layer.place, layer.at("OFFSITE"), layer.at("METADATA")), (self.at(21), self.at(22), self.at(23)))

    def test_blocks_are_found_by_their_numbers(self):
        layer = self.locator.layer(0, 2)
        self.assertEqual(layer.at("CLASS", 0, "EXPRESSION"), self.at(13))
        self.assertEqual(layer.at("CLASS", 0, "STYLE", 1), self.at(15))
        self.assertEqual(layer.at("CLASS", 0, "STYLE", 1, "PATTERN"), self.at(16))
        self.assertEqual(layer.at("CLASS", 0, "STYLE", 0, "COLOR"), self.at(14))

    def test_what_is_not_there_has_the_place_of_what_is_nearest(self):
        layer = self.locator.layer(0, 2)
        self.assertEqual(layer.at("CLASS", 0, "STYLE", 1, "GAP"), self.at(15))
        self.assertEqual(layer.at("CLASS", 4, "STYLE", 0), self.at(8))
        # of layers that MapServer counts otherwise it isn't known which is which
        self.assertEqual(self.locator.layer(0, 3).place, (self.path, 1))

    def test_what_is_included_has_its_file(self):
        layer = self.locator.layer(0, 2)
        self.assertEqual((layer.at("LABELITEM"), layer.at("IDENTIFY")), ((self.part, 2), (self.part, 3)))


class Lines(unittest.TestCase):
    def test_lines_stand_in_the_order_of_the_file_and_are_counted(self):
        report = Report()
        report.left_out(("/x/b.map", 9), "the last")
        report.changed(("/x/b.map", 2), "this")
        report.changed(("/x/b.map", 2), "this")
        report.notes(("/x/a.map", 30), "that")
        self.assertEqual(report.text(), "a.map:30: note: that\nb.map:2: changed: this\nb.map:9: left out: the last\n1 changed, 1 left out\n")

    def test_of_a_kind_five_are_shown(self):
        report = Report()
        for number in range(1, 8):
            report.left_out(("m.map", number), f"feature {number}0, '{number}': the coordinate [x{number}] is beyond")
        lines = report.text().splitlines()
        self.assertEqual([line[:8] for line in lines], [f"m.map:{number}:" for number in range(1, 6)] + ["and 2 mo", "0 change"])
        self.assertIn("feature 60", lines[5])
        self.assertEqual(lines[6], "0 changed, 7 left out")

    def test_what_mapserver_hides_comes_last_and_is_counted_apart(self):
        report = Report()
        for number in range(9, 2, -1):
            report.shows(("m.map", number), f"CLUSTER {number}: each point")
            report.shows(("m.map", number), f"CLUSTER {number}: each point")
        report.left_out(("m.map", 20), "GAP: no marks")
        lines = report.text().splitlines()
        # each of them, and not five of a kind
        self.assertEqual(lines[0], "m.map:20: left out: GAP: no marks")
        self.assertEqual(lines[1:8], [f"m.map:{number}: shown: CLUSTER {number}: each point" for number in range(3, 10)])
        self.assertEqual(lines[8:], ["0 changed, 1 left out, 7 shown that MapServer hides"])
        self.assertEqual((report.losses, report.exposed), (1, 7))

    def test_what_stands_at_a_place(self):
        report = Report()
        report.notes(("m.map", 3), "OPACITY: gone")
        self.assertEqual([report.has(("m.map", 3), "OPACITY"), report.has(("m.map", 3), "MASK"), report.has(("m.map", 4))], [True, False, False])


class Leftovers(Reading):
    def said(self, gone=()):
        report = Report()
        leftovers.say(self.locator, report, set(gone))
        return [line.replace("m.map:", "").split(". ")[0] for line in report.text().splitlines()[:-1]]

    def test_each_keyword_that_nothing_else_reports_has_a_line(self):
        found = [line.split(":")[:3] for line in self.said()]
        self.assertEqual([[part.strip() for part in line] for line in found], [
            # what changes no picture and no answer is noted
            ["2", "note", "STATUS"], ["3", "note", "TEMPLATEPATTERN"], ["6", "note", 'METADATA "wms_abstract" has no effect here'],
            ["6", "note", 'METADATA "wfs_denied_ip_list" has no effect here'],
            ["9", "left out", "STATUS"], ["11", "note", "PROCESSING BANDS=1"], ["17", "left out", "INITIALGAP"], ["21", "note", "DEBUG"], ["22", "left out", "OFFSITE"],
            ["23", "note", 'METADATA "wms_timeitem" has no effect here'], ["part", "3", "left out"],
            # and last what MapServer hides
            ["6", "shown", "ows_denied_ip_list"], ["20", "shown", "CLUSTER"], ["23", "shown", "wms_timedefault"],
        ])

    def test_a_list_of_addresses_is_reported_whatever_else_is_of_its_line(self):
        report = Report()
        report.changed((self.path, 6), "wms_onlineresource is here")
        leftovers.say(self.locator, report, set())
        self.assertIn("m.map:6: shown: ows_denied_ip_list: everybody is answered", report.text())

    def test_layers_that_are_left_out_whole_have_no_line(self):
        lines = [line.split(":")[0] for line in self.said(gone=[0])]
        self.assertEqual(lines, ["2", "3", "6", "6", "21", "22", "23", "6", "23"])

    def test_what_is_reported_already_has_no_second_line(self):
        report = Report()
        report.left_out((self.path, 22), "OFFSITE: no raster")
        leftovers.say(self.locator, report, {0})
        self.assertEqual(report.text().count("OFFSITE"), 1)


if __name__ == "__main__":
    unittest.main()
