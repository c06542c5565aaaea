#!/usr/bin/python3
"""The viewer's functions (deploy/viewer), run by node where it is, and what its page loads."""
import json
import os
import pathlib
import re
import shutil
import subprocess
import sys
import unittest

sys.path.insert(0, str(pathlib.Path(__file__).resolve().parents[1] / "lib"))

import loading

VIEWER = os.path.join(loading.TOP, "deploy", "viewer")
NODE = shutil.which("node") or shutil.which("nodejs")
LAYERS = '[{title: "Roads", name: "r1", input: {}}, {title: "Lakes", name: "l", input: {}}, {title: "Roads", name: "r", input: {}}, {title: "Roads", name: "a,b", input: {disabled: true}}]'


def tried(*expressions):
    """What node gives for expressions over the viewer's functions."""
    script = os.path.join(loading.TOP, "tests", "deploy", "viewer.js")
    ran = subprocess.run([NODE, script], input="\n".join(expressions), capture_output=True, text=True)
    assert ran.returncode == 0, ran.stderr
    return json.loads(ran.stdout)


@unittest.skipUnless(NODE, "node is missing")
class Functions(unittest.TestCase):
    def test_a_link_keeps_a_view(self):
        found = tried('hashOf(4.5, 50, -10.25, ["roads", "a/b,c%"])', "hashOf(0.83398500288, -1, 2.123456, undefined)", "hashOf(3, 4, 5, [])")
        self.assertEqual(found, ["#4.5/50.00000/-10.25000/roads,a%2Fb%2Cc%25", "#0.834/-1.00000/2.12346", "#3/4.00000/5.00000/"])

    def test_a_link_is_read(self):
        rows = [
            ("#4.5/50/-10.25/roads,a%2Fb%2Cc%25", {"level": 4.5, "latitude": 50, "longitude": -10.25, "names": ["roads", "a/b,c%"]}),
            ("#3/-4/5", {"level": 3, "latitude": -4, "longitude": 5}), ("#3/4/5/", {"level": 3, "latitude": 4, "longitude": 5, "names": []}),
            ("", None), ("#", None), ("#roads", None), ("#3/4", None), ("#3/4/5/%", None), ("#./4/5", None), ("#3/4/x", None),
        ]
        found = tried(*(f"placeOf({json.dumps(text)})" for text, _ in rows))
        self.assertEqual(found, [place for _, place in rows])

    def test_a_place_is_written_as_exactly_as_the_pixels_are(self):
        found = tried("textOfPlace({lat: 51.50551, lng: -0.12}, 0.002)", "textOfPlace({lat: -33.9, lng: 151.2}, 0.5)", "textOfPlace({lat: 1, lng: 2}, 1e-9)", "textOfPlace({lat: 1, lng: 2}, 3)")
        self.assertEqual(found, ["51.506\u00b0 N, 0.120\u00b0 W", "33.9\u00b0 S, 151.2\u00b0 E", "1.000000\u00b0 N, 2.000000\u00b0 E", "1\u00b0 N, 2\u00b0 E"])

    def test_layers_of_one_title_have_one_switch(self):
        found = tried(f"groupsOf({LAYERS}).map((group) => group.map((one) => one.name))",
                      f"shareSwitches({LAYERS}).map((one, at, all) => all.findIndex((other) => other.input === one.input))")
        self.assertEqual(found, [[["r1", "r"], ["l"], ["a,b"]], [0, 1, 0, 3]])

    def test_a_link_switches_groups(self):
        switch = f"(served.layers = shareSwitches({LAYERS}), switchLayers(%s), served.layers.map((one) => one.input.checked))"
        found = tried(switch % '["r"]', switch % '["l", "a,b"]', switch % "undefined", switch % "[]")
        self.assertEqual(found, [[True, False, True, False], [False, True, False, False], [True, True, True, False], [False] * 4])

    def test_a_class_lies_over_those_of_its_title_in_lower_layers(self):
        entries = '(legend.layers = {a: [{title: "x", picture: "1"}], b: [{title: "y", picture: "2"}, {title: "x", picture: "3"}]}, %s)'
        found = tried(entries % 'picturesBelow("x", [{name: "a"}, {name: "b"}, {name: "c"}])', entries % 'picturesBelow("z", [{name: "a"}])')
        self.assertEqual(found, [["3", "1"], []])

    def test_the_format_is_one_that_is_offered(self):
        found = tried('formatsOf(["image/jpeg", "image/webp", "image/png"])', 'formatsOf(["image/x-portable-pixmap"])', '(served.formats = ["image/png", "image/jpeg"], pictureType())',
                      '(served.formats = ["image/png"], pictureType())')
        self.assertEqual(found, [["image/png", "image/jpeg"], [], "image/jpeg", "image/x-portable-arbitrarymap"])

    def test_a_jpeg_has_the_ground_below_its_layers(self):
        found = tried('groundOf("image/png")', 'groundOf("image/jpeg")', '(legend.ground = "#0a141e", groundOf("image/jpeg"))', '(legend.ground = "red", groundOf("image/jpeg").BGCOLOR)')
        self.assertEqual(found, [{"TRANSPARENT": "TRUE"}, {"TRANSPARENT": "FALSE", "BGCOLOR": "0xd8e8f4"}, {"TRANSPARENT": "FALSE", "BGCOLOR": "0x0a141e"}, "0xd8e8f4"])

    def test_the_item_that_is_for_drawing_alone(self):
        values = ["3", "3.2", "3.64", "1+3.12", "3.642", "a", "1+"]
        self.assertEqual(tried(*(f'isForDrawing(["class", {json.dumps(value)}])' for value in values)), [True] * 4 + [False] * 3)


def shown(**given):
    """What the viewer asks and shows on stand-ins for its page and a server."""
    script = os.path.join(loading.TOP, "tests", "deploy", "viewer_page.js")
    ran = subprocess.run([NODE, script], input=json.dumps(given), capture_output=True, text=True)
    assert ran.returncode == 0, ran.stderr
    return json.loads(ran.stdout)


@unittest.skipUnless(NODE, "node is missing")
class Whole(unittest.TestCase):
    """All scripts together."""

    def layers_asked(self, address):
        return re.search(r"LAYERS=([^&]*)", address)[1].split("%2C")

    def test_the_first_view_is_not_rounded_and_asks_for_no_tiles(self):
        found = shown()
        self.assertEqual((found["message"], found["views"], found["hash"]), ("", [[0.8339, 0]], "#0.834/1.00000/2.00000"))
        self.assertEqual([re.sub(r"[?&].*(REQUEST=\w+).*", r" \1", address) for address in found["asked"]], ["../wms REQUEST=GetCapabilities", "legend.json", "../wms REQUEST=GetMap"])
        self.assertEqual((found["pointer"], found["formats"]), ("51.3\u00b0 N, 0.5\u00b0 W", ["PNG", "JPEG"]))

    def test_tiles_are_asked_for_where_the_page_says_that_they_are_there(self):
        for given in ({"tiles": "yes"}, {"search": "?tiles"}):
            self.assertIn("../tiles/wmts/1.0.0/WMTSCapabilities.xml", shown(**given)["asked"], given)

    def test_a_link_is_shown_at_first_and_in_an_open_page(self):
        found = shown(hash="#3.3/10/20/lakes", then="#4.25/30/40/roads")
        self.assertEqual((found["views"], found["hash"]), ([[3.3, 0], [4.25, 0]], "#4.25/30.00000/40.00000/roads_below1,roads"))
        self.assertEqual([self.layers_asked(address) for address in found["asked"] if "GetMap" in address], [["lakes"], ["roads_below1", "roads"]])
        # what is no link changes nothing
        self.assertEqual(shown(hash="#3.3/10/20/lakes", then="#title")["views"], [[3.3, 0]])

    def test_layers_of_one_title_have_one_box_and_classes_that_look_alike_one_line(self):
        local = {"title": "Local", "picture": "data:a", "takesAll": False}
        legend = {"layers": {"roads_below1": [{"title": "Local", "picture": "data:b", "takesAll": True}], "roads": [local, {**local, "takesAll": True}]}}
        self.assertEqual(shown(legend=legend)["layers"], [" Lakes", " Roads", "url(data:b) Local", "url(data:b) Local (hidden)"])


class Page(unittest.TestCase):
    def test_it_loads_its_own_scripts_and_leaflet_alone(self):
        with open(os.path.join(VIEWER, "index.html"), encoding="utf-8") as file:
            page = file.read()
        scripts = re.findall(r'<script src="([^"]*)"></script>', page)
        self.assertEqual(len(scripts), page.count("<script"))
        self.assertEqual(scripts[0], "../javascript/leaflet/leaflet.min.js")
        self.assertEqual((sorted(scripts[1:]), scripts[-1]), (sorted(name for name in os.listdir(VIEWER) if name.endswith(".js")), "viewer.js"))
        self.assertNotRegex(page, "https?://")
        self.assertIn("default-src 'self'; img-src 'self' data:", page)
        self.assertIn('<meta name="tiles" content="no">', page)

    def test_what_the_scripts_look_for_by_its_id_is_on_the_page(self):
        with open(os.path.join(VIEWER, "index.html"), encoding="utf-8") as file:
            there = set(re.findall(r' id="([^"]*)"', file.read()))
        for name in os.listdir(VIEWER):
            with open(os.path.join(VIEWER, name), encoding="utf-8") as file:
                wanted = set(re.findall(r'byId\("([^"]*)"\)', file.read())) if name.endswith(".js") else set()
            self.assertLessEqual(wanted, there, name)


if __name__ == "__main__":
    unittest.main()
