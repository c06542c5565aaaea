#!/usr/bin/python3
"""Which layers and sources deploy/mapproxy writes of a document, and which backgrounds it takes."""
import contextlib
import io
import pathlib
import re
import sys
import tempfile
import unittest
import xml.etree.ElementTree
from types import SimpleNamespace

sys.path.insert(0, str(pathlib.Path(__file__).resolve().parents[1] / "lib"))

import loading

mapproxy = loading.script("deploy/mapproxy")


def document(*layers, limit=64):
    """A document with layers, each a name, a title and whether it can be asked."""
    inner = "".join(f'<Layer queryable="{int(asked)}"><Name>{name}</Name><Title>{title}</Title></Layer>' for name, title, asked in layers)
    return xml.etree.ElementTree.fromstring(
        f'<W xmlns="http://www.opengis.net/wms"><Service><Title>The "map"</Title><LayerLimit>{limit}</LayerLimit></Service><Layer><Title>M</Title>{inner}</Layer></W>')


class Layers(unittest.TestCase):
    def found(self, *layers, limit=64):
        with contextlib.redirect_stderr(io.StringIO()) as said:
            found = mapproxy.layers_of(document(*layers, limit=limit))
        return [(layer.name, layer.title, layer.shown, layer.asked) for layer in found], said.getvalue()

    def test_one_stands_for_all_of_them(self):
        found, _ = self.found(("a", "A", True), ("b", "B", False))
        self.assertEqual(found, [("all", 'The "map"', ["a", "b"], ["a"]), ("a", "A", ["a"], ["a"]), ("b", "B", ["b"], [])])

    def test_names_can_stand_in_an_address_and_differ(self):
        found, _ = self.found(("a b", "", True), ("a_b", "", True), ("\u00e4", "", True), ("all", "", True))
        self.assertEqual([name for name, *_ in found], ["all_", "a_b", "a_b_", "_", "all"])
        # without a title its own name is one
        self.assertEqual(found[1][1], "a b")

    def test_a_name_with_a_comma_cannot_be_asked_for(self):
        found, said = self.found(("a,b", "A", True), ("c", "C", True))
        self.assertEqual([name for name, *_ in found], ["all", "c"])
        self.assertIn("'a,b' is left out", said)

    def test_more_layers_than_a_request_takes_have_none_for_all(self):
        layers = [("a", "A", True), ("b", "B", True), ("c", "C", True)]
        self.assertEqual([name for name, *_ in self.found(*layers, limit=3)[0]], ["all", "a", "b", "c"])
        self.assertEqual([name for name, *_ in self.found(*layers, limit=2)[0]], ["a", "b", "c"])

    def test_a_server_without_layers_has_no_tiles(self):
        with self.assertRaises(mapproxy.Missing):
            self.found()


class Configurations(unittest.TestCase):
    def test_layers_that_cannot_all_be_asked_have_a_source_for_those_that_can(self):
        options = SimpleNamespace(address="http://h/wms", background="0a141e", workers=7)
        text = mapproxy.configuration(document(("a", "A", True), ("b", "B", False)), options)
        sources = dict(re.findall(r"^  (\w+)_(?:webmercator|degrees):\n    grids: \[degrees\]\n    sources: \[(.*)\]$", text, re.M))
        self.assertEqual(sources, {"all": "all_picture, all_information", "a": "a_picture", "b": "b_picture"})
        pictures = re.findall(r"^  (\w+)_picture:\n    type: wms\n    wms_opts: \{version: '1.3.0', featureinfo: (\w+),", text, re.M)
        self.assertEqual(pictures, [("all", "false"), ("a", "true"), ("b", "false")])
        self.assertIn('layers: "a,b"\n', text)
        self.assertIn('req: {url: "http://h/wms?", layers: "a",', text)
        self.assertIn("transparent_color: '#0a141e'", text)
        self.assertIn("concurrent_requests: 7\n", text)
        self.assertIn('md: {title: "The \\"map\\""}', text)


class Backgrounds(unittest.TestCase):
    def check(self, background, words):
        with tempfile.NamedTemporaryFile("w", suffix=".map") as file:
            file.write(words)
            file.flush()
            mapproxy.check_background(SimpleNamespace(background=background, mapfile=file.name))

    def test_a_colour_in_which_the_map_paints_is_refused(self):
        for words in ("COLOR 10 20\n30", "outlinecolor 10 20 30", "COLOR '#0A141E'", 'COLOR "#0a141e"'):
            with self.assertRaises(mapproxy.Missing, msg=words):
                self.check("0a141e", words)

    def test_others_are_taken(self):
        self.check("0a141e", "COLOR 10 20 300 SIZE 10 20 30 COLOR '#0a141f' COLOR 30 20 10")
        mapproxy.check_background(SimpleNamespace(background="FF00ff", mapfile=None))

    def test_it_has_six_digits(self):
        for background in ("#ff00ff", "ff00f", "ff00ffff", "magenta"):
            with self.assertRaises(mapproxy.Missing, msg=background):
                mapproxy.check_background(SimpleNamespace(background=background, mapfile=None))

    def test_workers_are_those_of_the_server(self):
        for workers in (0, 33, -1):
            with self.assertRaises(mapproxy.Missing):
                mapproxy.check_workers(workers)
        mapproxy.check_workers(32)


if __name__ == "__main__":
    unittest.main()
