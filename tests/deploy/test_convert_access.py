#!/usr/bin/python3
"""What MapServer's clients may see of a map (deploy/lib/mapconvert/access.py)."""
import pathlib
import sys
import unittest
from types import SimpleNamespace

sys.path.insert(0, str(pathlib.Path(__file__).resolve().parents[1] / "lib"))

import loading  # noqa: F401
from mapconvert import access


OPEN = {"ows_enable_request": "*"}


def owner(**metadata):
    return SimpleNamespace(metadata=metadata, web=SimpleNamespace(metadata=metadata))


class Requests(unittest.TestCase):
    def test_the_words_of_a_list(self):
        rows = [
            ("*", True), ("!*", False), ("getmap", True), ("!GetMap", False), ("* !GetMap", False), ("!* GetMap", True), ("GetMap !*", True),
            ("GetCapabilities", None), ("", None), ("GetMaps", None),
        ]
        for words, is_open in rows:
            self.assertEqual(access.words_on(words, "GetMap"), is_open, words)

    def test_a_layers_words_come_before_the_maps_and_wms_before_ows(self):
        rows = [
            ({"wms_enable_request": "*"}, {"wms_enable_request": "!GetMap"}, False),
            ({"wms_enable_request": "!*"}, {"ows_enable_request": "GetMap"}, True),
            ({"wms_enable_request": "GetMap", "ows_enable_request": "!*"}, {}, True),
            ({"ows_enable_request": "GetCapabilities"}, {}, False),
            # what the layer doesn't say the map does
            ({"wms_enable_request": "!GetMap"}, {"wms_enable_request": "GetCapabilities"}, False),
            # nothing is open by itself
            ({}, {}, False),
            ({"wms_title": "*"}, {"ows_enable_request": "GetFeatureInfo"}, False),
        ]
        for map, layer, is_open in rows:
            self.assertEqual(access.is_open(owner(**map), owner(**layer), "GetMap"), is_open, (map, layer))

    def test_a_map_that_says_nothing_is_open_where_that_is_wanted(self):
        rows = [({}, {}, True), ({"ows_enable_request": "GetCapabilities"}, {}, False), ({}, {"ows_enable_request": "!GetMap"}, False), ({"wms_enable_request": ""}, {}, False)]
        for map, layer, is_open in rows:
            self.assertEqual(access.is_open(owner(**map), owner(**layer), "GetMap", True), is_open, (map, layer))
        self.assertIsNone(access.closed(owner(), owner(), True))
        self.assertEqual(access.closed(owner(), owner()), "no enable_request opens it")

    def test_a_map_says_something_where_one_of_its_layers_does(self):
        rows = [({}, [{}, {"wms_title": "t"}], True), ({"ows_enable_request": "!*"}, [], False), ({}, [{}, {"wms_enable_request": "GetMap"}], False)]
        for map, layers, says_nothing in rows:
            self.assertEqual(access.says_nothing(owner(**map), [owner(**layer) for layer in layers]), says_nothing, (map, layers))

    def test_addresses_are_those_of_this_service(self):
        rows = [
            ({"wms_allowed_ip_list": "10.1.1.1"}, "wms_allowed_ip_list"), ({"ows_denied_ip_list": ""}, "ows_denied_ip_list"),
            ({"wfs_allowed_ip_list": "10.1.1.1", "ows_title": "t"}, None), ({}, None),
        ]
        for metadata, listed in rows:
            self.assertEqual(access.addresses(metadata), listed, metadata)

    def test_a_layer_that_is_closed_to_some_is_closed(self):
        rows = [
            (OPEN, {}, None), ({"wms_enable_request": "GetMap"}, {}, "enable_request closes it for GetCapabilities"),
            ({"wms_enable_request": "GetCapabilities"}, {}, "enable_request closes it for GetMap"),
            (OPEN, {"ows_allowed_ip_list": "10.0.0.1"}, "ows_allowed_ip_list closes it for some addresses"),
            (OPEN, {"wms_denied_ip_list": ""}, "wms_denied_ip_list closes it for some addresses"),
        ]
        for map, layer, why in rows:
            self.assertEqual(access.closed(owner(**map), owner(**layer)), why, (map, layer))


class Items(unittest.TestCase):
    def test_those_that_are_included_and_not_excluded_are_answered(self):
        rows = [
            ({}, []), ({"wms_include_items": "ALL"}, ["Name", "iso", "pop"]), ({"ows_include_items": "name,POP"}, ["Name", "pop"]),
            ({"wms_include_items": "all", "gml_exclude_items": "ISO, pop"}, ["Name"]), ({"wms_include_items": "all", "ows_exclude_items": "all"}, []),
            # the first of the prefixes counts, for what is excluded all of them
            ({"ows_include_items": "iso", "wms_include_items": "pop"}, ["pop"]),
            ({"ows_include_items": "all", "wms_exclude_items": "pop", "gml_exclude_items": "iso"}, ["Name"]),
        ]
        for metadata, items in rows:
            self.assertEqual(access.answered(owner(**metadata), ["Name", "iso", "pop"]), items, metadata)

    def test_names_are_compared_in_any_case(self):
        names = ["NAME", "SECRET", "Debt"]
        for excluded in ("SECRET,DEBT", "secret,debt", "Secret,dEBT"):
            self.assertEqual(access.answered(owner(wms_include_items="all", wms_exclude_items=excluded), names), ["NAME"], excluded)
            self.assertEqual(access.answered(owner(ows_include_items="Name," + excluded, gml_exclude_items=excluded), names), ["NAME"], excluded)
        self.assertEqual(access.answered(owner(wms_include_items="ALL", wms_exclude_items="ALL"), names), [])

    def test_items_for_gml_alone_are_answered_where_that_is_wanted(self):
        rows = [({"gml_include_items": "iso"}, [], ["iso"], True), ({"gml_include_items": "iso", "ows_include_items": "pop"}, ["pop"], ["pop"], False), ({}, [], [], False)]
        for metadata, by_default, opened, is_for_gml in rows:
            layer = owner(**metadata)
            found = access.answered(layer, ["iso", "pop"]), access.answered(layer, ["iso", "pop"], True), access.is_for_gml(layer)
            self.assertEqual(found, (by_default, opened, is_for_gml), metadata)


if __name__ == "__main__":
    unittest.main()
