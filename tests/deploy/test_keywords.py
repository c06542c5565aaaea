#!/usr/bin/python3
"""The list of MapServer's keywords (deploy/lib/keywords.py)."""
import pathlib
import sys
import unittest

sys.path.insert(0, str(pathlib.Path(__file__).resolve().parents[1] / "lib"))

import loading  # noqa: F401
import keywords


class Lists(unittest.TestCase):
    def test_a_keyword_of_a_block_stands_in_one_list(self):
        for block in keywords.COUNTS:
            lists = [set(keywords.COUNTS[block]), set(keywords.UNUSED[block]), set(keywords.REFUSED[block])]
            self.assertEqual(sum(map(len, lists)), len(set().union(*lists)), block)

    def test_rules_name_keywords_that_their_block_has(self):
        for key in [*keywords.COUNTED, *keywords.CHOICES, *keywords.VALUES]:
            block, word = key.split()
            self.assertIn(word, {**keywords.COUNTS[block], **keywords.UNUSED[block]}, key)
        for block, words in keywords.REQUIRED.items():
            self.assertLessEqual(set(words), set(keywords.COUNTS[block]), block)

    def test_a_value_to_write_otherwise_is_none_that_is_taken(self):
        for key, values in keywords.VALUES.items():
            self.assertFalse(set(values) & set(keywords.CHOICES[key].split()), key)

    def test_reasons_are_those_of_keywords_without_effect(self):
        for key in keywords.REASONS:
            words = key.split()
            blocks = [words[0]] if len(words) == 2 else keywords.UNUSED
            self.assertTrue(any(words[-1] in keywords.UNUSED[block] for block in blocks), key)


class KeptBack(unittest.TestCase):
    """What MapServer keeps from its clients and this server doesn't."""

    def kept(self, rows, owner):
        return [text for key, text in rows if keywords.kept_back(owner, key, text)]

    def test_lists_of_items_of_a_layer(self):
        rows = [("wms_include_items", "name,iso"), ("gml_exclude_items", "all"), ("WMS_Include_Items", " ALL "), ("wms_items", "name")]
        self.assertEqual(self.kept(rows, "LAYER"), ["name,iso", "all"])
        self.assertEqual(self.kept(rows, "WEB"), [])

    def test_requests_that_a_layer_closes(self):
        rows = [("wms_enable_request", text) for text in ("*", "GetMap", "* !GetFeatureInfo", "!*", "GetCapabilities GetMap")]
        self.assertEqual(self.kept(rows, "LAYER"), ["* !GetFeatureInfo", "!*"])

    def test_requests_that_a_map_closes_by_leaving_them_out(self):
        rows = [("ows_enable_request", text) for text in ("*", "getmap", "GetCapabilities GetMap GetFeatureInfo", "GetMap GetFeatureInfo", "* !GetMap")]
        self.assertEqual(self.kept(rows, "WEB"), ["getmap", "GetMap GetFeatureInfo", "* !GetMap"])

    def test_addresses_that_are_closed(self):
        rows = [("ows_allowed_ip_list", "10.0.0.1"), ("wms_denied_ip_list", "10.0.0.2"), ("wms_ip", "10.0.0.3")]
        self.assertEqual(self.kept(rows, "LAYER"), ["10.0.0.1", "10.0.0.2"])
        self.assertEqual(self.kept(rows, "WEB"), ["10.0.0.1", "10.0.0.2"])

    def test_what_to_leave_out_is_the_layer_or_the_metadata(self):
        self.assertIn("leave the LAYER out", keywords.kept_back("LAYER", "wms_enable_request", "!*"))
        self.assertIn("leave it out", keywords.kept_back("WEB", "wms_enable_request", "!*"))


if __name__ == "__main__":
    unittest.main()
