#!/usr/bin/python3
"""WMS 1.1.1 before a server of 1.3.0 (deploy/lib/wmsolder.py), by OGC 01-068r3."""
import pathlib
import sys
import unittest
import urllib.parse
import xml.etree.ElementTree

sys.path.insert(0, str(pathlib.Path(__file__).resolve().parents[1] / "lib"))

import loading  # noqa: F401
import wmsolder

DOCUMENT = b"""<?xml version="1.0" encoding="UTF-8"?>
<WMS_Capabilities version="1.3.0" updateSequence="41" xmlns="http://www.opengis.net/wms" xmlns:xlink="http://www.w3.org/1999/xlink">
<Service>
<Name>WMS</Name>
<Title>Lakes &amp; ponds</Title>
<OnlineResource xlink:type="simple" xlink:href="http://h/wms?a=1&amp;b=2&amp;"/>
</Service>
<Capability>
<Request>
<GetCapabilities><Format>text/xml</Format></GetCapabilities>
<GetMap><Format>image/png</Format><Format>image/x-portable-pixmap</Format></GetMap>
<GetFeatureInfo><Format>text/plain</Format></GetFeatureInfo>
</Request>
<Layer>
<Title>Lakes</Title>
<CRS>CRS:84</CRS>
<CRS>EPSG:4326</CRS>
<CRS>EPSG:3857</CRS>
<BoundingBox CRS="CRS:84" minx="-10.5" miny="40.25" maxx="25.75" maxy="60.125"/>
<BoundingBox CRS="EPSG:4326" minx="40.25" miny="-10.5" maxx="60.125" maxy="25.75"/>
<BoundingBox CRS="EPSG:3857" minx="-11" miny="41" maxx="26" maxy="61"/>
<Layer queryable="1">
<Name>a&amp;b</Name>
<Title>A</Title>
<MinScaleDenominator>1000</MinScaleDenominator>
<Layer queryable="0">
<Name>inner</Name>
</Layer>
</Layer>
<Layer queryable="0">
<Name>c</Name>
<Title>C</Title>
<MaxScaleDenominator>250000</MaxScaleDenominator>
</Layer>
</Layer>
</Capability>
</WMS_Capabilities>
"""
FAULT = b'<?xml version="1.0"?>\n<ServiceExceptionReport version="1.3.0">\n<ServiceException code="%s">%s</ServiceException>\n</ServiceExceptionReport>\n'


def translated(query):
    pairs = [(text, text.partition("=")[0].upper(), urllib.parse.unquote_plus(text.partition("=")[2])) for text in query.split("&")]
    values = {}
    for _, name, value in pairs:
        values.setdefault(name, value)
    return "&".join(text for text, _, _ in wmsolder.translated(pairs, values))


class Queries(unittest.TestCase):
    def test_versions_of_1_1_are_older(self):
        rows = [("1.1.1", True), ("1.1.0", True), ("1.3.0", False), ("1.0.0", False), ("1.10.1", False), ("", False)]
        for version, is_older in rows:
            self.assertEqual(wmsolder.is_asked({"VERSION": version}), is_older, version)
        self.assertFalse(wmsolder.is_asked({}))

    def test_longitudes_stay_first(self):
        self.assertEqual(translated("version=1.1.1&srs=EPSG:4326&BBOX=-10,40,25,60"), "VERSION=1.3.0&CRS=CRS:84&BBOX=-10,40,25,60")

    def test_other_systems_keep_their_names(self):
        rows = [("EPSG%3A3857", "EPSG:3857"), ("EPSG:900913", "EPSG:3857"), ("CRS:84", "CRS:84"), ("a&b".replace("&", "%26"), "a%26b")]
        for system, name in rows:
            self.assertEqual(translated(f"SRS={system}"), f"CRS={name}", system)

    def test_a_click_has_its_column_and_its_row(self):
        self.assertEqual(translated("X=3&Y=4&INFO_FORMAT=text/plain&REQUEST=GetFeatureInfo"), "I=3&J=4&INFO_FORMAT=text/plain&REQUEST=GetFeatureInfo")

    def test_a_click_without_a_format_is_one_for_a_text(self):
        self.assertEqual(translated("REQUEST=GetFeatureInfo&X=3"), "REQUEST=GetFeatureInfo&I=3&INFO_FORMAT=text/plain")
        self.assertEqual(translated("REQUEST=GetMap"), "REQUEST=GetMap")

    def test_an_empty_format_of_a_click_is_none(self):
        # the server looks at the first pair of a name alone
        query = translated("info_format=&REQUEST=GetFeatureInfo&X=3")
        first = next(pair for pair in query.split("&") if pair.upper().startswith("INFO_FORMAT="))
        self.assertEqual(first, "INFO_FORMAT=text/plain")

    def test_other_pairs_stay_as_they_are(self):
        self.assertEqual(translated("LAYERS=a%2Cb,c+d&&STYLES=&x1=2"), "LAYERS=a%2Cb,c+d&&STYLES=&x1=2")


class Exceptions(unittest.TestCase):
    def test_the_words_are_those_of_the_older_version(self):
        rows = [(b"InvalidCRS", b"CRS", "InvalidSRS", "SRS"), (b"InvalidPoint", b"I", "InvalidPoint", "X"), (b"MissingParameterValue", b"J", "MissingParameterValue", "Y"),
                (b"LayerNotDefined", b"LAYERS", "LayerNotDefined", "LAYERS")]
        for code, text, older_code, older_text in rows:
            found = wmsolder.exception_of(FAULT % (code, text)).decode()
            self.assertIn(f'<ServiceException code="{older_code}">{older_text}</ServiceException>', found)
            self.assertIn('<ServiceExceptionReport version="1.1.1">', found)

    def test_the_words_of_the_newer_version_stay(self):
        self.assertEqual(wmsolder.fault_of(FAULT % (b"InvalidCRS", b"CRS"), False), ("InvalidCRS", "CRS"))

    def test_a_body_without_an_exception_gives_no_reason(self):
        self.assertEqual(wmsolder.fault_of(b"<html>", True), ("NoApplicableCode", "the server gives no reason"))


class Documents(unittest.TestCase):
    def setUp(self):
        self.text = wmsolder.document_of(DOCUMENT, ["one", "two"]).decode()
        self.root = xml.etree.ElementTree.fromstring(self.text)
        self.layer = self.root.find("Capability/Layer")

    def test_the_service_is_that_of_the_newer(self):
        self.assertEqual((self.root.tag, self.root.get("version"), self.root.get("updateSequence")), ("WMT_MS_Capabilities", "1.1.1", "41"))
        self.assertEqual([self.root.findtext(f"Service/{name}") for name in ("Name", "Title")], ["OGC:WMS", "Lakes & ponds"])
        href = self.root.find("Service/OnlineResource").get("{http://www.w3.org/1999/xlink}href")
        self.assertEqual(href, "http://h/wms?a=1&b=2&")

    def test_operations_have_their_formats(self):
        formats = {one.tag: [form.text for form in one.findall("Format")] for one in self.root.find("Capability/Request")}
        self.assertEqual(formats, {
            "GetCapabilities": ["application/vnd.ogc.wms_xml"], "GetMap": ["image/png", "image/x-portable-pixmap"], "GetFeatureInfo": ["text/plain"],
        })
        self.assertEqual([one.text for one in self.root.findall("Capability/Exception/Format")], ["one", "two"])

    def test_boxes_have_longitudes_first(self):
        sides = {"minx": "-10.5", "miny": "40.25", "maxx": "25.75", "maxy": "60.125"}
        self.assertEqual(self.layer.find("LatLonBoundingBox").attrib, sides)
        boxes = {box.get("SRS"): box.attrib for box in self.layer.findall("BoundingBox")}
        self.assertEqual(list(boxes), ["EPSG:4326", "EPSG:3857"])
        self.assertEqual(boxes["EPSG:4326"], {"SRS": "EPSG:4326", **sides})
        self.assertEqual(boxes["EPSG:3857"]["maxy"], "61")

    def test_each_system_is_named_once(self):
        self.assertEqual([one.text for one in self.layer.findall("SRS")], ["EPSG:4326", "EPSG:3857"])

    def test_layers_have_names_titles_and_hints(self):
        first, second = self.layer.findall("Layer")
        self.assertEqual([first.get("queryable"), first.findtext("Name"), first.findtext("Title")], ["1", "a&b", "A"])
        # the diagonal of a pixel of 0.28 mm at 1:1,000 and at 1:250,000 has 0.28 * sqrt(2) and 70 * sqrt(2) metres
        self.assertEqual(first.find("ScaleHint").get("min"), "0.395980")
        self.assertEqual(second.find("ScaleHint").attrib, {"min": "0.000000", "max": "98.994949"})
        self.assertIsNone(self.layer.find("ScaleHint"))
        # a layer without a title has its name for one
        self.assertEqual(first.findtext("Layer/Title"), "inner")

    def test_elements_stand_in_the_order_of_the_document_type(self):
        order = ["Name", "Title", "SRS", "LatLonBoundingBox", "BoundingBox", "ScaleHint", "Layer"]
        for layer in self.root.iter("Layer"):
            places = [order.index(one.tag) for one in layer]
            self.assertEqual(places, sorted(places), layer.findtext("Title"))


if __name__ == "__main__":
    unittest.main()
