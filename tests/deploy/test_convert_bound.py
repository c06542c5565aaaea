#!/usr/bin/python3
"""What deploy/convert makes of styles that are bound to items (deploy/lib/mapconvert/bound.py), where mapscript is or a stand-in for it."""
import copy
import pathlib
import sys
import unittest
from types import SimpleNamespace

sys.path.insert(0, str(pathlib.Path(__file__).resolve().parents[1] / "lib"))

import loading

# The numbers that MapServer gives these.
BINDINGS = {"SIZE": 0, "WIDTH": 1, "ANGLE": 2, "COLOR": 3, "OUTLINECOLOR": 4, "OUTLINEWIDTH": 6}
CONSTANTS = {"MS_LAYER_POINT": 0, "MS_LAYER_LINE": 1, "MS_LAYER_POLYGON": 2, "MS_OFF": 0, "MS_ON": 1, "MS_TRUE": 1, "MS_NONE": 0, "MS_SYMBOL_PIXMAP": 1003}
loading.has_package("mapscript", **CONSTANTS, **{f"MS_STYLE_BINDING_{word}": number for word, number in BINDINGS.items()})
loading.has_package("PIL", "Image")
import mapscript
from mapconvert import bound, classes, layers
from mapconvert.report import Node, Report

for word, number in BINDINGS.items():
    if not hasattr(mapscript, f"MS_STYLE_BINDING_{word}"):
        setattr(mapscript, f"MS_STYLE_BINDING_{word}", number)


class Style:
    """A style whose words are bound to these items."""

    def __init__(self, **items):
        self.items = {getattr(mapscript, f"MS_STYLE_BINDING_{word}"): item for word, item in items.items()}
        self.color, self.outlinecolor = (SimpleNamespace(red=-1, green=-1, blue=-1) for _ in range(2))
        self.size, self.width, self.angle, self.rangeitem = -1, 1, 0, None
        self.minsize, self.maxsize, self.minwidth, self.maxwidth = 0, 500, 0, 32

    def getBinding(self, number):
        return self.items.get(number)

    def removeBinding(self, number):
        del self.items[number]

    def clone(self):
        return copy.deepcopy(self)


def class_of(*styles):
    return SimpleNamespace(numstyles=len(styles), getStyle=lambda at: styles[at], status=1, title=None, name=None)


class Bound(unittest.TestCase):
    def test_colours_as_items_have_them(self):
        rows = [("#0a141e", (10, 20, 30)), ("#0A141E80", (10, 20, 30)), ("40 50 60", (40, 50, 60)), (" 7  8 9 ", (7, 8, 9)), ("red", (-1, -1, -1)), ("40 50", (-1, -1, -1)),
                ("1 2 256", (-1, -1, -1)), ("#0a141", (-1, -1, -1)), ("", (-1, -1, -1))]
        for text, components in rows:
            self.assertEqual(bound.colour_of_value(text), components, text)

    def test_the_items_of_a_class_are_there_once(self):
        given = class_of(Style(COLOR="Hue", SIZE="s"), Style(OUTLINECOLOR="hue", ANGLE="turn"), Style())
        self.assertEqual(bound.items_of(given), ("hue", "s", "turn"))

    def test_a_style_takes_values_and_the_given_one_stays(self):
        style = Style(COLOR="Hue", SIZE="s", ANGLE="turn", WIDTH="w", OUTLINEWIDTH="other")
        made = bound.with_values(style, {"hue": "40 50 60", "s": "6.5", "turn": "45", "w": "99"}, 2)
        found = (made.color.red, made.color.green, made.color.blue), made.size, made.angle, made.width
        self.assertEqual(found, ((40, 50, 60), 13, 45, 32))
        self.assertEqual((list(made.items.values()), len(style.items), style.size), (["other"], 5, -1))
        self.assertIs(bound.with_values(style, {}, 2), style)


class Classes(unittest.TestCase):
    """The parts of a class whose styles are bound."""

    def setUp(self):
        self.kind = classes.Kind(4, class_of(Style(COLOR="c", SIZE="s")))
        self.chosen = classes.Classes.__new__(classes.Classes)
        self.chosen.kinds, self.chosen.report, self.chosen.node = [self.kind], Report(), Node(("m.map", 7))

    def read(self, *values):
        """Features with these values of c, and 5 for s."""
        return [SimpleNamespace(classes=((0, self.kind.part({"c": value, "s": "5"}.get)),)) for value in values]

    def test_each_value_is_a_part_in_the_order_in_which_they_come(self):
        features = self.read("b", "a", "b")
        self.assertEqual([feature.classes for feature in features], [((0, 1),), ((0, 2),), ((0, 1),)])
        self.assertEqual((list(self.kind.parts()), self.kind.values_of(2), self.kind.values_of(0)), ([1, 2], {"c": "a", "s": "5"}, {}))
        self.chosen.settle_values(features)
        self.assertEqual(self.chosen.report.text(), "m.map:7: changed: [c], [s]: the CLASS is 2, one for each value\n1 changed, 0 left out\n")

    def test_titles_have_values_that_are_answered_alone(self):
        self.read("b", "a")
        self.assertEqual([layers.title_of(self.kind, 2, answered) for answered in (["C", "S"], ["C"], [])], ["5: a, 5", "5: 2", "5: 2"])

    def test_more_than_64_values_are_drawn_as_if_none_were_given(self):
        features = self.read(*map(str, range(64)))
        self.chosen.settle_values(features)
        self.assertEqual((len(self.kind.parts()), features[63].classes), (64, ((0, 64),)))
        features += self.read("64")
        self.chosen.settle_values(features)
        self.assertEqual((list(self.kind.parts()), {feature.classes for feature in features}, self.kind.values_of(3)), ([0], {((0, 0),)}, {}))
        self.assertIn("m.map:7: left out: [c], [s]: each value is drawn as if it weren't given, as there are 65", self.chosen.report.text())


if __name__ == "__main__":
    unittest.main()
