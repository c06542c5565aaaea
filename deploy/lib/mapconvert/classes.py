"""The classes of a layer: which of them a feature has, and rules that are read here, or an item for the others."""
import re

import mapfile
import mapscript

from mapconvert import bound, clusters
from mapconvert.texts import number_of

# A style that colours by a range of values becomes so many classes.
RANGES = 8
ITEM = "class"
BRACKETS = re.compile(r"\[([^\]]+)\]")


def quoted(text):
    """A quoted text of a mapfile; one with both kinds of quotes loses the double ones."""
    if '"' not in text:
        return f'"{text}"'
    return f"'{text}'" if "'" not in text else '"' + text.replace('"', "'") + '"'


def words_of(text):
    """An EXPRESSION as a title: without the signs round it, and those of its items."""
    if text.startswith("("):
        return BRACKETS.sub(lambda found: found[1], text[1:-1]).strip()
    return text.removesuffix("i")[1:-1].replace(",", ", ") if text.startswith("{") or text.endswith("i") else text[1:-1]


def folded_rule(text, item):
    """A rule that compares a text without regard to case; nothing where it is none."""
    return f'("[{item}]" =* {text[:-1]})' if text.startswith('"') and item and '"' not in text[1:-2] else None


def list_rule(text):
    """The list that a regular expression is; nothing where it is none."""
    inner = text[1:-1]
    alternatives = re.fullmatch(r"\^?\(?([\w -]+(?:\|[\w -]+)*)\)?\$?", inner)
    if alternatives and inner.startswith("^") and inner.endswith("$") and ("|" not in inner or "(" in inner):
        return "{" + alternatives[1].replace("|", ",") + "}"
    return None


class Kind:
    """A class of MapServer's: its number in the mapfile, from 0, and the values over which its colour goes."""

    def __init__(self, number, given):
        self.number, self.given = number, given
        styles = (given.getStyle(at) for at in range(given.numstyles))
        self.ranged = next((style for style in styles if style.rangeitem and style.maxvalue > style.minvalue), None)
        # the items to which its styles are bound, and the number of the part of each of their values
        self.bound, self.values = () if self.ranged else bound.items_of(given), {}
        self.is_on = given.status != mapscript.MS_OFF

    def parts(self):
        """The parts that it is drawn in, 0 for the whole."""
        if self.ranged:
            return range(1, RANGES + 1)
        return range(1, len(self.values) + 1) if self.bound else (0,)

    def part(self, value):
        """The part of a feature; `value` gives the text of an item."""
        if self.bound:
            return self.values.setdefault(tuple(value(item) for item in self.bound), len(self.values) + 1)
        return self.part_of(number_of(value(self.ranged.rangeitem))) if self.ranged else 0

    def values_of(self, part):
        """The values of a part, by the items to which the styles are bound."""
        return dict(zip(self.bound, list(self.values)[part - 1])) if self.bound and part else {}

    def part_of(self, value):
        """The part of a value, and 0 where the class is in one part."""
        if self.ranged is None:
            return 0
        step = (self.ranged.maxvalue - self.ranged.minvalue) / RANGES
        return min(max(int((value - self.ranged.minvalue) / step) + 1, 1), RANGES)


class Classes:
    """The classes by which a layer is drawn."""

    def __init__(self, map, layer, report, node):
        self.map, self.layer, self.report, self.node = map, layer, report, node
        numbers = self.numbers()
        for number in reversed(range(layer.numclasses)):
            if number not in numbers:
                layer.removeClass(number)
        self.kinds = [Kind(number, layer.getClass(at)) for at, number in enumerate(numbers)]
        bounds = (bound for kind in self.kinds for bound in (kind.given.minscaledenom, kind.given.maxscaledenom))
        edges = sorted({bound for bound in bounds if bound > 0})
        # A scale between each two bounds, and on each side of all; none where each class shows at all scales.
        self.scales = [(low + high) / 2 for low, high in zip([0] + edges, edges + [2 * edges[-1]])] if edges else [-1.0]
        for kind in self.kinds:
            kind.given.minfeaturesize = -1
        self.rules = None

    def numbers(self):
        """The numbers of the classes that a feature may have: those of CLASSGROUP, and of a clustered layer those of a single point."""
        layer, gone = self.layer, clusters.settle(self.layer)
        if gone is not None:
            self.report.changed(self.node.at("CLUSTER"), "Cluster_FeatureCount is 1 for each point")
        for number in sorted(gone or ()):
            self.report.changed(self.node.at("CLASS", number), "a CLASS for several points together isn't there")
        groups = {number: (layer.getClass(number).group or "").lower() for number in range(layer.numclasses)}
        wanted = (layer.classgroup or "").lower()
        return [number for number, group in groups.items() if number not in (gone or ()) and (not wanted or group == wanted)]

    def of(self, shape, value):
        """The classes that a shape has at some scale, each with its part; `value` gives the text of an item."""
        found = []
        for scale in self.scales:
            self.map.scaledenom = scale
            at = self.layer.getClassIndex(self.map, shape)
            if at < 0 or not self.kinds[at].is_on:
                continue
            part = (at, self.kinds[at].part(value))
            if part not in found:
                found.append(part)
        return tuple(found)

    def name(self, found):
        """The value of the item `class` of a feature."""
        named = [f"{self.kinds[at].number + 1}" + (f".{part}" if part else "") for at, part in found]
        return "+".join(named)

    def settle_values(self, features):
        """Draws a class as a whole whose styles are bound to items with too many values; else says how many there are."""
        for at, kind in enumerate(self.kinds):
            named = ", ".join(f"[{item}]" for item in kind.bound)
            if len(kind.values) > bound.MOST:
                self.report.left_out(self.node.at("CLASS", kind.number, "STYLE"), f"{named}: each value is drawn as if it weren't given, as there are {len(kind.values):,}")
                kind.bound = ()
                for feature in features:
                    feature.classes = tuple(dict.fromkeys((one, 0 if one == at else part) for one, part in feature.classes))
            elif kind.values:
                self.report.changed(self.node.at("CLASS", kind.number, "STYLE"), f"{named}: the CLASS is {len(kind.values)}, one for each value")

    # Rules.

    def decide(self, usable):
        """Finds the rule of each class, as it is written over the usable items; `is_computed` says whether all are by one item."""
        known = {name.lower() for name in usable}
        found = [self.plain(kind, known) for kind in self.kinds]
        is_apart = len(self.scales) > 1 and not all(kind.is_on for kind in self.kinds)
        self.is_computed = is_apart or any(why for _, why, _ in found)
        for kind, (rule, why, changed) in zip(self.kinds, found):
            place = self.node.at("CLASS", kind.number, "EXPRESSION")
            if why:
                self.report.changed(place, f"{why}: the item {ITEM} is the number of each feature's CLASS")
            elif changed and not self.is_computed:
                self.report.changed(place, changed)
        self.rules = [rule for rule, _, _ in found]

    def plain(self, kind, known):
        """A class's rule as it is written here, why it can't be, and what was changed in it."""
        text = kind.given.getExpressionString()
        if kind.ranged:
            return None, f"a colour by {kind.ranged.rangeitem} is {RANGES} classes", None
        if kind.bound:
            return None, f"{', '.join(f'[{item}]' for item in kind.bound)} of a STYLE has a class for each value, up to {bound.MOST}", None
        if not text:
            return None, None, None
        rule, changed = self.written(text)
        if rule == "":
            return None, None, changed
        if rule is None:
            return None, f"{text} can't be written here", None
        named = BRACKETS.findall(rule) if rule.startswith("(") else [self.layer.classitem or ""]
        hidden = [name for name in named if name.lower() not in known]
        return rule, f"{text} needs {', '.join(hidden)}, which isn't answered" if hidden else None, changed

    def written(self, text):
        """A rule as it is written here, and what was changed: nothing for none that can be written, an empty one for none."""
        if text.startswith('"') and text.endswith('"'):
            return quoted(text[1:-1]), None
        if text.startswith("{") and text.endswith("}"):
            return text, None
        if text.startswith("("):
            return (text if mapfile.Logic(text).fault() is None else None), None
        if text in ("/.*/", "/./"):
            return "", f"{text}, which takes each value, is no EXPRESSION"
        rule = list_rule(text) if text.startswith("/") else folded_rule(text, self.layer.classitem)
        return rule, f"{text} is {'the list ' if text.startswith('/') else ''}{rule}"

    def by_item(self, at, part, features):
        """The rule of a part of a class over the item `class`: the values that occur."""
        names = {self.name(feature.classes): None for feature in features if (at, part) in feature.classes}
        return "{" + ",".join(names) + "}" if names else None


def scales(low, high, factor):
    """The lines of bounds on the scale."""
    lines = []
    for word, bound in (("MINSCALEDENOM", low), ("MAXSCALEDENOM", high)):
        if bound > 0:
            lines.append(f"{word} {bound * factor:.6f}".rstrip("0").rstrip("."))
    return lines


def both(one, other, choose):
    """A bound of two, where each may be none."""
    given = [bound for bound in (one, other) if bound > 0]
    return choose(given) if given else -1
