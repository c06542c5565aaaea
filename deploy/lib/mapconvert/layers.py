"""The LAYER blocks of a map."""
from mapconvert import access, classes, hidden, shapes, texts
from mapconvert.classes import ITEM, both, quoted, scales
from mapconvert.labels import Labels
from mapconvert.styles import Styles, write_in_pixels

# Under this name a feature keeps the value of the computed item, apart from one of the data that is called the same.
COMPUTED = "\0class"
KINDS = {3: "RASTER", 5: "QUERY", 6: "CIRCLE", 7: "TILEINDEX", 8: "CHART"}


def some(names):
    """Names in a sentence, ten of them at most."""
    return ", ".join(names[:10]) + (f" and {len(names) - 10} more" if len(names) > 10 else "")


def free_name(name, taken):
    """A name that isn't taken, and is from now on."""
    while name in taken:
        name += "_"
    taken.add(name)
    return name


class LayerWriter:
    """Writes what one layer of MapServer's becomes: a LAYER, and further ones below it for the outer STYLEs of lines."""

    def __init__(self, map, layer, marks, report, node, options):
        self.map, self.layer, self.report, self.node = map, layer, report, node
        self.kind, self.options = shapes.TYPES[layer.type], options
        self.layer_report = shapes.LayerReport(report, node.place)
        factor = write_in_pixels(map, layer, report, node)
        self.classes = classes.Classes(map, layer, report, node)
        self.styled = Styles(map, layer, self.kind, marks, report, node)
        self.styled.factor = factor

    def place(self, *path):
        return self.node.at(*path)

    def read(self):
        """Reads the features, and decides what is answered and how the classes are written."""
        reading = shapes.Reading(self.map, self.layer, self.kind, self.classes, self.layer_report)
        self.names = reading.names
        if reading.page:
            self.report.changed(self.place("TRANSFORM"), "TRANSFORM FALSE: the features stand in the map's EXTENT, not on the page")
        self.answered = self.items_answered()
        self.classes.decide(self.answered or self.names)
        if self.classes.is_computed and self.answered and self.options.no_class_item:
            self.report.left_out(self.place("TEMPLATE"), "TEMPLATE: its classes need an item that isn't answered")
            self.answered = []
            self.classes.decide(self.names)
        self.labels = Labels(self.layer, self.classes.kinds, self.report, self.node)
        self.labels.fonts, self.labels.scale = self.options.fonts, self.styled.factor
        self.features = reading.features(self.labels.text if any(self.labels.visible) else lambda found, values, given: None)
        self.classes.settle_values(self.features)
        self.hide_small_features()
        self.look_beyond_extent(reading.source.change)
        self.say_what_was_read(reading)

    def hide_small_features(self):
        """Carries MINFEATURESIZE out: the layer shows up to the scale at which MapServer draws its largest feature."""
        pixels, factor = self.layer.minfeaturesize, self.options.factor
        if pixels <= 0 or self.kind == "POINT":
            return
        self.features, (low, high) = hidden.drawn_by_size(self.features, pixels, self.layer.minscaledenom * factor)
        if not self.features:
            self.report.changed(self.place("MINFEATURESIZE"), "MINFEATURESIZE: MapServer draws no feature at the scales of the layer")
            return
        self.layer.maxscaledenom = both(self.layer.maxscaledenom, high / factor, min)
        say = self.report.changed if low == high else self.report.shows
        say(self.place("MINFEATURESIZE"), f"MINFEATURESIZE: the layer shows up to 1:{high:,.0f}, as its largest feature does" + ("" if low == high else ", and smaller ones with it"))

    def look_beyond_extent(self, change):
        """Says where features lie beyond the layer's EXTENT: MapServer draws them in no view that doesn't meet that."""
        box = shapes.box_of(self.layer.extent, change)
        if box and (count := hidden.beyond(self.features, box)):
            self.report.shows(self.place("EXTENT"), f"EXTENT: {count:,} of {len(self.features):,} features reach beyond it, and are drawn in views that don't meet it")

    def say_what_was_read(self, reading):
        """Reports which features aren't there, and why."""
        if reading.hidden:
            self.report.notes(self.place(), f"{reading.hidden:,} features without a CLASS that is drawn aren't there")
        if reading.mask:
            self.report.changed(self.place("MASK"), f"MASK: the features are cut at the layer {self.layer.mask}, and {reading.cut_off:,} lie outside")
        if 0 < self.layer.maxfeatures == len(self.features):
            self.report.changed(self.place("MAXFEATURES"), f"MAXFEATURES: the first {self.layer.maxfeatures:,} of the layer, where MapServer counts those of each view")
        for kind in self.classes.kinds:
            if not kind.is_on:
                self.report.changed(self.place("CLASS", kind.number, "STATUS"), "a CLASS with STATUS OFF isn't there, nor are its features")

    # What is answered.

    def template(self):
        """Whether the layer can be asked: by a TEMPLATE of its own, or one of each class, as no feature of another class is answered."""
        given = [kind.given.template for kind in self.classes.kinds]
        if not self.layer.name:
            return False
        if self.layer.template or given and all(given):
            return True
        for kind, template in zip(self.classes.kinds, given):
            if template:
                self.report.left_out(self.place("CLASS", kind.number, "TEMPLATE"), "TEMPLATE of some CLASSes: the features of others aren't answered, so none is")
        return False

    def items_answered(self):
        """The items that are answered to a click; none where the layer can't be asked."""
        if not self.template():
            return []
        place, opens = self.place("TEMPLATE"), self.options.open
        if not access.is_open(self.map, self.layer, "GetFeatureInfo", opens):
            self.report.left_out(place, "TEMPLATE: enable_request closes GetFeatureInfo")
            return []
        items = access.answered(self.layer, self.names, opens)
        kept_back = [name for name in self.names if name not in items]
        if items and access.is_for_gml(self.layer):
            self.report.shows(place, f"gml_include_items: these items are answered as text, too: {some(items)}")
        if not items:
            why = "gml_include_items is for GML alone" if access.is_for_gml(self.layer) else "no include_items has an item to answer"
            self.report.changed(place, f"no TEMPLATE, as {why}{': ' if self.names else ''}{some(kept_back)}")
        elif kept_back:
            self.report.changed(place, f"not answered, by include_items and exclude_items: {some(kept_back)}")
        return items

    def items(self):
        """The items that are written: those that are answered, or of a layer that can't be asked those of its rules."""
        if self.answered or self.classes.is_computed:
            return self.answered
        rules = " ".join(rule or "" for rule in self.classes.rules).lower()
        needs_item = any(rule and not rule.startswith("(") for rule in self.classes.rules)
        used = (self.layer.classitem or "").lower() if needs_item else None
        return [name for name in self.names if name.lower() == used or f"[{name.lower()}]" in rules]

    # Blocks.

    def block(self, kind, rule, styles, label, low, high, title=None):
        """The lines of a CLASS."""
        lines = ["    CLASS"]
        # They have no effect on the map, and are the title of the class in the viewer's legend.
        lines += [f"      NAME {quoted(kind.given.name)}"] if kind.given.name else []
        title = title or kind.given.title or (None if kind.given.name else self.unnamed_title(kind, rule))
        lines += [f"      TITLE {quoted(title)}"] if title else []
        if rule is not None:
            lines.append(f"      EXPRESSION {rule}")
        lines += [f"      {line}" for line in scales(low, high, self.options.factor)]
        lines += ["      STYLE " + " ".join(style) + " END" for style in styles]
        if label:
            lines.append("      LABEL " + " ".join(label) + " END")
        return lines + ["    END"]

    def unnamed_title(self, kind, rule):
        """The title of a class that has neither one nor a name; nothing where the legend shows the rule that is written.

        It is the TEXT where that has no item, else the EXPRESSION. Where that tells an item that isn't answered it is the number.
        """
        text = kind.given.getTextString() or ""
        if text and "[" not in text and not text.startswith("("):
            return texts.label_text(text, {})
        if self.classes.is_computed:
            given = kind.given.getExpressionString() or ""
            rest = "others" if any(one.given.getExpressionString() for one in self.classes.kinds) else None
            return f"{kind.number + 1}" if self.tells(given) else classes.words_of(given) or rest
        return f"{kind.number + 1}" if self.is_telling(rule) else None

    def is_telling(self, rule):
        """Whether a rule, which the legend shows of a class without a name, has an item in it that isn't answered."""
        return rule is not None and not self.classes.is_computed and self.tells(rule)

    def tells(self, rule):
        """Whether a rule has an item in it that isn't answered."""
        if not rule:
            return False
        named = classes.BRACKETS.findall(rule) if rule.startswith("(") else [self.layer.classitem or ""]
        return not {name.lower() for name in named} <= {name.lower() for name in access.answered(self.layer, self.names, self.options.open)}

    def written(self):
        """The parts of classes that are written: their class, their part, their rule, and a title for one of several parts."""
        for at, kind in enumerate(self.classes.kinds):
            for part in kind.parts():
                rule = self.classes.by_item(at, part, self.features) if self.classes.is_computed else self.classes.rules[at]
                if kind.is_on and (rule is not None or not self.classes.is_computed):
                    yield at, kind, part, rule, title_of(kind, part, self.answered)

    def class_blocks(self, chosen, has_labels):
        """The classes, with those of their styles that `chosen` takes. A label with scales of its own has a class of its own."""
        lines, has_text = [], any(feature.text for feature in self.features)
        for at, kind, part, rule, title in self.written():
            styles = chosen(at, part)
            label, given = self.labels.lines(at, has_text) if has_labels else (None, None)
            low, high = kind.given.minscaledenom, kind.given.maxscaledenom
            if label:
                least = both(self.layer.labelminscaledenom, given.minscaledenom, max)
                most = both(self.layer.labelmaxscaledenom, given.maxscaledenom, min)
                if least > 0 or most > 0:
                    self.report.changed(self.place("CLASS", kind.number, "LABEL", 0), "a CLASS with the label, at its scales, and one without")
                    lines += self.block(kind, rule, styles, label, both(low, least, max), both(high, most, min), title)
                    label = None
            lines += self.block(kind, rule, styles, label, low, high, title)
        return lines

    def feature_blocks(self, items, with_texts):
        """The lines of the features, with their texts where these are told by feature."""
        for feature in self.features:
            if self.classes.is_computed:
                feature.values[COMPUTED] = self.classes.name(feature.classes)
            lines = shapes.vectors.block(feature, items, self.layer_report)
            if with_texts and feature.text:
                self.options.fonts.characters.update(feature.text)
                lines.insert(1, f"      TEXT {quoted(shapes.vectors.CONTROL.sub('?', feature.text))}")
            yield from lines

    def title(self):
        """The title that the layer is given; nothing where its name is its title."""
        return self.layer.metadata.get("wms_title") or self.layer.metadata.get("ows_title")

    def whole(self, name, blocks, title, is_top):
        """A LAYER."""
        layer = self.layer
        is_computed = self.classes.is_computed
        items = shapes.vectors.items_of(self.items(), [ITEM] if is_computed else [], "_", self.layer_report)
        if is_computed:
            items[COMPUTED] = ITEM
        lines = ["  LAYER", f"    NAME {quoted(name)}", f"    TYPE {self.kind}"]
        lines += [f"    METADATA \"wms_title\" {quoted(title)} END"] if title else []
        lines += [f"    {line}" for line in scales(layer.minscaledenom, layer.maxscaledenom, self.options.factor)]
        lines += [f"    PROCESSING {quoted('ITEMS=' + ','.join(items.values()))}"] if items else []
        item = ITEM if is_computed else layer.classitem
        lines += [f"    CLASSITEM {quoted(item)}"] if item and item.lower() in {one.lower() for one in items.values()} else []
        lines += ['    TEMPLATE "features"'] if is_top and self.answered else []
        if is_top and self.answered and layer.tolerance >= 0:
            lines.append(f"    TOLERANCE {min(int(layer.tolerance + 0.5), 64)}")
        return lines + blocks + list(self.feature_blocks(items, is_top)) + ["  END"]

    def blocks(self, name, taken):
        """The LAYER blocks, the lowest first, each with its name; those of other layers are taken."""
        styles = {(at, part): self.styled.of(kind.number, kind.given, part, kind.values_of(part)) for at, kind, part, _, _ in self.written()}
        passes = max(map(len, styles.values()), default=0) if self.kind == "LINE" else 1
        made = []
        for step in range(passes - 1):
            below = free_name(f"{name}_below{step + 1}", taken)
            made.append((below, self.whole(below, self.class_blocks(lambda *one: styles[one][step : step + 1], False), self.title() or name, False)))
        if passes > 1:
            self.report.changed(self.place(), f"{passes} layers, as MapServer paints the outer STYLEs of all lines first: ask for {','.join(one for one, _ in made)},{name}")
            top = self.class_blocks(lambda *one: styles[one][passes - 1 :], True)
        else:
            top = self.class_blocks(lambda *one: styles[one], True)
        return made + [(name, self.whole(name, top, self.title(), True))]


def title_of(kind, part, answered):
    """The title of one of several parts of a class: the values that it takes; of items that aren't answered the number of the part."""
    if not part:
        return None
    if kind.bound:
        is_open = set(kind.bound) <= {item.lower() for item in answered}
        words = ", ".join(kind.values_of(part).values()) if is_open else f"{part}"
        return f"{kind.given.title or kind.given.name or kind.number + 1}: {words}"
    low, high = kind.ranged.minvalue, kind.ranged.maxvalue
    step = (high - low) / classes.RANGES
    return f"{kind.given.title or kind.given.name or kind.ranged.rangeitem} {low + (part - 1) * step:g} to {low + part * step:g}"
