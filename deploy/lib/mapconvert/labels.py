"""The labels of a layer: which features have one, their texts, and the LABEL blocks."""
import mapscript

from mapconvert import conditions, fonts, texts
from mapconvert.styles import colour_of

# The SIZE of a LABEL that gives none.
USUAL_SIZE = 10
POSITIONS = {101: "UL", 102: "LR", 103: "UR", 104: "LL", 105: "CR", 106: "CL", 107: "UC", 108: "LC", 109: "CC", 110: "AUTO"}


def outline_width(width):
    """How far an outline of MapServer's reaches round the letters, in whole pixels: (width + 1) / 2, a half up, 8 at most."""
    return min(int((width + 2) / 2), 8)


class Labels:
    """The labels of one layer, of each class the first. `fonts` has the fonts of the map, and `scale` is what their SIZE is multiplied by."""

    fonts, scale = None, 1

    def __init__(self, layer, kinds, report, node):
        self.layer, self.kinds, self.report, self.node = layer, kinds, report, node
        are_drawn = self.are_drawn()
        # by the place of a class: the source of its label's text, and what the label's EXPRESSION says
        self.visible = [are_drawn and can_be_seen(kind.given) for kind in kinds]
        self.sources = [self.source_of_text(kind.given) if sees else None for kind, sees in zip(kinds, self.visible)]
        self.rules = [kind.given.getLabel(0).getExpressionString() if sees else None for kind, sees in zip(kinds, self.visible)]
        for kind in kinds:
            self.say_bound(kind)

    def say_bound(self, kind):
        """Says what of a class's label is bound to an item."""
        for at in range(min(kind.given.numlabels, 1)):
            label = kind.given.getLabel(at)
            found = (label.getBinding(number) for number in range(getattr(mapscript, "MS_LABEL_BINDING_LENGTH", 0)))
            for item in filter(None, found):
                self.report.left_out(self.place(kind.number, "LABEL", at), f"[{item}] of a LABEL: it is drawn as if this weren't given")

    def place(self, number, *path):
        return self.node.at("CLASS", number, *path)

    def are_drawn(self):
        """Whether the labels are drawn whatever other layers are asked for; else they are left out."""
        try:
            if conditions.of_layer(self.layer.labelrequires):
                return True
            why = "MapServer draws none of its labels"
        except texts.NoText as unknown:
            why = f"its labels aren't drawn: {unknown}"
        self.report.left_out(self.node.at("LABELREQUIRES"), f"LABELREQUIRES: {why}")
        return False

    def source_of_text(self, kind):
        label = kind.getLabel(0)
        return label.getTextString() or kind.getTextString() or (f'"[{self.layer.labelitem}]"' if self.layer.labelitem else None)

    # Texts.

    def text(self, found, values, given=None):
        """The text of a feature: the one that it is given, else that of the first of its classes that has a label.

        A feature has one text at all scales: where a class hides its label no other class shows it.
        """
        known, made, hiding = {name.lower(): value for name, value in values.items()}, {}, []
        for at, _ in found:
            if not self.visible[at]:
                continue
            number = self.kinds[at].number
            if not self.holds(at, number, known):
                hiding.append(number)
            elif (text := given or self.made(at, number, known)) is not None:
                made[number] = text
        if made and hiding:
            self.report.left_out(self.place(hiding[0], "LABEL", 0, "EXPRESSION"), "EXPRESSION of a LABEL: a feature that it hides at some scales has no label at others")
        elif len(set(made.values())) > 1:
            self.report.changed(self.place(max(made), "TEXT"), "a feature of several classes, at several scales, has the text of the first")
        return None if hiding else next(iter(made.values()), given)

    def holds(self, at, number, known):
        """Whether a feature has the label of a class, by the label's EXPRESSION; not where that can't be evaluated."""
        rule = self.rules[at]
        if not rule:
            return True
        try:
            return conditions.label_holds(rule, self.layer.labelitem, known)
        except texts.NoText as why:
            self.report.left_out(self.place(number, "LABEL", 0, "EXPRESSION"), f"EXPRESSION {rule} of a LABEL: it isn't drawn, as {why}")
            return False

    def made(self, at, number, known):
        """The text that the label of a class makes of a feature's values; nothing where it makes none."""
        source = self.sources[at]
        try:
            return None if source is None else texts.label_text(source, known)
        except texts.NoText as why:
            self.report.left_out(self.place(number, "TEXT"), f"TEXT {source}: {why}")
            return None

    # Blocks.

    def lines(self, at, has_text):
        """The lines of a class's label, and the label; `has_text` says whether a feature has a text."""
        number, given = self.kinds[at].number, self.kinds[at].given
        for more in range(1, given.numlabels):
            self.report.left_out(self.place(number, "LABEL", more), "a second LABEL: a feature has one")
        if not self.visible[at] or not (self.sources[at] or has_text):
            return None, None
        label, place = given.getLabel(0), self.place(number, "LABEL", 0)
        lines = [f"COLOR {colour_of(label.color) or '-1 -1 -1'}"]
        lines += [f"OUTLINECOLOR {colour_of(label.outlinecolor)}"] if colour_of(label.outlinecolor) else []
        if len(lines) == 2 and outline_width(label.outlinewidth) > 1:
            lines.append(f"OUTLINEWIDTH {outline_width(label.outlinewidth)}")
        position = POSITIONS.get(label.position)
        if position is None:
            self.report.changed(place, "POSITION is AUTO")
        lines += [f"POSITION {position or 'AUTO'}", f"PRIORITY {min(max(label.priority, 1), 10)}"]
        lines += [f"BUFFER {min(max(label.buffer, 0), 64)}"] if label.buffer else []
        lines += [f"MINDISTANCE {min(label.mindistance, 4096)}"] if label.mindistance > 0 else []
        lines += ["PARTIALS TRUE"] if label.partials else []
        lines += ["FORCE TRUE"] if label.force == mapscript.MS_TRUE else []
        self.lost(label, number)
        return [*lines, f'FONT "{self.font(label, number)}"'], label

    def font(self, label, number):
        """The name of the font that a label has in the map."""
        resolution = self.fonts.map.resolution / self.fonts.map.defresolution
        given = USUAL_SIZE if label.getBinding(mapscript.MS_LABEL_BINDING_SIZE) else label.size
        size = fonts.size_of(given * self.scale * resolution, label.minsize * resolution, label.maxsize * resolution)
        return self.fonts.name_of(label.font, size, self.place(number, "LABEL", 0, "FONT"))

    def lost(self, label, number):
        """Says what of a label has no counterpart."""
        has_wrap = label.wrap and label.wrap != "\0"
        lost = [
            (label.numstyles, "STYLE", "STYLE of a LABEL: it has no box and no symbol"),
            (label.angle or label.anglemode != mapscript.MS_NONE, "ANGLE", "ANGLE: the label is level"),
            (has_wrap, "WRAP", "WRAP: the label is one line"),
        ]
        for is_lost, word, why in lost:
            if is_lost:
                self.report.left_out(self.place(number, "LABEL", 0, word), why)


def can_be_seen(given):
    """Whether a class has a label of which MapServer draws letters or their outline."""
    if given.numlabels == 0:
        return False
    label = given.getLabel(0)
    return bool(colour_of(label.color) or colour_of(label.outlinecolor))
