"""What the styles of a layer's classes become."""
import mapscript

from mapconvert import bound

# Inches in each unit of MapServer's, by its number; DD is by the length of a degree at the equator.
INCHES = {0: 1, 1: 12, 2: 63_360, 3: 39.3701, 4: 39_370.1, 5: 4_374_754}
INCHES_OF_A_PIXEL = 1 / 72
WIDEST = 32


def colour_of(colour):
    """The words of a colour; nothing where it isn't seen."""
    if colour.red < 0 or colour.alpha == 0:
        return None
    return f"{colour.red} {colour.green} {colour.blue}"


def pixels(number, most):
    return min(max(int(number + 0.5), 1), most)


def cased(widths, most):
    """Whole widths of lines that lie upon each other, the lowest first: a wider one below shows equally on both sides."""
    if not widths:
        return []
    made = []
    for top in sorted({max(int(widths[-1]), 1), pixels(widths[-1], most)}):
        kept = [min(top, most)]
        for lower, upper in zip(widths[-2::-1], widths[:0:-1]):
            shown = 2 * max(int((lower - upper) / 2 + 0.5), lower - upper > 0.5) if lower > upper else None
            kept.insert(0, pixels(lower, most) if shown is None else min(kept[0] + shown, most - (most - kept[0]) % 2))
        made.append((sum(abs(one - other) for one, other in zip(kept, widths)), kept))
    # of two that are as near, the one that is rounded as a line by itself
    made.sort(key=lambda one: (one[0], one[1][-1] != pixels(widths[-1], most)))
    return made[0][1] if len(widths) > 1 else [pixels(widths[0], most)]


def mixed(over, below, share):
    """The colour of which `over` takes a share, and `below` the rest."""
    parts = (int(share * one + (1 - share) * other + 0.5) for one, other in zip(map(int, over.split()), map(int, below.split())))
    return "%d %d %d" % tuple(parts)


def between(low, high, share):
    """The colour at a share of the way from one to another."""
    parts = (int(one + (other - one) * share) for one, other in ((low.red, high.red), (low.green, high.green), (low.blue, high.blue)))
    return "%d %d %d" % tuple(parts)


def take_units(map):
    """Gives a map without UNITS those of its projection, as MapServer's WMS does; without one places are degrees."""
    system = (map.getProjection() or "").strip()
    is_known = system and system.lower() != "auto"
    map.units = mapscript.projectionObj(system.replace("init=EPSG", "init=epsg")).getUnits() if is_known else mapscript.MS_DD


def scale_of_sizes(map, layer):
    """The scale at which sizes in units of the ground are worked out: the middle of those at which the layer shows."""
    low, high = layer.minscaledenom, layer.maxscaledenom
    if low > 0 and high > 0:
        return (low * high) ** 0.5
    if low > 0 or high > 0:
        return low * 2 if low > 0 else high / 2
    map.setExtent(map.extent.minx, map.extent.miny, map.extent.maxx, map.extent.maxy)
    return map.scaledenom if map.scaledenom > 0 else 10_000


def write_in_pixels(map, layer, report, node):
    """Brings SIZEUNITS of the ground to pixels, at one scale, by the factor that it gives back."""
    if layer.sizeunits not in INCHES:
        return 1
    scale = scale_of_sizes(map, layer)
    factor = INCHES[layer.sizeunits] / (scale * INCHES_OF_A_PIXEL)
    for number in range(layer.numclasses):
        kind = layer.getClass(number)
        for at in range(kind.numstyles):
            style = kind.getStyle(at)
            for name in ("size", "width", "outlinewidth"):
                if getattr(style, name) > 0:
                    setattr(style, name, getattr(style, name) * factor)
            style.size = min(max(style.size, style.minsize), style.maxsize) if style.size > 0 else style.size
            style.width = min(max(style.width, style.minwidth), style.maxwidth) if style.width > 0 else style.width
    layer.sizeunits = mapscript.MS_PIXELS
    report.changed(node.at("SIZEUNITS"), f"SIZEUNITS: sizes are pixels, as they are at 1:{scale:,.0f}")
    return factor


class Styles:
    """The styles of one layer. `factor` brings sizes that are bound to an item to pixels."""

    factor = 1

    def __init__(self, map, layer, kind, marks, report, node):
        self.map, self.layer, self.kind, self.marks, self.report, self.node = map, layer, kind, marks, report, node

    def place(self, number, at, word=None):
        return self.node.at("CLASS", number, "STYLE", at, *([word] if word else []))

    def lost(self, number, at, style):
        """Says what of a style has no counterpart."""
        lost = [
            (style.patternlength > 0, "PATTERN", "PATTERN: the line isn't dashed"),
            (style.opacity < 100 or 0 < style.color.alpha < 255, "OPACITY", "OPACITY: what lies below doesn't show through"),
            (self.kind != "POINT" and (style.offsetx or style.offsety), "OFFSET", "OFFSET: it is painted where the feature is"),
            (style.rangeitem and style.maxvalue <= style.minvalue, "RANGEITEM", "RANGEITEM without a DATARANGE: one colour for all values"),
        ]
        for is_lost, word, why in lost:
            if is_lost:
                self.report.left_out(self.place(number, at, word), why)
        for word in ("MINSCALEDENOM", "MAXSCALEDENOM"):
            if getattr(style, word.lower()) > 0:
                self.report.shows(self.place(number, at, word), f"{word} of a STYLE: it shows at the scales of its CLASS")
        for binding in range(mapscript.MS_STYLE_BINDING_LENGTH):
            if style.getBinding(binding):
                why = f"[{style.getBinding(binding)}]: each value is drawn as if it weren't given"
                self.report.left_out(self.place(number, at), why)

    def point(self, number, at, style):
        """The words of a point's style: its mark as a disc, or as a pixmap."""
        disc = self.marks.disc(style)
        if disc:
            self.say_size(number, at, disc)
            return disc
        symbol = self.marks.name_of(style, style.symbolname)
        if symbol is None:
            return None
        self.report.changed(self.place(number, at, "SYMBOL"), f"the mark is the pixmap {symbol}.ppm, as MapServer draws it")
        share = self.marks.share_of(style)
        if share < 1 or self.marks.is_cut(style):
            how = f"{share:.0%} as large as MapServer's".replace("%", " %") if share < 1 else "cut"
            self.report.left_out(self.place(number, at, "SIZE"), f"the mark is {how}: its pixmap would have more than 256 pixels a side")
        if self.marks.is_translucent(style):
            self.report.left_out(self.place(number, at, "SYMBOL"), "the mark's translucent pixels: they are opaque or clear")
        return [f'SYMBOL "{symbol}"']

    def say_size(self, number, at, disc):
        """Reports the size of a disc with an outline, which isn't that of the circle."""
        if disc[-1].startswith("WIDTH"):
            why = "as the outline lies within a disc, and half of it outside MapServer's circle"
            self.report.changed(self.place(number, at, "SIZE"), f"{disc[-2].replace(' ', ' is ')}, {why}")

    def width(self, number, at, width):
        """A width that the server has."""
        kept = pixels(width, WIDEST)
        if kept != width:
            self.report.changed(self.place(number, at, "WIDTH"), f"the width {width:g} is {kept}")
        return kept

    def line(self, number, at, style):
        """The words of a line's style; nothing where it draws none."""
        colour = colour_of(style.color)
        if style.symbol and style.gap != 0:
            self.report.left_out(self.place(number, at, "GAP"), "GAP: no marks along a line")
            return None
        if style.symbol:
            self.report.left_out(self.place(number, at, "SYMBOL"), "SYMBOL of a line: it is a plain line of its SIZE")
        width = max(style.width, style.size) if style.symbol and style.size > 0 else style.width
        if width <= 0:
            return None
        return None if colour is None else (colour, width, at)

    def casing(self, at, style):
        """The colour and the whole width of an outline beside a line; nothing without one."""
        colour = colour_of(style.outlinecolor)
        if colour is None or style.outlinewidth <= 0 or style.symbol and style.gap != 0:
            return None
        return colour, style.width + 2 * style.outlinewidth, at

    def whole_lines(self, number, painted):
        """The lines of a class in whole widths, each with what it paints."""
        painted = [one for one in painted if one]
        kept = cased([width for _, width, _ in painted], WIDEST)
        for (_, width, at), whole in zip(painted, kept):
            if whole != width:
                why = "" if whole == pixels(width, WIDEST) else ", so that a casing is as wide on both sides"
                self.report.changed(self.place(number, at, "WIDTH"), f"the width {width:g} is {whole}{why}")
        return [[f"COLOR {colour}", f"WIDTH {whole}"] for (colour, _, _), whole in zip(painted, kept)]

    def ground(self, fill):
        """What lies below an outline: the class's own fill, else the colour of the map."""
        return fill or colour_of(self.map.imagecolor) or "255 255 255"

    def has_pattern(self, style):
        return style.symbol and (colour_of(style.color) or self.map.symbolset.getSymbol(style.symbol).type == mapscript.MS_SYMBOL_PIXMAP)

    def pattern(self, number, at, style, below):
        """The fill and the outline that stand for a pattern: over a fill their mixed colour, and over the bare ground an outline alone."""
        fill, outline = self.marks.in_place_of(style, below)
        if fill:
            how = f"filled in the mean colour {fill}"
        else:
            outline = colour_of(style.outlinecolor) or outline
            how = f"an outline alone, in the colour {outline}, as the ground shows through"
        self.report.left_out(self.place(number, at, "SYMBOL"), f"SYMBOL of a polygon: it is {how}")
        return fill, outline

    def polygon(self, number, at, style, below):
        """A polygon's style; `below` is the fill that the class has painted before."""
        fill, outline = colour_of(style.color), colour_of(style.outlinecolor)
        width = max(style.width, style.size if style.symbol else 0)
        if self.has_pattern(style):
            (fill, outline), width = self.pattern(number, at, style, below), 1
        lines = [f"COLOR {fill}"] if fill else []
        if outline and width > 0:
            if width < 1:
                thin = mixed(outline, self.ground(fill or below), width)
                self.report.changed(self.place(number, at, "WIDTH"), f"an outline of the width {width:g} is one of 1 in the mixed colour {thin}")
                outline, width = thin, 1
            lines += [f"OUTLINECOLOR {outline}", f"WIDTH {self.width(number, at, width)}"]
        return lines or None

    def of(self, number, kind, part, values):
        """The styles of a class in the order in which MapServer paints them, each with what it paints; `values` are those of items to which they are bound."""
        painted, below = [], None
        for at in range(kind.numstyles):
            style = bound.with_values(kind.getStyle(at), values, self.factor)
            if style.getGeomTransform():
                self.report.left_out(self.place(number, at, "GEOMTRANSFORM"), "a STYLE with GEOMTRANSFORM")
                continue
            if style.opacity == 0:
                self.report.changed(self.place(number, at, "OPACITY"), "OPACITY 0: MapServer paints nothing by this STYLE")
                continue
            if part and style.rangeitem and style.maxvalue > style.minvalue:
                style = self.at_part(style, part)
            self.lost(number, at, style)
            if self.kind == "LINE":
                painted += [self.casing(at, style), self.line(number, at, style)]
            elif self.kind == "POINT":
                painted.append(self.point(number, at, style))
            else:
                painted.append(self.polygon(number, at, style, below))
                below = next((line.removeprefix("COLOR ") for line in painted[-1] or () if line.startswith("COLOR ")), below)
        return self.whole_lines(number, painted) if self.kind == "LINE" else [lines for lines in painted if lines]

    def at_part(self, style, part):
        """A style with the colour in the middle of a part of its range."""
        from mapconvert.classes import RANGES

        coloured = style.clone()
        share = (part - 0.5) / RANGES
        coloured.color.red, coloured.color.green, coloured.color.blue = map(int, between(style.mincolor, style.maxcolor, share).split())
        return coloured
