"""Compares views of a map as MapServer and as mapservd draw it."""
import io
import os
import re
import subprocess
import urllib.parse

import mapscript
from PIL import Image, ImageChops, ImageFilter, ImageStat

# A pixel differs where no pixel of the 3 by 3 round it in the other picture is as near in each component.
NEAR = 48


class NoPicture(Exception):
    """Why there is no picture, in a sentence."""


def by_mapserver(map, layers, box, width, height):
    """A picture of MapServer's."""
    request = mapscript.OWSRequest()
    values = {
        "SERVICE": "WMS", "VERSION": "1.3.0", "REQUEST": "GetMap", "LAYERS": ",".join(layers), "STYLES": "", "CRS": "CRS:84",
        "BBOX": ",".join(number_text(side) for side in box), "WIDTH": str(width), "HEIGHT": str(height), "FORMAT": "image/png",
        "BGCOLOR": "0xFFFFFF", "TRANSPARENT": "FALSE",
    }
    for name, value in values.items():
        request.setParameter(name, value)
    mapscript.msIO_installStdoutToBuffer()
    try:
        map.OWSDispatch(request)
        kind = mapscript.msIO_stripStdoutBufferContentType()
        mapscript.msIO_stripStdoutBufferContentHeaders()
        body = mapscript.msIO_getStdoutBufferBytes()
    finally:
        mapscript.msIO_resetHandlers()
    if not (kind or "").startswith("image/"):
        raise NoPicture(f"MapServer draws no picture: {body[:300]!r}")
    return Image.open(io.BytesIO(body)).convert("RGB")


def number_text(number):
    return f"{number:.6f}"


def by_mapservd(program, mapfile, layers, boxes, size):
    """The pictures of all boxes, played as one script."""
    width, height = size
    lines = []
    for box in boxes:
        values = {"VERSION": "1.3.0", "REQUEST": "GetMap", "LAYERS": ",".join(layers), "STYLES": "", "CRS": "CRS:84",
                  "BBOX": ",".join(number_text(side) for side in box), "WIDTH": width, "HEIGHT": height,
                  "FORMAT": "image/x-portable-pixmap"}
        lines.append("QUERY " + urllib.parse.urlencode(values, safe=",:/"))
    script = os.path.join(os.path.dirname(mapfile), "compare.script")
    with open(script, "w", encoding="utf-8") as file:
        file.write("\n".join(lines) + "\n")
    ran = subprocess.run([program, "run", mapfile, script], capture_output=True)
    os.remove(script)
    if ran.returncode:
        raise NoPicture(f"mapservd doesn't draw the map: {ran.stderr.decode(errors='replace').strip()}")
    found = re.findall(rb"ANSWER image/x-portable-pixmap \d+\n([0-9a-f\n]+)", ran.stdout)
    if len(found) != len(boxes):
        raise NoPicture(f"mapservd draws no picture: {ran.stdout[:300]!r}")
    return [Image.open(io.BytesIO(bytes.fromhex(one.decode().replace("\n", "")))).convert("RGB") for one in found]


def unlike(one, other):
    """White where a pixel of one has no near pixel round it in the other."""
    differing = None
    for across in (-1, 0, 1):
        for down in (-1, 0, 1):
            shifted = other.copy()
            shifted.paste(other, (across, down))
            red, green, blue = ImageChops.difference(one, shifted).split()
            far = ImageChops.lighter(ImageChops.lighter(red, green), blue).point(lambda far: 255 if far > NEAR else 0)
            differing = far if differing is None else ImageChops.darker(differing, far)
    return differing


def beyond(one, other):
    """White where a pixel of one lies outside of what is round it in the other, so that it is no half-tone between these."""
    low, high = other.filter(ImageFilter.MinFilter(3)), other.filter(ImageFilter.MaxFilter(3))
    red, green, blue = ImageChops.lighter(ImageChops.subtract(low, one), ImageChops.subtract(one, high)).split()
    return ImageChops.lighter(ImageChops.lighter(red, green), blue).point(lambda far: 255 if far > NEAR else 0)


def difference(one, other):
    """What differs in either way, its share, and the share that is no half-tone of a smoothed edge."""
    both = ImageChops.lighter(unlike(one, other), unlike(other, one))
    plain = ImageChops.lighter(beyond(one, other), beyond(other, one))
    pixels = both.width * both.height
    return both, both.histogram()[255] / pixels, plain.histogram()[255] / pixels


def mean_difference(one, other):
    """The mean of the differences of all channels of all pixels, of 255."""
    means = ImageStat.Stat(ImageChops.difference(one, other)).mean
    return sum(means) / len(means)


def views(extent, anchors, count):
    """Boxes of one shape: the whole extent, and parts of it round places of features, each half as large."""
    west, south, east, north = extent
    boxes, across, down = [extent], east - west, north - south
    for number in range(1, count):
        zoom = 2 ** (1 + (number - 1) % 4)
        x, y = anchors[(number * 7919) % len(anchors)] if anchors else ((west + east) / 2, (south + north) / 2)
        boxes.append((x - across / zoom / 2, y - down / zoom / 2, x + across / zoom / 2, y + down / zoom / 2))
    return boxes


def side_by_side(one, other, both):
    """Two pictures, and what differs, in one."""
    whole = Image.new("RGB", (3 * one.width + 20, one.height), (128, 128, 128))
    for number, picture in enumerate((one, other, both.convert("RGB"))):
        whole.paste(picture, (number * (one.width + 10), 0))
    return whole


def without_labels(map):
    """Takes the labels out of a map."""
    for number in range(map.numlayers):
        layer = map.getLayer(number)
        for at in range(layer.numclasses):
            while layer.getClass(at).numlabels:
                layer.getClass(at).removeLabel(0)


def each_style(map):
    """The styles of a map, each with the type of its layer and its layer."""
    for number in range(map.numlayers):
        layer = map.getLayer(number)
        for at in range(layer.numclasses):
            for one in range(layer.getClass(at).numstyles):
                yield layer, layer.getClass(at).getStyle(one)


def without_patterns(map):
    """Draws in place of the patterns of polygons what convert writes for them."""
    from mapconvert import marks, styles

    drawn, last, below = marks.Marks(map.source, "."), None, None
    for kind, style in styles_of_polygons(map):
        below, last = below if kind == last else None, kind
        if style.symbol:
            fill, outline = drawn.in_place_of(style, below)
            style.symbol, style.width = 0, 1
            set_colour(style.color, fill)
            set_colour(style.outlinecolor, styles.colour_of(style.outlinecolor) or outline if not fill else None)
        below = styles.colour_of(style.color) or below


def set_colour(colour, text):
    """Sets a colour as a mapfile has it; nothing is none."""
    colour.setRGB(*(map(int, text.split()) if text else (-1, -1, -1)))


def styles_of_polygons(map):
    """The styles of layers of polygons, each with the numbers of its layer and its class."""
    for number in range(map.numlayers):
        layer = map.getLayer(number)
        for at in range(layer.numclasses) if layer.type == mapscript.MS_LAYER_POLYGON else ():
            kind = layer.getClass(at)
            for one in range(kind.numstyles):
                yield (number, at), kind.getStyle(one)


def without_opacity(map):
    """Makes all of a map opaque."""
    for layer, style in each_style(map):
        layer.setOpacity(100)
        style.opacity = 100
        style.color.alpha = style.outlinecolor.alpha = 255


def with_whole_widths(map):
    """Draws lines and outlines in the whole pixels that convert writes."""
    from mapconvert import styles

    for layer in (map.getLayer(number) for number in range(map.numlayers)):
        is_line = layer.type == mapscript.MS_LAYER_LINE
        for kind in (layer.getClass(at) for at in range(layer.numclasses)):
            drawn = [style for style in styles_of(kind) if style.width > 0]
            widths = [style.width for style in drawn]
            kept = styles.cased(widths, styles.WIDEST) if is_line else [styles.pixels(width, styles.WIDEST) for width in widths]
            for style, width in zip(drawn, kept):
                style.width = width


def styles_of(kind):
    return [kind.getStyle(number) for number in range(kind.numstyles)]


# What MapServer draws otherwise, in the order in which it is taken away: what differs less then is by this.
CAUSES = (("labels", without_labels), ("patterns", without_patterns), ("opacity", without_opacity), ("widths", with_whole_widths))


class Source:
    """MapServer's map, asked by WMS for the layers that were written."""

    def __init__(self, path, made):
        self.path, self.made = path, made

    def map(self, changes=()):
        """A map of MapServer's that answers everything, with some changes."""
        map = mapscript.mapObj(self.path)
        map.applyDefaultSubstitutions()
        map.scalebar.status = map.legend.status = mapscript.MS_OFF
        for key, text in (("ows_enable_request", "*"), ("wms_enable_request", "*"), ("wms_srs", "CRS:84 EPSG:4326"), ("wms_onlineresource", "http://localhost/?")):
            map.web.metadata.set(key, text)
        for number in range(map.numlayers):
            self.open(map, map.getLayer(number), number)
        if not map.getProjection():
            map.setProjection("init=epsg:4326")
        map.source = self.path
        for change in changes:
            change(map)
        return map

    def open(self, map, layer, number):
        """Lets a layer be asked for, by the name that it has in the mapfile that was made."""
        layer.status = mapscript.MS_OFF
        for key in ("ows_enable_request", "wms_enable_request"):
            layer.metadata.set(key, "*")
        if number in self.made.renamed:
            layer.name = self.made.renamed[number]
        if not (layer.getProjection() or map.getProjection()):
            layer.setProjection("init=epsg:4326")


def without_ours(path):
    """The name of the map that was written, without its labels, beside it."""
    with open(path, encoding="utf-8") as file:
        text = re.sub(r"^      LABEL .* END$\n", "", file.read(), flags=re.MULTILINE)
    plain = os.path.join(os.path.dirname(path), "compare.map")
    with open(plain, "w", encoding="utf-8") as file:
        file.write(text)
    return plain


def causes_of(source, made, program, path, box, size, share):
    """What of a share goes, as one cause after the other is taken away, in words."""
    plain = without_ours(path)
    mine = by_mapservd(program, plain, made.written, [box], size)[0]
    os.remove(plain)
    words, changes = [], []
    for name, change in CAUSES:
        changes.append(change)
        less = difference(by_mapserver(source.map(changes), made.asked, box, *size), mine)[1]
        if share - less >= 0.0005:
            words.append(f"{name} {share - less:.2%}")
        share = min(share, less)
    return ", ".join([*words, f"edges and the rest {share:.2%}"])


def compare(path, made, folder, program, count, side):
    """A line for each view, and the largest share without and with half-tones. The longer side of a picture has so many pixels."""
    source, west, south, east, north = Source(path, made), *made.extent
    across, up = east - west, north - south
    size = tuple(max(1, round(side * span / max(across, up))) for span in (across, up))
    boxes, written = views(made.extent, made.anchors, count), os.path.join(folder, "map.map")
    ours, map = by_mapservd(program, written, made.written, boxes, size), source.map()
    lines, worst, all_of_it = [], 0, 0
    for number, (box, drawn) in enumerate(zip(boxes, ours), 1):
        wanted = by_mapserver(map, made.asked, box, *size)
        both, share, plain = difference(wanted, drawn)
        worst, all_of_it = max(worst, plain), max(all_of_it, share)
        picture = os.path.join(folder, f"compare{number}.png")
        side_by_side(wanted, drawn, both).save(picture)
        lines.append(f"view {number}, {','.join(number_text(side) for side in box)}: {share:.2%} of the pixels differ, {plain:.2%} beyond half-tones, by {mean_difference(wanted, drawn):.2f} in the mean, {picture}")
        if share >= 0.001:
            lines.append(f"  by cause: {causes_of(source, made, program, written, box, size, share)}")
    return lines, worst, all_of_it
