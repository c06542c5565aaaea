"""The features of a layer, as MapServer itself reads and chooses them, in degrees."""
import sys

import mapscript

import vectors

DEGREES = "+proj=longlat +datum=WGS84 +no_defs"
# So many features are one step of what is shown on a terminal.
STEP = 2_000
TYPES = {mapscript.MS_LAYER_POINT: "POINT", mapscript.MS_LAYER_LINE: "LINE", mapscript.MS_LAYER_POLYGON: "POLYGON"}
WHOLE = 1e30


class LayerReport(vectors.Report):
    """What the format can't hold of a layer, as lines of a report on the whole map."""

    def __init__(self, report, place):
        super().__init__()
        self.report, self.place = report, place

    def say(self, words):
        self.report.notes(self.place, words)

    def replaces(self, where, words):
        self.report.changed(self.place, f"{where}: {words}")

    def leaves_out(self, where, words, count=1):
        self.report.left_out(self.place, f"{where}: {words}")


class ToDegrees:
    """Brings shapes of a layer, or of the map, to degrees. It is made once: a look at the system takes a millisecond."""

    def __init__(self, owner, map):
        system = owner.getProjection() or map.getProjection()
        self.is_known = bool(system) and system.strip().lower() not in ("", "auto")
        if self.is_known:
            # the reprojection uses these two as long as it is there
            self.systems = mapscript.projectionObj(system.replace("init=EPSG", "init=epsg")), mapscript.projectionObj(DEGREES)
            self.change = mapscript.reprojectionObj(*self.systems)

    def bring(self, shape):
        return not self.is_known or shape.project(self.change) == mapscript.MS_SUCCESS


def box_of(extent, change):
    """West, south, east and north of an EXTENT, in degrees by a change to these; nothing where it isn't given."""
    if not (extent.minx < extent.maxx and extent.miny < extent.maxy):
        return None
    box = mapscript.rectObj(extent.minx, extent.miny, extent.maxx, extent.maxy)
    if change and change.is_known:
        box.project(change.change)
    return box.minx, box.miny, box.maxx, box.maxy


class Page:
    """Where places of the page stand, of a layer with TRANSFORM FALSE: in the map's EXTENT."""

    def __init__(self, map):
        self.west, self.north = map.extent.minx, map.extent.maxy
        self.across = (map.extent.maxx - map.extent.minx) / map.width
        self.down = (map.extent.maxy - map.extent.miny) / map.height

    def place(self, x, y):
        return self.west + x * self.across, self.north - y * self.down


def coordinate(number):
    """A coordinate as the server keeps it: in millionths, of its ninth decimal on, a half away from zero."""
    if not abs(number) <= vectors.DEGREES:
        raise vectors.Shape(f"the coordinate {number:.9f} is beyond {vectors.DEGREES} degrees")
    sign, digits = ("-", -number) if number < 0 else ("", number)
    whole, rest = f"{digits:.9f}".split(".")
    kept = (int(whole + rest) + 500) // 1000
    if kept % 1_000_000 == 0:
        return f"{sign if kept else ''}{kept // 1_000_000}"
    return f"{sign}{kept // 1_000_000}.{kept % 1_000_000:06d}".rstrip("0")


def places_of(line, page):
    """The vertices of a line, in degrees."""
    places = []
    for at in range(line.numpoints):
        point = line.get(at)
        x, y = page.place(point.x, point.y) if page else (point.x, point.y)
        places.append((coordinate(x), coordinate(y)))
    return places


def part_of(places, is_closed):
    """Equal places one after another are one, and a ring's last isn't its first."""
    kept = [place for at, place in enumerate(places) if at == 0 or place != places[at - 1]]
    return kept[:-1] if is_closed and len(kept) > 1 and kept[0] == kept[-1] else kept


def parts_of(shape, kind, page):
    """The parts of a shape, each a list of places as a mapfile has them."""
    parts = []
    for number in range(shape.numlines):
        places = places_of(shape.get(number), page)
        parts.append(places if kind == "POINT" else part_of(places, kind == "POLYGON"))
    parts = [part for part in parts if part]
    vertices = sum(map(len, parts))
    if not vertices:
        raise vectors.Shape("it has no shape")
    if vertices > vectors.VERTICES:
        raise vectors.Shape(f"it has {vertices} vertices, of at most {vectors.VERTICES}")
    return parts


class Mask:
    """The polygons of a layer of the map, outside of which another isn't drawn."""

    def __init__(self, map, name):
        layer, self.shape = map.getLayerByName(name), None
        if layer is None or layer.type != mapscript.MS_LAYER_POLYGON:
            raise vectors.Shape(f"MASK {name}: that is no layer of polygons")
        for shape in Source(map, layer).shapes():
            self.shape = shape.clone() if self.shape is None else self.shape.Union(shape)
        if self.shape is None:
            raise vectors.Shape(f"MASK {name}: that layer has no polygon")

    def cut(self, shape, kind):
        """What lies in the mask of a shape; nothing where nothing does."""
        if kind == "POINT":
            return shape if self.shape.contains(shape) else None
        inside = shape.intersection(self.shape)
        if inside is None or not any(inside.get(number).numpoints for number in range(inside.numlines)):
            return None
        inside.index, inside.text = shape.index, shape.text
        return inside


class Source:
    """A layer that MapServer has opened: the names of its items, and its shapes in degrees."""

    def __init__(self, map, layer):
        self.layer = layer
        # the points themselves, and not what CLUSTER makes of them on one scale
        layer.cluster.region = None
        layer.open()
        self.names = [layer.getItem(number) for number in range(layer.numitems)]
        # behind open, which finds the system of PROJECTION AUTO in the data
        self.change = ToDegrees(layer, map) if layer.transform else None

    def raw(self):
        """The shapes as they are in the data."""
        self.layer.whichShapes(mapscript.rectObj(-WHOLE, -WHOLE, WHOLE, WHOLE))
        while (shape := self.layer.nextShape()) is not None:
            yield shape
        self.layer.close()

    def shapes(self):
        """The shapes of the source that can be brought into degrees."""
        for shape in self.raw():
            if self.change is None or self.change.bring(shape):
                yield shape


class Reading:
    """What is read of a layer: features, each with its values, its classes and perhaps the text of a label."""

    def __init__(self, map, layer, kind, classes, report):
        self.layer, self.kind, self.classes, self.report = layer, kind, classes, report
        self.source = Source(map, layer)
        self.names = self.source.names
        self.page = None if layer.transform else Page(map)
        self.mask = Mask(map, layer.mask) if layer.mask else None
        self.hidden = self.cut_off = 0

    def features(self, label_text):
        """The features. `label_text` gives the text of one, by its classes, its values and a TEXT of its own, or nothing."""
        kept, numbers = [], {name.lower(): number for number, name in enumerate(self.names)}
        shows, most = sys.stderr.isatty(), self.layer.maxfeatures
        for count, shape in enumerate(self.source.raw(), 1):
            if shows and count % STEP == 0:
                print(f"\r{self.layer.name}: {count:,} features", end="", file=sys.stderr, flush=True)
            if 0 < most <= len(kept):
                break
            found = self.classes.of(shape, lambda item: (shape.getValue(numbers[item.lower()]) or "") if item.lower() in numbers else "")
            if not found:
                self.hidden += 1
                continue
            feature = self.feature(shape, found, label_text)
            if feature:
                kept.append(feature)
        if shows and count_shown(kept):
            print("\r\033[K", end="", file=sys.stderr, flush=True)
        if len(kept) > vectors.FEATURES:
            self.report.leaves_out(f"feature {vectors.FEATURES} and what follows", f"a layer has at most {vectors.FEATURES} features")
        return kept[: vectors.FEATURES]

    def feature(self, shape, found, label_text):
        """A feature as deploy/features writes it; one that the format can't hold is reported."""
        values = {name: shape.getValue(number) or "" for number, name in enumerate(self.names)}
        number, given = shape.index, shape.text
        if self.source.change and not self.source.change.bring(shape):
            return None
        if self.mask and (shape := self.mask.cut(shape, self.kind)) is None:
            self.cut_off += 1
            return None
        try:
            parts = parts_of(shape, self.kind, self.page)
        except vectors.Shape as why:
            self.report.leaves_out(f"feature {number}", str(why))
            return None
        feature = vectors.Feature(number, values, self.kind, parts)
        feature.classes, feature.text = found, label_text(found, values, given)
        return feature


def count_shown(kept):
    return len(kept) >= STEP
