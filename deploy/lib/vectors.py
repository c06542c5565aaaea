"""Features of a source that GDAL reads, or of another, as blocks and tables of a mapfile. `features --help` says what is replaced."""
import csv
import decimal
import json
import math
import re
import subprocess
import sys
import tempfile

# What a mapfile and a table hold at most.
FEATURES, VERTICES, ITEMS, BYTES, DEGREES = 200_000, 65_536, 64, 65_536, 1_000

MILLIONTH = decimal.Decimal("0.000001")

# Characters that no token of a mapfile may have: those below 32 that are no separators, and 127.
CONTROL = re.compile(r"[\x00-\x08\x0b\x0e-\x1f\x7f]")

KINDS = {
    "Point": "POINT", "MultiPoint": "POINT", "LineString": "LINE", "MultiLineString": "LINE",
    "Polygon": "POLYGON", "MultiPolygon": "POLYGON",
}

STYLES = {
    "POINT": "COLOR 30 60 140\n        SIZE 5",
    "LINE": "COLOR 30 60 140",
    "POLYGON": "COLOR 205 230 180\n        OUTLINECOLOR 90 110 80",
}


class Unreadable(Exception):
    """Why there is no layer to write, in a sentence."""


class Shape(Exception):
    """Why a feature's shape has no place in a mapfile."""


class Report:
    """What was reported on standard error, counted."""

    def __init__(self):
        self.replaced, self.left_out = 0, 0

    def say(self, words):
        print(f"features: {words}", file=sys.stderr)

    def replaces(self, where, words):
        self.replaced += 1
        self.say(f"{where}: {words}")

    def leaves_out(self, where, words, count=1):
        self.left_out += count
        self.say(f"{where}: left out: {words}")


class Feature:
    """A feature of the source: its number there, its values by field, its kind, and its parts as lists of places."""

    def __init__(self, number, values, kind, parts):
        self.number, self.values, self.kind, self.parts = number, values, kind, parts

    def __str__(self):
        return f"feature {self.number}"

    def places(self):
        return [place for part in self.parts for place in part]


def millionths(exact):
    return exact.quantize(MILLIONTH, decimal.ROUND_HALF_UP)


def coordinate(number):
    """A coordinate as the server keeps it: in millionths, a half away from zero."""
    exact = decimal.Decimal(number)
    if not exact.is_finite() or abs(exact) > 2 * DEGREES or abs(kept := millionths(exact)) > DEGREES:
        raise Shape(f"the coordinate {number} is beyond {DEGREES} degrees")
    text = format(kept, "f").rstrip("0").rstrip(".")
    return "0" if text == "-0" else text


def part_of(positions, closed):
    """The places of a ring or a line. Equal places one after another are one, and a ring's last isn't its first."""
    places = [(coordinate(at[0]), coordinate(at[1])) for at in positions]
    kept = [at for i, at in enumerate(places) if i == 0 or at != places[i - 1]]
    return kept[:-1] if closed and len(kept) > 1 and kept[0] == kept[-1] else kept


def shape_of(geometry):
    """The kind of a GeoJSON geometry, and its parts."""
    if geometry is None:
        raise Shape("it has no shape")
    form, inner = geometry["type"], geometry.get("coordinates")
    if form == "GeometryCollection":
        shapes = [shape_of(member) for member in geometry["geometries"]]
        kinds = {kind for kind, _ in shapes}
        if len(kinds) != 1:
            raise Shape("it is a collection of several kinds of shapes" if kinds else "it has no shape")
        return kinds.pop(), [part for _, parts in shapes for part in parts]
    if form not in KINDS:
        raise Shape(f"its shape is a {form}")
    if form == "Point":
        parts = [[(coordinate(inner[0]), coordinate(inner[1]))]] if inner else []
    elif form == "MultiPoint":
        parts = [[(coordinate(at[0]), coordinate(at[1])) for at in inner]]
    elif form == "MultiPolygon":
        parts = [part_of(ring, True) for rings in inner for ring in rings]
    else:
        many = [inner] if form == "LineString" else inner
        parts = [part_of(part, form == "Polygon") for part in many]
    parts = [part for part in parts if part]
    vertices = sum(len(part) for part in parts)
    if not vertices:
        raise Shape("it has no shape")
    if vertices > VERTICES:
        raise Shape(f"it has {vertices} vertices, of at most {VERTICES}")
    return KINDS[form], parts


def text_of(value):
    """A field's value as a text: numbers as GDAL writes them, truth as 1 and 0, lists as JSON, nothing as ''."""
    if value is None:
        return ""
    if isinstance(value, bool):
        return "1" if value else "0"
    return value if isinstance(value, str) else json_of(value)


def json_of(value):
    """A value as JSON, with numbers as GDAL writes them."""
    if isinstance(value, list):
        return "[" + ", ".join(map(json_of, value)) + "]"
    if isinstance(value, dict):
        return "{" + ", ".join(f"{json_of(name)}: {json_of(one)}" for name, one in value.items()) + "}"
    return value if isinstance(value, Number) else json.dumps(value, ensure_ascii=False)


class Number(str):
    """A number as its text."""


def number_of(text):
    """A number of GDAL's, which writes whole ones of a field of fractions with `.0`."""
    return Number(text.removesuffix(".0"))


def parsed(line):
    """What a line of GDAL's says, with numbers as their texts."""
    return json.loads(line, parse_float=number_of, parse_int=Number)


def failure(errors):
    """The sentence for GDAL's errors."""
    if "no coordinate system" in errors or "source layer has no" in errors:
        return "the source has no coordinate system: say which by --from, as EPSG:4326 for longitude and latitude"
    lines = [line.strip() for line in errors.splitlines() if line.strip()]
    wrong = [line for line in lines if re.match(r"ERROR \d+: ", line)] or lines[1:] or lines or ["it gave no reason"]
    return f"GDAL can't read the source: {wrong[0]}"


def layers_of(source):
    """The names of the source's layers."""
    ran = subprocess.run(["ogrinfo", "-ro", "-q", source], capture_output=True, text=True, errors="replace")
    names = re.findall(r"^\d+: (.*?)(?: \([^()]*\))?$", ran.stdout, re.MULTILINE)
    if ran.returncode != 0 or not names:
        raise Unreadable(failure(ran.stderr or ran.stdout))
    return names


def command(options, layer):
    """The command that writes a layer as GeoJSON, a line a feature."""
    words = ["ogr2ogr", "-f", "GeoJSONSeq", "/vsistdout/", "-lco", "COORDINATE_PRECISION=15", "-lco", "RS=NO"]
    words += ["-t_srs", "OGC:CRS84", "-dim", "XY", "-nlt", "CONVERT_TO_LINEAR", "-preserve_fid"]
    if options.source_system:
        words += ["-s_srs", options.source_system]
    if options.where:
        words += ["-where", options.where]
    if options.fields is not None:
        words += ["-select", options.fields]
    if options.simplify is not None:
        words += ["-simplify", str(options.simplify)]
    if options.encoding:
        words += ["-oo", f"ENCODING={options.encoding}"]
    return words + [options.source, layer]


def read(options, layer, report):
    """The features of the source, in its order, and the names of their fields."""
    features, fields, number, beyond = [], {}, 0, []
    with tempfile.TemporaryFile("w+", errors="replace") as errors:
        running = subprocess.Popen(command(options, layer), stdout=subprocess.PIPE, stderr=errors)
        for line in running.stdout:
            found = parsed(line.decode("utf-8", "replace"))
            number = found.get("id", number)
            values = {field: text_of(value) for field, value in (found.get("properties") or {}).items()}
            fields.update(dict.fromkeys(values))
            try:
                kind, parts = shape_of(found.get("geometry"))
            except Shape as why:
                report.leaves_out(f"feature {number}", str(why))
                continue
            if len(features) < FEATURES:
                features.append(Feature(number, values, kind, parts))
            else:
                beyond.append(number)
        status = running.wait()
        errors.seek(0)
        said = errors.read()
    if status != 0:
        raise Unreadable(failure(said))
    for line in said.splitlines():
        if "on-the-fly reprojection to WGS 84" not in line:
            report.say(f"GDAL says: {line}")
    if beyond:
        where = f"feature {beyond[0]} and what follows"
        report.leaves_out(where, f"a layer has at most {FEATURES} features", len(beyond))
    return features, list(fields)


def quoted(text, where, report):
    """A quoted text of a mapfile."""
    clean = CONTROL.sub("?", text)
    if clean != text:
        report.replaces(where, "control characters replaced by ?")
    if '"' not in clean:
        return f'"{clean}"'
    if "'" not in clean:
        return f"'{clean}'"
    report.replaces(where, "it has both kinds of quotes: \" replaced by '")
    return '"' + clean.replace('"', "'") + '"'


def items_of(fields, taken, comma, report):
    """The item of each field that has one. Items differ in more than the case of their letters."""
    items, known = {}, {name.lower() for name in taken}
    for field in fields:
        if len(items) + len(taken) == ITEMS:
            report.leaves_out(f"field {field}", f"a layer has at most {ITEMS} items, those of coordinates included")
            continue
        item = field.replace(",", comma)
        while item.lower() in known:
            item += "_"
        if item != field:
            report.replaces(f"field {field}", f"its item is called {item}")
        known.add(item.lower())
        items[field] = item
    return items


def replaced(values, before, after, feature, why, report):
    """The values with a text in place of another one, which is reported for each value that has it."""
    for field, value in values.items():
        if before in value:
            report.replaces(f"{feature}, field {field}", why)
    return {field: value.replace(before, after) for field, value in values.items()}


def values_of(feature, items, report):
    """The value of ITEMS of a feature. Where it is too long its longest values are left out, whole."""
    values = {field: feature.values.get(field, "") for field in items}
    values = replaced(values, ";", ",", feature, "; replaced by ,", report)
    for field, value in values.items():
        if CONTROL.search(value):
            report.replaces(f"{feature}, field {field}", "control characters replaced by ?")
            values[field] = CONTROL.sub("?", value)
    if all(any(quote in value for value in values.values()) for quote in "\"'"):
        why = "\" replaced by ', as the feature has both kinds of quotes"
        values = replaced(values, '"', "'", feature, why, report)
    while len((text := ";".join(values.values()).rstrip(";")).encode()) > BYTES:
        longest = max(values, key=lambda field: len(values[field].encode()))
        size = len(values[longest].encode())
        why = f"a value of {size} bytes, of at most {BYTES} for all of a feature"
        report.leaves_out(f"{feature}, field {longest}", why)
        values[longest] = ""
    return quoted(text, str(feature), report)


def block(feature, items, report):
    """The FEATURE block of a feature."""
    lines = ["    FEATURE"]
    if items:
        lines.append(f"      ITEMS {values_of(feature, items, report)}")
    for part in feature.parts:
        places = [f"{x} {y}" for x, y in part]
        rows = ["  ".join(places[i : i + 8]) for i in range(0, len(places), 8)]
        lines += ["      POINTS"] + [f"        {row}" for row in rows] + ["      END"]
    return lines + ["    END"]


def layer_lines(name, kind, source, report):
    """The LAYER of a kind, up to its CLASS: what isn't in `source` is for the operator to change."""
    lines = ["  LAYER", f"    NAME {quoted(name, 'the layer', report)}", f"    TYPE {kind}"]
    lines += source + ['    TEMPLATE "features"', "    CLASS", "      STYLE"]
    return lines + [f"        {STYLES[kind]}", "      END", "    END"]


def inline(features, fields, name, report):
    """The LAYER blocks of the features, one a kind of shapes."""
    items = items_of(fields, [], "_", report)
    source = []
    if items:
        source = [f"    PROCESSING {quoted('ITEMS=' + ','.join(items.values()), 'the names of the fields', report)}"]
        if len(source[0].encode()) > BYTES:
            raise Unreadable("the names of the fields are too long together: choose some by --fields")
    kinds = [kind for kind in ("POLYGON", "LINE", "POINT") if any(feature.kind == kind for feature in features)]
    lines = []
    for kind in kinds:
        lines += layer_lines(name if len(kinds) == 1 else f"{name}_{kind.lower()}", kind, source, report)
        for feature in features:
            if feature.kind == kind:
                lines += block(feature, items, report)
        lines.append("  END")
    return lines


def unused(name, fields):
    """A name that no field has."""
    while name in {field.lower() for field in fields}:
        name += "_"
    return name


def rows_of(features, items, report):
    """The rows of a table. A feature of several points has a row for each of them."""
    rows = []
    for feature in features:
        if feature.kind != "POINT":
            report.leaves_out(str(feature), f"a table has points, and it is a {feature.kind.lower()}")
            continue
        places = feature.places()
        if len(rows) + len(places) > FEATURES:
            report.leaves_out(str(feature), f"a table has at most {FEATURES} rows")
            continue
        if len(places) > 1:
            report.replaces(str(feature), f"its {len(places)} points are a row each")
        values = [feature.values.get(field, "") for field in items]
        rows += [[x, y] + values for x, y in places]
    return rows


def table(features, fields, options, name, report):
    """The LAYER of a table, which is written to its file."""
    columns = [unused("x", fields), unused("y", fields)]
    items = items_of(fields, columns, ",", report)
    rows = rows_of(features, items, report)
    try:
        with open(options.csv, "w", encoding="utf-8", newline="") as file:
            csv.writer(file, lineterminator="\n").writerows([columns + list(items.values())] + rows)
    except OSError as error:
        raise Unreadable(f"the table can't be written: {error}") from error
    source = [f"    DATA {quoted(options.csv, 'the table', report)}"]
    source += [f'    PROCESSING "CSV_X={columns[0]}"', f'    PROCESSING "CSV_Y={columns[1]}"']
    return layer_lines(name, "POINT", source, report) + ["  END"]


def whole_map(lines, features, name, report):
    """A mapfile of the layers, whose extent is that of the features."""
    xs = [float(x) for feature in features for x, _ in feature.places()]
    ys = [float(y) for feature in features for _, y in feature.places()]
    extent = []
    for numbers, limit in ((xs, 180), (ys, 90)):
        low, high = math.floor(min(numbers) * 100) / 100, math.ceil(max(numbers) * 100) / 100
        bound = limit if max(map(abs, numbers)) <= limit else DEGREES
        extent.append((low, high) if low < high else (max(low - 0.5, -bound), min(high + 0.5, bound)))
    (west, east), (south, north) = extent
    title = quoted(name, "the map", report)
    head = ["MAP", f"  NAME {title}", f"  EXTENT {west:.2f} {south:.2f} {east:.2f} {north:.2f}"]
    address = '      "wms_onlineresource" "http://localhost:8080/wms?"'
    return head + ["  WEB", "    METADATA", address, "    END", "  END"] + lines + ["END"]
