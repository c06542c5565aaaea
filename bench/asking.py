#!/usr/bin/env python3
"""Counts what the capabilities document of many layers costs, and feature information on maps of many features.

Usage: asking.py PROGRAM

A figure is the number of instructions that callgrind of valgrind counts: of a script with 11 equal queries less that
of one with 1, divided by 10; 3 million stand for a millisecond of processor. Each answer is compared with one that is
made here by the rules of docs/WMS.md. It fails where one differs, and where a document, or an answer on a map of
which some 50 features are in the view, costs more than 3 million. Everything that it reads it makes by rule.
"""
import pathlib
import sys
import tempfile

sys.path.insert(0, str(pathlib.Path(__file__).resolve().parent / "lib"))

from counting import Counting, POINT_TILE, TILE, box_round, degrees, features, scattered, seen


WORLD = (-180_000_000, -90_000_000, 180_000_000, 90_000_000)
LIMIT = 3_000_000
SIDE = 256


def layer(name, kind, body):
    return f'LAYER\nNAME "{name}"\nTYPE {kind}\nTEMPLATE "any"\nTOLERANCE 3\n{body}CLASS\nEND\nEND\n'


def information(box, column, row):
    sides = ",".join(map(degrees, box))
    return (
        f"QUERY VERSION=1.3.0&REQUEST=GetFeatureInfo&LAYERS=a&CRS=CRS:84&BBOX={sides}&WIDTH={SIDE}&HEIGHT={SIDE}"
        f"&QUERY_LAYERS=a&INFO_FORMAT=text/plain&FEATURE_COUNT=200000&I={column}&J={row}\n"
    )


def device(place, box):
    """The device point of a place, in sixteenths of a pixel."""
    across = 16 * SIDE * (place[0] - box[0]) // (box[2] - box[0])
    down = 16 * SIDE * (box[3] - place[1]) // (box[3] - box[1])
    return across, down


def near(column, row):
    """The pixels of the picture within three columns and rows of one."""
    columns = range(max(column - 3, 0), min(column + 4, SIDE))
    rows = range(max(row - 3, 0), min(row + 4, SIDE))
    return [(i, j) for i in columns for j in rows]


def is_point_hit(place, box, column, row):
    across, down = device(place, box)
    return 0 <= across // 16 < SIDE and 0 <= down // 16 < SIDE and max(abs(across // 16 - column), abs(down // 16 - row)) <= 3


def is_box_hit(place, box, column, row):
    """Whether the square round a place has the centre of a pixel near the asked one."""
    corners = [device(corner, box) for corner in box_round(*place, 60_000)]
    left, right = corners[0][0], corners[1][0]
    bottom, top = corners[0][1], corners[2][1]
    # a crossing at the centre is to its left, and an edge at its height goes on below it
    return any(left <= 16 * i + 8 < right and top <= 16 * j + 8 < bottom for i, j in near(column, row))


def items(place):
    """The lines of the columns of a table."""
    return f"    x = '{degrees(place[0])}'\n    y = '{degrees(place[1])}'\n"


def answer(places, is_hit, box, column, row):
    hit = [k for k, place in enumerate(places) if is_hit(place, box, column, row)]
    shown = items if is_hit is is_point_hit else lambda place: ""
    lines = "Layer 'a'\n" + "".join(f"  Feature {k}:\n{shown(places[k])}" for k in hit) if hit else ""
    text = "GetFeatureInfo results:\n" + lines
    return f"ANSWER text/plain {len(text)}\n{text}", len(hit)


def ask(counting, path, places, is_hit, box):
    """What a click on a feature of the view costs, and how many it hits."""
    column, row = next(
        pixel
        for place in places
        if box[0] < place[0] < box[2] and box[1] < place[1] < box[3]
        for pixel in [tuple(part // 16 for part in device(place, box))]
        if is_hit(place, box, *pixel)
    )
    expected, hit = answer(places, is_hit, box, column, row)
    cost, reply = counting.each(path, information(box, column, row))
    if reply != expected or hit == 0:
        sys.exit(f"failed: another answer at {column} {row}: {reply[:300]}")
    return cost, hit


def layers(count):
    return "".join(layer(f"layer {k}", "POINT", f'METADATA "wms_title" "{k} & more" END\n') for k in range(count))


def document(counting, count):
    path = counting.path("a.map", f'MAP\nNAME "many layers"\n{layers(count)}END\n')
    cost, reply = counting.each(path, "QUERY REQUEST=GetCapabilities\n")
    titles = [f"<Title>{k} &amp; more</Title>\n" for k in range(count)]
    if not reply.startswith("ANSWER text/xml ") or reply.count("<Title>") != count + 2 or not all(t in reply for t in titles):
        sys.exit(f"failed: another document: {reply[:300]}")
    return cost


def documents(counting):
    """Prints what the document of more and more layers costs, and gives that of the most."""
    print("| A document | Million instructions |\n|---|---|")
    for count in [1, 64, 128]:
        cost = document(counting, count)
        print(f"| of {count} layers | {cost / 1e6:.2f} |", flush=True)
    return cost


def clicks(counting, name, places, tile):
    """Prints what a click costs on a map of many places, in a tile where there is one, and in the world; the costs in the tile."""
    is_table = name == "points of a table"
    counting.path("points.csv", "x,y\n" + "".join(f"{degrees(x)},{degrees(y)}\n" for x, y in places))
    body = 'DATA "points.csv"\n' if is_table else features(places, box_round)
    path = counting.path("a.map", "MAP\n" + layer("a", "POINT" if is_table else "POLYGON", body) + "END\n")
    for box in filter(None, (tile, WORLD)):
        cost, hit = ask(counting, path, places, is_point_hit if is_table else is_box_hit, box)
        print(f"| {name} | {len(places):,} | {seen(places, box):,} | {hit} | {cost / 1e6:.2f} |", flush=True)
        if box != WORLD:
            yield cost


def main():
    if len(sys.argv) != 2:
        sys.exit(__doc__.split("\n\n")[1])
    with tempfile.TemporaryDirectory() as folder:
        counting = Counting(sys.argv[1], folder)
        dear = ["a document"] if documents(counting) > LIMIT else []
        print("\n| A click | Features | In the view | Hits | Million instructions |\n|---|---|---|---|---|")
        for name, count, tile in [("polygons", 20_000, TILE), ("points of a table", 200_000, POINT_TILE)]:
            dear += [name for cost in clicks(counting, name, scattered(count), tile) if cost > LIMIT]
            dear += [name for cost in clicks(counting, name, scattered(count // 2), None) if cost > LIMIT]
    if dear:
        sys.exit(f"failed: more than a millisecond: {', '.join(dear)}")


if __name__ == "__main__":
    main()
