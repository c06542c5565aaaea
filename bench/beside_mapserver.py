#!/usr/bin/env python3
"""Measures the processor time of a request beside MapServer 8.0, by scenario.

Usage: beside_mapserver.py PROGRAM [WORLD [SCENARIO ..]]

WORLD is a mapfile whose first layer has the polygons of countries; without it demo/world.map is taken. All other features are
made by rule. both_servers.py has them, starts the servers, and says what that needs. With SCENARIO only those are measured
whose name begins so.

The servers are asked over a kept connection, each scenario in turn, and answer pictures as PPM and as PNG. Ours is asked for
stepped pictures and for those of a map with CONFIG "WMS_SMOOTHING" "4", MapServer for its own, whose edges are smoothed. A
scenario of several pictures asks for all of them in rounds. A figure is what /proc says that the threads of the server's
process took, with HTTP here and without nginx there; a ratio is that of two figures of the same minute. Bytes are those of the
PNGs, of several pictures together: stepped, smoothed and MapServer's. An answer of another kind or size ends the script with
1, and so does a click at which the servers find other features.
"""
import pathlib
import re
import sys

sys.path.insert(0, str(pathlib.Path(__file__).resolve().parent / "lib"))

from both_servers import DEMO, LAYERS, PNG, PPM, SMOOTHED, STEPPED, as_png, degrees_of, metres_of, picture, servers, tiles
from painted import scattered_points

EARTH, TILE, SEA = (-180, -90, 180, 90), (5, 43, 16, 54), (-40, -60, -29, -49)
SIZES, SMALL = [(1024, 512), (2048, 1024)], (256, 256)
# How long each server is asked in a scenario, in seconds of the clock.
LONG = 3
# Layers of the first table, each of which has a tile and whole pictures.
WHOLE = [layer.name for layer in LAYERS if layer.name not in ("ranked", "coasts")]
ZOOMS = [(0, 3), (4, 7), (8, 12), (0, 12)]


def click(layer, box, at):
    asked = f"&QUERY_LAYERS={layer}&INFO_FORMAT=text/plain&FEATURE_COUNT=10&I={at[0]}&J={at[1]}"
    return picture(layer, box, SMALL).replace("GetMap", "GetFeatureInfo") + asked


def pictures():
    """Name and queries of each scenario of pictures in degrees."""
    yield "a tile of sea, 256 by 256", [picture("filled,borders", SEA, SMALL)]
    for name in WHOLE:
        yield f"{name}, a tile of 11 degrees, 256 by 256", [picture(name, TILE, SMALL)]
        for size in SIZES:
            yield f"{name}, {size[0]} by {size[1]}", [picture(name, EARTH, size)]
    yield "43,645 points in four classes, 1024 by 512", [picture("ranked", EARTH, SIZES[0])]
    parts = [(22.5 * i - 180, 22.5 * j - 90, 22.5 * i - 157.5, 22.5 * j - 67.5) for j in range(8) for i in range(16)]
    yield "43,645 points in four classes, 128 tiles of 22.5 degrees, 256 by 256", [picture("ranked", part, SMALL) for part in parts]
    yield "coasts of 2.3 million vertices, 1024 by 512", [picture("coasts", EARTH, SIZES[0])]


def projected(world):
    """Name and queries of tiles in web mercator, and of the same parts of the world in degrees."""
    those = tiles(world)
    for name in ("filled", "outlined"):
        for first, last in ZOOMS:
            chosen = [tile for tile in those if first <= tile[0] <= last]
            title = f"{len(chosen)} tiles of zooms {first} to {last}, 256 by 256"
            yield f"web mercator, {name}, {title}", [picture(name, metres_of(tile), SMALL, "EPSG:3857") for tile in chosen]
        yield f"{name}, the same {len(those)} parts of the world in degrees", [picture(name, degrees_of(tile), SMALL) for tile in those]


def others():
    """Name and queries of what isn't a picture."""
    yield "a click on a country", [click("filled", TILE, (128, 128))]
    ((x, y),) = next(scattered_points(20_000))
    yield "a click on one of 20,000 points", [click("squares", (x - 5.5, y - 5.5, x + 5.5, y + 5.5), (128, 128))]
    yield "the capabilities document", ["REQUEST=GetCapabilities"]


def check(server, query, answer):
    """That an answer is what was asked for."""
    status, kind, body = answer
    size = re.search(r"WIDTH=(\d+)&HEIGHT=(\d+)", query)
    if "GetMap" in query and kind == PPM:
        head = b"P6\n%s %s\n255\n" % (size[1].encode(), size[2].encode())
        is_right = body.replace(b" \n", b"\n").startswith(head)
    elif "GetMap" in query:
        sides = int(size[1]).to_bytes(4, "big") + int(size[2]).to_bytes(4, "big")
        is_right = kind == PNG and body.startswith(b"\x89PNG") and body[16:24] == sides
    else:
        is_right = b"ServiceException" not in body and b"msWMS" not in body
    if status != 200 or not is_right:
        sys.exit(f"{server.name} answers {query}: {status} {kind} {body[:300]}")


def checked(server, queries):
    """The bodies of the answers, each of which is what was asked for."""
    bodies = []
    for query in queries:
        answer = server.ask(query)
        check(server, query, answer)
        bodies.append(answer[2])
    return bodies


def compared(asked, queries):
    """The milliseconds of each server, and how many times as many as the last one's the others are; and the bytes of each."""
    bodies = [checked(server, queries) for server in asked]
    if "GetFeatureInfo" in queries[0]:
        found = [sorted(re.findall(rb"= '(\w+)'", body)) for answered in bodies for body in answered]
        if not found[0] or any(one != found[0] for one in found):
            sys.exit(f"another feature at {queries[0]}: {found}")
    *ours, theirs = [server.each(queries, LONG) for server in asked]
    figures = [f"{theirs:.2f}", *(cell for one in ours for cell in (f"{one:.3f}", f"{one / theirs:.3f}"))]
    return figures, [sum(map(len, answered)) for answered in bodies]


def measured(stepped, smoothed, theirs, queries):
    """The cells of a scenario."""
    if "GetMap" not in queries[0]:
        return [*compared([stepped, theirs], queries)[0], *[""] * 8]
    figures, _ = compared([stepped, smoothed, theirs], queries)
    of_png, sizes = compared([stepped, smoothed, theirs], list(map(as_png, queries)))
    return [*figures, *of_png, ", ".join(f"{size:,}" for size in sizes)]


def main():
    if len(sys.argv) < 2:
        sys.exit(__doc__.split("\n")[2])
    world = pathlib.Path(sys.argv[2] if len(sys.argv) > 2 else DEMO / "world.map").read_text()
    wanted = tuple(sys.argv[3:]) or ("",)
    columns = [f"{name}{form}" for form in (", PPM", ", PNG") for name in ("MapServer", "Stepped", "to its", "Smoothed", "to its")]
    with servers(sys.argv[1], world, [layer.name for layer in LAYERS], [STEPPED, SMOOTHED]) as asked:
        print(f"| Scenario, ms | {' | '.join(columns)} | Bytes |")
        print("|---" * (len(columns) + 2) + "|", flush=True)
        for title, queries in [*pictures(), *projected(world), *others()]:
            if title.startswith(wanted):
                print(f"| {title} | {' | '.join(measured(*asked, queries))} |", flush=True)


if __name__ == "__main__":
    main()
