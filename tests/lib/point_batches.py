"""A small map, batches on it by lot, and what a server answers after a list of them, worked out by the rules of docs/SERVICE.md.

Used by crashes.py and replication.py. The layer a has points, of which each has a name of its own, and b a square. So
the features that are listed show which batches were applied, in which order, and the pictures that they are drawn.
"""
import http.client
import re

SIDE = 16
MAP = """MAP
LAYER NAME b TYPE POLYGON CLASS STYLE COLOR 200 100 50 END END FEATURE POINTS 0 0 8 0 8 8 0 8 END END END
LAYER NAME a TYPE POINT TEMPLATE t TOLERANCE 64 PROCESSING "ITEMS=name"
CLASS STYLE COLOR 10 20 30 SIZE 1 END END END
END
"""
PICTURE = f"VERSION=1.3.0&REQUEST=GetMap&LAYERS=b,a&STYLES=&CRS=CRS:84&BBOX=0,0,{SIDE},{SIDE}&WIDTH={SIDE}&HEIGHT={SIDE}&FORMAT=image/x-portable-pixmap"
INFORMATION = PICTURE.replace("GetMap", "GetFeatureInfo").replace("b,a", "a") + "&QUERY_LAYERS=a&INFO_FORMAT=text/plain&FEATURE_COUNT=200000&I=8&J=8"
SEQUENCE = "SERVICE=WMS&REQUEST=GetCapabilities"
WHITE, POINT, SQUARE = b"\xff\xff\xff", bytes([10, 20, 30]), bytes([200, 100, 50])
NO_LAYER = b"""<?xml version="1.0" encoding="UTF-8"?>
<ServiceExceptionReport version="1.3.0" xmlns="http://www.opengis.net/ogc">
<ServiceException code="LayerNotDefined">LAYERS</ServiceException>
</ServiceExceptionReport>
"""


class State:
    """What the map has: the points of a, each a name, a column and a row, and whether b is on."""

    def __init__(self, points=(), is_on=True):
        self.points, self.is_on = points, is_on

    def picture(self):
        """The answer to the picture that is asked for."""
        if not self.is_on:
            return NO_LAYER
        pixels = [SQUARE if column < 8 and row >= 8 else WHITE for row in range(SIDE) for column in range(SIDE)]
        for _, column, row in self.points:
            pixels[row * SIDE + column] = POINT
        return b"P6\n%d %d\n255\n" % (SIDE, SIDE) + b"".join(pixels)

    def information(self):
        features = [f"  Feature {number}:\n    name = '{name}'\n" for number, (name, _, _) in enumerate(self.points)]
        return ("GetFeatureInfo results:\n" + ("Layer 'a'\n" if features else "") + "".join(features)).encode()

    def answers(self):
        return self.picture(), self.information()


class Batch:
    """A batch: its bytes, what it makes of a state, and how it is refused, where it is."""

    def __init__(self, data, change, refusal=None):
        self.data, self.change, self.refusal = data, change, refusal

    def after(self, state):
        return state if self.refusal else self.change(state)


def after(batches):
    """The state after a list of batches."""
    state = State()
    for batch in batches:
        state = batch.after(state)
    return state


def append(chance, name, clears, padding=0):
    """A batch that adds up to three points, behind those that are there or in their place. It is longer by the padding, in a column that the layer has no item of."""
    points = tuple((f"{name}.{count}", chance.randrange(SIDE), chance.randrange(SIDE)) for count in range(chance.randrange(1, 4)))
    rows = "".join(f"{column + 0.5},{SIDE - row - 0.5},{point},{'.' * (padding // len(points))}\n" for point, column, row in points)
    table = ("x,y,name,padding\n" + rows).encode()
    data = b"CLEAR a\n" * clears + b"APPEND %d a\n%s" % (len(table), table)
    return Batch(data, lambda state: State(points if clears else state.points + points, state.is_on))


def batch_by_lot(chance, name, padding=0):
    """A batch, as often as its kind is worth: names of points are those of no other batch."""
    lot = chance.random()
    if lot < 0.6:
        return append(chance, name, False, padding)
    if lot < 0.7:
        return append(chance, name, True, padding)
    if lot < 0.85:
        is_on = chance.random() < 0.6
        return Batch(b"ON b\n" if is_on else b"OFF b\n", lambda state: State(state.points, is_on))
    if lot < 0.9:
        return Batch(b"", lambda state: state)
    return Batch(b"OFF b\nCLEAR a\nOFF nobody\n", None, b"REFUSED 3 2")


def ask(port, query, seconds=60):
    """The body that answers a query, over a connection of its own."""
    connection = http.client.HTTPConnection("127.0.0.1", port, timeout=seconds)
    try:
        connection.request("GET", f"/wms?{query}", headers={"Connection": "close"})
        return connection.getresponse().read()
    finally:
        connection.close()


def sequence_of(port):
    return int(re.search(rb'updateSequence="(\d+)"', ask(port, SEQUENCE))[1])


def answers_of(port):
    """The same answers as those of a state, by a server."""
    return ask(port, PICTURE), ask(port, INFORMATION)
