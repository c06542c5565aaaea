"""What MapServer draws nothing of: layers as a whole, or at some scales."""
import math

import mapscript

from mapconvert import conditions, texts

METRES_OF_A_DEGREE, METRES_OF_A_PIXEL = 111_319.491, 0.00028
ROUNDED = 0.000001
NOTHING = "MapServer draws nothing of it"


def is_clear(layer):
    """Whether a layer is laid on the map nowhere: each COMPOSITE has no opacity, or keeps what lies below."""
    one, clear = layer.compositer, []
    while one is not None:
        clear.append(one.opacity == 0 or one.comp_op in (mapscript.MS_COMPOP_CLEAR, mapscript.MS_COMPOP_DST))
        one = one.next
    return bool(clear) and all(clear)


def why(layer):
    """The keyword by which MapServer draws nothing of a layer, or not always, and how, in words; nothing for other layers."""
    try:
        if not conditions.of_layer(layer.requires):
            return "REQUIRES", f"REQUIRES: {NOTHING}"
    except texts.NoText as unknown:
        return "REQUIRES", f"REQUIRES: {unknown}"
    return ("COMPOSITE", f"COMPOSITE: {NOTHING}") if is_clear(layer) else None


def scale_of_length(feature, pixels):
    """The scale, as the server counts it, up to which a feature's box has at least so many pixels from corner to corner."""
    xs, ys = zip(*(map(float, place) for part in feature.parts for place in part))
    degrees = math.hypot(max(xs) - min(xs), max(ys) - min(ys)) / pixels
    return degrees * METRES_OF_A_DEGREE / METRES_OF_A_PIXEL


def beyond(features, box):
    """How many features reach beyond a box of west, south, east and north, by more than coordinates are rounded."""
    west, south, east, north = box
    count = 0
    for feature in features:
        xs, ys = zip(*(map(float, place) for part in feature.parts for place in part))
        count += min(xs) < west - ROUNDED or min(ys) < south - ROUNDED or max(xs) > east + ROUNDED or max(ys) > north + ROUNDED
    return count


def drawn_by_size(features, pixels, least):
    """The features that are so long at some scale above `least`, and the scales up to which the smallest and the largest is."""
    bounds = [scale_of_length(feature, pixels) for feature in features]
    kept = [(feature, bound) for feature, bound in zip(features, bounds) if bound >= max(least, 1)]
    most = [bound for _, bound in kept]
    return [feature for feature, _ in kept], (min(most, default=0), max(most, default=0))
