"""Circles of MapServer's as discs, which a smoothed map has (docs/MAPFILE.md, "Symbols")."""
import mapscript

from mapconvert.styles import WIDEST, colour_of

# The largest SIZE of a style.
LARGEST = 256
# The one symbol of all discs. No pixmap has its name: theirs end in a number.
NAME = "disc"
SYMBOL = f'  SYMBOL NAME "{NAME}" TYPE ELLIPSE POINTS 1 1 END FILLED TRUE END'


def is_circle(symbol):
    """Whether a symbol is a filled circle round its point."""
    is_round = symbol.type == mapscript.MS_SYMBOL_ELLIPSE and symbol.sizex == symbol.sizey
    return bool(is_round and symbol.filled) and (symbol.anchorpoint_x, symbol.anchorpoint_y) == (0.5, 0.5)


def is_plain(style):
    """Whether a style paints its symbol at the point itself, as it stands, and opaque."""
    is_moved = style.angle or style.gap or style.offsetx or style.offsety or style.polaroffsetpixel
    is_opaque = style.opacity == 100 and all(part.alpha == 255 for part in (style.color, style.outlinecolor) if colour_of(part))
    return is_opaque and not is_moved


def whole(number, most):
    """A number that is a count from 1 to the most, but for what a division leaves; nothing for another one."""
    count = round(number)
    return count if abs(number - count) < 1e-6 and 1 <= count <= most else None


def words_of(style, symbol, scale):
    """The words of the style that paints a disc as MapServer does a circle, `scale` pixels for one of its; nothing where its sizes aren't counts."""
    size = scale * min(max(style.size if style.size >= 0 else symbol.sizey, style.minsize), style.maxsize)
    width = scale * min(max(style.width, style.minwidth), style.maxwidth)
    fill, outline = colour_of(style.color), colour_of(style.outlinecolor) if width > 0 else None
    # The outline lies half outside MapServer's circle, and within a disc: a disc that is larger by its width covers the same.
    across, wide = whole(size + width if outline else size, LARGEST), whole(width, WIDEST)
    if size <= 0 or across is None or not (fill or outline) or outline and wide is None:
        return None
    words = [f'SYMBOL "{NAME}"', *([f"COLOR {fill}"] if fill else []), *([f"OUTLINECOLOR {outline}"] if outline else [])]
    return [*words, f"SIZE {across}", *([f"WIDTH {wide}"] if outline else [])]
