"""Colours, sizes and angles of a STYLE that are bound to an item, as COLOR [c]: there is a class for each of their values."""
import re

import mapscript

from mapconvert.texts import number_of

# A class with more values than this is drawn as if none were given.
MOST = 64
COLOURS, SIZES = ("COLOR", "OUTLINECOLOR"), ("SIZE", "WIDTH", "OUTLINEWIDTH")
# mapscript names the bindings by these words.
WORDS = (*COLOURS, *SIZES, "ANGLE")


def bindings(style):
    """The words of a style that are bound, each with the number of its binding and its item in small letters."""
    for word in WORDS:
        number = getattr(mapscript, f"MS_STYLE_BINDING_{word}", None)
        item = style.getBinding(number) if number is not None else None
        if item:
            yield word, number, item.lower()


def items_of(given):
    """The items to which the styles of a class are bound, each once."""
    styles = (given.getStyle(at) for at in range(given.numstyles))
    return tuple(dict.fromkeys(item for style in styles for _, _, item in bindings(style)))


def colour_of_value(text):
    """The components of a colour as an item has it, by 6 hexadecimal digits or three numbers; -1 for each of one that isn't read."""
    if re.fullmatch(r"#[0-9a-fA-F]{6}([0-9a-fA-F]{2})?", text):
        return tuple(bytes.fromhex(text[1:7]))
    numbers = re.fullmatch(r"\s*(\d{1,3})\s+(\d{1,3})\s+(\d{1,3})\s*", text)
    components = tuple(map(int, numbers.groups())) if numbers else (256,)
    return components if max(components) < 256 else (-1, -1, -1)


def set_value(style, word, text, factor):
    """Gives a style a value; `factor` brings sizes to pixels."""
    if word in COLOURS:
        colour = style.color if word == "COLOR" else style.outlinecolor
        colour.red, colour.green, colour.blue = colour_of_value(text)
    elif word in SIZES:
        size = number_of(text) * factor
        least, most = getattr(style, f"min{word.lower()}", 0), getattr(style, f"max{word.lower()}", size)
        setattr(style, word.lower(), min(max(size, least), most))
    else:
        style.angle = number_of(text)


def with_values(style, values, factor):
    """A style with these values, by the items in small letters, in place of those that it is bound to."""
    found = [one for one in bindings(style) if one[2] in values]
    if not found:
        return style
    made = style.clone()
    for word, number, item in found:
        made.removeBinding(number)
        set_value(made, word, values[item], factor)
    return made
