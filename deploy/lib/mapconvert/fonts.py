"""The fonts of the labels, made by otf2bdf: one for each font and size at which MapServer draws them."""
import functools
import os
import re
import shutil

import mapscript

from bitmapfonts import LONGEST, RESOLUTION, alike_in, fitted, greatest, longest, made

# MapServer's own, which it draws labels without FONT in, and what is like it.
PLAIN_FONTS = ("/usr/share/fonts/truetype/dejavu/DejaVuSansCondensed.ttf", "/usr/share/fonts/truetype/dejavu/DejaVuSans.ttf")
# Below so many points letters without half-tones can't be told apart.
SMALLEST = 8
# So many points more are tried where letters are alike.
MORE = 4
# The fonts of a map that have a name.
MOST = 16
# The characters of each font beside those of the labels: of ASCII and Latin-1.
USUAL = frozenset((*range(32, 127), *range(160, 256)))


def size_of(given, least, most):
    """The whole points at which MapServer draws a label of a SIZE, by its MINSIZE and MAXSIZE."""
    return int(min(max(given, least), most))


def pixels_of(size):
    """The pixels that an em has in MapServer's pictures, at a size in points."""
    return int(size * RESOLUTION / 72 + 0.5)


def path_of_font(map, alias):
    """The file of a font of the FONTSET; nothing where it has none, or none that is there."""
    listed = map.fontset.filename
    try:
        named = map.fontset.fonts.get(alias) if listed else None
    except mapscript.MapServerError:
        return None
    path = os.path.join(map.mappath or ".", os.path.dirname(listed), named) if named else None
    return path if path and os.path.exists(path) else None


@functools.cache
def best(path, size, codes=USUAL):
    """The size, the text and the alike pairs of a font at the least size, from one on, with the fewest of these; nothing where none is made."""
    tried = []
    for larger in range(size, size + MORE + 1):
        text = made(path, larger, codes=codes)
        if not text or larger > size and greatest(path, larger, RESOLUTION, LONGEST) < larger:
            continue
        tried.append((larger, text, alike_in(text)))
        if not tried[-1][2]:
            break
    return min(tried, key=lambda one: len(one[2]), default=None)


def font_of(path, size, times, codes):
    """The size in points, the text and the alike pairs of a font, so many times as large; nothing where none can be made."""
    if path is None or not shutil.which("otf2bdf"):
        return None
    if times == 1:
        points = greatest(path, max(SMALLEST, size), RESOLUTION, LONGEST)
        found = best(path, points, codes) if points else None
        return found and (found[0], fitted(found[1]), found[2])
    # one dot of 72 an inch is one fine pixel, so that an em has so many times the whole pixels of MapServer's
    wanted = times * pixels_of(size)
    pixels = greatest(path, wanted, 72, longest(times))
    text = made(path, pixels, 72, codes) if pixels else ""
    return (size if pixels == wanted else pixels * 72 / RESOLUTION / times, fitted(text, longest(times)), []) if text else None


def why_another(size, kept, times=1):
    """Why a font has another size than MapServer's, in words; nothing where it hasn't."""
    if kept == size:
        return ""
    if kept < size:
        why = f"as a glyph has at most {longest(times)} pixels a side"
    else:
        why = f"as letters below {SMALLEST} can't be told apart" if kept == SMALLEST else "as letters are alike at smaller sizes"
    return f", where MapServer's has {size:g}, {why}"


class Font:
    """A font that labels have: its file, its size in points, its name in the map, and how many labels have it."""

    def __init__(self, path, size, name):
        self.path, self.size, self.name, self.count = path, size, name, 0

    def distance(self, other):
        """How many times as large the larger of two is; more than any where their files are two."""
        return max(self.size, other.size) / min(self.size, other.size) if self.path == other.path else float("inf")


class Fonts:
    """The fonts of a map: labels ask for them by FONT and SIZE, and when all have asked they are written. `characters` are those of the labels."""

    def __init__(self, map, options, report, place):
        self.map, self.times, self.folder, self.report, self.place = map, options.smoothing, options.folder, report, place
        self.wanted, self.characters = {}, set()

    def file_of(self, named, place):
        """The file of a label's FONT, and the name that it has; a line says where it is another one."""
        plain = next((path for path in PLAIN_FONTS if os.path.exists(path)), None)
        alias, _, others = (named or "").partition(",")
        if not alias:
            # MapServer has no bitmap fonts any more: it reads over TYPE BITMAP, and TINY to GIANT are 5 to 16 points
            is_its_own = plain == PLAIN_FONTS[0]
            tell, how = (self.report.notes, "as in MapServer") if is_its_own else (self.report.changed, "where MapServer has DejaVu Sans Condensed")
            tell(place, f"a LABEL without FONT: it has {os.path.basename(plain or 'none')}, {how}")
            return plain, "plain"
        path = path_of_font(self.map, alias)
        if path is None:
            self.report.changed(place, f"FONT {alias}: the FONTSET has no file of it, so it is {os.path.basename(plain or 'none')}")
        elif others:
            self.report.left_out(place, f"FONT {named}: {others} has no part in it, and what {alias} lacks is shown as ?")
        return path or plain, alias

    def name_of(self, named, size, place):
        """The name of the font that a label has, by its FONT and the points at which MapServer draws it."""
        path, alias = self.file_of(named, place)
        if (path, size) not in self.wanted:
            taken, name = {font.name for font in self.wanted.values()}, f"{re.sub('[^A-Za-z0-9_-]', '_', alias)}-{size}"
            while name in taken:
                name += "_"
            self.wanted[path, size] = Font(path, size, name)
        self.wanted[path, size].count += 1
        return self.wanted[path, size].name

    def kept(self):
        """The fonts that the map has, at most so many as it may: what goes is nearest in size to another one of its file, and has the fewest labels."""
        kept = list(self.wanted.values())
        while len(kept) > MOST:
            near = {font: min((font.distance(other) for other in kept if other is not font)) for font in kept}
            kept.remove(min(kept, key=lambda font: (near[font], font.count)))
        return kept

    def written(self):
        """Writes the fonts; the lines that name them, and by each name that labels have the one of the font in its place, or nothing."""
        kept, codes = self.kept(), USUAL | {ord(one) for one in self.characters}
        lines, names = [], {}
        for font in kept:
            found = font_of(font.path, font.size, self.times, codes)
            names[font.name] = font.name if found else None
            if found is None:
                self.report.left_out(self.place, f"the labels of {font.name}: there is no font; apt-get install otf2bdf fonts-dejavu-core")
                continue
            self.say(font, *found)
            with open(os.path.join(self.folder, f"{font.name}.bdf"), "w", encoding="latin-1") as file:
                file.write(found[1])
            lines.append(f'  CONFIG "LABELFONT {font.name}" "{font.name}.bdf"')
        for font in (font for font in self.wanted.values() if font not in kept):
            near = min(kept, key=lambda other: (font.distance(other), abs(font.size - other.size)))
            self.report.left_out(self.place, f"the font {font.name}: its labels have {near.name}, as a map has at most {MOST} fonts")
            names[font.name] = names[near.name]
        return lines, names

    def say(self, font, size, text, alike):
        """Says what a font was made of, how its size differs, and which of its letters are alike."""
        why = why_another(font.size, size, self.times)
        tell = self.report.changed if why or self.times == 1 else self.report.notes
        tell(self.place, f"the font {font.name} is {os.path.basename(font.path)} at {size:g} points{', not smoothed' if self.times == 1 else ''}{why}")
        for one, other in alike:
            self.report.notes(self.place, f"{one} and {other} are alike in {font.name}, and no size up to {min(max(SMALLEST, font.size), size) + MORE:g} has fewer such letters")


def renamed(lines, names):
    """The lines of layers, in which each label has the font that is kept in place of its own."""
    def font(found):
        return f' FONT "{names[found[1]]}"' if names[found[1]] else ""

    return [re.sub(r' FONT "([\w-]+)"', font, line, count=1) if line.startswith("      LABEL ") else line for line in lines]
