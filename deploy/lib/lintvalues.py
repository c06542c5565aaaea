"""What lint says of the values of keywords."""
import re

import keywords
import mapfile
from keywords import COUNTS, UNUSED


class Values:
    """The part of a linter that looks at values. The linter gives it tokens, and takes what differs."""

    def values(self, block, keyword):
        """The values of a keyword, as many as there are before an END."""
        word, values, first = keyword.text.upper(), [], self.peek()
        wanted = {**COUNTS[block], **UNUSED[block]}[word]
        is_one = first and (first.shape == "text" and first.text.startswith("#") or first.text.startswith("["))
        if wanted == 3 and is_one:
            wanted = 1
        while len(values) < wanted:
            token = self.peek()
            if token is None or token.is_end():
                self.differs(token.line if token else self.last_line, f"{word} has too few values: it takes {wanted}")
                if f"{block} {word}" == "MAP CONFIG" and values:
                    self.check_font_key(values[0])
                return None
            values.append(self.token())
        return values

    def refused(self, value, word, taken, instead=None):
        """A value that isn't taken, with what is written instead."""
        words = f"{value} is no value of {word}, which takes {taken}"
        if instead is None and value.text.startswith("["):
            instead = keywords.PER_CLASS
        self.differs(value.line, words + (f": {instead}" if instead else ""))

    def in_degrees(self, word):
        source = self.system or "the system of the data"
        return f"{word} is in degrees: gdaltransform -s_srs {source} -t_srs EPSG:4326 gives them, or deploy/convert"

    def check_values(self, block, word, values):
        """Whether the server reads the values of a keyword."""
        first, key = values[0], f"{block} {word}"
        bad = next((value for value in values if not value.is_value()), None)
        if bad and word != "EXPRESSION":
            self.refused(bad, word, "a word or a quoted text")
        elif key in keywords.COUNTED:
            self.check_count(first, word, *keywords.COUNTED[key])
        elif chosen := self.choices(key):
            if first.text.upper() not in chosen:
                instead = keywords.VALUES.get(key, {}).get(first.text.upper())
                self.refused(first, word, " or ".join(chosen), instead)
        elif word in keywords.NUMBERS and block in ("LAYER", "CLASS"):
            number = mapfile.millionths(first.text)
            if number is None or abs(number) > keywords.NUMBERS[word]:
                self.refused(first, word, f"a number of at most {keywords.NUMBERS[word]:,}")
        elif key == "MAP EXTENT":
            self.check_extent(values)
        elif word in ("COLOR", "OUTLINECOLOR", "IMAGECOLOR"):
            self.check_colour(word, values)
        elif word == "EXPRESSION":
            self.check_expression(first)
        elif key == "STYLE SYMBOL":
            self.wanted.append(first)
        elif key == "MAP CONFIG":
            self.check_config(first, values)

    def check_config(self, name, values):
        """Whether what is offered, and the factor of a smoothed map, are among those that the server has."""
        self.check_font_key(name)
        is_offer = name.text in keywords.OFFERED
        if not is_offer and name.text != "WMS_SMOOTHING":
            return
        known = (keywords.OFFERED[name.text] if is_offer else keywords.SMOOTHINGS).split()
        given = set(values[1].text.split(" ")) - {""} if is_offer else {values[1].text}
        if given - set(known):
            self.refused(values[1], f"CONFIG {name}", " or ".join(known))

    def check_font_key(self, name):
        """Whether the key of a font has a name, and the map has room for it."""
        if not name.text.startswith("LABELFONT "):
            return
        found = keywords.FONT_KEY.fullmatch(name.text)
        if found is None:
            self.refused(name, "CONFIG", "behind LABELFONT one space and a name of letters, digits, - and _")
        elif found[1] not in self.sizes.names() and len(self.sizes.names()) >= keywords.MOST_FONTS:
            self.differs(name.line, f"{name} is one font too many, as a MAP has at most {keywords.MOST_FONTS} with a name: leave one out")

    def check_count(self, value, word, least, most):
        """Whether a value is a count within its bounds."""
        counted = mapfile.count(value.text)
        if counted is None or not least <= counted <= most:
            near = most if counted is not None and counted > most else least
            self.refused(value, word, f"a count from {least} to {most}", None if counted is None else f"write {near}")

    def check_extent(self, values):
        """Whether four sides are degrees that have an area."""
        sides = [mapfile.millionths(value.text) for value in values]
        bad = next((i for i, side in enumerate(sides) if side is None or abs(side) > 1000), None)
        if bad is not None:
            self.differs(values[bad].line, self.in_degrees("EXTENT"))
        elif not sides[0] < sides[2] or not sides[1] < sides[3]:
            at = values[2] if not sides[0] < sides[2] else values[3]
            self.differs(at.line, "EXTENT has no area: write west, south, east and north")

    def check_colour(self, word, values):
        """Whether values are a colour, and an opaque one."""
        taken = "'#rrggbb' or three counts from -1 to 255"
        if len(values) == 1:
            if not re.fullmatch("#[0-9A-Fa-f]{6}", values[0].text) or values[0].shape != "text":
                is_long = re.fullmatch("#[0-9A-Fa-f]{8}", values[0].text)
                self.refused(values[0], word, taken, "colours are opaque, leave out the last two digits" if is_long else None)
            return
        for value in values:
            counted = mapfile.count(value.text)
            if counted is None or not -1 <= counted <= 255:
                self.refused(value, word, taken)
                return

    def check_expression(self, token):
        """Whether an expression is one that the server reads."""
        if token.shape == "word" and token.text.startswith("/"):
            instead = "write a list as {a,b}"
            if re.fullmatch(r"/\.[*+]?/", token.text):
                instead = "leave EXPRESSION out, which takes each feature"
            self.differs(token.line, f"{token} is a regular expression, which isn't read: {instead}")
        if token.shape != "logic" or (at := mapfile.Logic(token.text).fault()) is None:
            return
        instead = "it compares and combines; make an item of what is computed, as by ogr2ogr -sql"
        rest = token.text[at:].lstrip()
        if rest.startswith("~"):
            instead = "~ isn't read: write =*, IN or a list as {a,b}"
        self.differs(token.line, f"{token} is no expression from its character {at} on: {instead}")
