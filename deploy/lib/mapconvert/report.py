"""What was changed, left out, and shown that MapServer hides, with the file and line of the mapfile where it stands."""
import os
import re

import keywords
import mapfile

# The blocks that stand in a block.
BLOCKS = {
    "MAP": "LAYER WEB SYMBOL LEGEND SCALEBAR REFERENCE QUERYMAP OUTPUTFORMAT PROJECTION",
    "WEB": "METADATA VALIDATION",
    "LAYER": "CLASS FEATURE METADATA PROJECTION VALIDATION JOIN CLUSTER COMPOSITE GRID SCALETOKEN CONNECTIONOPTIONS IDENTIFY BINDVALS",
    "CLASS": "STYLE LABEL METADATA VALIDATION LEADER",
    "STYLE": "PATTERN", "LABEL": "STYLE", "LEGEND": "LABEL", "SCALEBAR": "LABEL", "LEADER": "STYLE",
    "FEATURE": "POINTS", "SYMBOL": "POINTS PATTERN STYLE", "SCALETOKEN": "VALUES",
}
# Blocks of which one line is said for all that stands in them.
WHOLE = {"LEGEND", "SCALEBAR", "REFERENCE", "QUERYMAP", "OUTPUTFORMAT", "JOIN", "CLUSTER", "COMPOSITE", "GRID", "SCALETOKEN", "LEADER", "IDENTIFY"}
# Blocks whose words are no keywords.
FLAT = {"METADATA", "PROJECTION", "VALIDATION", "POINTS", "PATTERN", "VALUES", "CONNECTIONOPTIONS", "BINDVALS"}


class Node:
    """A block: the place of its word, those of its keywords, and the blocks in it."""

    def __init__(self, place):
        self.place, self.keywords, self.blocks = place, {}, {}

    def at(self, *path):
        """The place of a block or a keyword in it, as ("CLASS", 0, "STYLE", 1, "PATTERN"), or of what is nearest."""
        node, path = self, list(path)
        while len(path) > 1:
            word, number = path[0], path[1]
            if number >= len(node.blocks.get(word, [])):
                return node.place
            node, path = node.blocks[word][number], path[2:]
        if not path:
            return node.place
        blocks = node.blocks.get(path[0])
        return node.keywords.get(path[0]) or (blocks[0].place if blocks else node.place)


class Seen:
    """A keyword as it stands in the mapfile: its block, its place, its first value, and the number of its layer."""

    def __init__(self, block, word, place, value, layer):
        self.block, self.word, self.place, self.value, self.layer = block, word, place, value, layer


class Locator:
    """Finds where the blocks and keywords of a mapfile stand, in the file or in one that it includes."""

    def __init__(self, path):
        self.tokens, self.next, self.seen = list(mapfile.included(path, os.path.dirname(path))), 0, []
        # the number of the layer that is read, where one is, and how many were read before
        self.map, self.inside, self.layers = Node((path, 1)), None, 0
        while self.next < len(self.tokens) and self.word() != "MAP":
            self.next += 1
        if self.next < len(self.tokens):
            self.next += 1
            self.fill("MAP", self.map, True)

    def word(self):
        token = self.tokens[self.next][0]
        return token.text.upper() if token.shape == "word" else None

    def value(self):
        """The text of the next token, where it is a value."""
        if self.next == len(self.tokens) or self.word() == "END":
            return None
        return self.tokens[self.next][0].text

    def fill(self, block, node, is_said):
        """Reads a block up to its END. Its keywords are kept where one line of their own is due for them."""
        while self.next < len(self.tokens):
            word, place = self.word(), self.tokens[self.next][1]
            self.next += 1
            if word == "END":
                return
            if block == "METADATA" and is_said:
                self.keep(block, self.tokens[self.next - 1][0].text, place)
                self.next += 1
            # an i behind a text has it compared without regard to case
            if block in FLAT or word is None or not word[0].isalpha() or word == "I":
                continue
            if is_said:
                self.keep(block, word, place)
            if word in BLOCKS.get(block, "").split():
                inner = Node(place)
                node.blocks.setdefault(word, []).append(inner)
                self.inside = self.layers if (block, word) == ("MAP", "LAYER") else self.inside
                self.fill(word, inner, is_said and word not in WHOLE and (block, word) != ("LABEL", "STYLE"))
                if (block, word) == ("MAP", "LAYER"):
                    self.inside, self.layers = None, self.layers + 1
                continue
            node.keywords[word] = place
            known = {**keywords.COUNTS.get(block, {}), **keywords.UNUSED.get(block, {})}
            if known.get(word, 1) and self.next < len(self.tokens) and self.word() != "END":
                self.next += 1

    def keep(self, block, word, place):
        self.seen.append(Seen(block, word, place, self.value(), self.inside))

    def layer(self, number, count):
        """The block of a layer; that of the map where it isn't known which block is the layer's."""
        layers = self.map.blocks.get("LAYER", [])
        return layers[number] if len(layers) == count else self.map


# So many lines of a kind are printed, and then how many more there are.
SHOWN = 5
# The word of lines by which more is shown than by MapServer.
EXPOSED = "shown"
PARTICULAR = re.compile(r"\"[^\"]*\"|'[^']*'|\{[^}]*\}|\(.*\)|\[[^]]*\]|[\d.,]*\d")


class Report:
    """The lines of what was changed, what was left out, and what is shown that MapServer hides."""

    def __init__(self):
        self.lines, self.changes, self.losses, self.exposed = {}, 0, 0, 0
        self.words_at = {}

    def changed(self, place, words):
        self.changes += self.add(place, f"changed: {words}")

    def left_out(self, place, words):
        self.losses += self.add(place, f"left out: {words}")

    def shows(self, place, words):
        """What is shown here, and MapServer hides: from some clients, at some scales, or at all."""
        self.exposed += self.add(place, f"{EXPOSED}: {words}")

    def notes(self, place, words):
        self.add(place, f"note: {words}")

    def add(self, place, words):
        """Adds a line, once; whether it is new."""
        path, line = place
        is_new = (path, line, words) not in self.lines
        self.lines[path, line, words] = None
        if is_new:
            self.words_at.setdefault(place, []).append(words)
        return is_new

    def has(self, place, word=""):
        """Whether there is a line for a place, in which a word stands."""
        return any(word in words for words in self.words_at.get(place, []))

    def printed(self):
        """The lines in the order of the files, of each kind five, and how many more there are; last what MapServer hides, each line."""
        counts, last = {}, []
        for path, line, words in sorted(self.lines, key=lambda one: one[:2]):
            text = f"{os.path.basename(path)}:{line}: {words}"
            if words.startswith(f"{EXPOSED}: "):
                last.append(text)
                continue
            kind = PARTICULAR.sub("#", words)
            counts.setdefault(kind, []).append(words)
            if len(counts[kind]) <= SHOWN:
                yield text
        for words in counts.values():
            if len(words) > SHOWN:
                yield f"and {len(words) - SHOWN:,} more like this: {words[SHOWN]}"
        yield from last

    def text(self):
        counted = f"{self.changes:,} changed, {self.losses:,} left out" + (f", {self.exposed:,} shown that MapServer hides" if self.exposed else "")
        return "\n".join([*self.printed(), counted]) + "\n"
