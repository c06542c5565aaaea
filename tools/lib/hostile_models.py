"""What becomes of bytes by the rules of docs/, for `hostile_counts.py`: of each reader the number of the outcome, and the
line, row, command or parameter of a fault. No rule is taken from the program; only what the inputs need is here."""
import re
from fractions import Fraction
from urllib.parse import unquote_to_bytes

NUMBER = rb"[+-]?(?:\d+\.?\d*|\.\d+)(?:[eE][+-]?\d+)?"
BLANKS = b" \t\n\r\x0c"


class Fault(Exception):
    """The number of a kind, and where it is."""

    def __init__(self, kind, line):
        super().__init__(kind, line)
        self.kind, self.line = kind, line


def outcome(read):
    """A reader that gives the outcome 0, or its fault."""

    def outcome_of(source):
        try:
            read(source)
        except Fault as fault:
            return fault.kind, fault.line
        return 0, 0

    return outcome_of


def line_at(source, index):
    return 1 + source.count(b"\n", 0, index)


def number(text, limit):
    """The number of a text in millionths, a half away from zero, if it is one within the limit."""
    if not re.fullmatch(NUMBER, text):
        return None
    exact = Fraction(text.decode()) * 1_000_000
    rounded = int(abs(exact) + Fraction(1, 2))
    return None if rounded > limit * 1_000_000 else -rounded if exact < 0 else rounded


def bad_byte(text):
    """The index of the first byte that no token may have."""
    control = [at for at, byte in enumerate(text) if (byte < 32 and byte not in BLANKS) or byte == 127]
    try:
        text.decode()
    except UnicodeDecodeError as error:
        control.append(error.start)
    return min(control, default=None)


# Mapfiles: docs/MAPFILE.md, Tokens
def end_of_logic(source, at):
    """Where the brackets that begin an expression are closed; nothing where they aren't."""
    depth = 0
    while at < len(source):
        byte = source[at : at + 1]
        if byte in (b'"', b"'"):
            at = source.find(byte, at + 1)
            if at < 0:
                return None
        depth += (byte == b"(") - (byte == b")")
        at += 1
        if depth == 0:
            return at
    return None


def end_of_token(source, at):
    """Where the token ends, or none where it is never closed."""
    byte = source[at : at + 1]
    if byte == b"(":
        return end_of_logic(source, at)
    if byte in (b'"', b"'", b"{"):
        found = source.find(b"}" if byte == b"{" else byte, at + 1)
        return found + 1 if found >= 0 else None
    return re.compile(rb"[^ \t\n\r\x0c\"'#(){}]+").match(source, at).end()


def tokens(source):
    """The tokens with their shape and line, and at last an empty one at the end."""
    at = 0
    while True:
        at = re.compile(rb"(?:[ \t\n\r\x0c]|#[^\n]*)*").match(source, at).end()
        line = line_at(source, at)
        if at == len(source):
            break
        if source[at : at + 1] in (b")", b"}"):
            raise Fault(1, line)
        end = end_of_token(source, at)
        if end is None:
            raise Fault(1, line)
        bad = bad_byte(source[at:end])
        if bad is not None:
            raise Fault(1, line_at(source, at + bad))
        shape = {b"(": "logic", b"{": "list", b'"': "text", b"'": "text"}.get(source[at : at + 1], "word")
        yield shape, source[at:end] if shape in ("word", "logic") else source[at + 1 : end - 1], line
        at = end
    while True:
        yield "end", b"", line


class Logic:
    """A logical expression: docs/MAPFILE.md, Expressions."""

    WORDS = re.compile(rb"==|=\*|!=|<=|>=|=|<|>|eq|ne|lt|gt|le|ge|in", re.I)

    def __init__(self, text):
        self.text, self.at = text, 0

    def take(self, pattern):
        """What stands next, if it is this, behind spaces."""
        found = re.compile(rb"[ \t\n\r]*(?:" + pattern + rb")", re.I).match(self.text, self.at)
        if found:
            self.at = found.end()
        return found

    def is_whole(self):
        return self.bracket() and self.at == len(self.text)

    def bracket(self):
        return bool(self.take(rb"\(")) and self.one_of() and bool(self.take(rb"\)"))

    def one_of(self):
        """Conditions with OR between them."""
        good = self.all_of()
        while good and self.take(rb"OR|\|\|"):
            good = self.all_of()
        return good

    def all_of(self):
        """Conditions with AND between them."""
        good = self.part()
        while good and self.take(rb"AND|&&"):
            good = self.part()
        return good

    def part(self):
        """One condition: a comparison, a bracket, or NOT of one."""
        if self.take(rb"NOT|!"):
            return self.part()
        if re.compile(rb"[ \t\n\r]*\(").match(self.text, self.at):
            return self.bracket()
        return self.operand() and bool(self.take(self.WORDS.pattern)) and self.operand()

    def operand(self):
        found = self.take(rb"\[[^\]]+\]|\"[^\"]*\"|'[^']*'|" + NUMBER)
        return bool(found)


class Mapfile:
    """A mapfile with the keywords that the inputs have."""

    KEYWORDS = {
        "MAP": ["NAME", "EXTENT", "LAYER"],
        "LAYER": ["NAME", "TYPE", "PROCESSING", "CLASSITEM", "CLASS", "FEATURE"],
        "CLASS": ["EXPRESSION", "STYLE"],
        "STYLE": ["COLOR", "WIDTH"],
        "FEATURE": ["ITEMS", "POINTS"],
    }

    def __init__(self, source):
        self.tokens, self.names = tokens(source), []

    def read(self):
        """Reads a whole mapfile."""
        shape, text, line = next(self.tokens)
        self.must(shape != "end", 4, line)
        self.must(shape == "word" and text.upper() == b"MAP", 2, line)
        self.block("MAP")
        shape, _, line = next(self.tokens)
        self.must(shape == "end", 2, line)

    def must(self, holds, kind, line):
        if not holds:
            raise Fault(kind, line)

    def value(self):
        """A token that is no END."""
        shape, text, line = next(self.tokens)
        self.must(shape != "end", 4, line)
        self.must(shape != "word" or text.upper() != b"END", 5, line)
        return shape, text, line

    def text(self):
        """A word or a quoted text, with its line."""
        shape, text, line = self.value()
        self.must(shape in ("word", "text"), 3, line)
        return text, line

    def block(self, name):
        """Reads a block up to its END."""
        given = {}
        while True:
            shape, text, line = next(self.tokens)
            self.must(shape != "end", 4, line)
            word = text.upper().decode() if shape == "word" else None
            if word == "END":
                return self.close(name, given, line)
            self.must(word in self.KEYWORDS[name], 2, line)
            given[word] = self.keyword(name, word)

    def close(self, name, given, line):
        """What an END wants of its block."""
        if name == "LAYER":
            self.must("NAME" in given and "TYPE" in given, 5, line)
            text, line = given["NAME"]
            self.must(text not in self.names, 8, line)
            self.names.append(text)
        self.must(name != "FEATURE" or "POINTS" in given, 5, line)

    def keyword(self, name, word):
        """Reads what follows a keyword."""
        if word in self.KEYWORDS:
            return self.block(word)
        if word == "EXTENT":
            return self.extent()
        if word == "POINTS":
            return self.points()
        if word == "EXPRESSION":
            return self.rule()
        if word == "COLOR":
            return self.colour()
        text, line = self.text()
        self.must(word != "TYPE" or text.upper() in (b"POINT", b"LINE", b"POLYGON"), 3, line)
        self.must(word != "WIDTH" or 1 <= self.count(text) <= 32, 3, line)
        return text, line

    def count(self, text):
        found = number(text, 10**12)
        return -2 if found is None else (1 if found >= 0 else -1) * ((abs(found) + 500_000) // 1_000_000)

    def coordinate(self, text, line):
        """A number of at most 1,000."""
        found = number(text, 1000)
        self.must(found is not None, 3, line)
        return found

    def extent(self):
        """Four sides, the last two beyond the first two."""
        sides = []
        for index in range(4):
            text, line = self.text()
            sides.append(self.coordinate(text, line))
            self.must(index < 2 or sides[index] > sides[index - 2], 3, line)

    def points(self):
        """Pairs of coordinates up to an END, one at least."""
        pairs = 0
        while True:
            shape, text, line = next(self.tokens)
            self.must(shape != "end", 4, line)
            if shape == "word" and text.upper() == b"END":
                return self.must(pairs > 0, 5, line)
            self.must(shape in ("word", "text"), 3, line)
            self.coordinate(text, line)
            self.coordinate(*self.text())
            pairs += 1

    def rule(self):
        """What a class takes: no regular expression, and no expression that isn't whole."""
        shape, text, line = self.value()
        self.must(shape != "logic" or Logic(text).is_whole(), 9, line)
        self.must(shape != "word" or not text.startswith(b"/"), 9, line)

    def colour(self):
        """A colour by six digits or by three counts."""
        shape, text, line = self.value()
        if shape == "text" and re.fullmatch(rb"#[0-9a-fA-F]{6}", text):
            return
        for index in range(3):
            text, line = (text, line) if index == 0 else self.text()
            self.must(shape in ("word", "text") and -1 <= self.count(text) <= 255, 3, line)


# Tables: docs/FILES.md, CSV
def records(source):
    """The records of a table, each a list of fields."""
    fields, field, state = [], b"", "start"
    for byte in re.findall(rb"[\x00-\xff]", source.removeprefix(b"\xef\xbb\xbf"), re.S):
        if state == "quoted":
            state, field = ("closed", field) if byte == b'"' else ("quoted", field + byte)
        elif state == "closed" and byte == b'"':
            state, field = "quoted", field + byte
        elif byte in b"\r\n":
            if fields or state != "start":
                yield fields + [field]
            fields, field, state = [], b"", "start"
        elif byte == b",":
            fields, field, state = fields + [field], b"", "start"
        elif byte == b'"' and state == "start":
            state = "quoted"
        else:
            state, field = "plain", field + byte
    if fields or state != "start":
        yield fields + [field]


def is_text(field):
    """Whether bytes are UTF-8."""
    try:
        field.decode()
    except UnicodeDecodeError:
        return False
    return True


def table(source, limit=3):
    """Reads a table of points with so many rows at most."""
    rows = list(records(source))
    if not rows:
        raise Fault(1, 1)
    header = rows[0]
    for fails, kind in [(not all(map(is_text, header)), 5), (len(header) > 64, 6), (not {b"x", b"y"} <= set(header), 2)]:
        if fails:
            raise Fault(kind, 1)
    places = [header.index(b"x"), header.index(b"y")]
    for index, row in enumerate(rows[1:], 2):
        if index > limit + 1:
            raise Fault(6, index)
        if len(row) != len(header):
            raise Fault(4, index)
        if not all(map(is_text, row)):
            raise Fault(5, index)
        if any(number(row[at].strip(b" "), 1000) is None for at in places):
            raise Fault(3, index)


# Pixmaps: docs/FILES.md, Pixmaps. Kinds are 1 Magic, 2 Header, 3 Limit and 4 Short
def pixmap(source):
    """Reads a pixmap."""
    if not source.startswith(b"P6"):
        raise Fault(1, 0)
    blank = rb"[ \t\n\r\x0b\x0c]"
    between = blank + rb"(?:" + blank + rb"|#[^\n\r]*[\n\r])*"
    head = re.match(rb"P6" + rb"".join(between + rb"(\d+)" for _ in range(3)) + blank, source)
    if not head or int(head[3]) != 255 or 0 in (int(head[1]), int(head[2])):
        raise Fault(2, 0)
    if max(int(head[1]), int(head[2])) > 256:
        raise Fault(3, 0)
    if len(source) - head.end() < 3 * int(head[1]) * int(head[2]):
        raise Fault(4, 0)


# Queries: docs/WMS.md, Queries. Kinds are the codes of the table in their order, a place is its row
CODES = ["", "Missing", "Invalid", "Operation", "LayerNotDefined", "StyleNotDefined", "InvalidCRS", "InvalidFormat"]


def query(source, offered=()):
    """A query to a map that offers these formats, too."""
    given = {}
    for pair in source.split(b"&"):
        name, _, value = pair.partition(b"=")
        decode = lambda text: unquote_to_bytes(text.replace(b"+", b" ")).decode("utf-8", "replace")
        given.setdefault(decode(name).upper() if decode(name).isascii() else decode(name), decode(value))
    has = lambda name: given.get(name, "") != ""
    digits = lambda text: text.isascii() and text.isdecimal() and 1 <= int(text) <= 2048
    parts = given.get("BBOX", "").split(",")
    sides = [number(part.encode(), 1000) for part in parts]
    is_box = len(sides) == 4 and None not in sides and sides[0] < sides[2] and sides[1] < sides[3]
    layers, styles = given.get("LAYERS", "").split(","), given.get("STYLES", "").split(",")
    rows = [
        (not has("SERVICE") or given["SERVICE"] == "WMS", "Invalid"),
        (has("REQUEST"), "Missing"), (given.get("REQUEST") == "GetMap", "Operation"),
        (has("VERSION"), "Missing"), (given.get("VERSION") == "1.3.0", "Invalid"),
        (has("LAYERS"), "Missing"), (len(layers) <= 64, "Invalid"), (all(name == "a" for name in layers), "LayerNotDefined"),
        ("STYLES" in given, "Missing"), (not has("STYLES") or len(styles) == len(layers), "Invalid"),
        (all(style in ("", "default") for style in styles), "StyleNotDefined"),
        (has("CRS"), "Missing"), (given.get("CRS") in ("CRS:84", "EPSG:4326"), "InvalidCRS"),
        (has("BBOX"), "Missing"), (is_box, "Invalid"),
        (has("WIDTH"), "Missing"), (digits(given.get("WIDTH", "")), "Invalid"),
        (has("HEIGHT"), "Missing"), (digits(given.get("HEIGHT", "")), "Invalid"),
        (has("FORMAT"), "Missing"),
        (given.get("FORMAT") in ("image/x-portable-pixmap", "image/x-portable-arbitrarymap", *offered), "InvalidFormat"),
        (not has("TRANSPARENT") or given["TRANSPARENT"].lower() in ("true", "false"), "Invalid"),
    ]
    for holds, code in rows:
        if not holds:
            raise Fault(CODES.index(code), 0)
