"""Tokens and expressions of a mapfile, as docs/MAPFILE.md has them. Used by lint."""
import decimal
import os
import re

NUMBER = re.compile(r"[+-]?(\d+\.?\d*|\.\d+)([eE][+-]?\d+)?", re.ASCII)
ENDS = set(" \t\r\n\f\"'#(){}")
LONGEST = 65_536
MILLIONTH = decimal.Decimal("0.000001")

NOT_CLOSED = "the quoted text, expression or list that begins here is not closed: close it"
COMMENT = "/* begins a comment of MapServer: begin each of its lines with # instead"
BACKSLASH = "a backslash is an ordinary character here, and the quote behind it ends the text: use the other kind of quotes"
STRAY = "a bracket that closes nothing: remove it, or put the text between quotes"
CONTROL = "a control character, which no text may have: remove it"
NOT_UTF8 = "bytes that are no UTF-8: convert the file, as by iconv -f ISO-8859-1 -t UTF-8"
TOO_LONG = f"a text of more than {LONGEST:,} bytes: shorten it"
TOO_LARGE = decimal.Decimal(10**13)


def exact(text):
    """The number that a text is, and one as large or as small for an exponent beyond those of a decimal."""
    try:
        return decimal.Decimal(text)
    except decimal.InvalidOperation:
        digits, exponent = text.lower().split("e")
        return decimal.Decimal(f"{digits}e{'-' if exponent.startswith('-') else ''}{LONGEST * 2}")


def millionths(text):
    """The number that a text is, rounded as the server rounds it; nothing where it is no number."""
    if not NUMBER.fullmatch(text):
        return None
    number = exact(text)
    try:
        return number.quantize(MILLIONTH, decimal.ROUND_HALF_UP)
    except decimal.InvalidOperation:
        return TOO_LARGE.copy_sign(number)


def count(text):
    """The same, rounded to a whole number."""
    number = millionths(text)
    return None if number is None else int(number.quantize(decimal.Decimal(1), decimal.ROUND_HALF_UP))


class Token:
    """A part of a mapfile: its shape, which is word, text, list or logic, its text and its line."""

    def __init__(self, shape, text, line):
        self.shape, self.text, self.line = shape, text, line

    def is_end(self):
        return self.shape == "word" and self.text.upper() == "END"

    def is_value(self):
        return self.shape in ("word", "text")

    def __str__(self):
        text = "".join("?" if ord(c) < 32 or 127 <= ord(c) < 160 or 0xD800 <= ord(c) < 0xE000 else c for c in self.text)
        text = text if len(text) <= 40 else text[:40] + ".."
        return {"text": f'"{text}"', "list": "{" + text + "}"}.get(self.shape, text)


class Reader:
    """Cuts a mapfile into tokens. What can't be cut is given to `differs`, what is cut otherwise to `notes`."""

    def __init__(self, source, differs, notes):
        self.source, self.differs, self.notes = source, differs, notes
        self.at, self.line = 0, 1
        self.tokens = [self.checked(token) for token in self.read()]

    def checked(self, token):
        """A token, reported where the server doesn't read its bytes."""
        if token.shape != "word" and re.search(r"[\x00-\x08\x0b\x0e-\x1f\x7f]", token.text):
            self.differs(token.line, CONTROL)
        elif re.search(r"[\x00-\x1f\x7f]", token.text) and token.shape == "word":
            self.differs(token.line, CONTROL)
        elif any(0xDC80 <= ord(character) < 0xDD00 for character in token.text):
            self.differs(token.line, NOT_UTF8)
        elif len(token.text.encode("utf-8", "surrogateescape")) > LONGEST:
            self.differs(token.line, TOO_LONG)
        return token

    def take(self, end):
        """The text up to a place, behind which reading goes on."""
        text = self.source[self.at : end]
        self.at = end
        self.line += text.count("\n")
        return text

    def closed(self, shape, line, close):
        """A token up to what closes it, which stands for itself in a text or a list."""
        end = self.source.find(close, self.at + 1)
        if end < 0:
            self.differs(line, NOT_CLOSED)
            end = len(self.source)
        text = self.take(end)[1:]
        self.take(min(end + 1, len(self.source)))
        if shape == "text" and text.endswith("\\"):
            self.notes(self.line, BACKSLASH)
        return Token(shape, text, line)

    def logic(self, line):
        """The token of an expression in brackets."""
        depth, quote, at = 0, None, self.at
        while at < len(self.source):
            character = self.source[at]
            if quote:
                quote = None if character == quote else quote
            elif character in "\"'":
                quote = character
            elif character in "()":
                depth += 1 if character == "(" else -1
            at += 1
            if depth == 0:
                return Token("logic", self.take(at), line)
        self.differs(line, NOT_CLOSED)
        return Token("logic", self.take(len(self.source)), line)

    def read(self):
        """The tokens of the source."""
        while self.at < len(self.source):
            character, line = self.source[self.at], self.line
            if character in " \t\r\n\f":
                self.take(self.at + 1)
            elif character == "#":
                end = self.source.find("\n", self.at)
                self.take(len(self.source) if end < 0 else end)
            elif self.source.startswith("/*", self.at):
                end = self.source.find("*/", self.at)
                self.take(len(self.source) if end < 0 else end + 2)
                self.differs(line, COMMENT)
            elif character in "\"'":
                yield self.closed("text", line, character)
            elif character == "{":
                yield self.closed("list", line, "}")
            elif character == "(":
                yield self.logic(line)
            elif character in ")}":
                self.take(self.at + 1)
                self.differs(line, STRAY)
            else:
                end = self.at
                while end < len(self.source) and self.source[end] not in ENDS:
                    end += 1
                yield Token("word", self.take(end), line)


# An INCLUDE within an INCLUDE goes so deep at most.
DEEPEST = 5


def included(path, folder, depth=0):
    """The tokens of a mapfile with those of the files that it includes in place of each INCLUDE, each with its file and line.

    A file that can't be read gives none.
    """
    try:
        with open(path, encoding="utf-8", errors="surrogateescape", newline="") as file:
            source = file.read()
    except OSError:
        return
    tokens = iter(Reader(source, lambda *found: None, lambda *found: None).tokens)
    for token in tokens:
        if token.shape == "word" and token.text.upper() == "INCLUDE" and depth < DEEPEST:
            named = next(tokens, None)
            if named:
                yield from included(os.path.join(folder, named.text), folder, depth + 1)
        else:
            yield token, (path, token.line)


class NoLogic(Exception):
    """The text is no logical expression, from this character on."""


class Logic:
    """Reads a logical expression, by its grammar."""

    SPACE = re.compile(r"[ \t\r\n]*")
    COMPARISON = re.compile(r"==|=\*|=|!=|<=|>=|<|>|(?:eq|ne|lt|gt|le|ge|in)", re.IGNORECASE)
    OPERAND = re.compile(r"\[[^\]]+\]|\"[^\"]*\"|'[^']*'", re.DOTALL)
    DEEPEST = 64

    def __init__(self, text):
        self.text, self.at, self.depth = text, 0, 0

    def takes(self, pattern, spaces=True):
        """Whether this stands here; then it is passed."""
        if spaces:
            self.at = self.SPACE.match(self.text, self.at).end()
        found = re.compile(pattern, re.IGNORECASE).match(self.text, self.at)
        if found:
            self.at = found.end()
        return found is not None

    def needs(self, stands):
        if not stands:
            raise NoLogic(self.at)

    def deeper(self, read):
        """Reads what is nested, as deep as the server does."""
        self.depth += 1
        self.needs(self.depth <= self.DEEPEST)
        read()
        self.depth -= 1

    def bracket(self):
        self.either()
        self.needs(self.takes(r"\)"))

    def either(self):
        """Conditions with OR between them."""
        self.all()
        while self.takes(r"OR|\|\|"):
            self.all()

    def all(self):
        """Conditions with AND between them."""
        self.part()
        while self.takes("AND|&&"):
            self.part()

    def part(self):
        """One condition: a comparison, a bracket, or NOT of one."""
        if self.takes("NOT|!"):
            self.deeper(self.part)
        elif self.takes(r"\("):
            self.deeper(self.bracket)
        else:
            self.operand()
            self.needs(self.takes(self.COMPARISON.pattern))
            self.operand()

    def operand(self):
        """An item, a text or a number."""
        if self.takes(self.OPERAND.pattern):
            return
        begin = self.at
        self.needs(self.takes(NUMBER.pattern, spaces=False))
        if abs(millionths(self.text[begin : self.at])) > 10**12:
            self.at = begin
            raise NoLogic(begin)

    def fault(self):
        """The character from which no reading goes on; nothing where the text is a logical expression."""
        try:
            self.needs(self.takes(r"\(", spaces=False))
            self.deeper(self.bracket)
            self.needs(self.at == len(self.text))
        except NoLogic as why:
            return why.args[0]
        return None
