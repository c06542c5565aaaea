"""Texts of labels, worked out for each feature by the rules of MapServer's expressions."""
import functools
import re

BRACKETS = re.compile(r"\[([^\]]+)\]")
TOKEN = re.compile(r"""\s*(?:"([^"]*)"|'([^']*)'|\[([^\]]+)\]|(\d+\.?\d*|\.\d+)|([A-Za-z]+)\s*\(|([-+*/(),]))""")


class NoText(Exception):
    """Why no text can be made, in a sentence."""


def number_of(value):
    """A number as C reads it from the beginning of a text."""
    if isinstance(value, float):
        return value
    found = re.match(r"\s*[-+]?(\d+\.?\d*|\.\d+)([eE][-+]?\d+)?", value)
    return float(found[0]) if found else 0.0


def text_of(value):
    return value if isinstance(value, str) else f"{value:g}"


def commify(value):
    whole, dot, rest = text_of(value).partition(".")
    return re.sub(r"(?<=\d)(?=(\d{3})+$)", ",", whole) + dot + rest


def formatted(value, form):
    """A number by a format."""
    try:
        return text_of(form) % number_of(value)
    except (TypeError, ValueError) as why:
        raise NoText(f"{form} is no format of a number") from why


def rounded(value, step):
    """A number rounded to a step, a half away from zero."""
    step = number_of(step)
    if step == 0:
        raise NoText("round takes a step other than 0")
    return float(int(number_of(value) / step + (0.5 if number_of(value) >= 0 else -0.5))) * step


FUNCTIONS = {
    ("tostring", 2): formatted,
    ("round", 2): rounded,
    ("commify", 1): commify,
    ("length", 1): lambda text: float(len(text_of(text))),
    ("upper", 1): lambda text: text_of(text).upper(),
    ("lower", 1): lambda text: text_of(text).lower(),
    ("initcap", 1): lambda text: re.sub(r"\S+", lambda word: word[0][0].upper() + word[0][1:].lower(), text_of(text)),
    ("firstcap", 1): lambda text: text_of(text)[:1].upper() + text_of(text)[1:].lower(),
}


class Expression:
    """A text expression, between its outer brackets, which is worked out for the values of a feature."""

    def __init__(self, source):
        self.tokens, at, source = [], 0, source.rstrip()
        while at < len(source):
            found = TOKEN.match(source, at)
            if found is None:
                raise NoText(f"{source[at:].strip()[:30]} isn't read")
            self.tokens.append((found.lastindex, found[found.lastindex]))
            at = found.end()

    def value(self, values):
        """What it gives for the values of a feature."""
        self.values, self.next = values, 0
        made = self.sum()
        if self.next < len(self.tokens):
            raise NoText(f"{self.tokens[self.next][1]} isn't read there")
        return made

    def takes(self, signs):
        """The sign that comes next, where it is one of these."""
        kind, text = self.tokens[self.next] if self.next < len(self.tokens) else (None, "")
        if kind != 6 or text not in signs:
            return None
        self.next += 1
        return text

    def sum(self):
        """Products with + and - between them."""
        made = self.product()
        while sign := self.takes("+-"):
            other = self.product()
            if sign == "+" and (isinstance(made, str) or isinstance(other, str)):
                made = text_of(made) + text_of(other)
            else:
                made = number_of(made) + (number_of(other) if sign == "+" else -number_of(other))
        return made

    def product(self):
        """Parts with * and / between them."""
        made = self.part()
        while sign := self.takes("*/"):
            other = number_of(self.part())
            if sign == "/" and other == 0:
                raise NoText("it divides by 0")
            made = number_of(made) * other if sign == "*" else number_of(made) / other
        return made

    def part(self):
        """A bracket, a text, an item, a number or a call."""
        if self.takes("-"):
            return -number_of(self.part())
        if self.takes("("):
            made = self.sum()
            return self.closed(made)
        if self.next == len(self.tokens):
            raise NoText("it ends too early")
        kind, text = self.tokens[self.next]
        self.next += 1
        if kind in (1, 2):
            return filled(text, self.values)
        if kind == 3:
            return self.values.get(text.lower(), "")
        if kind == 4:
            return float(text)
        if kind == 5:
            return self.call(text.lower())
        raise NoText(f"{text} isn't read there")

    def call(self, name):
        """What a function gives of its arguments."""
        given = [self.sum()]
        while self.takes(","):
            given.append(self.sum())
        function = FUNCTIONS.get((name, len(given)))
        if function is None:
            raise NoText(f"{name} of {len(given)} values isn't known")
        return self.closed(function(*given))

    def closed(self, made):
        """A value behind which a bracket is closed."""
        if not self.takes(")"):
            raise NoText("a bracket isn't closed")
        return made


def filled(text, values):
    """A text with values in place of its items in square brackets."""
    return BRACKETS.sub(lambda found: values.get(found[1].lower(), ""), text)


@functools.lru_cache(maxsize=64)
def read(source):
    return Expression(source)


def label_text(source, values):
    """The text that TEXT makes of a feature's values, which are found by their names in small letters."""
    if source.startswith("(") and source.endswith(")"):
        return text_of(read(source[1:-1]).value(values))
    plain = source[1:-1] if len(source) > 1 and source[0] == source[-1] == '"' else source
    return filled(plain, values)
