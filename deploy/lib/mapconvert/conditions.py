"""Conditions, of labels and of layers, by MapServer's rules. What isn't read here holds for nobody: so nothing is shown by mistake."""
import functools
import re

from mapconvert import texts
from mapconvert.texts import number_of

# A minus before a digit is the number's, as MapServer reads it: so [a] -1 is no difference.
TOKEN = re.compile(
    r"""\s*(?:"([^"]*)"|'([^']*)'|\[([^\]]+)\]|(-?\d+\.?\d*(?:[eE][-+]?\d+)?)|([A-Za-z]+)|(~\*|=\*|==|!=|<=|>=|&&|\|\||[-+*/(),=<>~!]))"""
)
TEXT, OTHER_TEXT, ITEM, NUMBER, WORD, SIGN = range(1, 7)
# Words that stand for a sign, in any case.
SIGNS = {"or": "||", "and": "&&", "not": "!", "eq": "=", "==": "=", "ne": "!=", "gt": ">", "lt": "<", "ge": ">=", "le": "<=", "in": "in"}
COMPARED = {
    "=": lambda one, other: one == other, "!=": lambda one, other: one != other, "<": lambda one, other: one < other,
    ">": lambda one, other: one > other, "<=": lambda one, other: one <= other, ">=": lambda one, other: one >= other,
}
# A regular expression that C and Python read alike.
PLAIN_PATTERN = re.compile(r"[A-Za-z0-9 _,:;@%&='\"<>/#.*+?|()^$-]*")
# What C reads as a number, and `number_of` otherwise.
STRANGE = re.compile(r"\s*[-+]?(inf|nan|0x)", re.IGNORECASE)


class Unknown(texts.NoText):
    """Why it isn't known whether a condition holds, in a sentence."""


def of_c(text):
    """The bytes of a text, which C compares."""
    return text.encode("utf-8", "surrogateescape")


def matches(text, pattern, folds=False):
    """Whether a regular expression is found in a text."""
    # a dot is a byte or a letter there, by the language of the machine
    if not PLAIN_PATTERN.fullmatch(pattern) or "." in pattern and not text.isascii():
        raise Unknown(f"the regular expression {pattern} isn't read")
    try:
        # $ stands at the end alone
        return re.search(of_c(pattern.replace("$", r"\Z")), of_c(text), re.DOTALL | (re.IGNORECASE if folds else 0)) is not None
    except re.error as why:
        raise Unknown(f"the regular expression {pattern} isn't read") from why


def upper(text):
    """A text with the letters that C makes large."""
    return re.sub("[a-z]+", lambda found: found[0].upper(), text)


def lower(text):
    return re.sub("[A-Z]+", lambda found: found[0].lower(), text)


# A function's arguments are of these kinds.
FUNCTIONS = {
    ("length", str): lambda text: float(len(of_c(text))),
    ("upper", str): upper,
    ("lower", str): lower,
}


class Condition:
    """A logical expression. Texts, numbers and truths are apart, as in MapServer: one compared with another isn't read."""

    def __init__(self, source):
        self.tokens, at, source = [], 0, source.rstrip()
        while at < len(source):
            found = TOKEN.match(source, at)
            if found is None:
                raise Unknown(f"{source[at:].strip()[:30]} isn't read")
            kind, text = found.lastindex, found[found.lastindex]
            sign = SIGNS.get(text.lower(), text if kind == SIGN else None) if kind in (WORD, SIGN) else None
            self.tokens.append((kind, text, sign))
            at = found.end()

    def holds(self, values):
        """Whether it holds for the values of a feature, which are found by their names in small letters."""
        self.values, self.next = values, 0
        made = self.truth(self.either())
        if self.next < len(self.tokens):
            raise Unknown(f"{self.tokens[self.next][1]} isn't read there")
        return made

    def takes(self, *signs):
        """The sign that comes next, where it is one of these."""
        sign = self.tokens[self.next][2] if self.next < len(self.tokens) else None
        if sign not in signs or sign is None:
            return None
        self.next += 1
        return sign

    def truth(self, made):
        """Whether a value holds."""
        if isinstance(made, str):
            raise Unknown("a text alone is no condition")
        return bool(made)

    def of(self, kind, made):
        """A value of this kind."""
        if type(made) is not kind:
            raise Unknown(f"{'a number' if kind is float else 'a text'} is wanted there")
        return made

    def either(self):
        """Conditions with || between them."""
        made = self.both()
        while self.takes("||"):
            # each side is read, whatever the other is
            sides = self.truth(made), self.truth(self.both())
            made = any(sides)
        return made

    def both(self):
        """Conditions with && between them."""
        made = self.negated()
        while self.takes("&&"):
            sides = self.truth(made), self.truth(self.negated())
            made = all(sides)
        return made

    def negated(self):
        """A condition, or the opposite of one."""
        if self.takes("!"):
            return not self.truth(self.negated())
        return self.comparison()

    def comparison(self):
        """Two sums with a sign between them, or one alone."""
        made = self.sum()
        sign = self.takes(*COMPARED, "=*", "~", "~*", "in")
        if sign is None:
            return made
        other = self.sum()
        if sign == "in":
            listed = self.of(str, other).split(",")
            return made in listed if isinstance(made, str) else self.of(float, made) in map(number_of, listed)
        if sign in ("~", "~*"):
            return matches(self.of(str, made), self.of(str, other), sign == "~*")
        if type(made) is not type(other) or isinstance(made, bool):
            raise Unknown("a text and a number aren't compared")
        if sign == "=*":
            return lower(made) == lower(other) if isinstance(made, str) else made == other
        return COMPARED[sign](of_c(made), of_c(other)) if isinstance(made, str) else COMPARED[sign](made, other)

    def sum(self):
        """Products with + and - between them."""
        made = self.product()
        while sign := self.takes("+", "-"):
            other = self.product()
            if sign == "+" and isinstance(made, str):
                made += self.of(str, other)
            else:
                made = self.of(float, made) + (1 if sign == "+" else -1) * self.of(float, other)
        return made

    def product(self):
        """Parts with * and / between them."""
        made = self.part()
        while sign := self.takes("*", "/"):
            one, other = self.of(float, made), self.of(float, self.part())
            if sign == "/" and other == 0:
                raise Unknown("it divides by 0")
            made = one * other if sign == "*" else one / other
        return made

    def part(self):
        """A bracket, a text, an item, a number or a call."""
        if self.takes("("):
            return self.closed(self.either())
        if self.next == len(self.tokens):
            raise Unknown("it ends too early")
        kind, text, _ = self.tokens[self.next]
        self.next += 1
        if kind in (TEXT, OTHER_TEXT):
            return self.text(text)
        if kind == ITEM:
            return self.number(self.item(text))
        if kind == NUMBER:
            return float(text)
        if kind == WORD and self.takes("("):
            return self.call(text.lower())
        raise Unknown(f"{text} isn't read there")

    def text(self, text):
        """A text in quotes: one of an item in brackets, or itself."""
        if text.startswith("[") and text.endswith("]") and "[" not in text[1:]:
            return self.item(text[1:-1])
        if "[" in text:
            raise Unknown(f"{text} isn't read")
        return text

    def item(self, name):
        """The value of an item."""
        if name.lower() not in self.values:
            raise Unknown(f"[{name}] is no item")
        return self.values[name.lower()]

    def number(self, value):
        """A text of a feature as a number."""
        if STRANGE.match(value):
            raise Unknown("a value isn't read as a number")
        return number_of(value)

    def call(self, name):
        """What a function gives of its arguments."""
        given = [self.sum()]
        while self.takes(","):
            given.append(self.sum())
        function = FUNCTIONS.get((name, *map(type, given)))
        if function is None:
            raise Unknown(f"{name} of such values isn't known")
        return self.closed(function(*given))

    def closed(self, made):
        """A value behind which a bracket is closed."""
        if not self.takes(")"):
            raise Unknown("a bracket isn't closed")
        return made


@functools.lru_cache(maxsize=64)
def read(source):
    return Condition(source)


def label_holds(source, item, values):
    """Whether a label with this EXPRESSION is there for a feature; `item` is the LABELITEM, by which one that isn't in brackets goes."""
    if source.startswith("("):
        return read(source).holds(values)
    if source == '""':
        return True
    if not item or item.lower() not in values:
        raise Unknown("there is no LABELITEM to compare")
    value, folds = values[item.lower()], source.endswith("i") and source[-2:-1] in '"/'
    source = source.removesuffix("i") if folds else source
    inner, signs = source[1:-1], source[:1] + source[-1:]
    if signs == '""':
        return lower(value) == lower(inner) if folds else value == inner
    if signs == "{}":
        return value in inner.split(",")
    if signs == "//":
        return matches(value, inner, folds)
    raise Unknown(f"{source} isn't read")


def of_layer(source):
    """Whether a layer's REQUIRES, or LABELREQUIRES, holds whatever else is asked for."""
    if not source:
        return True
    if "[" in source:
        raise Unknown("it goes by other layers")
    return read(source).holds({})
