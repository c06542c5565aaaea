"""Mutations of inputs, for `fuzz`: of lines, tokens, bytes, numbers, nesting and encodings."""
import re

WORDS = [
    b"MAP", b"LAYER", b"CLASS", b"STYLE", b"LABEL", b"FEATURE", b"POINTS", b"END", b"NAME", b"TYPE", b"POLYGON", b"LINE",
    b"POINT", b"COLOR", b"OUTLINECOLOR", b"WIDTH", b"SIZE", b"SYMBOL", b"IMAGE", b"PIXMAP", b"EXPRESSION", b"METADATA",
    b"VALIDATION", b"PROJECTION", b"LEGEND", b"WEB", b"CONFIG", b"LABELFONT", b"DATA", b"ITEMS", b"PROCESSING", b"EXTENT",
    b"STARTFONT", b"STARTCHAR", b"ENDCHAR", b"BITMAP", b"BBX", b"DWIDTH", b"ENCODING", b"CHARS", b"FONTBOUNDINGBOX", b"ENDFONT",
    b"STARTPROPERTIES", b"ON a", b"OFF a", b"CLEAR a", b"APPEND 8 a", b"BATCH 5", b"RETRY", b"QUERY", b"P6", b"P7",
    b"REQUEST=GetMap", b"LAYERS=", b"GetFeatureInfo", b"GetCapabilities", b"Content-Length: 0", b"Transfer-Encoding: chunked",
    b"Connection: close", b"HTTP/1.0", b"HTTP/1.1", b"GET / HTTP/1.1", b"AND", b"OR", b"NOT", b"IN", b"=*", b"[a]", b"0",
    b"CONFIG WMS_SMOOTHING 2", b"CONFIG 'LABELFONT b' a.bdf", b"FONT b", b"ELLIPSE", b"FILLED", b"TRUE",
]
NUMBERS = [
    b"0", b"-1", b"1", b"-0", b"00000000000000000001", b"64", b"65", b"255", b"256", b"2048", b"2049", b"65535", b"65536",
    b"2147483648", b"4294967295", b"4294967296", b"9223372036854775808", b"18446744073709551615", b"18446744073709551616",
    b"1e99", b"1e-99", b"1e99999999999999999999", b"0.0000005", b"-0.0000005", b"1000.0000005", b"999999999999", b"1" * 400,
    b"0." + b"9" * 400, b".", b"-", b"+5", b"1e", b"nan", b"0x10", b"200000", b"200001", b"1,5",
]
BYTES = [0, 9, 10, 12, 13, 26, 32, 34, 35, 37, 38, 39, 40, 41, 43, 44, 47, 58, 59, 61, 63, 91, 93, 123, 125, 127, 128, 192, 219, 255]
PAIRS = [
    (b"(", b")"), (b"{", b"}"), (b"[", b"]"), (b'"', b'"'), (b"'", b"'"), (b"LAYER ", b" END "), (b"CLASS ", b" END "),
    (b"STYLE ", b" END "), (b"LABEL ", b" END "), (b"LEGEND ", b" END "), (b"METADATA ", b" END "), (b"(NOT ", b")"),
    (b"STARTPROPERTIES\n", b"\nENDPROPERTIES\n"),
]
ODD_TEXTS = [
    b"\xef\xbb\xbf", b"\xff\xfe", b"\xc0\x80", b"\xed\xa0\x80", b"\xf4\x90\x80\x80", b"\xe2\x82", b"\xc3\xa9", b"\xc2\x85", b"\xe2\x80\xa8",
    b"%00", b"%", b"%4", b"%zz", b"%ff%fe", b"+", b"%0d%0a", b"&amp;", b"\xf0\x9f\x97\xba", b"\x00\x00", b"%26", b"%3D", b"%2C",
]


def place(random, source):
    return random.randint(0, len(source))


def piece(random, source, most):
    """Two ends of a piece of at most so many bytes."""
    begin = place(random, source)
    return begin, min(len(source), begin + random.randint(0, most))


def lines(random, source):
    """A line is dropped, doubled, moved or repeated many times."""
    rows = source.splitlines(keepends=True)
    if not rows:
        return source
    row = rows[random.randrange(len(rows))]
    way, at = random.randrange(4), random.randrange(len(rows))
    if way == 0:
        del rows[at]
    elif way == 1:
        rows.insert(at, row)
    elif way == 2:
        rows[at : at + 1] = [row, rows[at]]
    else:
        rows[at:at] = [row] * random.choice([2, 10, 70, 300])
    return b"".join(rows)


def tokens(random, source):
    """A token is dropped, doubled, or replaced by a known word or another token."""
    words = re.split(rb"([\s=&,;]+)", source)
    at = 2 * random.randrange((len(words) + 1) // 2)
    other = words[2 * random.randrange((len(words) + 1) // 2)]
    words[at] = random.choice([b"", words[at] + b" " + words[at], other, random.choice(WORDS), random.choice(WORDS)])
    return b"".join(words)


def some_bytes(random, source):
    """Bytes are changed, dropped, inserted, cut off or copied to another place."""
    begin, end = piece(random, source, 8)
    way = random.randrange(6)
    if way == 0 and source:
        at = random.randrange(len(source))
        return source[:at] + bytes([source[at] ^ (1 << random.randrange(8))]) + source[at + 1 :]
    if way == 1:
        return source[:begin] + source[end:]
    if way == 2:
        return source[:begin]
    if way == 3:
        begin, end = piece(random, source, 200)
        at = place(random, source)
        return source[:at] + source[begin:end] + source[at:]
    new = bytes(random.choice(BYTES) for _ in range(random.randint(1, 4)))
    return source[:begin] + new + source[begin if way == 4 else end :]


def numbers(random, source):
    """A number is replaced by one near a limit, or by none."""
    found = list(re.finditer(rb"\d+", source))
    if not found:
        return source
    one = random.choice(found)
    return source[: one.start()] + random.choice(NUMBERS) + source[one.end() :]


def nesting(random, source):
    """A piece is put between many opening and closing marks."""
    opening, closing = random.choice(PAIRS)
    times = random.choice([1, 2, 63, 64, 65, 1_000, 20_000])
    begin, end = piece(random, source, 60)
    closed = random.choice([times, times, 0, times - 1])
    return source[:begin] + opening * times + source[begin:end] + closing * closed + source[end:]


def encodings(random, source):
    """A piece is put in that is no text, or another one than it seems; or all line ends are others."""
    if random.random() < 0.2:
        return source.replace(b"\n", random.choice([b"\r\n", b"\r", b"\n\n", b"\x0b", b"\x0c"]))
    if random.random() < 0.05:
        return source.decode("latin-1").encode("utf-16")
    at = 0 if random.random() < 0.2 else place(random, source)
    return source[:at] + random.choice(ODD_TEXTS) + source[at:]


WAYS = [lines, tokens, tokens, some_bytes, some_bytes, numbers, numbers, nesting, encodings]


def mutated(random, source, most=1 << 20):
    """The source after one to four mutations, cut where it is longer than that."""
    for _ in range(random.choice([1, 1, 1, 2, 2, 3, 4])):
        source = random.choice(WAYS)(random, source)
    return source[:most]
