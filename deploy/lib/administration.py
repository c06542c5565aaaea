"""What the scripts that change a served map have in common: its administration port, and the lines that answer there.

docs/SERVICE.md has both, under "Batches" and "Administration".
"""
import http.client
import re
import socket

# The bytes of a batch, at most.
MOST = 4_194_304
# The seconds that a server may take for a batch: it reads it, draws no picture meanwhile, and waits for those that are.
PATIENCE = 600
LINE = re.compile(rb"(PUBLISHED) (\d{1,20})|(REFUSED) (\d{1,10}) ([1-8])|(HELD|NOMEMORY|IDLE|MALFORMED|FAILED|BUSY)")

KINDS = {
    1: "an unknown word, or a command that can't be read",
    2: "no layer has the name",
    3: "the layer isn't one of points",
    4: "the file is no table of at most 200,000 rows",
    5: "the layer would have more than 200,000 features",
    6: "the batch ends within the command",
    7: "a batch has at most 4,194,304 bytes",
    8: "no further batch can be counted",
}


class Unanswered(Exception):
    """Why a server didn't answer, in a sentence. Where what was sent may have been done all the same, `is_open`."""

    def __init__(self, why, is_open=False):
        super().__init__(why)
        self.is_open = is_open


class Answer:
    """A line: its word, and its numbers."""

    def __init__(self, line):
        self.line = line
        self.word, *numbers = line.split(" ")
        self.numbers = [int(number) for number in numbers]

    def __str__(self):
        return self.line


def address_of(text):
    """The host and the port that a text names, as 8081 or 127.0.0.1:8081."""
    found = re.fullmatch(r"(?:([A-Za-z0-9.-]+|\[[0-9A-Fa-f:]+\]):)?(\d{1,5})", text)
    if not found or not 1 <= int(found[2]) <= 65_535:
        raise ValueError(f"{text} is no port, as 8081 or 127.0.0.1:8081")
    return (found[1] or "127.0.0.1").strip("[]"), int(found[2])


def shown(address):
    return f"{address[0]}:{address[1]}"


class Administrator:
    """A connection to an administration port."""

    def __init__(self, address, patience=PATIENCE):
        self.address = address
        try:
            self.stream = socket.create_connection(address, patience)
        except OSError as error:
            raise Unanswered(f"nobody answers at {shown(address)}: {error.strerror or error}") from error

    def __enter__(self):
        return self

    def __exit__(self, *_):
        self.stream.close()

    def batch(self, commands):
        """The answer to a batch."""
        return self.ask(b"BATCH %d\n%s" % (len(commands), commands))

    def retry(self):
        """The answer to RETRY: what is pending is published."""
        return self.ask(b"RETRY\n")

    def ask(self, sent):
        """The answer to a command that is sent."""
        try:
            self.stream.sendall(sent)
            line = self.line()
        except OSError as error:
            raise Unanswered(f"{shown(self.address)} broke off: {error.strerror or error}", True) from error
        if not line:
            raise Unanswered(f"{shown(self.address)} ended the connection without an answer", True)
        found = LINE.fullmatch(line)
        if not found:
            raise Unanswered(f"{shown(self.address)} is no administration port: it answers {line.decode(errors='replace')!r}")
        return Answer(found[0].decode())

    def line(self):
        """What comes up to an LF, without it; nothing where the end comes sooner."""
        found = b""
        while not found.endswith(b"\n") and len(found) < 64:
            piece = self.stream.recv(64 - len(found))
            if not piece:
                return b""
            found += piece
        return found.rstrip(b"\r\n")


def sequence_of(address, patience=60):
    """The number of batches that a server shows its clients, by its capabilities document."""
    try:
        connection = http.client.HTTPConnection(*address, timeout=patience)
        try:
            connection.request("GET", "/wms?SERVICE=WMS&REQUEST=GetCapabilities")
            answer = connection.getresponse()
            body = answer.read()
        finally:
            connection.close()
    except (OSError, http.client.HTTPException) as error:
        raise Unanswered(f"nobody answers clients at {shown(address)}: {error}") from error
    found = re.search(rb'<WMS_Capabilities version="1.3.0" updateSequence="(\d+)"', body)
    if not found:
        raise Unanswered(f"{shown(address)} answers clients with {answer.status} and no capabilities document: is it the port of clients?")
    return int(found[1])
