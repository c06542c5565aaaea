"""What the scripts that start the server have in common."""
import re
import socket


def ports_of(line):
    """The ports for clients and for administrators, by the line that a server writes when it listens."""
    found = re.fullmatch(rb"listening 127\.0\.0\.1:(\d+) 127\.0\.0\.1:(\d+)\n", line)
    return (int(found[1]), int(found[2])) if found else None


def come_and_go(port):
    """A connection without a byte. It counts as any other where the server ends after so many at each port."""
    socket.create_connection(("127.0.0.1", port)).close()


def read_all(stream):
    """What comes up to the end."""
    return b"".join(iter(lambda: stream.recv(65_536), b""))
