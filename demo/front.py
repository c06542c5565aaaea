"""A small front at a port: it hands each request on to the program behind it, and goes over to another without losing one.

demo/serve has it before a program of which nothing is proved yet, while another is proved and built. It is no part of what
is served elsewhere.
"""
import asyncio
import socket

HEAD, BODY = 65_536, 64 << 20
# What answers of a program say of which nothing is proved: the viewer reads it, and no proxy keeps them.
UNPROVED = b"X-Proved: no\r\nCache-Control: no-store\r\nX-Accel-Expires: 0\r\n"
TEXT = b"The program is being compiled: ask again in some minutes.\n"
NOT_YET = b"HTTP/1.1 503 Service Unavailable\r\nRetry-After: 30\r\nContent-Type: text/plain\r\nContent-Length: %d\r\n\r\n" % len(TEXT) + TEXT
# Seconds after which a request is sent again, where the program behind it went away meanwhile.
AGAIN = 0.2


def field_of(head, name):
    """The value of a field of a head; an empty one where it isn't there."""
    for line in head.split(b"\r\n")[1:]:
        found, _, value = line.partition(b":")
        if found.strip().lower() == name:
            return value.strip().lower()
    return b""


class Front:
    """A front at a port of this machine. Nothing is behind it at first."""

    def __init__(self, port):
        self.port, self.behind, self.is_proved, self.listener = port, None, False, None
        self.answering = {}

    async def listen(self):
        self.listener = await asyncio.start_server(self.serve, "127.0.0.1", self.port, limit=HEAD, reuse_address=True)
        self.port = self.listener.sockets[0].getsockname()[1]

    async def go_over(self, port, is_proved):
        """Has the program at another port answer from now on; it returns once the one before has no request left."""
        before, self.behind, self.is_proved = self.behind, port, is_proved
        while before is not None and self.answering.get(before):
            await asyncio.sleep(0.02)

    async def serve(self, reader, writer):
        """Answers the requests of a connection, each by the program that is behind the front when it comes."""
        try:
            while True:
                head = await reader.readuntil(b"\r\n\r\n")
                writer.write(await self.answer(head))
                await writer.drain()
                is_last = b" HTTP/1.0\r\n" in head[: head.index(b"\r\n") + 2] or b"close" in field_of(head, b"connection")
                # the program refuses a request with a body, and so does this what comes behind it
                if is_last or field_of(head, b"content-length") not in (b"", b"0") or field_of(head, b"transfer-encoding"):
                    break
        except (asyncio.IncompleteReadError, asyncio.LimitOverrunError, OSError, asyncio.CancelledError):
            # the client went away, or all of this ends
            pass
        finally:
            writer.close()

    async def answer(self, head):
        """The answer to a request of the program that is behind, or of the next one where that went."""
        while True:
            port, is_proved = self.behind, self.is_proved
            if port is None:
                return NOT_YET
            self.answering[port] = self.answering.get(port, 0) + 1
            try:
                return self.marked(await self.ask(port, head), is_proved)
            except (OSError, asyncio.IncompleteReadError):
                if port == self.behind:
                    return b"HTTP/1.1 502 Bad Gateway\r\nContent-Length: 0\r\n\r\n"
                await asyncio.sleep(AGAIN)
            finally:
                self.answering[port] -= 1

    async def ask(self, port, head):
        """The whole answer of a program, over a connection of its own."""
        reader, writer = await asyncio.open_connection("127.0.0.1", port, limit=HEAD)
        try:
            lines = [line for line in head[:-4].split(b"\r\n") if not line.lower().startswith(b"connection:")]
            writer.write(b"\r\n".join([*lines, b"Connection: close", b"", b""]))
            await writer.drain()
            answer = await reader.readuntil(b"\r\n\r\n")
            size = int(field_of(answer, b"content-length") or b"0")
            return answer, await reader.readexactly(min(size, BODY))
        finally:
            writer.close()

    def marked(self, answer, is_proved):
        """An answer without the end of its connection, and with what says that nothing is proved."""
        head, body = answer
        lines = [line for line in head[:-4].split(b"\r\n") if not line.lower().startswith(b"connection:")]
        return b"\r\n".join(lines) + b"\r\n" + (b"" if is_proved else UNPROVED) + b"\r\n" + body


def free_port():
    """A port that nothing listens on."""
    with socket.socket() as taken:
        taken.bind(("127.0.0.1", 0))
        return taken.getsockname()[1]


async def listens(port):
    """Whether something listens on a port of this machine."""
    try:
        _, writer = await asyncio.open_connection("127.0.0.1", port)
    except OSError:
        return False
    writer.close()
    return True
