#!/usr/bin/python3
"""How demo/front.py hands requests on."""
import asyncio
import os
import pathlib
import sys
import unittest

sys.path.insert(0, str(pathlib.Path(__file__).resolve().parents[1] / "lib"))

import loading

sys.path.insert(0, os.path.join(loading.TOP, "demo"))
import front

GET = b"GET /wms?a=1 HTTP/1.1\r\nHost: h\r\n\r\n"


class Program:
    """A program behind the front: it keeps the heads that it gets, and answers once it may."""

    def __init__(self, body):
        self.body, self.heads, self.may = body, [], asyncio.Event()
        self.may.set()

    async def __aenter__(self):
        self.server = await asyncio.start_server(self.serve, "127.0.0.1", 0)
        self.port = self.server.sockets[0].getsockname()[1]
        return self

    async def __aexit__(self, *_):
        self.server.close()
        await self.server.wait_closed()

    async def serve(self, reader, writer):
        head = await reader.read(65_536)
        # one that only looks whether something listens sends nothing
        self.heads += [head] if head else []
        await self.may.wait()
        if self.body is not None:
            writer.write(b"HTTP/1.1 200 OK\r\nContent-Type: x\r\nConnection: close\r\nContent-Length: %d\r\n\r\n%b" % (len(self.body), self.body))
        writer.close()


async def answer_on(reader):
    head = await reader.readuntil(b"\r\n\r\n")
    return head, await reader.readexactly(int(front.field_of(head, b"content-length")))


class Fields(unittest.TestCase):
    def test_fields_are_found_by_their_names(self):
        head = b"GET / HTTP/1.1\r\nX-Connection: a\r\nconnection:  Close , x \r\nEmpty:\r\nTime: 1:2\r\n\r\n"
        found = [front.field_of(head, name) for name in (b"connection", b"empty", b"missing", b"time", b"get / http/1.1")]
        self.assertEqual(found, [b"close , x", b"", b"", b"1:2", b""])


class Serving(unittest.IsolatedAsyncioTestCase):
    async def asyncSetUp(self):
        self.front = front.Front(0)
        await self.front.listen()
        self.addAsyncCleanup(self.close)

    async def close(self):
        self.front.listener.close()

    async def connect(self):
        reader, writer = await asyncio.open_connection("127.0.0.1", self.front.port)
        self.addCleanup(writer.close)
        return reader, writer

    async def ask(self, request=GET):
        reader, writer = await self.connect()
        writer.write(request)
        return await asyncio.wait_for(answer_on(reader), 10)

    async def test_nothing_is_behind_it_at_first(self):
        head, body = await self.ask()
        self.assertTrue(head.startswith(b"HTTP/1.1 503 Service Unavailable\r\nRetry-After: 30\r\n"))
        self.assertEqual(body, front.TEXT)

    async def test_a_head_is_handed_on_for_one_answer(self):
        async with Program(b"body") as program:
            await self.front.go_over(program.port, True)
            head, body = await self.ask(b"GET /wms?a=1 HTTP/1.1\r\nHost: h\r\nConnection: keep-alive\r\nX: y\r\n\r\n")
        self.assertEqual(program.heads, [b"GET /wms?a=1 HTTP/1.1\r\nHost: h\r\nX: y\r\nConnection: close\r\n\r\n"])
        self.assertEqual((head, body), (b"HTTP/1.1 200 OK\r\nContent-Type: x\r\nContent-Length: 4\r\n\r\n", b"body"))

    async def test_answers_without_a_proof_say_so(self):
        async with Program(b"body") as program:
            await self.front.go_over(program.port, False)
            head, body = await self.ask()
        self.assertEqual((front.field_of(head, b"x-proved"), front.field_of(head, b"cache-control"), body), (b"no", b"no-store", b"body"))

    async def test_a_connection_carries_several_requests(self):
        async with Program(b"body") as program:
            await self.front.go_over(program.port, True)
            reader, writer = await self.connect()
            writer.write(GET + GET.replace(b"a=1", b"a=2"))
            self.assertEqual([(await answer_on(reader))[1] for _ in range(2)], [b"body"] * 2)
            self.assertEqual([head.split()[1] for head in program.heads], [b"/wms?a=1", b"/wms?a=2"])

    async def test_a_last_request_ends_it(self):
        rows = [GET.replace(b"1.1", b"1.0"), GET.replace(b"Host", b"Connection: Close\r\nHost"), GET.replace(b"Host", b"Content-Length: 3\r\nHost"),
                GET.replace(b"Host", b"Transfer-Encoding: chunked\r\nHost")]
        async with Program(b"body") as program:
            await self.front.go_over(program.port, True)
            for request in rows:
                reader, writer = await self.connect()
                writer.write(request + GET)
                self.assertEqual((await answer_on(reader))[1], b"body")
                self.assertEqual(await asyncio.wait_for(reader.read(), 10), b"", request)
            self.assertEqual(len(program.heads), len(rows))

    async def test_an_answer_that_is_cut_off_is_a_bad_gateway(self):
        async with Program(None) as program:
            await self.front.go_over(program.port, True)
            head, _ = await self.ask()
        self.assertTrue(head.startswith(b"HTTP/1.1 502 "))

    async def test_going_over_waits_for_what_is_being_answered(self):
        async with Program(b"before") as before, Program(b"after") as after:
            await self.front.go_over(before.port, False)
            before.may.clear()
            first = asyncio.create_task(self.ask())
            while not before.heads:
                await asyncio.sleep(0.01)
            going = asyncio.create_task(self.front.go_over(after.port, True))
            self.assertEqual((await self.ask())[1], b"after")
            self.assertFalse(going.done())
            before.may.set()
            head, body = await first
            await asyncio.wait_for(going, 10)
        # it was asked before
        self.assertEqual((front.field_of(head, b"x-proved"), body), (b"no", b"before"))

    async def test_a_request_that_the_one_before_lost_is_asked_again(self):
        async with Program(None) as before, Program(b"after") as after:
            await self.front.go_over(before.port, False)
            before.may.clear()
            first = asyncio.create_task(self.ask())
            while not before.heads:
                await asyncio.sleep(0.01)
            going = asyncio.create_task(self.front.go_over(after.port, True))
            await asyncio.sleep(0)
            before.may.set()
            self.assertEqual((await first)[1], b"after")
            await asyncio.wait_for(going, 10)

    async def test_whether_something_listens(self):
        async with Program(b"") as program:
            self.assertTrue(await front.listens(program.port))
        self.assertFalse(await front.listens(front.free_port()))


if __name__ == "__main__":
    unittest.main()
