"""Tests of examples/python/client.py, against a server of their own."""

import asyncio
import pathlib
import socket
import sys
import threading
import unittest

from mysql_wire import Connection, lenenc_bytes, null_bytes

examples = [each / "examples" / "python" for each in pathlib.Path(__file__).resolve().parents]
examples = [str(each) for each in examples if (each / "client.py").exists()]
if not examples:
    raise unittest.SkipTest("examples/python isn't above these tests")
sys.path.append(examples[0])
import client  # noqa: E402

OK, EOF = b"\0\0\0\2\0\0\0", b"\xfe\0\0\2\0"
GREETING = b"\x0a" + null_bytes(b"8.0.1") + b"\1\0\0\0" + b"12345678\0" + b"\0\xa2\xff"
REFUSALS = {"SELEC": "ERROR 1064 (42000): no such statement", "?": "ERROR 1064: no such statement"}
ROWS = [[b"one", None], [b"", b"\xff" * 300], [None, None]]


def answers_to(command):
    """The packets of an answer: rows, nothing, or an error."""
    if command == b"\x03SELECT":
        values = [[b"\xfb" if each is None else lenenc_bytes(each) for each in row] for row in ROWS]
        return [b"\2", b"a", b"b", EOF, *map(b"".join, values), EOF]
    if command == b"\x03DO 1":
        return [OK]
    state = b"#42000" if command == b"\x03SELEC" else b""
    return [b"\xff\x28\x04" + state + b"no such statement"]


async def serve(reader, writer):
    """One client: it is greeted and let in, and each command is answered byte by byte."""
    with Connection() as wire:

        async def send(packets):
            for byte in b"".join(map(wire.encode, packets)):
                writer.write(bytes([byte]))
                await writer.drain()

        await send([GREETING])
        logged_in = False
        while piece := await reader.read(3):
            for packet in wire.receive(piece):
                await send(answers_to(packet) if logged_in else [OK])
                logged_in = True
                wire.reset()
    writer.close()


class Clients(unittest.TestCase):
    def test_rows_over_streams(self):
        async def run():
            server = await asyncio.start_server(serve, "127.0.0.1", 0)
            port = server.sockets[0].getsockname()[1]
            reader, writer = await asyncio.open_connection("127.0.0.1", port)
            with Connection() as wire:
                await client.converse(client.log_in(wire, "probe"), wire, reader, writer)
                got = []
                for statement in ("SELECT", "DO 1", "SELECT"):
                    asked = client.query(wire, statement)
                    got.append(await client.converse(asked, wire, reader, writer))
                for statement, wanted in REFUSALS.items():
                    with self.assertRaises(client.Refused) as refused:
                        await client.converse(client.query(wire, statement), wire, reader, writer)
                    self.assertEqual(str(refused.exception), wanted)
            writer.close()
            server.close()
            return got

        self.assertEqual(asyncio.run(run()), [ROWS, [], ROWS])

    def test_rows_over_a_socket(self):
        loop, ready, port = asyncio.new_event_loop(), threading.Event(), []

        async def start():
            server = await asyncio.start_server(serve, "127.0.0.1", 0)
            port.append(server.sockets[0].getsockname()[1])
            ready.set()

        def run():
            loop.run_until_complete(start())
            loop.run_forever()

        thread = threading.Thread(target=run)
        thread.start()
        ready.wait()
        with socket.create_connection(("127.0.0.1", port[0])) as sock, Connection() as wire:
            client.talk(client.log_in(wire, "probe"), wire, sock)
            self.assertEqual(client.talk(client.query(wire, "SELECT"), wire, sock), ROWS)
        loop.call_soon_threadsafe(loop.stop)
        thread.join()


if __name__ == "__main__":
    unittest.main()
