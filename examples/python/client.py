"""A client that logs in without a password and asks for rows. What it says stands in generators
that do no input and no output: each yields bytes to send, and is sent the next packet. `converse`
runs one over asyncio's streams, `talk` over a socket.

    python3 examples/python/client.py PORT USER STATEMENT
"""

import asyncio
import struct
import sys

from mysql_wire import Connection, Error, Fields, null_bytes

STEP = 1 << 16  # how many bytes are read at once
LIMIT = 1 << 24  # the most bytes of a packet
# PROTOCOL_41, TRANSACTIONS, SECURE_CONNECTION, PLUGIN_AUTH
CAPABILITIES = 0x200 | 0x2000 | 0x8000 | 1 << 19
FAILED, QUERY, END = b"\xff", b"\x03", b"\xfe"


class Refused(Exception):
    """The server answered an error: its number, its SQL state or "", and its text."""

    def __init__(self, number, state, text):
        super().__init__(f"ERROR {number}{state and f' ({state})'}: {text}")
        self.number, self.state, self.text = number, state, text


def refusal_of(packet):
    fields = Fields(packet[1:])
    number, text = fields.fixed_int(2), fields.rest().decode(errors="replace")
    return Refused(number, text[1:6], text[6:]) if text[:1] == "#" else Refused(number, "", text)


def unless_refused(packet):
    if packet[:1] == FAILED:
        raise refusal_of(packet)
    return packet


def log_in(wire, user):
    unless_refused((yield b""))
    front = struct.pack("<IIB23x", CAPABILITIES, LIMIT, 45)
    method = null_bytes(b"mysql_native_password")
    unless_refused((yield wire.encode(front + null_bytes(user.encode()) + b"\0" + method)))


def query(wire, statement):
    """The rows of an answer: texts, or None for NULL. An answer without rows has none."""
    wire.reset()
    first = unless_refused((yield wire.encode(QUERY + statement.encode())))
    columns = Fields(first).lenenc_int()
    if columns == 0:
        return []
    for _ in range(columns + 1):  # the definitions, and the packet after them
        yield b""
    rows = []
    while (packet := unless_refused((yield b"")))[:1] != END or len(packet) >= 9:
        rows.append(Fields(packet).row(columns))
    return rows


async def converse(exchange, wire, reader, writer):
    """Sends what an exchange yields, and gives it the packets that come. Its result."""
    packet = None
    while True:
        try:
            writer.write(exchange.send(packet))
        except StopIteration as end:
            return end.value
        await writer.drain()
        while (packet := wire.next_packet()) is None:
            wire.judge_front()
            if not (piece := await reader.read(STEP)):
                raise ConnectionResetError("the server hung up")
            wire.feed(piece)


def talk(exchange, wire, sock):
    """As `converse`, over a socket that waits."""
    packet = None
    while True:
        try:
            sock.sendall(exchange.send(packet))
        except StopIteration as end:
            return end.value
        while (packet := wire.next_packet()) is None:
            wire.judge_front()
            if not (piece := sock.recv(STEP)):
                raise ConnectionResetError("the server hung up")
            wire.feed(piece)


async def main(port, user, statement):
    reader, writer = await asyncio.open_connection("127.0.0.1", port)
    with Connection(LIMIT) as wire:
        await converse(log_in(wire, user), wire, reader, writer)
        for row in await converse(query(wire, statement), wire, reader, writer):
            print(*("NULL" if each is None else each.decode() for each in row), sep="\t")
    writer.close()


if __name__ == "__main__":
    if len(sys.argv) != 4:
        sys.exit("usage: client.py PORT USER STATEMENT")
    try:
        asyncio.run(main(int(sys.argv[1]), sys.argv[2], sys.argv[3]))
    except (Refused, Error, OSError) as refusal:
        sys.exit(f"{refusal}")
