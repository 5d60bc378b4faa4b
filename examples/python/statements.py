"""A small client: prepared statements with parameters and cursors, and commands without an answer.

    python3 examples/python/statements.py PORT USER DATABASE [deprecate-eof]

It logs in at 127.0.0.1 without a password, and prints the packets of each answer. The database has
a table `numbers` of one column. examples/proxy/try.sh compares what it prints with the proxy and
without.
"""

import socket
import struct
import sys

from mysql_wire import Connection

LIMIT = 1 << 24
STEP = 1 << 16

# LONG_PASSWORD, LONG_FLAG, CONNECT_WITH_DB, PROTOCOL_41, TRANSACTIONS, SECURE_CONNECTION,
# MULTI_RESULTS, PS_MULTI_RESULTS, PLUGIN_AUTH
CAPABILITIES = 0x1 | 0x4 | 0x8 | 0x200 | 0x2000 | 0x8000 | 1 << 17 | 1 << 18 | 1 << 19
DEPRECATE_EOF = 1 << 24

QUERY, FIELD_LIST, PING, CHANGE_USER = b"\x03", b"\x04", b"\x0e", b"\x11"
PREPARE, EXECUTE, LONG_DATA, CLOSE = b"\x16", b"\x17", b"\x18", b"\x19"
RESET, FETCH, RESET_CONNECTION, UNKNOWN = b"\x1a", b"\x1c", b"\x1f", b"\x77"
AUTH_SWITCH = b"\xfe"
BIGINT, BLOB = b"\x08\x00", b"\xfc\x00"
ONCE, BY_CURSOR = struct.pack("<BI", 0, 1), struct.pack("<BI", 1, 1)


class Client:
    """A socket with its packets."""

    def __init__(self, stream, wire):
        self.stream = stream
        self.wire = wire

    def receive(self):
        """The next packet; None where the server hung up."""
        while (packet := self.wire.next_packet()) is None:
            try:
                piece = self.stream.recv(STEP)
            except ConnectionResetError:
                piece = b""
            if not piece:
                return None
            self.wire.feed(piece)
        return packet

    def log_in(self, user, database, capabilities):
        self.receive()
        response = struct.pack("<IIB23x", capabilities, LIMIT, 45) + user.encode() + b"\0\0"
        response += database.encode() + b"\0mysql_native_password\0"
        self.stream.sendall(self.wire.encode(response))
        self.show("login", [self.receive()])

    def ask(self, name, *commands, packets):
        """Sends commands, of which the last one is answered by this many packets."""
        framed = b""
        for command in commands:
            self.wire.reset()
            framed += self.wire.encode(command)
        self.stream.sendall(framed)
        self.show(name, [self.receive() for _ in range(packets)])

    def prepare(self, name, statement, packets):
        """Prepares a statement. The answer is its number, which isn't shown."""
        self.wire.reset()
        self.stream.sendall(self.wire.encode(PREPARE + statement))
        first, *others = [self.receive() for _ in range(packets)]
        self.show(name, [first[:1] + first[5:], *others])
        return first[1:5]

    def change_user(self, user, database):
        """Logs in anew. The server asks for a password again, numbered on."""
        self.wire.reset()
        names = user.encode() + b"\0\0" + database.encode() + b"\0"
        command = CHANGE_USER + names + b"\x2d\0mysql_native_password\0"
        self.stream.sendall(self.wire.encode(command))
        answer = self.receive()
        if answer[:1] == AUTH_SWITCH:
            self.stream.sendall(self.wire.encode(b""))
            answer = self.receive()
        self.show("change user", [answer])

    def show(self, name, packets):
        print(name)
        for packet in packets:
            print("   ", "hung up" if packet is None else packet.hex())


def run(client, user, database, ends_by_ok):
    eof = 0 if ends_by_ok else 1
    select = b"SELECT ?, n FROM numbers WHERE n <= ? ORDER BY n"
    number = client.prepare("prepare", select, packets=1 + 2 + eof + 2 + eof)
    values = b"\0\1" + BIGINT + BIGINT + struct.pack("<qq", 7, 3)
    client.ask("execute", EXECUTE + number + ONCE + values, packets=1 + 2 + eof + 3 + 1)
    client.ask("cursor", EXECUTE + number + BY_CURSOR + values, packets=1 + 2 + 1)
    client.ask("fetch two", FETCH + number + struct.pack("<I", 2), packets=2 + 1)
    client.ask("fetch", FETCH + number + struct.pack("<I", 9), packets=1 + 1)
    client.ask("reset", RESET + number, packets=1)
    values = b"\0\1" + BLOB + BIGINT + struct.pack("<q", 2)
    piece = LONG_DATA + number + b"\0\0long "
    execute = EXECUTE + number + ONCE + values
    client.ask("long data", piece, piece, execute, packets=1 + 2 + eof + 2 + 1)
    client.ask("close", CLOSE + number, PING, packets=1)
    client.ask("prepare what fails", PREPARE + b"SELEC", packets=1)
    client.prepare("prepare without columns", b"DO 1", packets=1)
    client.ask("fields", FIELD_LIST + b"numbers\0", packets=1 + 1)
    client.ask("unknown", UNKNOWN, packets=1)
    client.ask("reset connection", RESET_CONNECTION, packets=1)
    client.change_user(user, database)
    client.ask("idle", QUERY + b"SET wait_timeout = 1", packets=1)
    client.wire.reset()
    client.show("given up", [client.receive()])


def main(port, user, database, *options):
    ends_by_ok = "deprecate-eof" in options
    capabilities = CAPABILITIES | (DEPRECATE_EOF if ends_by_ok else 0)
    with socket.create_connection(("127.0.0.1", int(port)), timeout=5) as stream:
        with Connection(LIMIT) as wire:
            client = Client(stream, wire)
            client.log_in(user, database, capabilities)
            run(client, user, database, ends_by_ok)


if __name__ == "__main__":
    if len(sys.argv) < 4:
        sys.exit("usage: statements.py PORT USER DATABASE [deprecate-eof]")
    main(*sys.argv[1:])
