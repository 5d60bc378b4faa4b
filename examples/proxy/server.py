"""A server of tests, with plain sockets: it lets everyone in, and answers statements by their words.

    python3 server.py    serves until its standard input ends; the first line says its port

- `wait N`: OK after so many seconds
- `watch N`: the same, but where its client sends no more the connection is closed
- `set ..`: OK
- `long N`: OK with a text of so many bytes; `fail N`: an error with one
- `row N`: one row, of a text of so many zeros
- `nulls`: a row of NULL and one of an empty text
- `call N`: so many results with a row each, as of a stored procedure that selects inside an open
  cursor of its own; then an OK
- `half N`: a row of so many zeros, cut in the middle; `leave`: nothing; then the connection is
  closed
- `another`: an OK of another number
- any other: one row, of the statement

A command above a million bytes is refused before it came whole, and the connection is closed; above
twelve millions it is so without a word. To `COM_BINLOG_DUMP` it sends as many events as the place
says, and waits for a replica's acknowledgement behind each. Both begin to count anew there.
"""

import contextlib
import socket
import struct
import sys
import threading
import time

# CONNECT_WITH_DB, PROTOCOL_41, TRANSACTIONS, SECURE_CONNECTION, PLUGIN_AUTH
PLAIN = 0x8 | 0x200 | 0x2000 | 0x8000 | 1 << 19
COMPRESS, SSL, OPTIONAL_METADATA, ZSTD = 1 << 5, 1 << 11, 1 << 25, 1 << 26
CACHE_METADATA = 1 << 4  # of MariaDB's own

FULL = 0xFFFFFF
PIECE = bytes(1 << 16)
OK = bytes([0, 0, 0, 2, 0, 0, 0])
EOF = bytes([0xFE, 0, 0, 2, 0])
# with SERVER_STATUS_CURSOR_EXISTS and SERVER_MORE_RESULTS_EXISTS
EOF_IN_CURSOR = bytes([0xFE, 0, 0, 0x4A, 0])
TOO_LONG, MUCH_TOO_LONG = 1 << 20, 12 << 20
REFUSED = b"\xff\x81\x04#08S01Refused"
FAILED = b"\xff\x28\x04#42000"
PING, QUIT = b"\x0e", b"\x01"
DUMP, ACKNOWLEDGED = b"\x12", b"\xef" + bytes(8) + b"log.1"


def greeting():
    flags = PLAIN | COMPRESS | SSL | OPTIONAL_METADATA | ZSTD
    return b"".join(
        [
            b"\x0a5.5.5-tests\0" + struct.pack("<I", 1) + b"12345678\0",
            struct.pack("<HBHHB", flags & 0xFFFF, 45, 2, flags >> 16, 21),
            bytes(6) + struct.pack("<I", CACHE_METADATA) + b"123456789012\0",
            b"mysql_native_password\0",
        ]
    )


def login(flags=PLAIN, mariadb=0):
    fields = struct.pack("<IIB19xI", flags, 1 << 24, 45, mariadb)
    return fields + b"user\0\0probe\0mysql_native_password\0"


def text(value):
    return bytes([len(value)]) + value


def long_ok(count):
    return OK + b"\xfd" + count.to_bytes(3, "little") + b"x" * count


def column():
    names = b"".join(text(name) for name in [b"def", b"", b"", b"", b"a", b""])
    return names + b"\x0c" + struct.pack("<HIBHBxx", 45, 255, 253, 0, 0)


class Peer:
    """One end of a connection. Each packet that goes or comes has the next number."""

    def __init__(self, stream):
        self.stream = stream
        self.number = 0

    def send(self, *packets):
        framed = []
        for packet in packets:
            framed += [len(packet).to_bytes(3, "little"), bytes([self.number]), packet]
            self.number = self.number + 1 & 255
        self.stream.sendall(b"".join(framed))

    def send_long(self, front, length):
        """A packet of this many bytes, with others than zero at its front alone."""
        while True:
            chunk = min(length, FULL)
            self.stream.sendall(chunk.to_bytes(3, "little") + bytes([self.number]) + front)
            self.number = self.number + 1 & 255
            for at in range(len(front), chunk, len(PIECE)):
                self.stream.sendall(PIECE[: chunk - at])
            length -= chunk
            front = b""
            if chunk < FULL:
                return

    def bytes(self, count):
        came = b""
        while len(came) < count:
            read = self.stream.recv(count - len(came))
            if not read:
                raise EOFError
            came += read
        return came

    def receive(self):
        """The next packet. It has one chunk."""
        return self.bytes(self.receive_header())

    def receive_header(self):
        """The length of the next chunk."""
        header = self.bytes(4)
        self.number = header[3] + 1 & 255
        return int.from_bytes(header[:3], "little")

    def receive_long(self):
        """The length of the next packet."""
        total, room = 0, bytearray(1 << 16)
        while True:
            length = left = self.receive_header()
            while left:
                came = self.stream.recv_into(room, min(left, len(room)))
                if not came:
                    raise EOFError
                left -= came
            total += length
            if length < FULL:
                return total

    def command(self, packet):
        self.number = 0
        self.send(packet)


class Server:
    """A server that answers statements by their words."""

    def __init__(self):
        self.listener = socket.create_server(("127.0.0.1", 0), backlog=4096)
        self.port = self.listener.getsockname()[1]
        self.logins = []
        self.left = 0
        threading.Thread(target=self.serve, daemon=True).start()

    def close(self):
        # (a thread that waits in `accept` isn't woken by `close`)
        with contextlib.suppress(OSError):
            self.listener.shutdown(socket.SHUT_RDWR)
        self.listener.close()

    def serve(self):
        with contextlib.suppress(OSError):
            while True:
                stream, _ = self.listener.accept()
                threading.Thread(target=self.talk, args=[stream], daemon=True).start()

    def talk(self, stream):
        peer = Peer(stream)
        with contextlib.suppress(EOFError, OSError), stream:
            peer.send(greeting())
            self.logins.append(peer.receive())
            peer.send(OK)
            while (length := peer.receive_header()) < TOO_LONG:
                if not self.answer(peer, peer.bytes(length)):
                    break
            if TOO_LONG <= length < MUCH_TOO_LONG:
                peer.send(REFUSED)
        self.left += 1

    def answer(self, peer, command):
        word, _, value = command[1:].partition(b" ")
        if command == PING or word.lower() == b"set":
            peer.send(OK)
        elif command[:1] == DUMP:
            self.dump(peer, int.from_bytes(command[1:5], "little"))
        elif word == b"wait":
            time.sleep(float(value))
            peer.send(OK)
        elif word == b"watch":
            if ends(peer.stream, float(value)):
                return False
            peer.send(OK)
        elif word == b"long":
            peer.send(long_ok(int(value)))
        elif word == b"fail":
            peer.send(FAILED + b"x" * int(value))
        elif word == b"row":
            peer.send(b"\x01", column(), EOF)
            peer.send_long(b"\xfe" + struct.pack("<Q", int(value)), int(value) + 9)
            peer.send(EOF)
        elif word == b"nulls":
            peer.send(b"\x01", column(), EOF, b"\xfb", b"\0", EOF)
        elif word.lower() == b"call":
            for result in range(int(value)):
                row = text(str(result).encode())
                peer.send(b"\x01", column(), EOF_IN_CURSOR, row, EOF_IN_CURSOR)
            peer.send(OK)
        elif word == b"half":
            peer.send(b"\x01", column(), EOF)
            peer.stream.sendall(int(value).to_bytes(3, "little") + b"\x04" + bytes(int(value) // 2))
            return False
        elif word == b"leave" or command == QUIT:
            return False
        elif word == b"another":
            peer.number = 7
            peer.send(OK)
        else:
            peer.send(b"\x01", column(), EOF, text(command[1:]), EOF)
        return True


    def dump(self, peer, count):
        for event in range(count):
            peer.send(b"\0\xef\x01" + bytes([event]))
            if peer.receive() != ACKNOWLEDGED or peer.number != 1:
                raise EOFError
        peer.send(EOF)


class Greeter(Server):
    """A server that says no more than its greeting, and so to many clients at once."""

    def serve(self):
        with contextlib.suppress(OSError), contextlib.ExitStack() as streams:
            while True:
                stream, _ = self.listener.accept()
                Peer(streams.enter_context(stream)).send(greeting())


def ends(stream, patience):
    """Whether a stream's other end sends no more within so many seconds."""
    stream.settimeout(patience)
    try:
        return stream.recv(1, socket.MSG_PEEK) == b""
    except TimeoutError:
        return False
    finally:
        stream.settimeout(None)


def main():
    server = Server()
    print(server.port, flush=True)
    sys.stdin.read()


if __name__ == "__main__":
    main()
