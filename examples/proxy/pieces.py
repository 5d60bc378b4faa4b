"""Forwards connections in pieces of a few bytes, both ways, so that packets are cut everywhere.

    python3 pieces.py PORT

It prints its own port. PORT is where it forwards to, and both are of 127.0.0.1. Short reads go on
byte by byte; long ones in pieces of some sizes, so that long results come through.
"""

import contextlib
import itertools
import socket
import sys
import threading
import time

SHORT = 20000
SIZES = (1, 3, 4, 5, 700, 9000)


def pieces(read):
    sizes = itertools.cycle((1,) if len(read) < SHORT else SIZES)
    at = 0
    while at < len(read):
        size = next(sizes)
        yield read[at : at + size]
        at += size


def forward(source, target):
    with contextlib.suppress(OSError):
        while read := source.recv(1 << 16):
            for piece in pieces(read):
                target.sendall(piece)
                if len(read) < SHORT:
                    time.sleep(0.0001)
    for side in (source, target):
        with contextlib.suppress(OSError):
            side.shutdown(socket.SHUT_RDWR)


def main(port):
    listener = socket.create_server(("127.0.0.1", 0))
    print(listener.getsockname()[1], flush=True)
    while True:
        client, _ = listener.accept()
        server = socket.create_connection(("127.0.0.1", port))
        for side in (client, server):
            side.setsockopt(socket.IPPROTO_TCP, socket.TCP_NODELAY, 1)
        for ends in ((client, server), (server, client)):
            threading.Thread(target=forward, args=ends, daemon=True).start()


main(int(sys.argv[1]))
