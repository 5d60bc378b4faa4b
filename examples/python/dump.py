"""Prints each packet of a stream on standard input, as examples/c/dump.c does.

    python3 examples/python/dump.py < stream

The status is 0 where the stream ends between two packets, and 1 otherwise.
"""

import sys

from mysql_wire import Connection, Error

LIMIT = 1 << 30  # the most bytes of a packet
SHOWN = 16  # how many bytes of a packet are shown
STEP = 1 << 16  # how many bytes are read at once


def line(number, packet):
    front = packet[:SHOWN]
    text = "".join(chr(byte) if 0x20 <= byte < 0x7F else "." for byte in front)
    return f"{number} {len(packet)} {front.hex()} {text}"


def packets(connection, stream):
    """Each packet of a stream."""
    while piece := stream.read(STEP):
        yield from connection.receive(piece)


def dump(connection, stream):
    """Prints all packets. The answer is the status."""
    try:
        for number, packet in enumerate(packets(connection, stream)):
            print(line(number, packet))
    except Error as refusal:
        print(refusal)
        return 1
    unread = connection.unread
    if unread > 0:
        print(f"{unread} bytes of an unfinished packet")
        return 1
    return 0


if __name__ == "__main__":
    if len(sys.argv) != 1:
        sys.exit("usage: dump.py < STREAM")
    with Connection(LIMIT) as opened:
        sys.exit(dump(opened, sys.stdin.buffer))
