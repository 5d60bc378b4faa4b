"""Splits a capture of one TCP connection into the bytes of its two directions.

    python3 pcap.py CAPTURE PORT CLIENT_FILE SERVER_FILE [--number N]

CAPTURE is a pcap or pcapng file of Ethernet, Linux cooked, loopback or raw IP frames. The server's
port is PORT; of several connections to it the first is taken, or the N-th, counted from 0. The two
files are what `mysql_wire_dump client CLIENT_FILE server SERVER_FILE` reads.
"""

import argparse
import struct
import sys
from collections import namedtuple

Segment = namedtuple("Segment", "source target number is_syn bytes")

LOOPBACK, ETHERNET, RAW, LOOPBACK_BIG, COOKED, COOKED_2 = 0, 1, 101, 108, 113, 276
RAW_KINDS = (RAW, 12, 14, 228, 229)


class CaptureError(Exception):
    """The file is no capture that is read here."""


def pcap_frames(data):
    """The link type and the bytes of each frame of a pcap file."""
    order = {b"\xd4\xc3\xb2\xa1": "<", b"\x4d\x3c\xb2\xa1": "<"}.get(data[:4], ">")
    (link,) = struct.unpack_from(order + "I", data, 20)
    at = 24
    while at + 16 <= len(data):
        (length,) = struct.unpack_from(order + "I", data, at + 8)
        yield link & 0xFFFF, data[at + 16 : at + 16 + length]
        at += 16 + length


def pcapng_frames(data):
    """The same of a pcapng file."""
    order, links, at = "<", [], 0
    while at + 12 <= len(data):
        if data[at : at + 4] == b"\x0a\x0d\x0d\x0a":
            order = "<" if data[at + 8 : at + 12] == b"\x4d\x3c\x2b\x1a" else ">"
            links = []
        kind, length = struct.unpack_from(order + "II", data, at)
        if length < 12 or at + length > len(data):
            return
        body = data[at + 8 : at + length - 4]
        if kind == 1:
            links.append(struct.unpack_from(order + "H", body)[0])
        elif kind == 6 and len(body) >= 20:
            interface, _, _, captured = struct.unpack_from(order + "IIII", body)
            if interface < len(links):
                yield links[interface], body[20 : 20 + captured]
        elif kind == 3 and links:
            yield links[0], body[4:]
        at += length


def frames(data):
    """The link type and the bytes of each frame."""
    if data[:4] == b"\x0a\x0d\x0d\x0a":
        return pcapng_frames(data)
    if data[:4] in (b"\xd4\xc3\xb2\xa1", b"\xa1\xb2\xc3\xd4", b"\x4d\x3c\xb2\xa1", b"\xa1\xb2\x3c\x4d"):
        return pcap_frames(data)
    raise CaptureError("neither pcap nor pcapng")


def ip_of(link, frame):
    """The IP packet of a frame, or None."""
    if link == ETHERNET:
        kind, at = frame[12:14], 14
        while kind in (b"\x81\x00", b"\x88\xa8"):
            kind, at = frame[at + 2 : at + 4], at + 4
        return frame[at:] if kind in (b"\x08\x00", b"\x86\xdd") else None
    if link == COOKED:
        return frame[16:] if frame[14:16] in (b"\x08\x00", b"\x86\xdd") else None
    if link == COOKED_2:
        return frame[20:] if frame[0:2] in (b"\x08\x00", b"\x86\xdd") else None
    if link in (LOOPBACK, LOOPBACK_BIG):
        return frame[4:]
    if link in RAW_KINDS:
        return frame
    raise CaptureError("link type %d is not read" % link)


def tcp_of(packet):
    """Both addresses and the TCP segment of an IP packet, or None."""
    if not packet:
        return None
    if packet[0] >> 4 == 4 and len(packet) >= 20:
        header = (packet[0] & 15) * 4
        total = struct.unpack_from(">H", packet, 2)[0] or len(packet)
        is_fragment = struct.unpack_from(">H", packet, 6)[0] & 0x3FFF
        if packet[9] != 6 or is_fragment:
            return None
        return packet[12:16], packet[16:20], packet[header:total]
    if packet[0] >> 4 == 6 and len(packet) >= 40:
        (length,) = struct.unpack_from(">H", packet, 4)
        kind, at = packet[6], 40
        end = 40 + length if length else len(packet)
        while kind in (0, 43, 60) and at + 8 <= len(packet):
            kind, at = packet[at], at + 8 + packet[at + 1] * 8
        return (packet[8:24], packet[24:40], packet[at:end]) if kind == 6 else None
    return None


def segments(data):
    """The TCP segments of a capture."""
    for link, frame in frames(data):
        found = tcp_of(ip_of(link, frame) or b"")
        if found is None or len(found[2]) < 20:
            continue
        source, target, segment = found
        source_port, target_port, number = struct.unpack_from(">HHI", segment)
        header = (segment[12] >> 4) * 4
        yield Segment(
            (source, source_port),
            (target, target_port),
            number,
            bool(segment[13] & 2),
            segment[header:],
        )


def signed(number):
    """A difference of two sequence numbers, which wrap."""
    return (number + 0x80000000) % 0x100000000 - 0x80000000


def placed(parts):
    """The pieces of one direction, each with its place in the stream, counted from 0."""
    begin = next((part.number + 1 for part in parts if part.is_syn), parts[0].number)
    place, number = 0, begin
    for part in parts:
        if part.bytes:
            start = part.number + part.is_syn
            place, number = place + signed(start - number), start
            yield place, part.bytes


def in_order(parts):
    """The bytes of one direction: by their numbers, what came again left out, up to a gap."""
    parts = list(parts)
    whole = bytearray()
    for place, piece in sorted(placed(parts)) if parts else ():
        if place > len(whole):
            break
        whole += piece[len(whole) - place :]
    return bytes(whole)


def connections(data, port):
    """The segments of each connection to a port, in the order in which they begin."""
    found = {}
    for segment in segments(data):
        if segment.target[1] == port:
            key = (segment.source, segment.target)
        elif segment.source[1] == port:
            key = (segment.target, segment.source)
        else:
            continue
        found.setdefault(key, []).append(segment)
    return list(found.items())


def split(data, port, number=0):
    """The bytes of both directions of a connection: the client's, and the server's."""
    found = connections(data, port)
    if number >= len(found):
        raise CaptureError("%d connections to port %d" % (len(found), port))
    (client, server), parts = found[number]
    return (
        in_order(part for part in parts if part.source == client),
        in_order(part for part in parts if part.source == server),
    )


def main():
    parser = argparse.ArgumentParser(description=__doc__.split("\n")[0])
    parser.add_argument("capture")
    parser.add_argument("port", type=int)
    parser.add_argument("client")
    parser.add_argument("server")
    parser.add_argument("--number", type=int, default=0)
    given = parser.parse_args()
    with open(given.capture, "rb") as capture:
        try:
            client, server = split(capture.read(), given.port, given.number)
        except CaptureError as error:
            sys.exit("%s: %s" % (given.capture, error))
    with open(given.client, "wb") as output:
        output.write(client)
    with open(given.server, "wb") as output:
        output.write(server)


if __name__ == "__main__":
    main()
