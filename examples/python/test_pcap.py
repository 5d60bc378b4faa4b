"""The cases of pcap.py, on captures made in memory: python3 -m unittest test_pcap"""

import struct
import unittest

import pcap

CLIENT, SERVER = (b"\x0a\x00\x00\x01", 40000), (b"\x0a\x00\x00\x02", 3306)


def segment(source, target, number, body=b"", flags=0x18):
    """An IPv4 packet with one TCP segment."""
    tcp = struct.pack(">HHIIBBHHH", source[1], target[1], number, 0, 0x50, flags, 0, 0, 0) + body
    ip = struct.pack(">BBHHHBBH", 0x45, 0, 20 + len(tcp), 0, 0, 64, 6, 0) + source[0] + target[0]
    return ip + tcp


def segment_6(source, target, number, body):
    """The same in IPv6, after an empty hop-by-hop header."""
    tcp = struct.pack(">HHIIBBHHH", source[1], target[1], number, 0, 0x50, 0x18, 0, 0, 0) + body
    options = struct.pack(">BB6x", 6, 0)
    front = struct.pack(">IHBB", 6 << 28, len(options) + len(tcp), 0, 64)
    return front + (source[0] * 4) + (target[0] * 4) + options + tcp


def classic(frames, link=1, order="<"):
    """A pcap file."""
    data = struct.pack(order + "IHHiIII", 0xA1B2C3D4, 2, 4, 0, 0, 65535, link)
    for frame in frames:
        data += struct.pack(order + "IIII", 0, 0, len(frame), len(frame)) + frame
    return data


def block(kind, body):
    body += b"\0" * (-len(body) % 4)
    return struct.pack("<II", kind, len(body) + 12) + body + struct.pack("<I", len(body) + 12)


def next_generation(frames, link):
    """A pcapng file."""
    data = block(0x0A0D0D0A, struct.pack("<IHHq", 0x1A2B3C4D, 1, 0, -1))
    data += block(1, struct.pack("<HHI", link, 0, 0))
    for frame in frames:
        data += block(6, struct.pack("<IIIII", 0, 0, 0, len(frame), len(frame)) + frame)
    return data


def ethernet(packet, kind=b"\x08\x00"):
    return b"\0" * 12 + kind + packet + b"\0\0"


SESSION = [
    segment(CLIENT, SERVER, 99, flags=0x02),
    segment(SERVER, CLIENT, 499, flags=0x12),
    segment(SERVER, CLIENT, 500, b"greeting"),
    segment(CLIENT, SERVER, 103, b"in"),
    segment(CLIENT, SERVER, 100, b"log"),
    segment(CLIENT, SERVER, 100, b"login"),
    segment(SERVER, CLIENT, 508, b"ok"),
]


class Split(unittest.TestCase):
    def check(self, data, client=b"login", server=b"greetingok"):
        self.assertEqual(pcap.split(data, 3306), (client, server))

    def test_links(self):
        self.check(classic(map(ethernet, SESSION)))
        self.check(classic(map(ethernet, SESSION), order=">"))
        self.check(classic([ethernet(b"\0\1\x08\0" + p, b"\x81\0") for p in SESSION]))
        self.check(classic([b"\0" * 14 + b"\x08\0" + p for p in SESSION], 113))
        self.check(classic([b"\x08\0" + b"\0" * 18 + p for p in SESSION], 276))
        self.check(classic([b"\2\0\0\0" + p for p in SESSION], 0))
        self.check(classic(SESSION, 101))
        self.check(next_generation(map(ethernet, SESSION), 1))

    def test_ipv6(self):
        frames = [segment_6(CLIENT, SERVER, 1, b"a"), segment_6(SERVER, CLIENT, 9, b"b")]
        self.check(classic(frames, 101), b"a", b"b")

    def test_numbers_wrap(self):
        frames = [
            segment(CLIENT, SERVER, 0xFFFFFFFD, flags=0x02),
            segment(CLIENT, SERVER, 0xFFFFFFFE, b"abc"),
            segment(CLIENT, SERVER, 1, b"de"),
        ]
        self.check(classic(frames, 101), b"abcde", b"")

    def test_gap_ends_a_direction(self):
        frames = [segment(CLIENT, SERVER, 1, b"ab"), segment(CLIENT, SERVER, 4, b"d")]
        self.check(classic(frames, 101), b"ab", b"")

    def test_other_connections(self):
        other = (CLIENT[0], 40001)
        frames = [segment(CLIENT, SERVER, 1, b"a"), segment(other, SERVER, 1, b"b")]
        data = classic(frames, 101)
        self.assertEqual(pcap.split(data, 3306, 1), (b"b", b""))
        with self.assertRaises(pcap.CaptureError):
            pcap.split(data, 3306, 2)

    def test_other_files(self):
        with self.assertRaises(pcap.CaptureError):
            pcap.split(b"\x03\0\0\0\x03abc", 3306)


if __name__ == "__main__":
    unittest.main()
