"""Logs in with flags beside its own, whatever the server offers.

    python3 unoffered.py PORT FLAGS MARIADB

Both are hexadecimal: the four bytes of flags in front of a login, and MariaDB's four further on. It
logs in as `plain`, runs a prepared statement twice, and prints the packets that come, but for the
four bytes where the statement's number stands. examples/proxy/try.sh compares them.
"""

import socket
import struct
import sys

# CONNECT_WITH_DB, PROTOCOL_41, TRANSACTIONS, SECURE_CONNECTION, PLUGIN_AUTH
CAPABILITIES = 0x8 | 0x200 | 0x2000 | 0x8000 | 1 << 19
PREPARE, EXECUTE, ONCE = b"\x16", b"\x17", struct.pack("<BI", 0, 1)
ERROR = b"\xff"


def receive(stream):
    """The next packet, which is printed after its number."""
    header = stream.recv(4, socket.MSG_WAITALL)
    packet = stream.recv(int.from_bytes(header[:3], "little"), socket.MSG_WAITALL)
    print(header[3], packet[:1].hex(), packet[5:])
    if packet[:1] == ERROR:
        sys.exit()
    return packet


def ask(stream, number, packet, answers):
    stream.sendall(len(packet).to_bytes(3, "little") + bytes([number]) + packet)
    return [receive(stream) for _ in range(answers)]


def main(port, flags, mariadb):
    with socket.create_connection(("127.0.0.1", int(port)), timeout=5) as stream:
        stream.recv(1 + int.from_bytes(stream.recv(3), "little"), socket.MSG_WAITALL)
        flags, mariadb = CAPABILITIES | int(flags, 16), int(mariadb, 16)
        login = struct.pack("<IIB19xI", flags, 1 << 24, 45, mariadb)
        login += b"plain\0\0probe\0mysql_native_password\0"
        ask(stream, 1, login, answers=1)
        prepared = ask(stream, 0, PREPARE + b"SELECT 7 AS seven", answers=1 + 1 + 1)[0]
        for _ in range(2):
            ask(stream, 0, EXECUTE + prepared[1:5] + ONCE, answers=1 + 1 + 1 + 1 + 1)


main(*sys.argv[1:])
