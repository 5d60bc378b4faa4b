#!/usr/bin/env python3
"""Measures bindings/python beside a plain loop, and beside PyMySQL where it is there (Debian's
python3-pymysql): how fast packets of 100 bytes are taken out of reads of 64 KiB, and the values out of
rows of ten texts, by the processor's time. Each is the best of seven runs; it takes ten seconds.

    PYTHONPATH=bindings/python python3 scripts/python_speed.py
"""

import io
import sys
import time

from mysql_wire import Connection, Fields, lenenc_bytes

READ = 1 << 16
PACKETS, SIZE, COLUMNS = 40_000, 100, 10
RUNS = 7


def framed(payloads):
    """The packets of these payloads, numbered from 0, written plainly."""
    return b"".join(
        len(each).to_bytes(3, "little") + bytes([number % 256]) + each
        for number, each in enumerate(payloads)
    )


def received(stream):
    count = 0
    with Connection() as connection:
        for at in range(0, len(stream), READ):
            for _ in connection.receive(stream[at : at + READ]):
                count += 1
    return count


def read_plainly(stream):
    """A loop as one writes it without a library: it looks at no number, and keeps what is cut."""
    count, left = 0, b""
    for at in range(0, len(stream), READ):
        data, front = left + stream[at : at + READ], 0
        while front + 4 <= len(data):
            end = front + 4 + int.from_bytes(data[front : front + 3], "little")
            if end > len(data):
                break
            _ = data[front + 4 : end]
            front, count = end, count + 1
        left = data[front:]
    return count


class Socket:
    """What PyMySQL asks of its socket while it reads from a file."""

    def settimeout(self, seconds):
        pass


def read_by_pymysql(stream):
    connection = pymysql.connections.Connection(defer_connect=True)
    connection._sock, connection._next_seq_id = Socket(), 0
    connection._rfile = io.BufferedReader(io.BytesIO(stream), READ)
    for _ in range(PACKETS):
        connection._read_packet()
    connection._rfile = connection._sock = None
    return PACKETS


def rows_at_once(rows):
    return [Fields(row).row(COLUMNS) for row in rows]


def rows_by_values(rows):
    values = []
    for row in rows:
        fields = Fields(row)
        values.append([fields.lenenc_bytes_or_none() for _ in range(COLUMNS)])
    return values


def rows_by_pymysql(rows):
    values = []
    for row in rows:
        packet = pymysql.protocol.MysqlPacket(row, "utf8")
        values.append([packet.read_length_coded_string() for _ in range(COLUMNS)])
    return values


def best(call, argument, wanted):
    """The least processor seconds of a call, whose answer is looked at."""
    least = float("inf")
    for _ in range(RUNS):
        start = time.process_time()
        answer = call(argument)
        least = min(least, time.process_time() - start)
        if answer != wanted:
            sys.exit(f"{call.__name__} answers something else")
    return least


try:
    import pymysql
except ImportError:
    pymysql = None
    print("there is no PyMySQL here")

row = b"".join(lenenc_bytes(b"%09d" % number) for number in range(COLUMNS - 1)) + b"\xfb"
values = [b"%09d" % number for number in range(COLUMNS - 1)] + [None]
stream, rows = framed([b"D" * SIZE] * PACKETS), [row] * (PACKETS // 4)
readers = {"receive": received, "a plain loop": read_plainly}
tables = {"Fields.row": rows_at_once, "lenenc_bytes_or_none": rows_by_values}
if pymysql:
    readers["PyMySQL's reader"] = read_by_pymysql
    tables["PyMySQL's read_length_coded_string"] = rows_by_pymysql
print(f"packets of {SIZE} bytes, MB/s")
for name, call in readers.items():
    print(f"{len(stream) / best(call, stream, PACKETS) / 1e6:7.0f} {name}")
print(f"rows of {COLUMNS} texts, microseconds a row")
for name, call in tables.items():
    print(f"{best(call, rows, [values] * len(rows)) / len(rows) * 1e6:7.2f} {name}")
