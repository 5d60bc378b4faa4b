#!/usr/bin/env python3
"""Dumps the recorded sessions of crates/recording_tests, or those of another file of this form. The
rows after them are left out.

    scripts/dump_recordings.py [RECORDINGS]

Each payload gets the header that it came with; the dump has to show both sides' packets in the order
in which they were recorded, each named, with and without their fields; and the values of a binary
row. The last line is 'N passed, M failed'.
"""

import json
import pathlib
import subprocess
import sys
import tempfile

from recordings import CLIENT, LISTED, RESET, SERVER, SESSION, records, split

TOP = pathlib.Path(__file__).resolve().parent.parent
PROGRAM = TOP / "crates/mysql_wire_dump/out/mysql_wire_dump"
SIDES = {CLIENT: "client", SERVER: "server"}
# the values of one of a session's binary rows, by their places
VALUES = {
    "tracked": {
        "0": 1,
        "1": '{"a": 1}',
        "2": "-101:02:03.045000",
        "3": "2026-02-03 04:05:06.000007",
        "4": 0.1,
        "5": 1.5,
        "6": 2026,
    }
}


def sessions(data):
    """The name of each session, and its packets: who, id, payload."""
    name, packets, number = None, [], 0
    for _, kind, payload in records(data):
        if kind == SESSION:
            if name:
                yield name, packets
            name, packets, number = payload.decode(), [], 0
        elif kind == RESET:
            number = 0
        elif kind != LISTED:
            packets.append((SIDES[kind], number % 256, payload))
            number += len(payload) // 0xFFFFFF + 1
    yield name, packets


def framed(packets, side):
    """The bytes of one side."""
    data = bytearray()
    for who, number, payload in packets:
        if who == side:
            for at in range(0, len(payload) + 1, 0xFFFFFF):
                piece = payload[at : at + 0xFFFFFF]
                data += len(piece).to_bytes(3, "little") + bytes([number % 256]) + piece
                number += 1
    return bytes(data)


def lines(*words):
    """The objects that are shown."""
    run = subprocess.run([PROGRAM, "--json", *words], stdout=subprocess.PIPE, check=True)
    return [json.loads(line) for line in run.stdout.splitlines()]


def dump(*words):
    """The packets that are shown: who, id, length, what."""
    shown = lines(*words)
    return [(p["from"], p["id"], p["length"], p["packet"]) for p in shown if "packet" in p]


def faults(name, packets, folder):
    """What is wrong with the dumps of a session."""
    for side in SIDES.values():
        (folder / side).write_bytes(framed(packets, side))
    both = ["client", folder / "client", "server", folder / "server"]
    wanted = [(who, number, len(payload)) for who, number, payload in packets]
    for options in ([], ["--fields"]):
        shown = dump(*options, *both)
        if [packet[:3] for packet in shown] != wanted:
            yield "other packets, or another order"
        for packet in shown:
            if packet[3] in ("bytes", "too large", "other command"):
                yield "not named: %s" % (packet,)
    if name in VALUES:
        rows = [line for line in lines("--fields", *both) if line.get("packet") == "binary row"]
        if VALUES[name] not in [row["fields"] for row in rows]:
            yield "other values: %s" % rows[:3]
    for side in SIDES.values():
        alone = [packet[:3] for packet in dump(side, folder / side)]
        if alone != [packet for packet in wanted if packet[0] == side]:
            yield "other packets of the %s alone" % side


def main():
    if "--help" in sys.argv:
        print(__doc__.strip())
        return
    given = sys.argv[1] if len(sys.argv) > 1 else TOP / "crates/recording_tests/stdin"
    passed = failed = 0
    for name, packets in sessions(split(pathlib.Path(given).read_bytes())[0]):
        with tempfile.TemporaryDirectory() as folder:
            found = list(faults(name, packets, pathlib.Path(folder)))
        print(name, len(packets), "packets", *found[:5], sep="; " if found else " ")
        failed += bool(found)
        passed += not found
    print("%d passed, %d failed" % (passed, failed))
    sys.exit(failed > 0)


if __name__ == "__main__":
    main()
