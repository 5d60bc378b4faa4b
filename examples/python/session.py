"""Follows a captured session, and says how it ends: idle, over, or waiting for a packet, and whose.

    python3 session.py CLIENT_FILE SERVER_FILE

The two files have what the client and what the server sent, as pcap.py writes them. The status is 0
where both were followed to their ends, and 1 otherwise.
"""

import sys

from mysql_wire import Phase, Sender, Session, Side

FULL = 0xFFFFFF  # the bytes of a chunk that another one follows
HEADER = 4


def packets(data):
    """The number and the payload of each packet that has come whole, and how many bytes both took."""
    at, start, payload = 0, 0, b""
    while at + HEADER <= len(data):
        end = at + HEADER + int.from_bytes(data[at : at + 3], "little")
        if end > len(data):
            return
        payload += data[at + HEADER : end]
        if end - at - HEADER < FULL:
            yield data[start + 3], payload, end - start
            start, payload = end, b""
        at = end


def next_side(session, waiting):
    """Whose packet is next, or None where it hasn't come: where it may be either's, the side's that
    has the next number.
    """
    for side in Side:
        packet = waiting[side]
        if packet is None:
            continue
        is_turn = session.next_sender == side
        is_either = session.next_sender == Sender.EITHER and packet[0] == session.next_id
        if is_turn or is_either:
            return side
    return None


def follow(session, streams):
    """Follows both sides as far as each has the packet that is next. How many bytes that took."""
    coming = {side: packets(data) for side, data in streams.items()}
    waiting = {side: next(coming[side], None) for side in Side}
    taken = 0
    while (side := next_side(session, waiting)) is not None:
        number, payload, size = waiting[side]
        session.advance(side, number, payload)
        waiting[side] = next(coming[side], None)
        taken += size
    return taken


def state_of(session):
    """How it stands with a session."""
    if session.is_idle:
        return "idle"
    if session.phase == Phase.CLOSED:
        return "over"
    names = {Sender.CLIENT: "the client", Sender.SERVER: "the server"}
    return f"waits for {names.get(session.next_sender, 'either side')}"


def main():
    if len(sys.argv) != 3:
        sys.exit("usage: session.py CLIENT_FILE SERVER_FILE")
    streams = {}
    for side, name in zip(Side, sys.argv[1:]):
        with open(name, "rb") as file:
            streams[side] = file.read()
    with Session() as session:
        left = sum(map(len, streams.values())) - follow(session, streams)
        print(state_of(session))
    if left > 0:
        print(f"{left} bytes were not followed")
        return 1
    return 0


if __name__ == "__main__":
    sys.exit(main())
