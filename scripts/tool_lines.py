#!/usr/bin/env python3
"""Runs the built program's commands on small inputs, which come as files or read by read, and with
other command lines, and compares its status, what it writes and what it says on standard error: also
where each read, each write and each request for memory fails in turn, for which a C compiler is
needed.

    scripts/tool_lines.py

The last line is 'N passed, M failed'.
"""

import contextlib
import errno
import fcntl
import itertools
import os
import pathlib
import select
import shlex
import shutil
import socket
import subprocess
import sys
import tempfile

TOP = pathlib.Path(__file__).resolve().parent.parent
PROGRAM = TOP / "crates/mysql_wire_tool/out/mysql_wire_tool"
USAGE = "usage: mysql_wire_tool frame ID | chunk | unframe STEP LIMIT [LATER AT] | reframe LIMIT\n"

# What standard error says at a status, where it says something.
SAID = {1: USAGE, 2: "input or output failed\n", 6: "out of memory\n"}

# What lets reads, writes and requests for memory fail.
FAILING = TOP / "scripts/failing.c"

# The line, the input, and the status and the text that they end with: of the commands that read all
# of their input first ..
WHOLE = [
    ("frame 0", b"123", 0, b"\3\0\0\x00123"),
    ("frame 7", b"ab", 0, b"\2\0\0\7ab"),
    ("frame 255", b"", 0, b"\0\0\0\xff"),
    ("frame 0000000255", b"", 0, b"\0\0\0\xff"),
    ("chunk", b"\3\0\0\x00123", 0, b"last 0 3 313233\nrest 0\n"),
    ("chunk", b"\2\0\0\7ab\0", 0, b"last 7 2 6162\nrest 1\n"),
    ("chunk", b"\0\0\0\xff", 0, b"last 255 0 -\nrest 0\n"),
    ("chunk", b"", 0, b"none\nrest 0\n"),
    ("chunk", b"\2\0\0", 3, b"none\nrest 3\n"),
    ("chunk", b"\2\0\0\7a", 3, b"none\nrest 5\n"),
]

# .. and of those that read as they go.
PIECES = [
    ("unframe 1 10", b"\1\0\0\0a\0\0\0\1\2\0", 3, b"1 61\n0 -\nrest 2\n"),
    ("unframe 1 10", b"\1\0\0\0a\1\0\0\5b", 5, b"1 61\nout of sync\n"),
    ("unframe 9 0", b"\1\0\0\0", 4, b"too large\n"),
    ("unframe 2 1", b"\1\0\0\0a\2\0\0\1bc", 4, b"1 61\ntoo large\n"),
    ("unframe 65536 4294967295", b"", 0, b"rest 0\n"),
    ("unframe 1 10", b"\1\0\0\0a", 0, b"1 61\nrest 0\n"),
    ("unframe 3 1", b"\1\0\0\0a", 0, b"1 61\nrest 0\n"),
    ("unframe 3 10", b"\1\0\0\0a\2\0", 3, b"1 61\nrest 2\n"),
    ("unframe 3 1 5 8", b"\1\0\0\0a\2\0\0\1bc", 0, b"1 61\n2 6263\nrest 0\n"),
    ("unframe 3 1 5 9", b"\1\0\0\0a\2\0\0\1bc", 4, b"1 61\ntoo large\n"),
    ("unframe 1 5 0 4", b"\2\0\0\0ab\0\0\0\1\1\0\0\2c", 4, b"2 6162\n0 -\ntoo large\n"),
    ("unframe 65536 0 4294967295 0", b"\1\0\0\0a", 0, b"1 61\nrest 0\n"),
    ("unframe 1 1 0 4294967295", b"\1\0\0\0a", 0, b"1 61\nrest 0\n"),
    ("reframe 10", b"\1\0\0\0a\2\0\0\1b", 3, b"\1\0\0\0a"),
    ("reframe 10", b"\1\0\0\0a", 0, b"\1\0\0\0a"),
    ("reframe 0", b"", 0, b""),
    ("reframe 1", b"\1\0\0\0a\2\0\0\1bc", 4, b"\1\0\0\0a"),
    ("reframe 4294967295", b"\1\0\0\0a\0\0\0\1\0\0\0\5", 5, b"\1\0\0\0a\0\0\0\1"),
    # A chunk of another id, of which a byte is missing, and whole.
    ("reframe 10", b"\1\0\0\0a\2\0\0\5b", 3, b"\1\0\0\0a"),
    ("reframe 10", b"\1\0\0\0a\2\0\0\5bc", 5, b"\1\0\0\0a"),
]

# Lines that ask for no command: nothing is read, and nothing is written.
OTHER_LINES = [
    "", "frame", "frame 256", "frame x", "frame ''", "frame +5", "frame -0", "frame 00000000001",
    "frame 1 2", "chunk 1", "chunk chunk", "Chunk", "unframe 0 1", "unframe 65537 1",
    "unframe 1 4294967296", "unframe 1 -1", "unframe 1", "unframe 1 1 1", "unframe 0 1 1 1",
    "unframe 65537 1 1 1", "unframe 1 4294967296 1 1", "unframe 1 1 4294967296 1",
    "unframe 1 1 1 4294967296", "unframe 1 1 -1 1", "unframe 1 1 1 x", "unframe 1 1 1 1 1",
    "reframe", "reframe 4294967296", "reframe 1 1",
]

# One chunk of two bytes, and after it one of one byte.
TWO = b"\2\0\0\0ab\1\0\0\1c"

# The limit, and the later limit and the place from which on it holds, if it changes; the input, and
# the status and the text, whatever the step is.
STREAMS = [
    ("1", b"\1\0\0\0a\1\0\0\1b\0\0\0\2", 0, b"1 61\n1 62\n0 -\nrest 0\n"),
    ("2", b"\1\0\0\0a\3\0\0\x09b", 4, b"1 61\ntoo large\n"),
    ("3", b"\1\0\0\0a\3\0\0\x09b", 3, b"1 61\nrest 5\n"),
    ("3", b"\1\0\0\0a\3\0\0\x09bcd", 5, b"1 61\nout of sync\n"),
    # From the first byte on, and from one after the end.
    ("0 2 0", TWO, 0, b"2 6162\n1 63\nrest 0\n"),
    ("2 0 11", TWO, 0, b"2 6162\n1 63\nrest 0\n"),
    ("2 0 4294967295", TWO, 0, b"2 6162\n1 63\nrest 0\n"),
    # From the fourth byte of a header on, and from the byte after it.
    ("0 2 3", TWO, 0, b"2 6162\n1 63\nrest 0\n"),
    ("0 2 4", TWO, 4, b"too large\n"),
    ("2 0 3", TWO, 4, b"too large\n"),
    ("2 0 4", TWO, 4, b"2 6162\ntoo large\n"),
    ("2 0 9", TWO, 4, b"2 6162\ntoo large\n"),
    ("2 0 10", TWO, 0, b"2 6162\n1 63\nrest 0\n"),
    # The ends after a change.
    ("2 1 6", b"\2\0\0\0ab\1\0\0\5c", 5, b"2 6162\nout of sync\n"),
    ("2 1 6", b"\2\0\0\0ab\1\0\0\1", 3, b"2 6162\nrest 4\n"),
    ("2 1 6", b"\2\0\0\0ab\2\0\0\1", 4, b"2 6162\ntoo large\n"),
]

# A chunk's header, its length, and how its line begins: two digits stand for each byte.
LENGTHS = [
    (b"\x0b\0\0\1", 11, b"last 1 11 "),
    (b"\xff\xff\xff\1", 16777215, b"middle 1 16777215 "),
]

# The lengths of packets of `D`, of which one read brings many. Lines are held up to 32768 bytes;
# where one would pass that, its packet and those after it are.
MANY = [
    [1] * 9000,
    [0, 1, 9, 10, 99, 100, 255] * 200,
    [3000] * 15,
    [5] * 100 + [20000] + [5] * 100 + [70000] + [0, 5] * 2000,
    [16370, 1, 16371, 1, 16372, 1, 32768, 1],
    [16356] + [0] * 20,
]

# The lengths of packets of one chunk and of several. From 1 MiB on they are not copied.
LONG = [1048575, 1048576, 16777214, 16777215, 16777216, 2 * 16777215, 2 * 16777215 + 9]

# The most bytes of a write of these: lines that are shorter than 32768 bytes, and 8192 digits with
# what stands in front of them and after.
MOST_AT_ONCE = 41000

# The limit, the input, what is written, the steps, and places in the input and after it: what each
# read asks for shows in what the program gets.
READS = [
    (9, b"\3\0\0\x00123\0\0\0\1", b"3 313233\n0 -\nrest 0\n", [1, 2, 9, 65536],
     [0, 1, 5, 8, 11, 12, 4294967295]),
    (100000, b"\xa0\x86\1\0" + b"B" * 100000, b"100000 " + b"42" * 100000 + b"\nrest 0\n",
     [65536], [0, 1, 65535, 65537, 100004, 100005, 4294967295]),
]

# A packet, framed.
THREE = b"\3\0\0\x00123"

# A line, its input, how many reads of one byte each it makes, the status and the text that it ends
# with, how many bytes of the text are written at most where a read fails, and how many requests for
# memory it makes at least, beside those for its words.
FAULTS = [
    # All input is read, and its end, before anything is written. The requests are for the input, as
    # it grows, and for the framing, or the payload and the text.
    ("frame 0", b"123", 4, 0, THREE, 0, 2),
    ("frame 0", THREE, 8, 0, b"\7\0\0\0\3\0\0\x00123", 0, 2),
    ("chunk", b"", 1, 0, b"none\nrest 0\n", 0, 1),
    ("chunk", THREE, 8, 0, b"last 0 3 313233\nrest 0\n", 0, 3),
    # The piece, what is unread, as it grows, and the lines' texts.
    ("unframe 2 3", THREE, 8, 0, b"3 313233\nrest 0\n", 99, 5),
    ("unframe 2 0 3 3", THREE, 8, 0, b"3 313233\nrest 0\n", 99, 5),
    # The fault is known with the last of these bytes; one read more would fail.
    ("unframe 1 10", b"\1\0\0\0a\1\0\0\5b", 10, 5, b"1 61\nout of sync\n", 99, 5),
    ("unframe 1 1", b"\1\0\0\0a\2\0\0\1", 9, 4, b"1 61\ntoo large\n", 99, 4),
    ("unframe 1 1 5 9", b"\1\0\0\0a\2\0\0\1", 9, 4, b"1 61\ntoo large\n", 99, 4),
    ("unframe 9 1 5 8", b"\1\0\0\0a\2\0\0\1bc", 12, 0, b"1 61\n2 6263\nrest 0\n", 99, 6),
    # Each packet is written before the next read. Room for a read, and for the framing.
    ("reframe 3", THREE, 8, 0, THREE, 99, 2),
    ("reframe 3", b"\1\0\0\0a\0\0\0\5", 9, 5, b"\1\0\0\0a", 99, 2),
    ("reframe 3", b"\1\0\0\0a\2\0\0\5bc", 11, 5, b"\1\0\0\0a", 99, 2),
]

# The most requests for memory of one of these, beside those for its words, and of `unframe` where a
# read brings many packets: for the piece, what is unread, and the text, as it grows.
MOST_REQUESTS = 30

# How many packets of 300 bytes, framed in 304, `reframe` is given; how many bytes the first write takes
# at most; how many a write may have, and all of them, where one that has more takes none; the status,
# and how many packets are sent.
MANY_BYTES = 99999
OFFERED = [
    (60, MANY_BYTES, 304, MANY_BYTES, 0, 60),
    (60, MANY_BYTES, 303, MANY_BYTES, 2, 0),
    (1, MANY_BYTES, 304, 303, 2, 0),
    # The first write ends inside a packet, inside a header, and between two packets.
    (9, 500, 500, MANY_BYTES, 0, 9),
    (9, 610, 610, MANY_BYTES, 0, 9),
    (9, 608, 608, 1824, 2, 6),
]


def with_faults(folder, faults):
    """The environment of a program whose reads, writes and requests go so; failing.c has the names."""
    if not faults:
        return None
    numbers = {name: str(number) for name, number in faults.items()}
    return {**os.environ, "LD_PRELOAD": str(folder / "failing.so"), **numbers}


def run(line, data, folder, **faults):
    """The status, what was written, what was said on standard error, and how much was read."""
    (folder / "input").write_bytes(data)
    how = {"capture_output": True, "env": with_faults(folder, faults)}
    with open(folder / "input", "rb") as file:
        ran = subprocess.run([PROGRAM, *shlex.split(line)], stdin=file, **how)
        read = os.lseek(file.fileno(), 0, os.SEEK_CUR)
    return ran.returncode, ran.stdout, ran.stderr.decode(), read


def messages(data, step, at):
    """What each read is to ask for: a step, or where that would pass this place from before it,
    what is left up to there. A read takes one message, and the rest of it is lost: where it asks
    for less, bytes are missing, and where it asks for more, it gets bytes that stand after."""
    place = 0
    while place < len(data):
        asked = min(step, at - place) if place < at else step
        piece = data[place:place + asked]
        yield piece + b"after" if len(piece) == asked else piece
        place += asked


def run_on_messages(line, given):
    """The status, what was written, and what was said on standard error."""
    ours, theirs = socket.socketpair(socket.AF_UNIX, socket.SOCK_SEQPACKET)
    pipes = {"stdin": theirs, "stdout": subprocess.PIPE, "stderr": subprocess.PIPE}
    ran = subprocess.Popen([PROGRAM, *shlex.split(line)], **pipes)
    theirs.close()
    with ours, contextlib.suppress(OSError):  # where the program has ended
        for message in given:
            ours.send(message)
    output, error = ran.communicate()
    return ran.returncode, output, error.decode()


def goes(line, data, status, text, folder, **faults):
    """What goes otherwise, or None where the line goes as it must."""
    found = run(line, data, folder, **faults)
    return None if found[:3] == (status, text, SAID.get(status, "")) else shown(found)


def shown(found):
    return ", ".join("%.99r" % (part,) for part in found)


def joined(found):
    """What goes otherwise of these lines."""
    return "; ".join("%s: %s" % (line, fault) for line, fault in found if fault) or None


def of_rows(folder):
    """The name of each check, and what goes otherwise, or None."""
    for line, data, status, text in [*WHOLE, *PIECES]:
        name = "%s of %s: status %d" % (line, data.hex() or "nothing", status)
        yield name, goes(line, data, status, text, folder)
    for header, length, front in LENGTHS:
        data, text = header + b"B" * length, front + b"42" * length + b"\nrest 0\n"
        yield "chunk of %d bytes" % length, goes("chunk", data, 0, text, folder)


def of_streams(folder):
    """The same of the streams, each in steps of 1 to 15 bytes."""
    for limits, data, status, text in STREAMS:
        lines = ["unframe %d %s" % (step, limits) for step in range(1, 16)]
        found = [(line, goes(line, data, status, text, folder)) for line in lines]
        yield "unframe STEP %s of %s: status %d" % (limits, data.hex(), status), joined(found)


def many(lengths):
    """Packets of these lengths, and their lines."""
    data, text = b"", b""
    for index, length in enumerate(lengths):
        data += length.to_bytes(3, "little") + bytes([index % 256]) + b"D" * length
        text += b"%d %s\n" % (length, b"44" * length or b"-")
    return data, text


def of_many(folder):
    """The same of many packets, also where the last one has another id."""
    for lengths in MANY:
        data, text = many(lengths)
        after = b"\0\0\0" + bytes([(len(lengths) + 1) % 256])
        found = []
        for step in [100, 8192, 16384, 65536]:
            line = "unframe %d 70000" % step
            found.append((line, goes(line, data, 0, text + b"rest 0\n", folder)))
            found.append((line, goes(line, data + after, 5, text + b"out of sync\n", folder)))
        yield "unframe STEP 70000 of %d packets" % len(lengths), joined(found)


def asks_right(line, data, text, step, at):
    """What goes otherwise, or None where each read asks for a step, and none from before this place
    for bytes after it."""
    found = run_on_messages(line, messages(data, step, at))
    return None if found == (0, text, "") else shown(found)


def of_reads():
    """The same of the reads of `unframe`, where the limit doesn't change, and at each place."""
    for limit, data, text, steps, places in READS:
        for step in steps:
            lines = [("unframe %d %d" % (step, limit), 0)]
            lines += [("unframe %d %d %d %d" % (step, limit, limit, at), at) for at in places]
            found = [(line, asks_right(line, data, text, step, at)) for line, at in lines]
            yield "reads of %d bytes by unframe" % step, joined(found)


def writes(line, data, folder):
    """What a program writes, write by write: each is a message."""
    file = folder / "input"
    file.write_bytes(data)
    ours, theirs = socket.socketpair(socket.AF_UNIX, socket.SOCK_SEQPACKET)
    with ours, open(file, "rb") as given:
        with theirs:
            ran = subprocess.Popen([PROGRAM, *shlex.split(line)], stdin=given, stdout=theirs)
        found = list(iter(lambda: ours.recv(1 << 20), b""))
        ran.wait()
    return found


def of_writes(folder):
    """The same of what one write of `unframe` has at most, where a read brings many packets."""
    for lengths in MANY:
        data, text = many(lengths)
        found = writes("unframe 65536 70000", data, folder)
        most = max(map(len, found))
        fault = None if b"".join(found) == text + b"rest 0\n" and most <= MOST_AT_ONCE else most
        yield "writes of unframe of %d packets" % len(lengths), fault


def of_sent_together(folder):
    """The same of what one write of `reframe` has, where a read brings many packets, and two reads do."""
    for count, together in [(20, [20]), (40, [26, 14])]:
        found = list(map(len, writes("reframe 300", packets(count), folder)))
        fault = None if found == [304 * number for number in together] else str(found)
        yield "writes of reframe of %d packets" % count, fault


def of_long_packets(folder):
    """The same of packets that `reframe` writes from where they lie, between short ones."""
    for length in LONG:
        lengths = [1, *[16777215] * (length // 16777215), length % 16777215, 2]
        data = b"".join(size.to_bytes(3, "little") + bytes([index]) + b"D" * size
                        for index, size in enumerate(lengths))
        line = "reframe %d" % length
        found = [(line, goes(line, data, 0, data, folder))]
        found.append((line, goes(line, data[:-1], 3, data[:-6], folder)))
        line = "reframe %d" % (length - 1)
        found.append((line, goes(line, data, 4, data[:5], folder)))
        yield "reframe of a packet of %d bytes" % length, joined(found)
    full, line = b"D" * 16777215, "reframe 99999999"
    data = b"".join(b"\xff\xff\xff" + bytes([index]) + full + b"\1\0\0" + bytes([index + 1]) + b"E"
                    for index in (0, 2, 4))
    yield "reframe of packets of two chunks", goes(line, data, 0, data, folder)
    whole = b"\1\0\0\0a\xff\xff\xff\1" + full + b"\2\0\0\5bc"
    found = [(status, goes(line, data, status, whole[:5], folder))
             for data, status in [(whole, 5), (whole[:-1], 3), (whole[:-3], 3)]]
    yield "reframe of a packet whose second chunk is of another id", joined(found)


def packets(count):
    """This many packets of 300 bytes, framed."""
    return b"".join(b"\x2c\1\0" + bytes([index]) + b"P" * 300 for index in range(count))


def into_full_pipe(data, file, held, room):
    """What goes otherwise, or None where `reframe` fills the room that is left in a pipe which takes
    a write whole or not at all, and says that no more went out."""
    reads, writes = os.pipe()
    with open(reads, "rb", buffering=0) as ours, open(writes, "wb", buffering=0) as theirs:
        fcntl.fcntl(theirs, fcntl.F_SETPIPE_SZ, held + room)
        os.set_blocking(writes, False)
        theirs.write(b"L" * held)
        with open(file, "rb") as given:
            ran = subprocess.run([PROGRAM, "reframe", "300"], stdin=given, stdout=theirs)
        found = ours.read(held + room)[held:]
    text = data[:room // 304 * 304]
    return None if (ran.returncode, found) == (2, text) else "%d, %d bytes" % (ran.returncode, len(found))


def into_small_messages(data, file):
    """The same where messages have room for some of the packets that wait for one write."""
    ours, theirs = socket.socketpair(socket.AF_UNIX, socket.SOCK_SEQPACKET)
    with ours, open(file, "rb") as given:
        with theirs:
            theirs.setsockopt(socket.SOL_SOCKET, socket.SO_SNDBUF, 2304)
            ran = subprocess.Popen([PROGRAM, "reframe", "300"], stdin=given, stdout=theirs)
        found = list(iter(lambda: ours.recv(1 << 20), b""))
        ran.wait()
    is_right = (ran.returncode, b"".join(found)) == (0, data)
    return None if is_right else "%d, messages of %s" % (ran.returncode, list(map(len, found)))


def of_refused_writes(folder):
    """The same where `reframe` is refused a write of all that waits."""
    file = folder / "input"
    file.write_bytes(packets(5))
    yield "reframe into a pipe that is full", into_full_pipe(packets(5), file, 3000, 1096)
    file.write_bytes(packets(27))
    yield "reframe into small messages", into_small_messages(packets(27), file)


def is_out(given, text):
    """What goes otherwise, or None where `reframe` has written this before it reads more."""
    pipes = {"stdin": subprocess.PIPE, "stdout": subprocess.PIPE}
    with subprocess.Popen([PROGRAM, "reframe", "10"], **pipes) as ran:
        ran.stdin.write(given)
        ran.stdin.flush()
        is_there = select.select([ran.stdout], [], [], 10)[0]
        found = os.read(ran.stdout.fileno(), 999) if is_there else b""
        ran.stdin.close()
    return None if found == text else "%r" % found


def of_waits():
    """The same where `reframe` waits for more, between two packets and inside one."""
    for after in [b"", b"\1\0", b"\1\0\0\2", b"\2\0\0\2c"]:
        text = b"\1\0\0\0a\1\0\0\1b"
        yield "reframe waits after %s" % (after.hex() or "a packet"), is_out(text + after, text)


def of_other_lines(folder):
    """The same of the lines that ask for no command."""
    for line in OTHER_LINES:
        found = run(line, b"123", folder)
        yield "no command: " + line, None if found == (1, b"", USAGE, 0) else shown(found)


def of_single_bytes(folder):
    """The same of all lines where a read takes one byte."""
    for line, data, status, text in [*WHOLE, *PIECES]:
        name = "%s of %s, byte by byte" % (line, data.hex() or "nothing")
        yield name, goes(line, data, status, text, folder, READ_MOST=1)


def ends(row, folder, wanted, most, **faults):
    """The faults and what goes otherwise, or None where a row ends with this status where these are
    met. Where that isn't the row's own, a front of its text is written, of this many bytes at most."""
    line, data, _, status, text = row[:5]
    found = run(line, data, folder, READ_MOST=1, **faults)
    is_front = text.startswith(found[1])
    is_long = found[1] == text if wanted == status else len(found[1]) <= most
    is_right = found[0] == wanted and found[2] == SAID.get(wanted, "") and is_front and is_long
    return None if is_right else "%s: %s" % (faults, shown(found))


def of_failed_reads(row, folder):
    """The same where a read fails or is interrupted, each in turn, and one that isn't made."""
    reads, status, most = row[2], row[3], row[5]
    for number, error in itertools.product(range(reads + 1), [errno.EIO, errno.EINTR]):
        wanted = 2 if number < reads else status
        yield ends(row, folder, wanted, most, READ_FAILS=number, READ_ERROR=error)


def of_failed_writes(row, folder):
    """The same where writes of many bytes or of one take none or fail after each number of them."""
    status, text = row[3], row[4]
    for room, most, error in itertools.product(range(len(text) + 1), [99, 1], [0, errno.EIO]):
        wanted = 2 if room < len(text) else status
        faults = {"WRITE_ROOM": room, "WRITE_MOST": most, "WRITE_ERROR": error}
        yield ends(row, folder, wanted, room, **faults)


def of_interrupted_writes(row, folder):
    """The same where the first write is interrupted, which only `reframe` takes for a failed one."""
    wanted = 2 if row[0].startswith("reframe") else row[3]
    yield ends(row, folder, wanted, 0, WRITE_INTERRUPTS=1)


def refused(line, data, status, text, folder):
    """How many requests for memory a line makes; which of them it goes on without, where each is refused
    in turn; and what goes otherwise, or None: each other one that is refused is told by the status 6,
    and what was written then is a front of the text."""
    ended, passed = (status, text, SAID.get(status, "")), []
    for number in itertools.count():
        found = run(line, data, folder, READ_MOST=1, REFUSED=number)[:3]
        if "refused" not in found[2]:
            return number, passed, None if found == ended else shown(found)
        if found == (status, text, "refused\n" + ended[2]):
            passed.append(number)
        elif found[::2] != (6, "refused\n" + SAID[6]) or not text.startswith(found[1]):
            return number, passed, "request %d: %s" % (number, shown(found))


def refused_words(line, folder):
    """The same of the requests for this line's words alone."""
    return refused(" ".join("x" for _ in line.split()), b"", 1, b"", folder)


def of_refused_requests(row, folder):
    """The same where a request for memory is refused, each in turn: those that a line goes on without
    are its words', whose room is asked for in front and then as they come."""
    line, data, _, status, text, _, least = row
    before, passed, fault = refused_words(line, folder)
    yield fault
    number, all_passed, fault = refused(line, data, status, text, folder)
    is_right = least <= number - before <= MOST_REQUESTS and all_passed == passed
    yield fault if fault or is_right else "%d requests, not %s" % (number - before, all_passed)


def of_faults(folder):
    """The same of each fault of a line."""
    for row in FAULTS:
        found = [*of_failed_reads(row, folder), *of_failed_writes(row, folder)]
        found += [*of_interrupted_writes(row, folder), *of_refused_requests(row, folder)]
        name = "%s of %s where something fails" % (row[0], row[1].hex() or "nothing")
        yield name, "; ".join(filter(None, found)) or None


def of_few_requests(folder):
    """The same of the requests of `unframe` where a read brings many packets: none for each."""
    line, (data, text) = "unframe 65536 20", many([20] * 8000)
    before, _, _ = refused_words(line, folder)
    fault = goes(line, data, 0, text + b"rest 0\n", folder, REFUSED=MOST_REQUESTS + before)
    yield "requests of unframe of 8000 packets", fault


def of_long_requests(folder):
    """The same where `reframe` is refused memory for a packet of two chunks: it asks for less, or ends."""
    data = b"\1\0\0\0a\xff\xff\xff\1" + b"D" * 16777215 + b"\1\0\0\2c"
    line, found = "reframe 99999999", []
    before, _, _ = refused_words(line, folder)
    for number in itertools.count(before):
        status, text, said, _ = run(line, data, folder, REFUSED=number)
        if "refused" not in said:
            break
        is_right = (status, text) == (0, data) or (status == 6 and text in (b"", data[:5]))
        found.append((number, None if is_right else "%d, %d bytes" % (status, len(text))))
    yield "reframe of two chunks, refused memory", joined(found) if found else "no request"


def of_sends(folder):
    """The same where each read brings this many bytes, and one fails: `reframe` has sent each packet
    that came whole, and nothing else."""
    data, ends_at = b"\1\0\0\0a\1\0\0\1b\2\0\0\2cd", [0, 5, 10, 16]
    for at_once in [1, 4, 7, 11, 15, 16]:
        found = []
        for number in range(16 // at_once + 1):
            text = data[:max(end for end in ends_at if end <= at_once * number)]
            faults = {"READ_MOST": at_once, "READ_FAILS": number, "READ_ERROR": errno.EIO}
            found.append((number, goes("reframe 9", data, 2, text, folder, **faults)))
        yield "reframe before a read fails that takes %d bytes" % at_once, joined(found)


def of_offered_packets(folder):
    """The same where `reframe` is refused what has more bytes than a write may have."""
    for count, first, most, room, status, sent in OFFERED:
        faults = {"WRITE_FIRST": first, "WRITE_MOST": most, "WRITE_ROOM": room}
        faults |= {"WRITE_WHOLE": 1, "WRITE_ERROR": errno.EAGAIN}
        fault = goes("reframe 300", packets(count), status, packets(sent), folder, **faults)
        yield "reframe of %d packets into %d, %d, %d bytes" % (count, first, most, room), fault


def of_failing(folder):
    """The same of what fails, where there is a C compiler."""
    compiler = shutil.which("cc")
    if not compiler:
        print("no C compiler: no read, write or request for memory fails")
        return
    library = ["-shared", "-fPIC", "-o", folder / "failing.so"]
    subprocess.run([compiler, *library, FAILING], check=True)
    for checks in (of_single_bytes, of_faults, of_few_requests, of_long_requests, of_sends,
                   of_offered_packets):
        yield from checks(folder)


def main():
    if "--help" in sys.argv:
        print(__doc__.strip())
        return
    with tempfile.TemporaryDirectory() as name:
        folder = pathlib.Path(name)
        found = [*of_rows(folder), *of_streams(folder), *of_many(folder), *of_writes(folder)]
        found += of_sent_together(folder)
        found += [*of_reads(), *of_waits(), *of_refused_writes(folder)]
        found += [*of_long_packets(folder), *of_other_lines(folder), *of_failing(folder)]
    for name, fault in found:
        print("FAILED %s: %s" % (name, fault) if fault else "ok " + name)
    failed = sum(1 for _, fault in found if fault)
    print("%d passed, %d failed" % (len(found) - failed, failed))
    sys.exit(bool(failed))


if __name__ == "__main__":
    main()
