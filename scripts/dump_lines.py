#!/usr/bin/env python3
"""Runs the built dump on small sessions and on other command lines, and compares its status and
what it writes: also where a read or a write fails, and where a request for memory is refused, each
in turn, for which a C compiler is needed.

    scripts/dump_lines.py

The last line is 'N passed, M failed'.
"""

import itertools
import json
import os
import pathlib
import shutil
import subprocess
import sys
import tempfile

TOP = pathlib.Path(__file__).resolve().parent.parent
PROGRAM = TOP / "crates/mysql_wire_dump/out/mysql_wire_dump"
PING = b"\1\0\0\0\x0e"
DONE = b"\7\0\0\1\0\0\0\2\0\0\0"
SELECT = b"\x09\0\0\0\3SELECT 1"
ROWS = (
    b"\1\0\0\1\1"
    b"\x17\0\0\2\3def\0\0\0\0011\0\x0c\x3f\0\1\0\0\0\x08\x81\0\0\0\0"
    b"\5\0\0\3\xfe\0\0\2\0"
    b"\2\0\0\4\0011"
    b"\1\0\0\5\xfb"
    b"\5\0\0\6\xfe\0\0\2\0"
)
FULL = 0xFFFFFF


def file_session(count):
    """A file of this many pieces, which look like queries, as a row: their ids go on after 255."""
    pieces = [(2 + number) % 256 for number in range(count)]
    end, done = (2 + count) % 256, (3 + count) % 256
    client = b"\5\0\0\0\3LOAD"
    client += b"".join(b"\x08\0\0" + bytes([number]) + b"\3SELECT " for number in pieces)
    client += b"\0\0\0" + bytes([end])
    server = b"\2\0\0\1\xfbf" + b"\7\0\0" + bytes([done]) + b"\0\0\0\2\0\0\0"
    lines = ["client 0 5 query", "server 1 2 local infile"]
    lines += ["client %d 8 file" % number for number in pieces]
    lines += ["client %d 0 file" % end, "server %d 7 ok" % done]
    lines += ["client end at %d" % len(client), "server end at %d" % len(server)]
    return "a file of %d pieces" % count, "", client, server, 0, lines


def framed(packets):
    """Packets, framed from 0."""
    return b"".join(len(packet).to_bytes(3, "little") + bytes([index]) + packet
                    for index, packet in enumerate(packets))


def text_session(name, text):
    """A database of this name, as a row: Python's own `json` tells how it is quoted."""
    client = framed([b"\2" + text.encode()])
    quoted = json.dumps(text, ensure_ascii=False)
    lines = ['{"from":"client","id":0,"length":%d,"packet":"init db","fields":{"schema":%s}}'
             % (len(client) - 4, quoted), '{"from":"client","end":"end","at":%d}' % len(client)]
    return name, "--json --fields", client, None, 0, lines


# A definition of a column, its fields, and an EOF.
COLUMN = ROWS[9:32]
COLUMN_FIELDS = [("catalog", "def"), ("schema", ""), ("table", ""), ("org_table", ""), ("name", "1"),
                 ("org_name", ""), ("character_set", 63), ("column_length", 1), ("type", 8),
                 ("flags", 0x81), ("decimals", 0)]
EOF = b"\xfe\0\0\2\0"
EOF_FIELDS = [("warnings", 0), ("status_flags", 2)]


def shown_packet(index, packet, kind, fields, has_json, refusal=""):
    """The lines of a packet of the server with these fields, whose values are shown so."""
    front = packet[:32].hex()
    if has_json:
        why = ',"bytes":"%s..","refusal":"%s"' % (front, refusal) if refusal else ""
        members = ",".join('"%s":%s' % field for field in fields)
        return ['{"from":"server","id":%d,"length":%d,"packet":"%s"%s,"fields":{%s}}'
                % (index, len(packet), kind, why, members)]
    why = " %s.. %s" % (front, refusal) if refusal else ""
    return ["server %d %d %s%s" % (index, len(packet), kind, why),
            *["  %s %s" % field for field in fields]]


def shown_numbers(fields, has_json):
    """Fields, each with its value as it is shown: flags are so where they are no JSON."""
    for name, value in fields:
        is_hex = name.endswith("flags") and not has_json
        yield name, hex(value) if is_hex else json.dumps(value)


def row_of(values, has_json):
    """The bytes of a row of these values, and its fields as they are shown."""
    return (b"".join(value for value, _, _ in values),
            [(str(place), forms[has_json]) for place, (_, *forms) in enumerate(values)])


def row_session(name, values, has_json, tail=b"", refusal="", more=()):
    """A row of these values, each with how text and JSON show it, as a row. Behind them stand bytes
    that are refused, of one column more where they end too early; then more rows of as many."""
    columns = len(values) + (refusal == "unexpected end")
    row, shown = row_of(values, has_json)
    row += tail
    others = [(packet, "row", fields)
              for packet, fields in (row_of(others, has_json) for others in more)]
    count, column, eof = (list(shown_numbers(fields, has_json)) for fields in
                          ([("column_count", columns)], COLUMN_FIELDS, EOF_FIELDS))
    is_row = (row, "bytes", shown, refusal) if refusal else (row, "row", shown)
    packets = [(bytes([columns]), "column count", count), *[(COLUMN, "column", column)] * columns,
               (EOF, "eof", eof), is_row, *others, (EOF, "eof", eof)]
    lines = ["client 0 9 query", '  query "SELECT 1"']
    if has_json:
        lines = ['{"from":"client","id":0,"length":9,"packet":"query","fields":{"query":"SELECT 1"}}']
    for index, (packet, kind, fields, *why) in enumerate(packets):
        lines += shown_packet(index + 1, packet, kind, fields, has_json, *why)
    server = framed([b"", *[packet for packet, *_ in packets]])[4:]
    end = '{"from":"%s","end":"end","at":%d}' if has_json else "%s end at %d"
    lines += [end % ("client", len(SELECT)), end % ("server", len(server))]
    return name, "--json --fields" if has_json else "--fields", SELECT, server, 0, lines


def value_of(text):
    """A text as a value of a row, and how it is shown: bytes that are none in hex digits."""
    data = text if isinstance(text, bytes) else text.encode()
    width, mark = next((width, mark) for width, mark, least in
                       ((3, b"\xfd", 65536), (2, b"\xfc", 251), (1, b"", 0)) if len(data) >= least)
    length = mark + len(data).to_bytes(width, "little")
    if isinstance(text, bytes):
        return length + data, "x'%s'" % data.hex(), '{"hex":"%s"}' % data.hex()
    return length + data, *[json.dumps(text, ensure_ascii=False)] * 2


NULL = (b"\xfb", "null", "null")
# The values of a row of short texts: of each length to 35 bytes, after some of which NULL stands, and
# others that are not plain letters of ASCII, or stand before such.
SHORT_VALUES = [
    *[value for length in range(36) for value in [value_of("x" * length), NULL][:1 + length % 2]],
    *map(value_of, ("y" * 92, 'a"b', "a" * 31 + "\\", "\n" + "b" * 31, "\u6f22" * 3, "\u6f22" * 5,
                    "\u6f22\u5b57" * 8, "\ud55c" * 6, "\u0800" * 6, "caf\u00e9", "\U0001f600", "c" * 20,
                    b"\xfe12", b"\xe6\xbc" + b"d" * 14, b"\xed\xa0\x80" * 6, "e" * 33)),
]
# The values of a row of texts of ASCII with escapes: of each length to 33 bytes one in front, one at
# the end, and escapes alone, and of some lengths above 64 bytes.
ESCAPED_VALUES = [
    *[value_of(text) for length in range(1, 34)
      for text in ('"' + "a" * (length - 1), "b" * (length - 1) + "\n", "\1" * length)],
    *[value_of('{"c":"d"}\t' * count + "e" * count) for count in range(6, 16)],
]
# Eight letters, those of each set with an escape of a letter.
SETS = ["".join('"\\\b\t\n\f\r'[(number + place) % 7] if number >> place & 1 else "abcdefgh"[place]
                for place in range(8)) for number in range(256)]
# The values of a row of such texts: each set in front of another and behind it, and all of them.
SET_VALUES = [
    *[value_of(SETS[number] + SETS[255 - number] + SETS[255 - number] + SETS[number])
      for number in range(128)],
    value_of("".join(SETS)),
]
# Rows that end in a text of each length to 40 bytes, in which a quote stands or none, behind few bytes
# and many.
LAST_VALUES = [[value_of("y" * before), value_of(last)] for before in (0, 9, 40)
               for length in range(41) for last in ("x" * length, ("x" * length + '"')[1:])]
# The values of a long row. Those of 64 KiB and more are written by parts of as much: one that fills
# two, one with a letter of two bytes between two, with escapes, and one that is no text.
LONG_VALUES = [NULL, value_of("a"), value_of("x" * 65535), NULL, value_of("y" * 131072),
               value_of("z" * 65535 + "\u00e9\t"), value_of("\u6f22 \"\\\U0001f600\n" * 12000),
               value_of(b"\xfe" * 70000), value_of("")]


# Columns' types by number, a value of each in its binary form, and how it is shown: the examples of
# https://dev.mysql.com/doc/dev/mysql-server/latest/page_protocol_binary_resultset.html, dates and
# times of each length, and the other types that have forms of their own.
VALUES = [
    (0xfe, b"\3foo", '"foo"'), (0xf6, b"\x041.25", '"1.25"'), (0xf5, b"\2{}", '"{}"'),
    (0x10, b"\0", '""'), (0x08, b"\1\0\0\0\0\0\0\x80", "9223372036854775809"),
    (0x03, b"\1\2\3\4", "67305985"), (0x09, b"\1\0\0\0", "1"), (0x02, b"\1\2", "513"),
    (0x0d, b"\xea\7", "2026"), (0x01, b"\xff", "255"),
    (0x05, b"\x66\x66\x66\x66\x66\x66\x24\x40", "10.2"), (0x04, b"\x33\x33\x23\x41", "10.2"),
    (0x06, b"", "null"), (0x0a, b"\0", '"0000-00-00 00:00:00"'),
    (0x0a, b"\4\xda\7\x0a\x11", '"2010-10-17"'),
    (0x07, b"\7\xda\7\x0a\x11\x13\x1b\x1e", '"2010-10-17 19:27:30"'),
    (0x0c, b"\x0b\xda\7\x0a\x11\x13\x1b\x1e\1\0\0\0", '"2010-10-17 19:27:30.000001"'),
    (0x0b, b"\0", '"00:00:00"'),
    (0x0b, b"\x08\1\x78\0\0\0\x13\x1b\x1e", '"-2899:27:30"'),
    (0x0b, b"\x0c\1\x78\0\0\0\x13\x1b\x1e\1\0\0\0", '"-2899:27:30.000001"'),
]


def binary_session():
    """An execution of a statement, and a row of these values, as a row."""
    columns = [COLUMN[:17] + bytes([number]) + COLUMN[18:] for number, _, _ in VALUES]
    row = bytes(1 + (len(VALUES) + 9) // 8) + b"".join(value for _, value, _ in VALUES)
    client = framed([b"\x16SELECT"]) + framed([b"\x17\1\0\0\0\0\1\0\0\0"])
    packets = [b"\0\1\0\0\0\0\0\0\0\0\0\0"], [bytes([len(VALUES)]), *columns, EOF, row, EOF]
    server = b"".join(framed([b"", *answer])[4:] for answer in packets)
    kinds = ["column count", *["column"] * len(VALUES), "eof", "binary row", "eof"]
    lines = ["client 0 7 prepare", '  query "SELECT"', "server 1 12 prepared", "  statement_id 1",
             "  num_columns 0", "  num_params 0", "  warning_count 0", "client 0 10 execute",
             "  statement_id 1", "  flags 0x0", "  iteration_count 1"]
    for index, (kind, packet) in enumerate(zip(kinds, packets[1])):
        lines.append("server %d %d %s" % (index + 1, len(packet), kind))
        if kind == "column count":
            lines.append("  column_count %d" % len(VALUES))
        elif kind == "column":
            shown = {**dict(COLUMN_FIELDS), "type": VALUES[index - 1][0]}
            lines += ["  %s %s" % (name, hex(value) if name == "flags" else json.dumps(value))
                      for name, value in shown.items()]
        elif kind == "eof":
            lines += ["  warnings 0", "  status_flags 0x2"]
        else:
            lines += ["  %d %s" % (place, shown) for place, (_, _, shown) in enumerate(VALUES)]
    lines += ["client end at %d" % len(client), "server end at %d" % len(server)]
    return "a row of binary values", "--fields", client, server, 0, lines


# A session, the words before its files, what both sides sent (None where a side has no file), the
# status, and the lines.
SESSIONS = [
    ("an error begins", "", b"", b"\x0b\0\0\0\xff\x10\4Too many", 0,
     ["server 0 11 error", "client end at 0", "server end at 15"]),
    # where its error can't be read, a login may follow
    ("an error that is cut short begins", "",
     b"\x23\0\0\1\0\2\0\0\1\2\3\4\5" + bytes(23) + b"u\0\0",
     b"\2\0\0\0\xff\x10\7\0\0\2\0\0\0\2\0\0\0", 0,
     ["server 0 2 bytes ff10 unexpected end", "client 1 35 login", "server 2 7 ok",
      "client end at 39", "server end at 17"]),
    ("a command and its answer", "", PING, DONE, 0,
     ["client 0 1 ping", "server 1 7 ok", "client end at 5", "server end at 11"]),
    ("a query and its rows", "", SELECT, ROWS, 0,
     ["client 0 9 query", "server 1 1 column count", "server 2 23 column", "server 3 5 eof",
      "server 4 2 row", "server 5 1 row", "server 6 5 eof", "client end at 13",
      "server end at 61"]),
    # the OK that ends no rows shows that the client wants no EOF after definitions
    ("no rows, and an OK after the definitions", "", None, ROWS[:32] + b"\7\0\0\3\xfe\0\0\2\0\0\0", 0,
     ["server 1 1 column count", "server 2 23 column", "server 3 7 eof", "server end at 43"]),
    # the second command's answer begins with the id that would follow the first
    ("a command without an answer", "", b"\5\0\0\0\x19\1\0\0\0" + PING, DONE, 0,
     ["client 0 5 close statement", "client 0 1 ping", "server 1 7 ok", "client end at 14",
      "server end at 11"]),
    ("a command that is cut short", "", b"\7\0\0\0\x16SELECT\5\0\0\0\x1c\1\0\0\0",
     b"\x0c\0\0\1\0\1\0\0\0\0\0\0\0\0\0\0\2\0\0\1\0\1", 0,
     ["client 0 7 prepare", "server 1 12 prepared",
      "client 0 5 bytes 1c01000000 unexpected end", "server 1 2 row", "client end at 20",
      "server end at 22"]),
    ("TLS", "", b"\x20\0\0\1\0\x08\0\0\0\0\0\1\x2d0000000000000000000\0\0\0\0\x16\3\1", None, 0,
     ["client 1 32 ssl request", "client encrypted at 36"]),
    ("an answer that is cut short", "", None, b"\2\0\0\1\0\1\1\0", 3,
     ["server 1 2 bytes 0001 unexpected end", "server unfinished at 6"]),
    ("a file that ends inside a packet", "",
     b"\x22\0\0\0\x020123456789012345678901234567890\0\0\5\0\0\0\3ab", None, 3,
     ["client 0 34 init db", "client unfinished at 38"]),
    ("a packet past the limit", "--limit 4 --fields", b"\5\0\0\0\3abcd" + PING, None, 0,
     ["client 0 5 too large", "client 0 1 ping", "client end at 14"]),
    ("bytes after a packet", "--json", None, b"\x22\0\0\1\0\1\1" + bytes(31), 0,
     ['{"from":"server","id":1,"length":34,"packet":"bytes","bytes":'
      '"0001010000000000000000000000000000000000000000000000000000000000..",'
      '"refusal":"trailing bytes"}',
      '{"from":"server","end":"end","at":38}']),
    ("a packet of two chunks", "", b"\xff\xff\xff\0\3" + b" " * (FULL - 1) + b"\1\0\0\1x", None, 0,
     ["client 0 16777216 too large", "client end at 16777224"]),
    ("a chunk of another id", "", b"\xff\xff\xff\0\3" + b" " * (FULL - 1) + b"\1\0\0\2x", None, 5,
     ["client out of sync at 0"]),
    # the report stands before the answer, and the session where it did
    ("a report before an answer", "--fields", SELECT,
     b"\x0f\0\0\1\xff\xff\xff\1\1\2\xc4\x09\0\5index\7\0\0\2\0\0\0\2\0\0\0", 0,
     ["client 0 9 query", '  query "SELECT 1"', "server 1 15 progress", "  strings 1", "  stage 1",
      "  max_stage 2", "  progress 2500", '  info "index"', "server 2 7 ok", "  affected_rows 0",
      "  last_insert_id 0", "  status_flags 0x2", "  warnings 0", "client end at 13",
      "server end at 30"]),
    ("the fields of an error", "--fields", SELECT,
     b'\x16\0\0\1\xff\x28\4#42000syntax "near"', 0,
     ["client 0 9 query", '  query "SELECT 1"', "server 1 22 error", "  error_code 1064",
      '  sql_state "42000"', '  error_message "syntax \\"near\\""', "client end at 13",
      "server end at 26"]),
    ("the fields of rows", "--fields", SELECT, ROWS, 0,
     ["client 0 9 query", '  query "SELECT 1"', "server 1 1 column count", "  column_count 1",
      "server 2 23 column", '  catalog "def"', '  schema ""', '  table ""', '  org_table ""',
      '  name "1"', '  org_name ""', "  character_set 63", "  column_length 1", "  type 8",
      "  flags 0x81", "  decimals 0", "server 3 5 eof", "  warnings 0", "  status_flags 0x2",
      "server 4 2 row", '  0 "1"', "server 5 1 row", "  0 null", "server 6 5 eof", "  warnings 0",
      "  status_flags 0x2", "client end at 13", "server end at 61"]),
    ("fields as JSON", "--json --fields", b'\6\0\0\0\2a"\n\xc3\xa9', DONE, 0,
     ['{"from":"client","id":0,"length":6,"packet":"init db","fields":{"schema":"a\\"\\n\u00e9"}}',
      '{"from":"server","id":1,"length":7,"packet":"ok","fields":'
      '{"affected_rows":0,"last_insert_id":0,"status_flags":2,"warnings":0}}',
      '{"from":"client","end":"end","at":10}', '{"from":"server","end":"end","at":11}']),
    ("a text that is not UTF-8", "--json --fields", b"\3\0\0\0\2\xff\xfe", None, 0,
     ['{"from":"client","id":0,"length":3,"packet":"init db","fields":{"schema":{"hex":"fffe"}}}',
      '{"from":"client","end":"end","at":7}']),
    text_session("escapes of one letter", '"\\/\b\f\n\r\t'),
    text_session("escapes of four digits", "\0\1\x0b\x1f \x7f"),
    text_session("escapes in a text above 64 bytes", 'say "x\\y"\n\t' * 20),
    text_session("escapes of four digits in one", "".join(map(chr, range(33))) * 4),
    text_session("a long text that is not ASCII", "\u00dcn\u00efcode \u6f22\u5b57 \U0001f600 " * 30),
    text_session("a long text with an escape at its end", "\u6f22\u5b57" * 40 + '"'),
    text_session("a long text with an escape in front", "\1" + "\u00e9" * 100),
    *[row_session(*row, has_json) for has_json in (False, True) for row in (
        ("a row of 101 values", [value_of(str(place % 10)) for place in range(101)]),
        ("a row of short texts", SHORT_VALUES),
        ("a row of texts with escapes", ESCAPED_VALUES),
        ("a row of texts of each set of escapes", SET_VALUES),
        ("a long row", LONG_VALUES),
        ("a long row whose first value is written", LONG_VALUES[4:]),
    )],
    *[row_session("a long row, refused", LONG_VALUES, has_json, *behind)
      for has_json in (False, True)
      for behind in ((b"\5ab", "unexpected end"), (b"\xfb", "trailing bytes"))],
    *[row_session("rows that end in a text of each length", LAST_VALUES[0], has_json,
                  more=LAST_VALUES[1:]) for has_json in (False, True)],
    binary_session(),
    # the piece after the one numbered 255 is numbered 0, and so is the end of the other file
    file_session(300),
    file_session(254),
    # it is written in two parts, and the first is written where the last packet takes memory
    ("a long text", "", PING * 5000 + b"\xe8\3\0\0\3" + b" " * 999, None, 0,
     ["client 0 1 ping"] * 5000 + ["client 0 1000 query", "client end at 26004"]),
]

# Words that ask for the file `client` with the byte `0e` and an empty file `server`, and the first
# line.
WORDS = [
    ("client client", "client 0 1 ping"),
    ("server server client client", "client 0 1 ping"),
    ("server server --limit 1 client client --json",
     '{"from":"client","id":0,"length":1,"packet":"ping"}'),
    ("--limit 0 client client", "client 0 1 too large"),
    ("--limit 9999999999 client client", "client 0 1 ping"),
    ("client client server server --fields", "client 0 1 ping"),
]
REFUSED = [
    "", "client", "--fields --json", "--help client client", "client client client server",
    "server server server server", "--limit 12345678901 client client", "--limit +1 client client",
    "--limit x client client", "--limit client client", "other client", "--other client client",
]
USAGE = "mysql_wire_dump [--fields] [--json] [--limit BYTES] [client FILE] [server FILE]"

# What refuses a request for memory, and how many of them each session makes at least.
REFUSER = TOP / "scripts/refused.c"
LEAST = 6


def run(words, folder, **how):
    ran = subprocess.run([PROGRAM, *words], cwd=folder, stderr=subprocess.PIPE,
                         **{"stdout": subprocess.PIPE, **how})
    return ran.returncode, (ran.stdout or b"").decode("utf-8", "replace"), ran.stderr.decode()


def given(session, folder):
    """The words that show a session, whose files are written, and its whole text."""
    _, options, client, server, _, lines = session
    words = options.split()
    for side, data in (("client", client), ("server", server)):
        if data is not None:
            (folder / side).write_bytes(data)
            words += [side, side]
    return words, "".join(line + "\n" for line in lines)


def of_sessions(folder):
    """The name of each session that goes otherwise, or None where it goes as it must."""
    for session in SESSIONS:
        words, text = given(session, folder)
        found = run(words, folder)
        yield None if found[:2] == (session[4], text) else "%s: %s" % (session[0], found)


def of_refusals(folder):
    """The same with each request for memory refused in turn, where there is a C compiler."""
    compiler = shutil.which("cc")
    if not compiler:
        print("no C compiler: no request for memory is refused")
        return
    library = folder / "refused.so"
    subprocess.run([compiler, "-shared", "-fPIC", "-o", library, REFUSER], check=True)
    for session in SESSIONS:
        fault = of_requests(session, folder, {**os.environ, "LD_PRELOAD": str(library)})
        yield "%s: %s" % (session[0], fault) if fault else None


def of_requests(session, folder, environment):
    """What goes otherwise where a request of a session is refused, or None. Each that is refused is
    told by the status 6, and what was written then is a front of the text."""
    words, text = given(session, folder)
    for number in itertools.count():
        found = run(words, folder, env={**environment, "REFUSED": str(number)})
        if "refused" not in found[2]:
            is_right = found == (session[4], text, "") and number >= LEAST
            return None if is_right else "%d requests, and %s" % (number, found)
        is_told = found[0] == 6 and found[2] == "refused\nout of memory\n"
        if not is_told or not text.startswith(found[1]):
            return "request %d: %s" % (number, found)


def most_memory(ran):
    """The most memory that a program took, in KiB."""
    status = pathlib.Path("/proc/%d/status" % ran.pid).read_text()
    return next(int(line.split()[1]) for line in status.splitlines() if line.startswith("VmHWM"))


def of_memory(folder):
    """The same of a packet of more than 1 GiB, which is above the limit: its bytes come by a pipe, and
    the program's memory stays below 8 MiB."""
    os.mkfifo(folder / "large")
    words = ["--limit", "1000", "client", "large"]
    with subprocess.Popen([PROGRAM, *words], cwd=folder, stdout=subprocess.PIPE) as ran:
        with open(folder / "large", "wb", buffering=0) as pipe:
            for number in range(65):
                pipe.write(b"\xff\xff\xff" + bytes([number]) + bytes(FULL))
            most = most_memory(ran)
            pipe.write(b"\0\0\0\x41")
        text = ran.stdout.read().decode()
    lines = "client 0 %d too large\nclient end at %d\n" % (65 * FULL, 65 * (FULL + 4) + 4)
    is_right = (ran.returncode, text) == (0, lines) and most < 8192
    yield None if is_right else "a large packet: %d KiB, %d, %s" % (most, ran.returncode, text)


def of_long_text(folder):
    """The same of a row of a text of 16 MB, which is held once: the memory stays below 20 MiB."""
    value = b"\xfd" + (16_000_000).to_bytes(3, "little") + b"\xff" * 16_000_000
    row = len(value).to_bytes(3, "little") + b"\4" + value
    os.mkfifo(folder / "long")
    (folder / "client").write_bytes(SELECT)
    words = ["--fields", "--limit", "16777215", "client", "client", "server", "long"]
    with subprocess.Popen([PROGRAM, *words], cwd=folder, stdout=subprocess.PIPE) as ran:
        with open(folder / "long", "wb", buffering=0) as pipe:
            pipe.write(ROWS[:41] + row)
            # (the quote behind the digits is written with what comes after it)
            text = ran.stdout.read(32_000_000)
            most = most_memory(ran)
        text = (text + ran.stdout.read()).decode()
    is_right = ran.returncode == 0 and text.count("f") > 32_000_000 and most < 20480
    yield None if is_right else "a long text: %d KiB, %d" % (most, ran.returncode)


def of_faults(folder):
    """The same of reads and writes that fail."""
    (folder / "client").write_bytes(PING)
    for words in ("client .", "server .", "client client server .", "server server client ."):
        found = run(words.split(), folder)
        yield None if found[0] == 2 else "%s: %s" % (words, found)
    with open("/dev/full", "wb") as full:
        found = run(["client", "client"], folder, stdout=full)
    yield None if found[0] == 2 else "client client > /dev/full: %s" % (found,)


def of_words(folder):
    """The same of command lines."""
    (folder / "client").write_bytes(PING)
    (folder / "server").write_bytes(b"")
    for words, line in WORDS:
        found = run(words.split(), folder)
        is_right = found[0] == 0 and found[1].startswith(line + "\n")
        yield None if is_right else "%s: %s" % (words, found)
    for words in REFUSED:
        found = run(words.split(), folder)
        yield None if found[:2] == (1, "") and USAGE in found[2] else "%s: %s" % (words, found)
    found = run(["--help"], folder)
    yield None if found[0] == 0 and USAGE in found[1] else "--help: %s" % (found,)
    found = run(["client", "missing"], folder)
    yield None if found[:2] == (2, "") else "client missing: %s" % (found,)


def main():
    if "--help" in sys.argv:
        print(__doc__.strip())
        return
    with tempfile.TemporaryDirectory() as name:
        folder = pathlib.Path(name)
        found = [*of_sessions(folder), *of_refusals(folder), *of_memory(folder)]
        found += [*of_long_text(folder), *of_faults(folder), *of_words(folder)]
    wrong = [fault for fault in found if fault]
    for fault in wrong:
        print("FAILED", fault)
    print("%d passed, %d failed" % (len(found) - len(wrong), len(wrong)))
    sys.exit(bool(wrong))


if __name__ == "__main__":
    main()
