#!/usr/bin/env python3
"""Makes the input of crates/recording_tests, of recorded sessions and of the rows of its rows.txt.

    scripts/recordings.py FOLDER > crates/recording_tests/stdin
    scripts/recordings.py --rows     writes the rows anew, and keeps the recorded sessions
    scripts/recordings.py --check    compares: the last line is 'N passed, M failed'

FOLDER has a file NAME.jsonl for each session, a line for each payload in order:
{"from": "client" or "server", "payload": HEX}; {"reset": true} stands where a client begins a new
command. fields.jsonl lists some of the payloads field by field, as other programs read them:
{"session": NAME, "hex": PAYLOAD, "fields": [[TYPE, VALUE], ..], "eaten": COUNT}. A value is a
number, a text in hex, or null for reserved bytes; `eaten` says up to which byte the list goes.
Each payload and each list becomes a record as crates/recording_tests/README.md says.

A statement of rows.txt is a line, and the indented ones after it. Texts are written as byte strings
of Rust, numbers in decimal or after `0x`.

    session NAME                       begins a session
    greeting                           a server's greeting
    login CAPABILITIES [MARIADB]       a greeting, and a login with these capabilities
    reset                              the client begins a new command
    prepared ID COLUMNS PARAMETERS     a statement, and its answer
    columns TYPE ..                    a count of columns, their definitions, and the end of these
    parameters NULLS TYPE .. VALUES    a new statement, executed with parameters of these types: the
                                       bits that say which are NULL, and the values of the others
    value TYPE VALUE                   the same with one parameter; no shorter payload is read
    values NULLS TYPE .. VALUES        a new statement, executed without parameters, and a row of
                                       columns of these types: the same of the row
    client PAYLOAD, server PAYLOAD     a payload; after it:
        = FIELD ..                     all of its fields
        refused                        in place of fields: it is none of its place
        least COUNT                    of the shorter payloads those of COUNT bytes and more are read
                                       too, with as much of the last text as is left; the others are
                                       refused. `least all`: no shorter one is read
        but COUNT                      of this many bytes it is another packet, and is left out

A shorter payload stands after the same records as the payload itself: those from the last `reset`
on, or from the session's beginning.
"""

import json
import pathlib
import re
import sys

CRATE = pathlib.Path(__file__).resolve().parent.parent / "crates/recording_tests"
SESSIONS = ("py_basic", "py_rows", "go_basic", "php", "node", "tracked", "procedure")
# with what the names of the rows' sessions begin
ROWS = b"rows/"
SESSION, CLIENT, SERVER, RESET, LISTED = range(5)


def record(kind, payload=b""):
    return len(payload).to_bytes(3, "little") + bytes([kind]) + payload


def records(data):
    """Of each record where it begins, its kind, and its payload."""
    at = 0
    while at < len(data):
        length, kind = int.from_bytes(data[at : at + 3], "little"), data[at + 3]
        yield at, kind, data[at + 4 : at + 4 + length]
        at += 4 + length


def split(data):
    """The recorded sessions, and the rows."""
    for at, kind, payload in records(data):
        if kind == SESSION and payload.startswith(ROWS):
            return data[:at], data[at:]
    return data, b""


# ---- what was recorded


def lines(path):
    return [json.loads(line) for line in path.read_text().splitlines()]


def joined(fields):
    """The fields as the library has them: a login's capabilities are one number, and the second
    part of a greeting's data is one text with the zero that ends it."""
    if fields[0][0].endswith("LeU32LowerHalf"):
        fields = [["RawFlags", fields[0][1] + fields[1][1]]] + fields[2:]
    whole = []
    for field in fields:
        if whole and whole[-1][0] == "[u8; 12]" and field[0] == "ConstU8 0":
            whole[-1] = ["RawBytes", whole[-1][1] + "00"]
        else:
            whole.append(list(field))
    return whole


def words(listed):
    """A word for each field, and `end` where the list goes to the end of the payload."""
    for _, value in joined(listed["fields"]):
        if isinstance(value, str):
            yield "x" + value
        elif value is not None:
            yield str(value)
    if listed["eaten"] * 2 == len(listed["hex"]):
        yield "end"


def list_of(words):
    return record(LISTED, "".join(word + " " for word in words).encode())


def recorded(folder):
    listed = lines(folder / "fields.jsonl")
    for name in SESSIONS:
        left = [fields for fields in listed if fields["session"] == name]
        yield record(SESSION, name.encode())
        for said in lines(folder / (name + ".jsonl")):
            if "reset" in said:
                yield record(RESET)
                continue
            same = [fields for fields in left if fields["hex"] == said["payload"]]
            if same:
                left.remove(same[0])
                yield list_of(words(same[0]))
            kind = CLIENT if said["from"] == "client" else SERVER
            yield record(kind, bytes.fromhex(said["payload"]))
        if left:
            sys.exit(f"{name}: no payload for {len(left)} lists of fields")


# ---- rows

WORD = re.compile(r'b"((?:[^"\\]|\\.)*)"|(\S+)', re.S)
ESCAPE = re.compile(r"\\(x[0-9a-fA-F]{2}|\n *|.)", re.S)
ESCAPES = {"0": "\0", "n": "\n", "r": "\r", "t": "\t", "\\": "\\", '"': '"'}
TYPES = {
    "TINY": 1,
    "SHORT": 2,
    "LONG": 3,
    "FLOAT": 4,
    "DOUBLE": 5,
    "NULL": 6,
    "TIMESTAMP": 7,
    "LONGLONG": 8,
    "INT24": 9,
    "DATE": 10,
    "TIME": 11,
    "DATETIME": 12,
    "YEAR": 13,
    "BIT": 16,
    "JSON": 245,
    "NEWDECIMAL": 246,
    "BLOB": 252,
    "VAR_STRING": 253,
    "STRING": 254,
}
# for what a login has a field: a database, a plugin, attributes, and a level of compression
AT_LOGIN = 0x8, 0x80000, 0x100000, 0x4000000
DEPRECATE_EOF = 0x1000000
GREETING = b"\x0a8\0\7\0\0\0abcdefgh\0\0\x02\x2d\x02\0\0\0\0\0\0\0\0\0\0\0\0\0\0ijklmnopqrst\0"
EOF = b"\xfe\0\0\x02\0"


def byte_of(escape):
    if escape[1].startswith("x"):
        return chr(int(escape[1][1:], 16))
    return "" if escape[1].startswith("\n") else ESCAPES[escape[1]]


def word_of(match):
    """A byte string as bytes, a number as an int, and another word as it is."""
    text, word = match.groups()
    if word is None:
        text.encode("ascii")
        return ESCAPE.sub(byte_of, text).encode("latin-1")
    return int(word, 0) if word[0].isdigit() else word


def statements(text):
    """The words of each statement."""
    text = re.sub(r"^(#.*)?\n", "", text, flags=re.M)
    for statement in re.split(r"\n(?=\S)", text):
        yield [word_of(match) for match in WORD.finditer(statement)]


def word_for(field):
    return "x" + field.hex() if isinstance(field, bytes) else str(field)


class Rows:
    """The records of rows.txt, and how many of its payloads must be refused."""

    def __init__(self, text):
        self.records, self.lead = [], []
        self.capabilities, self.number, self.refused = 0, 0, 0
        for name, *rest in statements(text):
            getattr(self, name)(*rest)

    def put(self, *records):
        self.lead += records
        self.records += records

    def session(self, name):
        self.lead = []
        self.put(record(SESSION, ROWS + name.encode()))

    def greeting(self):
        self.put(record(SERVER, GREETING))

    def login(self, capabilities, mariadb=0):
        self.capabilities = capabilities
        front = capabilities.to_bytes(4, "little") + bytes(24) + mariadb.to_bytes(4, "little")
        # a zero is an empty user, an empty answer, and so on
        fields = 2 + sum(capabilities & flag > 0 for flag in AT_LOGIN)
        self.greeting()
        self.put(record(CLIENT, front + bytes(fields)))

    def reset(self):
        self.lead = []
        self.put(record(RESET))

    def prepared(self, number, columns, parameters):
        answer = number.to_bytes(4, "little") + columns.to_bytes(2, "little")
        answer += parameters.to_bytes(2, "little")
        self.put(record(CLIENT, b"\x16?"), record(SERVER, b"\0" + answer + b"\0\0\0"))

    def columns(self, *types):
        self.put(record(SERVER, bytes([len(types)])))
        for name in types:
            form = b"\x0c\x2d\0\0\x01\0\0" + bytes([TYPES[name]]) + bytes(5)
            self.put(record(SERVER, b"\x03def\0\0\0\x01c\0" + form))
        if not self.capabilities & DEPRECATE_EOF:
            self.put(record(SERVER, EOF))

    def execution(self, parameters):
        """The front of a payload that executes a new statement with this many parameters."""
        self.number += 1
        self.reset()
        self.prepared(self.number, 0, parameters)
        self.reset()
        return b"\x17" + self.number.to_bytes(4, "little") + b"\0\1\0\0\0"

    def parameters(self, nulls, *words):
        *names, values = words
        types = b"".join(bytes([TYPES[name], 0]) for name in names)
        payload = self.execution(len(names)) + nulls + b"\1" + types + values
        row = payload, "=", 0x17, self.number, 0, 1, nulls, types, values
        self.client(*row)
        return row

    def value(self, name, value):
        row = self.parameters(b"\0", name, value)
        # (the whole payload stands before each shorter one, so that none makes up for it)
        self.put(record(RESET))
        self.client(*row, "least", "all")

    def values(self, nulls, *words):
        *names, values = words
        self.put(record(CLIENT, self.execution(0)))
        self.columns(*names)
        self.server(b"\0" + nulls + values, "=", 0, nulls, values)

    def client(self, *words):
        self.row(CLIENT, *words)

    def server(self, *words):
        self.row(SERVER, *words)

    def row(self, kind, payload, *words):
        marks = {"=": None, "refused": None, "least": None, "but": None}
        for word in words:
            if word in marks and isinstance(word, str):
                mark, marks[word] = word, []
            else:
                marks[mark].append(word)
        fields, least, but = marks["="], marks["least"], marks["but"] or []
        self.refused += marks["refused"] is not None
        if least is not None:
            self.shorter(kind, payload, fields, len(payload) if least == ["all"] else least[0], but)
        self.payload(kind, payload, fields)

    def shorter(self, kind, payload, fields, least, but):
        lead = list(self.lead)
        for length in range(len(payload)):
            if length in but:
                continue
            cut = payload[:length]
            self.refused += length < least
            self.payload(kind, cut, None if length < least else fields[:-1] + [cut[least:]])
            self.records += lead
        self.lead = lead

    def payload(self, kind, payload, fields):
        if fields is not None:
            self.put(list_of([*map(word_for, fields), "end"]))
        self.put(record(kind, payload))


# ---- the file


def rows():
    return Rows((CRATE / "rows.txt").read_text())


def check():
    """That the stored input has what rows.txt gives; and that all that was found of it is what must
    be: as many payloads are refused, each list is of the fields, and none of others."""
    stored = (CRATE / "stdin").read_bytes()
    wanted = rows()
    lists = sum(kind == LISTED for _, kind, _ in records(stored))
    counts = [line.split()[-5:] for line in (CRATE / "stdout").read_text().splitlines()[:-1]]
    _, refused, _, as_listed, otherwise = [sum(map(int, column)) for column in zip(*counts)]
    facts = {
        "stdin ends with the rows": split(stored)[1] == b"".join(wanted.records),
        "stdout: what must be refused is": refused == wanted.refused,
        "stdout: each list is of the fields": (as_listed, otherwise) == (lists, 0),
    }
    for name, holds in facts.items():
        print("ok" if holds else "FAILED", name)
    failed = list(facts.values()).count(False)
    print(f"{len(facts) - failed} passed, {failed} failed")
    sys.exit(failed > 0)


def main():
    if len(sys.argv) != 2 or sys.argv[1] == "--help":
        sys.exit(__doc__.strip())
    if sys.argv[1] == "--check":
        check()
    made = b"".join(rows().records)
    if sys.argv[1] == "--rows":
        stored = CRATE / "stdin"
        stored.write_bytes(split(stored.read_bytes())[0] + made)
    else:
        sys.stdout.buffer.write(b"".join(recorded(pathlib.Path(sys.argv[1]))) + made)


if __name__ == "__main__":
    main()
