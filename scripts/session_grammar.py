#!/usr/bin/env python3
"""The grammar of MySQL's sessions, written once more and apart from the one that is proved.

crates/mysql_wire_session/specs/Grammar.antt has the grammar that the theorems are about. This is
a second reading of MySQL's pages, in Python: it says by its own code what each packet of a session is.
Nothing ties its meaning to the other's but the names of the productions and what both say of sessions.
So a mistake in one of them shows where the other doesn't have it, and a mistake that both have doesn't.

The script first compares the names of the productions of both, and fails where one of them has a
production that the other lacks. Then it derives the recorded sessions of crates/recording_tests, and
some that are made up, and compares the kind that it gives each packet with the one that the built dump
names. Then it changes one packet of a recorded session, a hundred times: it is left out, doubled, sent
by the other side, or a byte of its header, or its payload's first, is another.

    scripts/session_grammar.py [COUNT [SEED]]
    scripts/session_grammar.py --productions    prints the productions of both by their names

Of a changed session the dump has to show the packets that its bytes have, each named as the grammar
names it as far as it goes; where it doesn't go to the end, the dump has to show that something is
wrong from the change on: a payload is refused, an id doesn't follow, another kind than was recorded,
a packet after COM_QUIT, a side that ends inside a packet. It need not where a command comes before
the answer to the last one has ended, nor where an answer with rows comes to a command that has none:
it takes these. The last line is 'N passed, M failed'.
"""

import json
import pathlib
import random
import re
import subprocess
import sys
import tempfile

from dump_recordings import PROGRAM, TOP, framed, sessions
from recordings import split

GRAMMAR = TOP / "crates/mysql_wire_session/specs/Grammar.antt"
FULL = 0xFFFFFF
# flags of a status, of both sides' capabilities, and of MariaDB's
MORE_RESULTS, CURSOR, STATE_CHANGED = 0x8, 0x40, 0x4000
WITH_DATABASE, PLUGIN, ATTRIBUTES, LENENC_ANSWER = 0x8, 0x80000, 0x100000, 0x200000
SESSION_TRACK, DEPRECATE_EOF = 0x800000, 0x1000000
OPTIONAL_METADATA, ZSTD = 0x2000000, 0x4000000
PROGRESS, CACHED_METADATA = 0x1, 0x10
LONG_PASSWORD = 0x1
# the flag of an execution that asks for a cursor
READ_ONLY_CURSOR = 0x1
# the commands that an OK or an error answers, that nothing answers, and that an OK, an EOF or an
# error answers
PLAIN = {0x02: "init db", 0x0E: "ping", 0x1A: "reset statement", 0x1F: "reset connection"}
UNANSWERED = {0x18: "send long data", 0x19: "close statement"}
OPTIONS = {0x1B: "set option", 0x0C: "other command", 0x0D: "other command",
           0x15: "other command"}


# the productions that this script derives by, each with the name of the function that derives it
DERIVED_BY = {}


def derives(*names):
    """A function that derives these productions, by the names that the other grammar has for them."""

    def named(function):
        DERIVED_BY.update(dict.fromkeys(names, function.__name__))
        return function

    return named


def productions(text):
    """The names of the productions of Grammar.antt, in their order: of what it defines before the title
    "a session that follows", that which holds of a packet, or of packets in a row, or doesn't."""
    grammar = text.split("-- ---- a session that follows")[0]
    for line in re.sub(r"\n +", " ", grammar).splitlines():
        found = re.match(r"pub record (\w+) .*\(\w+ : [\w ]*Said\) : Type 0 where", line)
        found = found or re.fullmatch(r"abbrev pub (\w+) : .*Said\)* → Type 0", line)
        if found:
            yield found[1]


class NotDerived(Exception):
    """The next packet is none that the grammar has here; or there is none: "the end"."""


class Fields:
    """The fields of a payload, after its first byte or from the front."""

    def __init__(self, payload, at=1):
        self.payload, self.at = payload, at

    def is_over(self):
        return self.at == len(self.payload)

    def bytes(self, count):
        if self.at + count > len(self.payload):
            raise ValueError("an end")
        self.at += count
        return self.payload[self.at - count : self.at]

    def number(self, count):
        return int.from_bytes(self.bytes(count), "little")

    def lenenc(self):
        first = self.number(1)
        if first in (0xFC, 0xFD, 0xFE):
            return self.number({0xFC: 2, 0xFD: 3, 0xFE: 8}[first])
        return first if first < 0xFB else 0

    def text(self):
        return self.bytes(self.lenenc())

    def ended_by_zero(self):
        end = self.payload.index(b"\0", self.at)
        text = self.bytes(end - self.at)
        self.at += 1
        return text

    def end(self):
        if not self.is_over():
            raise ValueError("bytes at the end")


def status_of_ok(payload, tracks):
    """The status that an OK tells."""
    fields = Fields(payload)
    fields.lenenc(), fields.lenenc()
    status = fields.number(2)
    fields.number(2)
    if not fields.is_over():
        fields.text()
        if tracks and status & STATE_CHANGED:
            fields.text()
    fields.end()
    return status


def status_of_eof(payload):
    fields = Fields(payload)
    fields.number(2)
    status = fields.number(2)
    fields.end()
    return status


def login_of(payload):
    """The capabilities that a login says, and MariaDB's."""
    fields = Fields(payload, 0)
    capabilities = fields.number(4)
    fields.bytes(4 + 1 + 19)
    mariadb = fields.number(4)
    fields.ended_by_zero()
    fields.text() if capabilities & LENENC_ANSWER else fields.bytes(fields.number(1))
    if capabilities & WITH_DATABASE:
        fields.ended_by_zero()
    if capabilities & PLUGIN:
        fields.ended_by_zero()
    if capabilities & ATTRIBUTES:
        fields.text()
    if capabilities & ZSTD:
        fields.number(1)
    fields.end()
    return capabilities, 0 if capabilities & LONG_PASSWORD else mariadb


def id_after(number, length):
    return (number + length // FULL + 1) % 256


class Derivation:
    """The kinds that the grammar gives the packets (who, id, payload) of a session, as far as it
    goes; and why it goes no further, where it doesn't go to the end."""

    def __init__(self, packets):
        self.packets, self.kinds, self.fault = packets, [], None
        self.capabilities = self.mariadb = 0
        self.is_eof_deprecated = self.is_answer = self.wants_cursor = False
        self.statements = []
        # the packet that is waited for is the server's
        self.is_servers = False
        try:
            self.session()
        except NotDerived as fault:
            self.fault = str(fault)

    # ---- one packet

    @derives("MayReport", "WithReports")
    def next(self):
        """The next packet; in an answer reports may come before one of the server."""
        has_report = False
        while self.is_answer and self.mariadb & PROGRESS and is_report(self.peek()):
            self.kinds.append("progress")
            has_report = True
        said = self.peek()
        if has_report and said[0] != "server":
            raise NotDerived("a report before a client's packet")
        return said

    def peek(self):
        if len(self.kinds) == len(self.packets):
            raise NotDerived("the end")
        return self.packets[len(self.kinds)]

    def expect(self, holds, kind):
        """This holds of the next packet, since it is of this kind."""
        if not holds:
            raise NotDerived("no " + kind)

    def take(self, holds, kind):
        self.expect(holds, kind)
        self.kinds.append(kind)

    def read(self, kind, reads, *given):
        """The next packet is of this kind: what its type reads of it."""
        try:
            read = reads(*given)
        except ValueError as error:
            raise NotDerived("%s: %s" % (kind, error)) from error
        self.kinds.append(kind)
        return read

    @derives("IsServers")
    def first(self):
        """The first byte of the next packet, where it is the server's and has one."""
        side, _, payload = self.next()
        self.is_servers = True
        return payload[0] if side == "server" and payload else None

    @derives("IsOk", "IsOkAtEnd", "IsEntry")
    def ok(self, header=0x00, kind="ok"):
        """An OK, and its status."""
        self.expect(self.first() == header, kind)
        tracks = self.capabilities & SESSION_TRACK
        return self.read(kind, status_of_ok, self.next()[2], tracks)

    @derives("IsError")
    def error(self):
        self.take(self.first() == 0xFF and not is_report(self.next()), "error")

    @derives("IsEof")
    def eof(self):
        """An EOF, and its status."""
        self.expect(self.first() == 0xFE and len(self.next()[2]) == 5, "eof")
        return self.read("eof", status_of_eof, self.next()[2])

    @derives("IsDefinition")
    def definition(self):
        self.take(self.first() not in (None, 0xFF), "column")

    @derives("IsRow")
    def row(self, kind):
        """Whether a row comes."""
        first, length = self.first(), len(self.next()[2])
        if first in (None, 0xFF) or (first == 0xFE and length < FULL):
            return False
        self.kinds.append(kind)
        return True

    # ---- answers

    @derives("IsOutcome")
    def outcome(self):
        """An OK or an error, and whether another result follows."""
        if self.first() == 0xFF:
            self.error()
            return False
        return bool(self.ok() & MORE_RESULTS)

    @derives("EndsWell")
    def ends_well(self):
        """An OK in the place of an EOF, or an EOF."""
        if not self.is_eof_deprecated:
            return bool(self.eof() & MORE_RESULTS)
        if not 7 <= len(self.next()[2]) < FULL:
            raise NotDerived("no eof")
        return bool(self.ok(0xFE, "eof") & MORE_RESULTS)

    @derives("EndsRows")
    def ends_rows(self):
        if self.first() == 0xFF:
            self.error()
            return False
        return self.ends_well()

    @derives("IsAlone")
    def last(self, is_more):
        """No result follows, where none may."""
        if is_more:
            self.kinds.pop()
            raise NotDerived("another result")

    @derives("AreRows")
    def rows(self, kind):
        while self.row(kind):
            pass
        return self.ends_rows()

    @derives("IsColumnCount")
    def count_of(self, payload):
        """How many columns there are, and how many definitions of them follow."""
        fields = Fields(payload, 0)
        if self.capabilities & OPTIONAL_METADATA and not fields.number(1):
            raise ValueError("no definitions")
        columns = fields.lenenc()
        are_told = self.mariadb & CACHED_METADATA and not fields.number(1)
        fields.end()
        if not columns:
            raise ValueError("no columns")
        return 0 if are_told else columns

    @derives("AreDescribed")
    def definitions(self, count):
        for _ in range(count):
            self.definition()

    @derives("AreDefined", "IsCursor")
    def rows_follow(self):
        """Whether rows follow the definitions. They are left out where the command asks for a cursor,
        and the EOF says that one was opened. A status that says so too, and that another result
        follows, is of a stored procedure with an open cursor of its own, whose rows follow."""
        if self.is_eof_deprecated:
            return True
        status = self.eof()
        return not self.wants_cursor or not status & CURSOR or bool(status & MORE_RESULTS)

    @derives("IsResultset")
    def resultset(self, kind):
        self.expect(self.first() not in (None, 0x00, 0xFB, 0xFF), "column count")
        self.definitions(self.read("column count", self.count_of, self.next()[2]))
        return self.rows_follow() and self.rows(kind)

    @derives("IsLoad", "IsFileRequest", "IsPiece", "IsFileEnd", "Numbered")
    def load(self):
        _, number, payload = self.next()
        self.take(self.first() == 0xFB, "local infile")
        while True:
            number = id_after(number, len(payload))
            self.is_servers = False
            side, own, payload = self.peek()
            self.take(side == "client" and own == number, "file")
            if not payload:
                return self.outcome()

    @derives("IsResult")
    def result(self, kind):
        first = self.first()
        if first in (0x00, 0xFF):
            return self.outcome()
        return self.load() if first == 0xFB else self.resultset(kind)

    @derives("AreResults", "IsAnswer")
    def answer(self, kind, wants_cursor=False):
        self.wants_cursor = wants_cursor
        while self.result(kind):
            pass

    @derives("AreColumns", "MayBeColumns", "AreEnded")
    def columns(self, count):
        self.definitions(count)
        if count and not self.is_eof_deprecated:
            self.eof()

    def statement_of(self, payload):
        fields = Fields(payload)
        number, columns, parameters = fields.number(4), fields.number(2), fields.number(2)
        fields.bytes(3)
        fields.end()
        return number, columns, parameters

    @derives("IsPrepareAnswer", "IsStatement", "IsPrepared")
    def prepare(self):
        if self.first() == 0xFF:
            return self.error()
        self.expect(self.first() == 0x00, "prepared")
        number, columns, parameters = self.read("prepared", self.statement_of, self.next()[2])
        self.statements = [number, *self.statements][:64]
        self.columns(parameters)
        return self.columns(columns)

    @derives("IsStatistics")
    def statistics(self):
        if self.first() == 0xFF:
            return self.error()
        return self.take(self.first() is not None, "statistics text")

    @derives("AreTableColumns", "IsTableColumn")
    def table(self):
        while self.first() not in (None, 0xFE, 0xFF):
            self.kinds.append("column")
        self.last(self.ends_rows())

    @derives("IsOptionOutcome")
    def option(self):
        self.last(self.ends_well() if self.first() == 0xFE else self.outcome())

    @derives("AreEvents")
    def events(self):
        while self.first() == 0x00:
            self.kinds.append("binlog event")
        self.last(self.ends_rows())

    # ---- exchanges

    def fetched_of(self, payload):
        fields = Fields(payload)
        number = fields.number(4)
        fields.bytes(4)
        fields.end()
        if number not in self.statements:
            raise ValueError("another statement")

    @derives("IsFetch")
    def fetch(self, payload):
        self.read("fetch", self.fetched_of, payload)
        self.answered(lambda: self.last(self.rows("binary row")))

    def answered(self, answer):
        self.is_answer = True
        answer()
        self.is_answer = False

    @derives("IsExchange", "IsLastExchange", "IsAnswered", "IsCommand", "IsPlainCommand", "IsUnanswered",
             "IsOptionCommand")
    def exchange(self):
        """A command, and its answer. Whether another may follow."""
        self.is_servers = False
        side, number, payload = self.peek()
        if side != "client" or number != 0 or not payload:
            raise NotDerived("no command")
        command = payload[0]
        answers = {
            0x03: ("query", lambda: self.answer("row")),
            0x17: ("execute", lambda: self.answer("binary row", asks_for_cursor(payload))),
            0x16: ("prepare", self.prepare),
            0x09: ("statistics", self.statistics),
            0x04: ("field list", self.table),
            0x12: ("binlog dump", self.events),
            0x1E: ("binlog dump", self.events),
            0x11: ("change user", self.authentication),
            **{it: (name, lambda: self.last(self.outcome())) for it, name in PLAIN.items()},
            **{it: (name, lambda: None) for it, name in UNANSWERED.items()},
            **{it: (name, self.option) for it, name in OPTIONS.items()},
        }
        if command == 0x01:
            self.kinds.append("quit")
            return False
        if command == 0x1C:
            self.fetch(payload)
            return True
        if command not in answers:
            raise NotDerived("another command")
        self.kinds.append(answers[command][0])
        self.answered(answers[command][1])
        return not (command == 0x11 and self.kinds[-1] == "error")

    # ---- the connection phase

    @derives("IsAuthentication", "IsLetIn", "IsDenied")
    def authentication(self):
        """The client is in, or denied."""
        while True:
            first = self.first()
            side, number, _ = self.next()
            if first in (0x01, 0xFE):
                self.kinds.append("auth more data" if first == 0x01 else "auth switch")
            elif side == "client":
                self.is_servers = False
                self.take(number != 0, "auth answer")
            elif first == 0xFF:
                return self.error()
            else:
                return self.ok()

    @derives("IsConnection", "IsAnyLogin", "IsLogin", "IsTlsConnection", "IsTlsRequest", "IsNoGreeting",
             "IsDeniedConnection", "IsRefusedConnection")
    def is_let_in(self):
        """The server greets, and the client logs in. Whether it is in."""
        side, number, payload = self.peek()
        self.expect(side == "server" and number == 0, "greeting")
        if payload[:1] == b"\xff":
            self.error()
            return False
        self.take(payload[:1] == b"\x0a", "greeting")
        side, number, payload = self.peek()
        self.expect(side == "client" and number != 0, "login")
        if len(payload) == 32:
            self.kinds.append("ssl request")
            return False
        self.capabilities, self.mariadb = self.read("login", login_of, payload)
        self.is_eof_deprecated = bool(self.capabilities & DEPRECATE_EOF)
        self.authentication()
        return self.kinds[-1] == "ok"

    def session(self):
        if self.is_let_in():
            while len(self.kinds) < len(self.packets) and self.exchange():
                pass
        if len(self.kinds) < len(self.packets):
            raise NotDerived("after the end")


@derives("IsReport")
def is_report(said):
    return said[0] == "server" and said[2][:3] == b"\xff\xff\xff"


def asks_for_cursor(payload):
    """Whether an execution does: its flags follow the command's number and the statement's."""
    return len(payload) > 5 and bool(payload[5] & READ_ONLY_CURSOR)


# ---- sessions that are made up

# a column of whole numbers, one row of text with it and one binary row, and a statement of this column
COLUMN = b"\3def\0\0\0\0011\0\x0c\x3f\0\1\0\0\0\x08\x81\0\0\0\0"
ROW, BINARY_ROW = b"\0017", b"\0\0\7" + bytes(7)
PREPARED = b"\0\1\0\0\0\1\0" + bytes(5)
IS_IN = [
    ("server", b"\x0a8\0" + bytes(13) + b"\0\x82\x2d\x02" + bytes(27), "greeting"),
    ("client", b"\0\x82" + bytes(30) + b"root\0\0", "login"),
]


def ends(status, header=0xFE):
    """An EOF with this status, or an OK."""
    if header == 0xFE:
        return "server", b"\xfe\0\0" + status.to_bytes(2, "little"), "eof"
    return "server", b"\0\0\0" + status.to_bytes(2, "little") + b"\0\0", "ok"


def result(kind, status, last=None):
    """The count of columns, one column, the EOF after it with this status; and, where rows follow, one
    of this kind, and the EOF after it with the other status."""
    row = {"row": ROW, "binary row": BINARY_ROW}[kind]
    front = [("server", b"\1", "column count"), ("server", COLUMN, "column"), ends(status)]
    return front if last is None else [*front, ("server", row, kind), ends(last)]


def prepared():
    return [("client", b"\x16CALL", "prepare"), ("server", PREPARED, "prepared"),
            ("server", COLUMN, "column"), ends(0)]


def executed(flags):
    return [("client", b"\x17\1\0\0\0" + bytes([flags]) + b"\1\0\0\0", "execute")]


# the result of a procedure that has a cursor of its own open, and then its end
CALLED = [CURSOR | MORE_RESULTS, MORE_RESULTS]
DONE = [ends(0, header=0)]
MADE_UP = {
    "a procedure with an open cursor, as a query": [
        ("client", b"\3CALL", "query"), *result("row", *CALLED), *result("row", *CALLED), *DONE],
    "a procedure with an open cursor, executed": [
        *prepared(), *executed(0), *result("binary row", *CALLED), *DONE],
    "a procedure with an open cursor, executed for a cursor": [
        *prepared(), *executed(1), *result("binary row", *CALLED), *DONE],
    "a result for a cursor after that of a procedure": [
        *prepared(), *executed(1), *result("binary row", *CALLED), *result("binary row", CURSOR)],
    "a cursor that was asked for, and fetched from": [
        *prepared(), *executed(1), *result("binary row", CURSOR),
        ("client", b"\x1c\1\0\0\0\1\0\0\0", "fetch"), ("server", BINARY_ROW, "binary row"),
        ends(CURSOR)],
    "a cursor that was asked for, and not opened": [
        *prepared(), *executed(1), *result("binary row", 0, 0)],
    "rows of an execution that asked for no cursor": [
        *prepared(), *executed(0), *result("binary row", CURSOR, 0)],
    "rows of a query, under the status of a cursor": [
        ("client", b"\3SELECT", "query"), *result("row", CURSOR, 0)],
}


def numbered(said):
    """The packets (who, id, payload) and their kinds, each numbered on, a command from 0."""
    packets, kinds, number = [], [], 0
    for index, (side, payload, kind) in enumerate([*IS_IN, *DONE, *said]):
        number = 0 if index > 2 and side == "client" else number
        packets.append((side, number, payload))
        kinds.append(kind)
        number = id_after(number, len(payload))
    return packets, kinds


# ---- the dump

def unframed(data):
    """The packets that the bytes of one side begin with: id, payload."""
    packets, at, number, payload = [], 0, None, b""
    while at + 4 <= len(data):
        length = int.from_bytes(data[at : at + 3], "little")
        if at + 4 + length > len(data):
            break
        if number is not None and data[at + 3] != (number + len(payload) // FULL) % 256:
            break
        number = data[at + 3] if number is None else number
        payload += data[at + 4 : at + 4 + length]
        at += 4 + length
        if length < FULL:
            packets.append((number, payload))
            number, payload = None, b""
    return packets


def dumped(sides, folder):
    """The packets that are shown (who, id, payload) with their names, and how the sides end."""
    words = []
    for side, data in sides.items():
        (folder / side).write_bytes(data)
        words += [side, folder / side]
    run = subprocess.run([PROGRAM, "--json", *words], stdout=subprocess.PIPE, check=False)
    shown = [json.loads(line) for line in run.stdout.splitlines()]
    left = {side: iter(unframed(data)) for side, data in sides.items()}
    packets, names = [], []
    for line in shown:
        if "packet" in line:
            number, payload = next(left[line["from"]], (None, b""))
            if (number, len(payload)) != (line["id"], line["length"]):
                raise ValueError("another packet than the bytes have: %s" % line)
            packets.append((line["from"], number, payload))
            names.append(line["packet"])
    ends = [line["end"] for line in shown if "end" in line]
    if "encrypted" not in ends and any(list(more) for more in left.values()):
        raise ValueError("fewer packets than the bytes have")
    return packets, names, ends


def follows(packets, index):
    """Whether a packet's id follows, or begins a command."""
    side, number, _ = packets[index]
    if index == 0:
        return (side, number) == ("server", 0)
    _, before, payload = packets[index - 1]
    return (side == "client" and number == 0) or number == id_after(before, len(payload))


class Recorded:
    """A recorded session: its packets, their kinds, and the kinds of each payload."""

    def __init__(self, name, packets, kinds):
        self.name, self.packets, self.kinds = name, packets, kinds
        self.usual = {}
        for said, kind in zip(packets, kinds):
            self.usual.setdefault(said[2], set()).add(kind)


def noticed(packets, names, ends, recorded):
    """What the dump shows that is wrong, from the first change on."""
    common, same = min(len(packets), len(recorded.packets)), 0
    while same < common and packets[same] == recorded.packets[same]:
        same += 1
    for index in range(same, len(packets)):
        name = names[index]
        if name in ("bytes", "too large", "other command"):
            return "a refusal"
        if not follows(packets, index):
            return "an id"
        if index and names[index - 1] == "quit":
            return "a packet after the last"
        if name not in recorded.usual.get(packets[index][2], {name}):
            return "another kind"
    if same < common and names[same] != recorded.kinds[same]:
        return "another kind"
    return "an end" if any(end != "end" for end in ends) else None


# ---- changes

def leave_out(packets, at, _):
    return packets[:at] + packets[at + 1 :]


def double(packets, at, _):
    return packets[: at + 1] + packets[at:]


def turn(packets, at, _):
    side, number, payload = packets[at]
    other = "client" if side == "server" else "server"
    return [*packets[:at], (other, number, payload), *packets[at + 1 :]]


def change_first(packets, at, chance):
    side, number, payload = packets[at]
    if payload:
        payload = bytes([payload[0] ^ chance.randrange(1, 256)]) + payload[1:]
    return [*packets[:at], (side, number, payload), *packets[at + 1 :]]


def sides_of(packets):
    return {side: framed(packets, side) for side in ("client", "server")}


def change_header(packets, at, chance):
    """The bytes of both sides, with one of the header's changed."""
    side = packets[at][0]
    begins = len(framed(packets[:at], side))
    sides = sides_of(packets)
    data = bytearray(sides[side])
    data[begins + chance.randrange(4)] ^= chance.randrange(1, 256)
    sides[side] = bytes(data)
    return sides


LISTS = (leave_out, double, turn, change_first)


def changed(recorded, chance):
    """The words for a change, and the bytes of both sides after it. Each kind is as likely."""
    packets, kinds = recorded.packets, recorded.kinds
    kind = chance.choice(sorted(set(kinds)))
    at = chance.choice([index for index, it in enumerate(kinds) if it == kind])
    change = chance.choice((*LISTS, change_header))
    words = "%s: %s of packet %d, %s" % (recorded.name, change.__name__, at, kind)
    if change is change_header:
        return words, change(packets, at, chance)
    return words, sides_of(change(packets, at, chance))


def may_come(derived, packets, names):
    """Whether the packet that the grammar doesn't have is one that the dump takes: a command where an
    answer is waited for, or the first packet of another answer."""
    at = len(derived.kinds)
    is_command = packets[at][:2] == ("client", 0)
    return (is_command and derived.is_servers) or names[at] in ("column count", "local infile")


def fault_of(sides, recorded, folder):
    """What is wrong with the dump of a changed session, or None; and what it shows."""
    packets, names, ends = dumped(sides, folder)
    derived = Derivation(packets)
    told = noticed(packets, names, ends, recorded)
    for index, kind in enumerate(derived.kinds):
        if names[index] != kind:
            refused = names[index] == "bytes"
            return (None if refused else "%s, and %s of the grammar" % (names[index], kind)), told
    if derived.fault in (None, "the end"):
        return None, "nothing, as the grammar derives it"
    if told or may_come(derived, packets, names):
        return None, told or "nothing, as it takes it"
    return "not noticed: " + derived.fault, told


def is_derived(name, packets, folder):
    """Whether the grammar and the dump agree on a recorded session, and what the grammar says."""
    derived = Derivation(packets)
    shown, names, _ = dumped(sides_of(packets), folder)
    is_right = not derived.fault and shown == packets and names == derived.kinds
    at = "" if is_right else "; %s after %d" % (derived.fault, len(derived.kinds))
    print("%s %d packets%s" % (name, len(packets), at))
    return is_right, Recorded(name, packets, derived.kinds)


def is_made_up_well(name, said, folder):
    """Whether they agree on a session that is made up, and the kinds are those that were meant."""
    packets, kinds = numbered(said)
    is_right, derived = is_derived(name, packets, folder)
    if is_right and derived.kinds != kinds:
        print("%s: %s" % (name, derived.kinds))
    return is_right and derived.kinds == kinds


def is_agreed(recorded, chance, folder, found):
    """Whether they agree on a changed one."""
    words, sides = changed(recorded, chance)
    try:
        fault, told = fault_of(sides, recorded, folder)
    except ValueError as error:
        fault, told = str(error), "fails"
    found[told] = found.get(told, 0) + 1
    if fault:
        print("%s: %s" % (words, fault))
    return not fault


def both_lists():
    """The names of the productions of both grammars, each beside the name that the other has for it."""
    theirs = list(productions(GRAMMAR.read_text(encoding="utf-8")))
    ours = [name for name in DERIVED_BY if name not in theirs]
    return [(name, name if name in DERIVED_BY else None) for name in theirs] + [
        (None, name) for name in ours]


def have_same_productions():
    """Whether each production of one grammar is one of the other. Names those that are not."""
    alone = [pair for pair in both_lists() if None in pair]
    for theirs, ours in alone:
        print("the production %s is only in %s" % (theirs or ours, "Grammar.antt" if theirs else
                                                   "this script, as %s" % DERIVED_BY[ours]))
    print("%d productions, in both by their names: %s" % (len(both_lists()), "no" if alone else "yes"))
    return not alone


def show_productions():
    """Prints both lists, and by which function of this script each is derived."""
    print("%-22s %-22s %s" % ("of Grammar.antt", "of this script", "derived by"))
    for theirs, ours in both_lists():
        print("%-22s %-22s %s" % (theirs or "-", ours or "-", DERIVED_BY.get(ours, "-")))


def main():
    if "--help" in sys.argv:
        print(__doc__.strip())
        return
    if sys.argv[1:] == ["--productions"]:
        show_productions()
        sys.exit(not have_same_productions())
    count, seed = map(int, [*sys.argv[1:], *("100", "1")[len(sys.argv) - 1 :]])
    chance, found = random.Random(seed), {}
    data = split((TOP / "crates/recording_tests/stdin").read_bytes())[0]
    with tempfile.TemporaryDirectory() as name:
        folder = pathlib.Path(name)
        shown = [have_same_productions()]
        shown += [is_made_up_well(*session, folder) for session in MADE_UP.items()]
        known = [is_derived(*session, folder) for session in sessions(data)]
        agreed = [is_agreed(chance.choice(known)[1], chance, folder, found) for _ in range(count)]
    print("shown of %d changes: %s" % (count, ", ".join(
        "%s %d" % (told, it) for told, it in sorted(found.items(), key=str))))
    checks = [*shown, *(is_right for is_right, _ in known), *agreed]
    print("%d passed, %d failed" % (sum(checks), len(checks) - sum(checks)))
    sys.exit(not all(checks))


if __name__ == "__main__":
    main()
