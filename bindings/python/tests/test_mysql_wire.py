"""Tests of the package: `python3 -m unittest discover tests`."""

import doctest
import random
import unittest
from array import array

import mysql_wire
from mysql_wire import Connection, Fields, Session, Spans

FULL = 16777215


def framed(number, payload):
    """The chunks of a payload, written plainly."""
    out = b""
    for at in range(0, len(payload) + 1, FULL):
        chunk = payload[at : at + FULL]
        out += len(chunk).to_bytes(3, "little") + bytes([number % 256]) + chunk
        number += 1
    return out


class Packets(unittest.TestCase):
    payloads = [b"", b"a", b"x" * 300, b"bc"]

    def test_each_cutting_gives_the_same_packets(self):
        stream = b"".join(framed(number, each) for number, each in enumerate(self.payloads))
        for step in (1, 2, 3, 5, 64, len(stream)):
            with Connection() as connection:
                packets = []
                for at in range(0, len(stream), step):
                    packets += connection.receive(stream[at : at + step])
                self.assertEqual(packets, self.payloads)
                self.assertEqual((connection.unread, connection.sequence_id), (0, 4))

    def test_long_packets_are_put_together(self):
        for length in (FULL - 1, FULL, FULL + 1):
            payload = bytes(range(256)) * (length // 256) + b"e" * (length % 256)
            with Connection(length) as connection:
                wire = connection.encode(payload)
                self.assertEqual(wire, framed(0, payload))
                connection.reset()
                self.assertEqual(list(connection.receive(wire)), [payload])

    def test_a_larger_limit_goes_on(self):
        with Connection(2) as connection:
            connection.feed(framed(0, b"abc") + framed(1, b"d"))
            with self.assertRaises(mysql_wire.PacketTooLarge):
                connection.next_packet()
            connection.set_limit(3)
            self.assertEqual(list(connection.packets()), [b"abc", b"d"])

    def test_another_number_loses_the_stream(self):
        with Connection() as connection:
            connection.feed(framed(0, b"a") + framed(2, b"b"))
            self.assertEqual(connection.next_packet(), b"a")
            for _ in range(2):
                with self.assertRaises(mysql_wire.PacketsOutOfSync):
                    connection.next_packet()

    def test_a_stream_is_read_from_its_midst(self):
        with Connection() as connection:
            connection.sequence_id = 7
            self.assertEqual(list(connection.receive(framed(7, b"a"))), [b"a"])
            self.assertEqual(connection.sequence_id, 8)

    def test_what_is_sent_is_numbered_on(self):
        with Connection() as connection:
            self.assertEqual(connection.encode(b"\x03DO 1"), framed(0, b"\x03DO 1"))
            self.assertEqual(list(connection.receive(framed(1, b"\0"))), [b"\0"])
            connection.reset()
            self.assertEqual(connection.encode(bytearray(b"")), framed(0, b""))

    def test_a_packet_waits_before_the_limit_is_set(self):
        with Connection() as connection:
            connection.feed(framed(0, b"a"))
            with self.assertRaises(mysql_wire.PacketWaits):
                connection.set_limit(9)

    def test_a_closed_connection_says_so(self):
        connection = Connection()
        connection.close()
        connection.close()
        for call in (connection.next_packet, connection.reset, lambda: connection.feed(b"")):
            self.assertRaises(mysql_wire.Closed, call)


    def test_what_is_not_asked_for_comes_later(self):
        stream = b"".join(framed(number, each) for number, each in enumerate(self.payloads))
        others = {
            "next_packet": lambda connection: self.assertEqual(connection.next_packet(), b"a"),
            "packets": lambda connection: self.assertEqual(
                list(connection.packets()), self.payloads[1:]
            ),
            "receive": lambda connection: self.assertEqual(
                list(connection.receive(framed(4, b"z"))), [*self.payloads[1:], b"z"]
            ),
            "feed": lambda connection: connection.feed(framed(4, b"z")),
            "unread": lambda connection: self.assertEqual(connection.unread, len(stream) - 4),
            "sequence_id": lambda connection: self.assertEqual(connection.sequence_id, 1),
        }
        for name, call in others.items():
            with self.subTest(name), Connection() as connection:
                packets = connection.receive(stream)
                self.assertEqual(next(packets), b"")
                call(connection)
                # (the same iterator goes on with what is left)
                left = [*packets, *connection.packets()]
                rest = {"packets": [], "receive": [], "next_packet": self.payloads[2:]}
                rest["feed"] = [*self.payloads[1:], b"z"]
                self.assertEqual(left, rest.get(name, self.payloads[1:]))
                self.assertEqual(connection.unread, 0)

    def test_numbers_are_those_of_what_was_handed_out(self):
        stream = framed(0, b"a") + framed(0, b"b") + framed(1, b"c") + framed(2, b"d")
        with Connection() as connection:
            got = []
            for packet in connection.receive(stream):
                got.append((packet, connection.sequence_id))
                if packet == b"a":
                    connection.reset()
            self.assertEqual(got, [(b"a", 1), (b"b", 1), (b"c", 2), (b"d", 3)])
        with Connection() as connection:
            packets = connection.receive(framed(0, b"a") + framed(1, b"b") + framed(2, b"c"))
            self.assertEqual(next(packets), b"a")
            self.assertEqual(connection.encode(b"x"), framed(1, b"x"))
            with self.assertRaises(mysql_wire.PacketsOutOfSync):
                next(packets)

    def test_whatever_stands_between_the_calls(self):
        def outcome(call):
            try:
                return call()
            except mysql_wire.Error as refusal:
                return type(refusal)

        def after(connection, call, *arguments):
            answer = outcome(lambda: call(connection, *arguments))
            return answer, outcome(lambda: connection.sequence_id)

        def set_id(connection, number):
            connection.sequence_id = number

        def unread(connection):
            # (of a stream that is lost it says nothing)
            return connection.sequence_id and connection.unread

        calls = [
            (Connection.reset, lambda draw: ()),
            (set_id, lambda draw: (draw.randrange(8),)),
            (Connection.set_limit, lambda draw: (draw.randrange(60),)),
            (Connection.encode, lambda draw: (bytes(draw.randrange(50)),)),
            (unread, lambda draw: ()),
            (lambda connection: connection.packet_id, lambda draw: ()),
            (Connection.judge_front, lambda draw: ()),
            (Connection.next_packet, lambda draw: ()),
        ]
        for seed in range(300):
            draw = random.Random(seed)
            # (one takes packets by `receive`, the other by `feed` and one after another)
            with Connection(60) as at_once, Connection(60) as each:
                number = 0
                for step in range(30):
                    with self.subTest(seed=seed, step=step):
                        if draw.randrange(2):
                            call, arguments = draw.choice(calls)
                            given = arguments(draw)
                            self.assertEqual(
                                after(at_once, call, *given), after(each, call, *given)
                            )
                            continue
                        if draw.randrange(3) == 0:
                            number = outcome(lambda: each.sequence_id)
                            number = number if isinstance(number, int) else 0
                        data = b""
                        for _ in range(draw.randrange(6)):
                            data += framed(number, bytes([number]) * draw.randrange(20))
                            number = (number + 1) % 256
                        data = data[: len(data) - draw.randrange(len(data) // 4 + 1)]
                        fed = outcome(lambda: each.feed(data))
                        if fed is not None:
                            self.assertEqual(outcome(lambda: at_once.receive(data)), fed)
                            continue
                        packets = at_once.receive(data)
                        for _ in range(draw.randrange(8)):
                            answer = after(each, Connection.next_packet)
                            self.assertEqual(after(at_once, lambda _: next(packets, None)), answer)
                            if not isinstance(answer[0], bytes):
                                break

    def test_more_packets_than_are_judged_at_once(self):
        payloads = [bytes([number % 256]) * (number % 7) for number in range(5000)]
        stream = b"".join(framed(number, each) for number, each in enumerate(payloads))
        for step in (len(stream), 4096, 4099):
            with Connection() as connection:
                packets = []
                for at in range(0, len(stream), step):
                    packets += connection.receive(memoryview(stream)[at : at + step])
                self.assertEqual(packets, payloads)
                self.assertEqual((connection.unread, connection.sequence_id), (0, 5000 % 256))

    def test_a_refusal_comes_behind_the_packets_before_it(self):
        stream = framed(0, b"a") + framed(1, b"bcd") + framed(2, b"e")
        with Connection(2) as connection:
            packets = connection.receive(stream)
            self.assertEqual(next(packets), b"a")
            with self.assertRaises(mysql_wire.PacketTooLarge):
                next(packets)
            connection.set_limit(3)
            self.assertEqual(list(connection.packets()), [b"bcd", b"e"])
        with Connection() as connection:
            packets = connection.receive(framed(0, b"a") + framed(2, b"b"))
            self.assertEqual(next(packets), b"a")
            with self.assertRaises(mysql_wire.PacketsOutOfSync):
                next(packets)
            with self.assertRaises(mysql_wire.PacketsOutOfSync):
                connection.receive(framed(1, b"b"))


    def test_another_number_is_told_with_its_header(self):
        with Connection(1 << 24) as connection:
            for piece in (b"\x01\0\0", b"\0", b"a\0\0\x80"):
                self.assertLessEqual(len(list(connection.receive(piece))), 1)
                connection.judge_front()
            for piece in (b"\x07", b"b"):
                self.assertEqual(list(connection.receive(piece)), [])
                with self.assertRaises(mysql_wire.PacketsOutOfSync):
                    connection.judge_front()
            connection.sequence_id = 7
            connection.judge_front()

    def test_a_packet_has_its_number(self):
        with Connection() as connection:
            self.assertEqual(connection.packet_id, 255)
            stream = framed(0, b"a") + framed(1, b"b") + framed(2, b"c")
            numbers = [connection.packet_id for _ in connection.receive(stream)]
            self.assertEqual(numbers, [0, 1, 2])
            connection.encode(b"")
            self.assertEqual((connection.packet_id, connection.sequence_id), (3, 4))


class PacketsInSpans(unittest.TestCase):
    payloads = [b"", b"a", b"x" * 300, b"bc"]

    def gathered(self, spans, pieces):
        """The packets, and the bytes of the open one."""
        packets, opened = [], b""
        for piece in pieces:
            for part, ends in spans.parts(piece):
                opened += part
                if ends:
                    packets.append(opened)
                    opened = b""
        return packets, opened

    def test_each_cutting_gives_the_same_packets(self):
        stream = b"".join(framed(250 + number, each) for number, each in enumerate(self.payloads))
        for step in (1, 2, 3, 5, 64, len(stream)):
            spans = Spans(300, 250)
            pieces = [stream[at : at + step] for at in range(0, len(stream), step)]
            self.assertEqual(self.gathered(spans, pieces), (self.payloads, b""))
            self.assertEqual((spans.id, spans.is_between_packets), (254, True))

    def test_long_packets_go_on_with_other_numbers(self):
        payload = bytes(range(256)) * (FULL // 256 + 1)
        stream = bytearray(framed(7, payload))
        spans = Spans(len(payload), 7)
        spans.next_id = 255
        for at in range(0, len(stream), 1 << 20):
            piece = bytearray(stream[at : at + (1 << 20)])
            self.assertEqual(spans.renumber(piece), len(piece))
            stream[at : at + len(piece)] = piece
        self.assertEqual(stream, framed(255, payload))
        self.assertEqual(self.gathered(Spans(len(payload), 255), [stream]), ([payload], b""))

    def test_a_refusal_leaves_all(self):
        spans = Spans(2)
        with self.assertRaises(mysql_wire.PacketTooLarge):
            list(spans.parts(framed(0, b"abc")))
        spans.limit = 3
        with self.assertRaises(mysql_wire.PacketsOutOfSync):
            list(spans.parts(framed(1, b"abc")))
        self.assertEqual(list(spans.parts(framed(0, b"abc"))), [(b"abc", True)])
        self.assertEqual((list(spans.parts(b"")), spans.taken), ([], 0))
        with self.assertRaises(mysql_wire.PacketTooLarge):
            list(spans.parts(framed(1, b"d") + framed(2, b"four")))
        self.assertEqual(spans.taken, 5)
        spans.id = 1
        spans.next_id = 9
        wire = bytearray(framed(1, b"d") + framed(7, b"e"))
        self.assertEqual(spans.renumber(wire), 5)
        self.assertEqual(wire, framed(9, b"d") + framed(7, b"e"))
        with self.assertRaises(mysql_wire.PacketsOutOfSync):
            spans.renumber(wire[5:])
        self.assertEqual(spans.renumber(bytearray()), 0)


class OfPayloads(unittest.TestCase):
    def test_fields_come_back(self):
        payload = (
            mysql_wire.int_bytes(0x0A0B0C, 3)
            + mysql_wire.lenenc_int_bytes(251)
            + mysql_wire.lenenc_bytes(b"text")
            + b"\xfb"
            + mysql_wire.null_bytes(b"name")
            + b"12rest"
        )
        fields = Fields(payload)
        read = [
            fields.fixed_int(3), fields.lenenc_int(), fields.lenenc_bytes_or_none(),
            fields.lenenc_bytes_or_none(), fields.null_bytes(), fields.take(2), fields.rest(),
        ]
        self.assertEqual(read, [0x0A0B0C, 251, b"text", None, b"name", b"12", b"rest"])
        self.assertEqual(len(fields), 0)

    def test_numbers_have_as_few_bytes_as_hold_them(self):
        rows = [(0, "00"), (250, "fa"), (251, "fcfb00"), (65536, "fd000001"), (1 << 24, "fe0000000100000000")]
        for number, wanted in rows:
            self.assertEqual(mysql_wire.lenenc_int_bytes(number).hex(), wanted)

    def test_refusals_read_nothing(self):
        rows = [
            (b"\x05abc", Fields.lenenc_bytes, mysql_wire.MissingBytes),
            (b"\xff", Fields.lenenc_bytes_or_none, mysql_wire.NotANumber),
            (b"abc", Fields.null_bytes, mysql_wire.MissingBytes),
            (b"a", lambda fields: fields.fixed_int(2), mysql_wire.MissingBytes),
            (b"a", lambda fields: fields.fixed_int(9), mysql_wire.NotANumber),
            (b"a", lambda fields: fields.take(2), EOFError),
        ]
        for payload, read, refusal in rows:
            fields = Fields(payload)
            with self.assertRaises(refusal):
                read(fields)
            self.assertEqual(fields.rest(), payload)

    def test_a_row_is_read_at_once(self):
        fields = Fields(b"\x02ab\xfb\0\xfc\x01\0c\xff")
        self.assertRaises(mysql_wire.NotANumber, fields.row, 5)
        self.assertEqual(fields.row(4), [b"ab", None, b"", b"c"])
        self.assertEqual((fields.row(0), len(fields)), ([], 1))
        for columns in (2, 2**64):
            self.assertRaises(mysql_wire.MissingBytes, fields.row, columns)
        self.assertRaises(mysql_wire.MissingBytes, Fields(b"\x02a").row, 1)
        self.assertEqual(fields.rest(), b"\xff")

    def test_the_old_names_are_there(self):
        fields = Fields(b"\x01\0ab")
        for name, wanted in (("int", 1), ("bytes", b"ab")):
            with self.assertWarns(DeprecationWarning):
                self.assertEqual(getattr(fields, name)(2), wanted)


GREETING = bytes.fromhex(
    "0a 382e342e3000 05000000 6162636465666768 00 ffff ff 0200 ffdf 15 00000000000000000000"
) + b"ijklmnopqrst\0caching_sha2_password\0"
# It wants EOFs.
LOGIN = bytes.fromhex("81820800 00000001 2d") + bytes(23) + b"root\0\0caching_sha2_password\0"
DEFINITION = bytes.fromhex("03646566 00 00 00 0131 00 0c 3f00 01000000 08 8100 00 0000")
DONE = b"\0\0\0\2\0\0\0"
EOF = b"\xfe\0\0\2\0"
CLIENT, SERVER = mysql_wire.Side.CLIENT, mysql_wire.Side.SERVER
KIND, PHASE = mysql_wire.PacketKind, mysql_wire.Phase

# Whose packet it is, what it is, and what is waited for after it. A statement 7 is prepared.
CONNECTION = [
    (SERVER, GREETING, KIND.GREETING, PHASE.LOGIN),
    (CLIENT, LOGIN, KIND.LOGIN, PHASE.AUTHENTICATION),
    (SERVER, DONE, KIND.OK, PHASE.COMMAND),
]
QUERY = [
    (CLIENT, b"\x03SELECT 1", KIND.QUERY, PHASE.ANSWER),
    (SERVER, b"\1", KIND.COLUMN_COUNT, PHASE.COLUMNS),
    (SERVER, DEFINITION, KIND.COLUMN, PHASE.COLUMNS_END),
    (SERVER, EOF, KIND.EOF, PHASE.ROWS),
    (SERVER, b"\x011", KIND.ROW, PHASE.ROWS),
    (SERVER, b"\xfe\0\0\x22\0", KIND.EOF, PHASE.COMMAND),
]
PREPARE = [
    (CLIENT, b"\x16SELECT ?", KIND.PREPARE, PHASE.PREPARE_ANSWER),
    (SERVER, bytes.fromhex("00 07000000 0100 0200 00 0000"), KIND.PREPARED, PHASE.COLUMNS),
]


class OfASession(unittest.TestCase):
    def follow(self, session, rows, advance):
        for id, (side, payload, kind, phase) in enumerate(rows):
            with self.subTest(kind=kind.name):
                self.assertIn(session.next_sender, (side, mysql_wire.Sender.EITHER))
                front = payload[:3]
                self.assertEqual(session.classify(side, id, len(payload), front), kind)
                self.assertEqual(advance(session, side, id, payload), kind)
                self.assertEqual((session.phase, session.next_id), (phase, id + 1))
                self.assertEqual(session.is_idle, phase == PHASE.COMMAND)

    def by_payload(self, session, side, id, payload):
        received = session.advance(side, id, payload)
        self.assertFalse(received.is_refused)
        return received.kind

    def by_front(self, session, side, id, payload):
        try:
            return session.advance_front(side, id, len(payload), payload[:3])
        except mysql_wire.NeedsWhole as refusal:
            kind = session.advance_front(side, id, len(payload), payload)
            self.assertEqual(kind, refusal.kind)
            return kind

    def test_a_session_is_followed(self):
        for advance in (self.by_payload, self.by_front):
            with self.subTest(advance=advance.__name__), Session() as session:
                self.assertEqual((session.status, session.capabilities), (0, 1 << 9))
                self.follow(session, CONNECTION, advance)
                self.assertEqual((session.status, session.capabilities), (2, 0x88281))
                self.follow(session, QUERY, advance)
                self.assertEqual((session.status, session.statement(7)), (0x22, None))
                self.follow(session, PREPARE, advance)
                self.assertEqual(session.statement(7), (2, 1))
                self.assertEqual(session.statement(7).parameters, 2)

    def test_a_wrong_packet_is_told(self):
        with Session() as session:
            self.assertEqual(session.advance(SERVER, 0, b"\x0a8"), (KIND.GREETING, True))
            self.assertEqual(session.phase, PHASE.LOGIN)
            self.assertEqual(session.advance(SERVER, 1, b"\x09"), (KIND.REFUSED, True))

    def test_a_packet_is_passed_over(self):
        with Session() as session:
            self.follow(session, CONNECTION, self.by_front)
            session.pass_over(CLIENT, 0, 20000000)
            self.assertEqual((session.phase, session.next_id), (PHASE.ANSWER, 2))

    def test_what_is_no_front_changes_nothing(self):
        with Session() as session:
            for call in (session.classify, session.advance_front):
                for size, front in ((9, b"\x0a8"), (2, b"\x0a8."), (2**64 - 1, b"")):
                    with self.assertRaises(mysql_wire.NotAFront):
                        call(SERVER, 0, size, front)
            self.assertEqual(session.phase, PHASE.GREETING)

    def test_a_closed_session_says_so(self):
        session = Session()
        session.close()
        session.close()
        calls = (
            lambda: session.phase, lambda: session.next_sender, lambda: session.is_idle,
            lambda: session.status, lambda: session.capabilities, lambda: session.next_id,
            lambda: session.statement(1), lambda: session.advance(SERVER, 0, b""),
            lambda: session.advance_front(SERVER, 0, 0, b""),
            lambda: session.classify(SERVER, 0, 0, b""), lambda: session.pass_over(SERVER, 0, 0),
        )
        for call in calls:
            self.assertRaises(mysql_wire.Closed, call)


# What is no number for a count of bytes, and what has no bytes.
NO_NUMBERS = None, 1.0, "1", b"1"
NO_BYTES = None, 5, -1, 2**64, "text", [1, 2], 1.0


class OfArguments(unittest.TestCase):
    """What Python itself would refuse is refused, and nothing changes; what has bytes is taken."""

    def refused(self, call, arguments, refusal=TypeError):
        for argument in arguments:
            with self.subTest(argument=argument), self.assertRaises(refusal):
                call(argument)

    def test_numbers_of_bytes(self):
        def new_spans(limit):
            return Spans(limit=limit)

        with Connection(2**64 - 1) as connection:
            spans = Spans(2**64 - 1)

            def set_spans(limit):
                spans.limit = limit

            for call in (Connection, connection.set_limit, new_spans, set_spans):
                self.refused(call, (-1, 2**64, -(2**64)), OverflowError)
                self.refused(call, NO_NUMBERS)
                for limit in (0, 2**8, 2**32, 2**64 - 1, True):
                    call(limit)
            set_spans(7)
            self.refused(set_spans, (-1, 2**64), OverflowError)
            self.assertEqual(spans.limit, 7)

    def test_numbers_of_packets(self):
        spans = Spans()
        with Connection() as connection:

            def set_connection(number):
                connection.sequence_id = number

            def set_id(number):
                spans.id = number

            def set_next_id(number):
                spans.next_id = number

            for call in (set_connection, set_id, set_next_id, lambda number: Spans(id=number)):
                call(255)
                self.refused(call, (-1, 2**8, 300, 2**32, 2**64), ValueError)
                self.refused(call, NO_NUMBERS)
            self.assertEqual((connection.sequence_id, spans.id, spans.next_id), (255, 255, 255))

    def test_numbers_of_fields(self):
        fields = Fields(b"abc")
        fields.take(1)
        for call in (fields.take, fields.row):
            self.refused(call, (-1, -(2**64)), ValueError)
            self.refused(call, (2**8, 2**32, 2**64), EOFError)
        self.refused(fields.fixed_int, (-1, 0, 9, 2**8, 2**32 + 1, 2**64 + 1), ValueError)
        for call in (fields.take, fields.row, fields.fixed_int):
            self.refused(call, NO_NUMBERS)
        self.assertEqual(fields.rest(), b"bc")

    def test_numbers_that_are_written(self):
        self.refused(mysql_wire.lenenc_int_bytes, (-1, 2**64, 2**64 + 1), OverflowError)
        self.refused(mysql_wire.lenenc_int_bytes, NO_NUMBERS)
        self.assertEqual(mysql_wire.lenenc_int_bytes(2**8).hex(), "fc0001")
        self.assertEqual(mysql_wire.lenenc_int_bytes(2**64 - 1).hex(), "fe" + "ff" * 8)
        for width in range(1, 9):
            most = 256**width - 1

            def write(value, width=width):
                return mysql_wire.int_bytes(value, width)

            self.assertEqual(write(most), b"\xff" * width)
            self.refused(write, (-1, most + 1, 2**64), OverflowError)
            self.refused(write, NO_NUMBERS)
        self.refused(lambda width: mysql_wire.int_bytes(1, width), (-1, 0, 9, 2**8, 2**64), ValueError)
        self.refused(lambda width: mysql_wire.int_bytes(1, width), NO_NUMBERS)

    def test_arguments_of_a_session(self):
        with Session() as session:

            def at(place, call):
                def called(argument):
                    arguments = [SERVER, 0, 3, b"\x0a8."]
                    arguments[place] = argument
                    call(*arguments)

                return called

            def of_fronts(place):
                return at(place, session.classify), at(place, session.advance_front)

            by_side = (
                *of_fronts(0), lambda side: session.advance(side, 0, b""),
                lambda side: session.pass_over(side, 0, 1),
            )
            by_id = (
                *of_fronts(1), lambda id: session.advance(SERVER, id, b""),
                lambda id: session.pass_over(SERVER, id, 1),
            )
            by_size = *of_fronts(2), lambda size: session.pass_over(SERVER, 0, size)
            by_bytes = *of_fronts(3), lambda payload: session.advance(SERVER, 0, payload)
            for call in by_side:
                self.refused(call, (-1, 2, 2**32, 2**64), ValueError)
            for call in by_id:
                self.refused(call, (-1, 2**8, 2**64), ValueError)
            for call in by_size:
                self.refused(call, (-1, 2**64), OverflowError)
            self.refused(session.statement, (-1, 2**32), OverflowError)
            for call in (*by_side, *by_id, *by_size, session.statement):
                self.refused(call, NO_NUMBERS)
            for call in by_bytes:
                self.refused(call, NO_BYTES)
            self.assertEqual((session.phase, session.next_id), (PHASE.GREETING, 0))

    def test_bytes(self):
        with Connection() as connection:
            calls = (
                connection.feed, connection.receive, connection.encode, Spans().parts, Fields,
                mysql_wire.lenenc_bytes, mysql_wire.null_bytes, Spans().renumber,
            )
            for call in calls:
                with self.subTest(call=call):
                    self.refused(call, NO_BYTES)
            self.refused(Spans().renumber, (b"\0\0\0\0", memoryview(b"\0\0\0\0")))
            self.assertEqual((connection.sequence_id, connection.unread), (0, 0))

    def test_what_has_bytes_is_taken(self):
        text = b"12345678"
        kinds = bytearray(text), memoryview(text), array("l", text), memoryview(b"1_2_3_4_5_6_7_8")[::2]
        for kind in kinds:
            with self.subTest(kind=kind), Connection() as connection:
                self.assertEqual(connection.encode(kind), framed(0, text))
                self.assertEqual(mysql_wire.lenenc_bytes(kind), b"\x08" + text)
                self.assertEqual(mysql_wire.null_bytes(kind), text + b"\0")
                self.assertEqual((len(Fields(kind)), Fields(kind).rest()), (8, text))
        stream = framed(0, b"12") + framed(1, b"345678")
        stream += framed(2, b"") + framed(3, bytes(8 - len(stream) % 8))
        wanted = [b"12", b"345678", b""]
        for kind in (bytearray(stream), memoryview(stream), array("l", stream[: len(stream) // 8 * 8])):
            with self.subTest(kind=kind), Connection() as connection:
                self.assertEqual(list(connection.receive(kind))[:3], wanted)
            with self.subTest(kind=kind), Connection() as connection:
                connection.feed(kind)
                self.assertEqual(list(connection.packets())[:3], wanted)
            parts = [part for part, _ in Spans().parts(kind)]
            self.assertEqual(parts[:3], wanted)
        room = array("l", framed(0, bytes(4)) + framed(1, bytes(4)))
        spans = Spans()
        spans.next_id = 7
        self.assertEqual((spans.renumber(room), spans.next_id), (16, 9))
        self.assertEqual(room.tobytes(), framed(7, bytes(4)) + framed(8, bytes(4)))


class OfTheModule(unittest.TestCase):
    def test_the_version_is_the_library_s(self):
        self.assertRegex(mysql_wire.version(), r"^0\.2\.\d+$")
        self.assertEqual(mysql_wire.version(), mysql_wire.__version__)

    def test_another_version_is_refused(self):
        with open(mysql_wire.__file__, encoding="utf-8") as file:
            other = file.read().replace('__version__ = "0.2', '__version__ = "0.1')
        names = {"__file__": mysql_wire.__file__, "__name__": "other"}
        with self.assertRaisesRegex(ImportError, r"is of version 0\.2\.0, and this module for 0\.1\.0"):
            exec(compile(other, "other", "exec"), names)

    def test_the_examples_of_the_documentation(self):
        self.assertEqual(doctest.testmod(mysql_wire).failed, 0)
        self.assertGreater(doctest.testmod(mysql_wire).attempted, 10)


if __name__ == "__main__":
    unittest.main()
