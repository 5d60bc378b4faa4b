"""MySQL's packets out of bytes and back, and the fields inside them.

The work is done by a proved library; this module calls it. It does no input and no output: feed a
`Connection` what one read of a socket gave, take the packets that are whole, and send what `encode`
answers.

>>> came = bytes.fromhex("05000000ff15046e6f 0100")  # what one read gave
>>> with Connection() as connection:
...     for packet in connection.receive(came):
...         fields = Fields(packet)
...         print(fields.fixed_int(1), fields.fixed_int(2), fields.rest())
...     print(connection.encode(b"\\x01"))
255 1045 b'no'
b'\\x01\\x00\\x00\\x01\\x01'

https://dev.mysql.com/doc/dev/mysql-server/latest/page_protocol_basic_packets.html
"""

from __future__ import annotations

import ctypes
import ctypes.util
import os
import warnings
import weakref
from array import array
from ctypes import (
    POINTER, byref, c_char_p, c_int32, c_size_t, c_uint8, c_uint16, c_uint32, c_uint64, c_void_p,
)
from enum import IntEnum
from itertools import chain
from operator import index, length_hint
from typing import (
    Any, Callable, Iterable, Iterator, List, NamedTuple, Optional, Tuple, Type, Union,
)

__all__ = [
    "Closed", "Connection", "Error", "Fields", "MissingBytes", "NeedsWhole", "NotAFront",
    "NotANumber", "OutOfMemory", "PacketKind", "PacketTooLarge", "PacketWaits", "PacketsOutOfSync",
    "Phase", "Received", "Sender", "Session", "Side", "Spans", "Statement", "int_bytes",
    "lenenc_bytes", "lenenc_int_bytes", "null_bytes", "version",
]
__version__ = "0.2.0"

Bytes = Union[bytes, bytearray, memoryview]


class Error(Exception):
    """A refusal of the library."""


class PacketTooLarge(Error):
    """A packet is above the limit. What came stays; `set_limit` with more goes on."""


class PacketsOutOfSync(Error):
    """A packet bears another number than the expected one. What comes is lost from there on."""


class OutOfMemory(Error, MemoryError):
    """Memory was refused. Nothing is lost, and the call may be made again."""


class Closed(Error):
    """The connection, or the session, is closed."""


class PacketWaits(Error):
    """A packet stands whole, and has to be taken before the limit is set."""


class MissingBytes(Error, EOFError):
    """The bytes end inside a field."""


class NotANumber(Error, ValueError):
    """fb or ff where a length-encoded integer has to stand, or a width that isn't 1 to 8."""


class NotAFront(Error, ValueError):
    """Neither a payload nor its first bytes, three or more."""


class NeedsWhole(Error):
    """What a session knows after a packet of this `kind` hangs on all of it. Nothing has changed:
    give the whole payload.
    """

    def __init__(self, kind: PacketKind) -> None:
        super().__init__(f"the whole packet is needed: {kind.name}")
        self.kind = kind


_REFUSALS = {
    -1: PacketTooLarge,
    -2: PacketsOutOfSync,
    -3: OutOfMemory,
    -5: Closed,
    -7: PacketWaits,
    -9: MissingBytes,
    -10: NotANumber,
    -13: NotAFront,
}
_OUT_OF_SYNC = -2
_PACKET_WAITS = -7
_NO_STATEMENT = -14
_NEEDS_WHOLE = 4
_REFUSED = 5
_NOWHERE = (1 << 64) - 1  # where a text is that is NULL
_CHUNK_HEADER = 4
_JUDGED = 1024  # how many packets are judged by one call of the library


class _View(ctypes.Structure):
    # Bytes that the library lends.
    _fields_ = [("at", c_void_p), ("len", c_size_t)]

    at: Optional[int]
    len: int

    def copied(self) -> bytes:
        return ctypes.string_at(self.at or 0, self.len)


class _Span(ctypes.Structure):
    # Where a text stands in the bytes that were read.
    _fields_ = [("at", c_size_t), ("len", c_size_t)]

    at: int
    len: int


class _Spans(ctypes.Structure):
    # The place in a stream of packets.
    _fields_ = [
        ("limit", c_size_t), ("size", c_size_t), ("left", c_size_t), ("header", c_uint8 * 3),
        ("header_len", c_uint8), ("id", c_uint8), ("next_id", c_uint8),
        ("reserved", c_uint8 * 34),
    ]

    limit: int
    size: int
    header_len: int
    id: int
    next_id: int


def _library_path() -> str:
    beside = os.path.join(os.path.dirname(__file__), "libmysql_wire.so.0")
    named = os.environ.get("MYSQL_WIRE_LIBRARY")
    if named or os.path.exists(beside):
        return named or beside
    found = ctypes.util.find_library("mysql_wire")
    if found is None:
        raise ImportError("libmysql_wire.so.0 is missing: install it, or name it in MYSQL_WIRE_LIBRARY")
    return found


def _checked_version(shared: ctypes.CDLL, path: str) -> str:
    # The library's version. Its calls are these where the first two numbers are this module's.
    call = shared.mysql_wire_version
    call.restype, call.argtypes = c_uint32, []
    number = call()
    found = f"{number // 10000}.{number // 100 % 100}.{number % 100}"
    if found.rpartition(".")[0] != __version__.rpartition(".")[0]:
        raise ImportError(f"{path} is of version {found}, and this module for {__version__}")
    return found


_path = _library_path()
_shared = ctypes.CDLL(_path)
_version = _checked_version(_shared, _path)


def _call(name: str, answers: Any, *takes: Any) -> Callable[..., int]:
    call = getattr(_shared, "mysql_wire_" + name)
    call.restype, call.argtypes = answers, takes
    return call  # type: ignore[no-any-return]


_HANDLE = POINTER(c_void_p)
_COUNT = POINTER(c_size_t)
_PLACE = (c_char_p, c_size_t, _COUNT)

_open = _call("open", c_int32, c_size_t, _HANDLE)
_close = _call("close", None, _HANDLE)
_feed = _call("feed", c_int32, _HANDLE, c_void_p, c_size_t)
_peek = _call("peek", c_int32, _HANDLE, POINTER(_View))
_take = _call("take", c_int32, _HANDLE)
_decode = _call("decode", c_int32, _HANDLE, c_void_p, c_size_t, _COUNT, POINTER(_View))
_decode_many = _call(
    "decode_many", c_int32, _HANDLE, c_void_p, c_size_t, c_void_p, c_size_t, _COUNT, _COUNT
)
_set_limit = _call("set_limit", c_int32, _HANDLE, c_size_t)
_unread = _call("unread", c_size_t, _HANDLE)
_encode = _call("encode", c_int32, _HANDLE, c_char_p, c_size_t)
_pending = _call("pending", None, _HANDLE, POINTER(_View))
_sent = _call("sent", c_size_t, _HANDLE, c_size_t)
_reset = _call("reset", c_int32, _HANDLE)
_sequence_id = _call("sequence_id", c_int32, _HANDLE)
_set_sequence_id = _call("set_sequence_id", c_int32, _HANDLE, c_uint8)
_packet_id_of = _call("packet_id", c_int32, _HANDLE)
_judge_front = _call("judge_front", c_int32, _HANDLE)
_spans_init = _call("spans_init", None, POINTER(_Spans), c_size_t, c_uint8)
_spans_next = _call(
    "spans_next", c_int32, POINTER(_Spans), c_void_p, c_size_t, _COUNT, POINTER(_View),
    POINTER(c_uint8),
)
_spans_renumber = _call(
    "spans_renumber", c_int32, POINTER(_Spans), c_void_p, c_size_t, _COUNT
)
_session_new = _call("session_new", c_int32, _HANDLE)
_session_free = _call("session_free", None, _HANDLE)
_session_packet = _call(
    "session_packet", c_int32, _HANDLE, c_uint32, c_uint8, c_char_p, c_size_t, POINTER(c_uint32)
)
_FRONT = (_HANDLE, c_uint32, c_uint8, c_size_t, c_char_p, c_size_t, POINTER(c_uint32))
_session_front = _call("session_front", c_int32, *_FRONT)
_session_classify = _call("session_classify", c_int32, *_FRONT)
_session_pass = _call("session_pass", c_int32, _HANDLE, c_uint32, c_uint8, c_size_t)
_session_phase = _call("session_phase", c_int32, _HANDLE)
_session_next_sender = _call("session_next_sender", c_int32, _HANDLE)
_session_is_idle = _call("session_is_idle", c_int32, _HANDLE)
_session_status = _call("session_status", c_int32, _HANDLE)
_session_capabilities = _call("session_capabilities", c_uint32, _HANDLE)
_session_next_id = _call("session_next_id", c_int32, _HANDLE)
_session_statement = _call(
    "session_statement", c_int32, _HANDLE, c_uint32, POINTER(c_uint16), POINTER(c_uint16)
)
_message = _call("message", None, c_int32, POINTER(_View))
_read_int = _call("read_int", c_int32, *_PLACE, c_size_t, POINTER(c_uint64))
_read_lenenc_int = _call("read_lenenc_int", c_int32, *_PLACE, POINTER(c_uint64))
_read_lenenc_bytes = _call("read_lenenc_bytes", c_int32, *_PLACE, POINTER(_Span))
_read_null_bytes = _call("read_null_bytes", c_int32, *_PLACE, POINTER(_Span))
_read_row = _call("read_row", c_int32, *_PLACE, c_void_p, c_size_t)
_write_int = _call("write_int", c_int32, *_PLACE, c_size_t, c_uint64)
_write_lenenc_int = _call("write_lenenc_int", c_int32, *_PLACE, c_uint64)


def _checked(code: int) -> int:
    if code >= 0:
        return code
    text = _View()
    _message(code, byref(text))
    refusal: Type[Error] = _REFUSALS.get(code, Error)
    raise refusal(text.copied().decode())


def _bytes_of(data: Bytes) -> bytes:
    # The bytes of what has them; a TypeError where it has none, as of a number.
    return data if type(data) is bytes else memoryview(data).tobytes()


def _within(number: int, bits: int) -> int:
    # A number that this many bits hold.
    number = index(number)
    if not 0 <= number < 1 << bits:
        raise OverflowError(f"{number} is not between 0 and 2**{bits} - 1")
    return number


def _packet_id(number: int) -> int:
    # A number that a packet can bear.
    number = index(number)
    if not 0 <= number <= 255:
        raise ValueError(f"{number} is no packet's number, which is 0 to 255")
    return number


def _count_of(number: int) -> int:
    number = index(number)
    if number < 0:
        raise ValueError(f"{number} is less than no bytes")
    return number


def _width(number: int) -> int:
    number = index(number)
    if not 1 <= number <= 8:
        raise NotANumber(f"no number has {number} bytes, but 1 to 8")
    return number


def _address(data: bytes) -> int:
    return ctypes.cast(c_char_p(data), c_void_p).value or 0


def version() -> str:
    """The version of the library."""
    return _version


class Connection:
    """One side of a connection, of packets of at most `limit` payload bytes. It is used by one
    thread at a time, and closed in the end: by `close`, by `with`, or when nothing holds it.

    >>> with Connection(limit=3) as server:
    ...     server.feed(b"\\x03\\0\\0\\0abc\\x01\\0")
    ...     print(server.next_packet(), server.next_packet(), server.unread, server.sequence_id)
    b'abc' None 2 1
    """

    # What `receive` takes stays here until it is asked for: `_data`, of which `_at` bytes are after
    # what the library has seen. The packets of `_judged` are accepted, and the library stands after
    # all of them; `_ahead` hands them out. Where another call comes before all are handed out, the
    # library is set back to the next of them, and gets what is left of `_data`. `_is_lent`: the library
    # found a whole packet where the limit was to be set, and lends it.

    def __init__(self, limit: int = 4194304) -> None:
        limit = _within(limit, 64)
        self._handle = c_void_p()
        self._data = b""
        self._at = 0
        self._is_lent = False
        self._judged: List[bytes] = []
        self._ahead: Iterator[bytes] = iter(())
        self._places = array("Q")
        self._counts = (c_size_t(), c_size_t())
        _checked(_open(limit, byref(self._handle)))
        self._closed = weakref.finalize(self, _close, byref(self._handle))

    def __enter__(self) -> Connection:
        return self

    def __exit__(self, *_: object) -> None:
        self.close()

    def close(self) -> None:
        """Frees what it holds. Each later call raises `Closed`."""
        self._closed()
        self._judged.clear()
        self._data, self._at = b"", 0

    def feed(self, data: Bytes) -> None:
        """Takes bytes that came."""
        data = _bytes_of(data)
        self._settle()
        _checked(_feed(byref(self._handle), data, len(data)))

    def next_packet(self) -> Optional[bytes]:
        """The payload of the next packet, or None where none is whole."""
        return next(self.packets(), None)

    def packets(self) -> Iterator[bytes]:
        """The payloads of all packets that are whole."""
        self._settle()
        return iter(self._fed_packet, None)

    def receive(self, data: Bytes) -> Iterator[bytes]:
        """Takes bytes that came, and answers the packets that are whole with them. What isn't asked
        for now is there for a later call.
        """
        data = _bytes_of(data)
        self._settle()
        _checked(_sequence_id(byref(self._handle)))
        if self._is_lent:
            # (`_decode_many` and `_decode` would take it)
            self.feed(data)
            return self.packets()
        self._data, self._at = data, 0
        return chain.from_iterable(self._received())

    def _received(self) -> Iterator[Iterable[bytes]]:
        # The packets that came, by as many as are accepted at once.
        while True:
            if self._at < len(self._data):
                if self._judge():
                    yield self._ahead
                    continue
                packet = self._cut_packet()
            else:
                packet = self._fed_packet()
            if packet is None:
                return
            yield (packet,)

    def _judge(self) -> int:
        # Has the library accept the packets that stand whole in front of `_data`. How many.
        places, (count, used) = self._places, self._counts
        if not places:
            places.frombytes(bytes(16 * _JUDGED))
        data, front = self._data, self._at
        _decode_many(
            byref(self._handle), _address(data) + front if front else data, len(data) - front,
            places.buffer_info()[0], _JUDGED, byref(count), byref(used),
        )
        numbers = iter(places[: 2 * count.value])
        if front:
            packets = [data[front + at : front + at + size] for at, size in zip(numbers, numbers)]
        else:
            packets = [data[at : at + size] for at, size in zip(numbers, numbers)]
        self._judged, self._ahead = packets, iter(packets)
        self._at = front + used.value
        return count.value

    def _cut_packet(self) -> Optional[bytes]:
        # The next packet, which doesn't lie whole in `_data`, or None where more is needed.
        used, packet = self._counts[1], _View()
        front = _address(self._data) + self._at
        code = _decode(
            byref(self._handle), front, len(self._data) - self._at, byref(used), byref(packet)
        )
        self._at += used.value
        if not _checked(code):
            return None
        payload = packet.copied()
        _take(byref(self._handle))
        return payload

    def _fed_packet(self) -> Optional[bytes]:
        # The next packet of what the library has.
        self._settle()
        packet = _View()
        if not _checked(_peek(byref(self._handle), byref(packet))):
            return None
        payload = packet.copied()
        _checked(_take(byref(self._handle)))
        self._is_lent = False
        return payload

    def _settle(self) -> None:
        # Sets the library after the last packet that was handed out, and gives it all that came.
        if self._at < len(self._data) or self._judged:
            self._set_back()

    def _set_back(self) -> None:
        kept = length_hint(self._ahead)
        front = self._at
        if kept:
            left = self._judged[-kept:]
            front -= sum(map(len, left)) + _CHUNK_HEADER * kept
        rest = self._data[front:]
        if rest:
            code = _feed(byref(self._handle), rest, len(rest))
            # (of a stream that is lost, what is left is lost too)
            if code != _OUT_OF_SYNC:
                _checked(code)
        if kept:
            number = _sequence_id(byref(self._handle)) - kept
            _checked(_set_sequence_id(byref(self._handle), number % 256))
            del self._judged[-kept:]
        self._judged, self._ahead = [], iter(())
        self._data, self._at = b"", 0

    def set_limit(self, limit: int) -> None:
        """Sets the most payload bytes of a packet, for what comes from now on and what is sent."""
        limit = _within(limit, 64)
        self._settle()
        code = _set_limit(byref(self._handle), limit)
        self._is_lent = code == _PACKET_WAITS
        _checked(code)

    @property
    def unread(self) -> int:
        """How many bytes came of which no packet was made: 0 between two packets."""
        self._settle()
        return _unread(byref(self._handle))

    @property
    def sequence_id(self) -> int:
        """The number of the next packet: 0 to 255."""
        number = _checked(_sequence_id(byref(self._handle)))
        return (number - length_hint(self._ahead)) % 256

    @sequence_id.setter
    def sequence_id(self, number: int) -> None:
        number = _packet_id(number)
        self._settle()
        _checked(_set_sequence_id(byref(self._handle), number))

    @property
    def packet_id(self) -> int:
        """The number of the packet that came or went last, and of its last chunk where it has more;
        255 where none did.
        """
        number = _checked(_packet_id_of(byref(self._handle)))
        return (number - length_hint(self._ahead)) % 256

    def judge_front(self) -> None:
        """Raises `PacketsOutOfSync` where the header in front bears another number than the expected
        one, as soon as it has come: ask it where no packet is whole. The other calls refuse such a
        packet only once its chunk has come, of up to 16777215 bytes. A client wants to be told here.

        >>> with Connection(limit=1 << 24) as connection:
        ...     print(list(connection.receive(b"\\0\\0\\x80\\x05")))
        ...     connection.judge_front()
        Traceback (most recent call last):
        mysql_wire.PacketsOutOfSync: a packet bears another number than the expected one
        """
        self._settle()
        _checked(_judge_front(byref(self._handle)))

    def reset(self) -> None:
        """Numbers the next packet 0, as at the start of a command."""
        self._settle()
        _checked(_reset(byref(self._handle)))

    def encode(self, payload: Bytes) -> bytes:
        """The bytes of a packet, to be sent. Its number follows that of the last packet.

        >>> Connection().encode(b"\\x03DO 1")
        b'\\x05\\x00\\x00\\x00\\x03DO 1'
        """
        payload = _bytes_of(payload)
        self._settle()
        _checked(_encode(byref(self._handle), payload, len(payload)))
        pending = _View()
        _pending(byref(self._handle), byref(pending))
        framed = pending.copied()
        _sent(byref(self._handle), len(framed))
        return framed


class Spans:
    """The place in a stream of packets of at most `limit` payload bytes, the first of them numbered
    `id`. Packets of any size are handed out as their bytes come, or go on with other numbers, and
    nothing is kept of them. `limit`, `id` (the number that the next chunk is to bear) and `next_id`
    (the one that `renumber` gives it) may be set at any time.

    >>> spans = Spans(limit=1 << 30)
    >>> for data in (b"\\x03\\0\\0\\0ab", b"c\\0\\0\\0\\x01"):
    ...     for part, ends in spans.parts(data):
    ...         print(part, ends)
    b'ab' False
    b'c' True
    b'' True
    """

    def __init__(self, limit: int = 4194304, id: int = 0) -> None:
        self._spans = _Spans()
        self.taken = 0  # how many bytes of the last data `parts` took
        _spans_init(byref(self._spans), _within(limit, 64), _packet_id(id))

    def parts(self, data: Bytes) -> Iterator[Tuple[bytes, bool]]:
        """The parts of packets in the next bytes of the stream, each with whether it ends its
        packet. Where a packet is refused, those before it come first; `taken` bytes were taken,
        and the others may be given again, under a larger limit or with another `id`.
        """
        return self._parts(_bytes_of(data))

    def _parts(self, data: bytes) -> Iterator[Tuple[bytes, bool]]:
        self.taken = 0
        used, ends, view = c_size_t(), c_uint8(), _View()
        start = _address(data)
        while True:
            front, left = c_void_p(start + self.taken), len(data) - self.taken
            code = _checked(_spans_next(
                byref(self._spans), front, left, byref(used), byref(view), byref(ends)
            ))
            self.taken += used.value
            if not code:
                return
            yield data[self.taken - view.len : self.taken], ends.value == 1

    def renumber(self, data: Union[bytearray, memoryview]) -> int:
        """Writes `next_id` and the numbers after it over those of the packets, and nothing else.
        Answers how many bytes may go: all, or those before a packet that is refused. Of what is
        left, the next call says why.
        """
        used = c_size_t()
        count = memoryview(data).nbytes
        room = (c_uint8 * count).from_buffer(data)
        code = _spans_renumber(byref(self._spans), room, count, byref(used))
        if used.value == 0 and count > 0:
            _checked(code)
        return used.value

    @property
    def is_between_packets(self) -> bool:
        """Whether nothing of a packet has come that has not ended."""
        return self._spans.size == 0 and self._spans.header_len == 0

    @property
    def limit(self) -> int:
        return self._spans.limit

    @limit.setter
    def limit(self, limit: int) -> None:
        self._spans.limit = _within(limit, 64)

    @property
    def id(self) -> int:
        return self._spans.id

    @id.setter
    def id(self, id: int) -> None:
        self._spans.id = _packet_id(id)

    @property
    def next_id(self) -> int:
        return self._spans.next_id

    @next_id.setter
    def next_id(self, id: int) -> None:
        self._spans.next_id = _packet_id(id)


class Side(IntEnum):
    """One of the two that a connection joins."""

    CLIENT = 0
    SERVER = 1


class Sender(IntEnum):
    """Whose packet is next: either's while the client authenticates itself, and where no packet is
    waited for.
    """

    CLIENT = 0
    SERVER = 1
    EITHER = 2


class Phase(IntEnum):
    """What a session waits for."""

    GREETING = 0
    LOGIN = 1
    AUTHENTICATION = 2
    COMMAND = 3
    ANSWER = 4
    PREPARE_ANSWER = 5
    OPTION_ANSWER = 6
    STATISTICS = 7
    FIELD_LIST = 8
    BINARY_LOG = 9
    COLUMNS = 10
    COLUMNS_END = 11
    ROWS = 12
    FILE = 13
    CLOSED = 14
    ENCRYPTED = 15


class PacketKind(IntEnum):
    """What a packet is, at its place."""

    GREETING = 1
    TLS_REQUEST = 2
    LOGIN = 3
    AUTH_SWITCH = 4
    AUTH_MORE_DATA = 5
    AUTH_ANSWER = 6
    OK = 7
    ERROR = 8
    PROGRESS = 9
    EOF = 10
    COLUMN_COUNT = 11
    COLUMN = 12
    ROW = 13
    BINARY_ROW = 14
    LOCAL_INFILE = 15
    FILE = 16
    PREPARED = 17
    STATISTICS = 18
    BINARY_LOG_EVENT = 19
    QUERY = 20
    INIT_DATABASE = 21
    PING = 22
    QUIT = 23
    CHANGE_USER = 24
    PREPARE = 25
    EXECUTE = 26
    LONG_DATA = 27
    CLOSE_STATEMENT = 28
    RESET_STATEMENT = 29
    FETCH = 30
    FIELD_LIST = 31
    SET_OPTION = 32
    STATISTICS_REQUEST = 33
    RESET_CONNECTION = 34
    BINARY_LOG_REQUEST = 35
    OTHER_COMMAND = 36
    TOO_LARGE = 37
    REFUSED = 38


class Received(NamedTuple):
    """What a payload was, at its place, and whether it is no packet of that kind."""

    kind: PacketKind
    is_refused: bool


class Statement(NamedTuple):
    """How many parameters a prepared statement takes, and how many columns its rows have."""

    parameters: int
    columns: int


def _side(side: int) -> int:
    number = index(side)
    if not 0 <= number <= 1:
        raise ValueError(f"{number} is neither Side.CLIENT nor Side.SERVER")
    return number


class Session:
    """What both sides of a connection have sent so far, as far as it says what comes next: what each
    packet is, whose turn it is, and where an answer ends. It is told of every packet of either side,
    in order. It is used by one thread at a time, and closed in the end, as a `Connection` is.

    >>> greeting = b"\\x0a8\\0" + bytes(13) + b"\\0\\x82\\x2d\\x02" + bytes(27)
    >>> login = b"\\0\\x82" + bytes(30) + b"root\\0\\0"
    >>> with Session() as session:
    ...     for side, id, payload in (
    ...         (Side.SERVER, 0, greeting), (Side.CLIENT, 1, login),
    ...         (Side.SERVER, 2, b"\\0\\0\\0\\2\\0\\0\\0"), (Side.CLIENT, 0, b"\\x03SELECT 1"),
    ...     ):
    ...         kind, is_refused = session.advance(side, id, payload)
    ...         print(kind.name, session.next_sender.name, session.is_idle)
    GREETING CLIENT False
    LOGIN EITHER False
    OK CLIENT True
    QUERY SERVER False
    """

    def __init__(self) -> None:
        self._handle = c_void_p()
        _checked(_session_new(byref(self._handle)))
        self._closed = weakref.finalize(self, _session_free, byref(self._handle))

    def __enter__(self) -> Session:
        return self

    def __exit__(self, *_: object) -> None:
        self.close()

    def close(self) -> None:
        """Frees what it holds. Each later call raises `Closed`."""
        self._closed()

    def advance(self, side: int, id: int, payload: Bytes) -> Received:
        """Reads a whole payload, whose first chunk is numbered `id`, and goes on after it; after one
        that is no packet of its kind too, by its kind and length alone.
        """
        side, id, payload, kind = _side(side), _packet_id(id), _bytes_of(payload), c_uint32()
        code = _session_packet(
            byref(self._handle), side, id, payload, len(payload), byref(kind)
        )
        is_refused = _checked(code) == _REFUSED
        return Received(PacketKind(kind.value), is_refused)

    def advance_front(self, side: int, id: int, size: int, front: Bytes) -> PacketKind:
        """Goes on after a packet of `size` bytes, of which this front has come: three of them or
        more, or all. Rows, pieces of files, statements and most other packets need no more; of the
        others it raises `NeedsWhole`, where the front is not all. Whether it is a packet of its kind,
        only `advance` says.
        """
        code, kind = self._told(_session_front, side, id, size, front)
        if code == _NEEDS_WHOLE:
            raise NeedsWhole(kind)
        return kind

    def classify(self, side: int, id: int, size: int, front: Bytes) -> PacketKind:
        """What such a packet is. Nothing changes."""
        return self._told(_session_classify, side, id, size, front)[1]

    def _told(
        self, call: Callable[..., int], side: int, id: int, size: int, front: Bytes
    ) -> Tuple[int, PacketKind]:
        side, id, size = _side(side), _packet_id(id), _within(size, 64)
        front, kind = _bytes_of(front), c_uint32()
        code = _checked(
            call(byref(self._handle), side, id, size, front, len(front), byref(kind))
        )
        return code, PacketKind(kind.value)

    def pass_over(self, side: int, id: int, size: int) -> None:
        """Goes on after a packet of `size` bytes that was not looked at, as one above a limit."""
        side, id, size = _side(side), _packet_id(id), _within(size, 64)
        _checked(_session_pass(byref(self._handle), side, id, size))

    @property
    def phase(self) -> Phase:
        """What is waited for."""
        return Phase(_checked(_session_phase(byref(self._handle))))

    @property
    def next_sender(self) -> Sender:
        """Whose packet is next."""
        return Sender(_checked(_session_next_sender(byref(self._handle))))

    @property
    def is_idle(self) -> bool:
        """Whether a command is waited for, so that another client may have the connection."""
        return _checked(_session_is_idle(byref(self._handle))) == 1

    @property
    def status(self) -> int:
        """The flags that the last OK or EOF told: whether a transaction is open, say. 0 before the
        first.
        """
        return _checked(_session_status(byref(self._handle)))

    @property
    def capabilities(self) -> int:
        """The flags of what the client can do, by its login; before that, `CLIENT_PROTOCOL_41`."""
        _checked(_session_phase(byref(self._handle)))
        return _session_capabilities(byref(self._handle))

    @property
    def next_id(self) -> int:
        """The number that follows the last packet's last chunk."""
        return _checked(_session_next_id(byref(self._handle)))

    def statement(self, number: int) -> Optional[Statement]:
        """The newest statement of this number, of the last 64 that were prepared."""
        number, parameters, columns = _within(number, 32), c_uint16(), c_uint16()
        code = _session_statement(
            byref(self._handle), number, byref(parameters), byref(columns)
        )
        if code == _NO_STATEMENT:
            return None
        _checked(code)
        return Statement(parameters.value, columns.value)


class Fields:
    """The fields of a payload, one after another. A refusal reads nothing.

    >>> fields = Fields(b"\\x2a\\0\\x03one\\xfbtwo\\0rest")
    >>> fields.fixed_int(2), fields.lenenc_bytes_or_none(), fields.lenenc_bytes_or_none()
    (42, b'one', None)
    >>> fields.null_bytes(), fields.take(1), fields.rest(), len(fields)
    (b'two', b'r', b'est', 0)
    """

    def __init__(self, payload: Bytes) -> None:
        self._bytes = payload if type(payload) is bytes else _bytes_of(payload)
        self._at = c_size_t()

    def __len__(self) -> int:
        """How many bytes are left."""
        return len(self._bytes) - self._at.value

    def fixed_int(self, width: int) -> int:
        """A number of this many bytes, 1 to 8, the least significant first."""
        width, value = _width(width), c_uint64()
        _checked(_read_int(self._bytes, len(self._bytes), byref(self._at), width, byref(value)))
        return value.value

    def lenenc_int(self) -> int:
        """A length-encoded integer."""
        value = c_uint64()
        _checked(_read_lenenc_int(self._bytes, len(self._bytes), byref(self._at), byref(value)))
        return value.value

    def lenenc_bytes(self) -> bytes:
        """A text after its length."""
        return self._text(_read_lenenc_bytes)

    def lenenc_bytes_or_none(self) -> Optional[bytes]:
        """A value of a text row: a text after its length, or None where `fb` stands for NULL."""
        if self._bytes[self._at.value : self._at.value + 1] == b"\xfb":
            self._at.value += 1
            return None
        return self.lenenc_bytes()

    def row(self, columns: int) -> List[Optional[bytes]]:
        """The values of a text row, this many, by one call of the library: texts, or None for NULL.

        >>> Fields(b"\\x03one\\xfb\\0").row(3)
        [b'one', None, b'']
        """
        data, at = self._bytes, self._at
        # (each value has a byte, so that a number which is too large takes no memory)
        if not 0 <= columns <= len(data) - at.value:
            _count_of(columns)
            raise MissingBytes("the bytes end inside a field")
        places = array("Q", bytes(16 * columns))
        code = _read_row(data, len(data), byref(at), places.buffer_info()[0], columns)
        if code:
            _checked(code)
        numbers = iter(places)
        return [
            data[front : front + size] if size or front != _NOWHERE else None
            for front, size in zip(numbers, numbers)
        ]

    def null_bytes(self) -> bytes:
        """The text before the next zero, which is read with it."""
        return self._text(_read_null_bytes)

    def take(self, count: int) -> bytes:
        """So many bytes."""
        if _count_of(count) > len(self):
            raise MissingBytes("the bytes end inside a field")
        return self._taken(count)

    def rest(self) -> bytes:
        """All that is left."""
        return self._taken(len(self))

    def _text(self, read: Callable[..., int]) -> bytes:
        text = _Span()
        _checked(read(self._bytes, len(self._bytes), byref(self._at), byref(text)))
        return self._bytes[text.at : text.at + text.len]

    def _taken(self, count: int) -> bytes:
        front = self._bytes[self._at.value : self._at.value + count]
        self._at.value += len(front)
        return front


def _old_name(old: str, new: str) -> None:
    # The name that a method of `Fields` had in 0.1, till 0.3.
    def call(self: Fields, count: int) -> Any:
        warnings.warn(f"Fields.{old} is Fields.{new} now", DeprecationWarning, stacklevel=2)
        return getattr(self, new)(count)

    call.__name__, call.__doc__ = old, f"The old name of `{new}`."
    setattr(Fields, old, call)


_old_name("int", "fixed_int")
_old_name("bytes", "take")


def _written(call: Callable[..., int], *field: int) -> bytes:
    room, at = ctypes.create_string_buffer(9), c_size_t(0)
    _checked(call(ctypes.cast(room, c_char_p), len(room), byref(at), *field))
    return room.raw[: at.value]


def int_bytes(value: int, width: int) -> bytes:
    """A number in this many bytes, 1 to 8, the least significant first.

    >>> int_bytes(1045, 2)
    b'\\x15\\x04'
    """
    width = _width(width)
    return _written(_write_int, width, _within(value, 8 * width))


def lenenc_int_bytes(value: int) -> bytes:
    """A length-encoded integer, in as few bytes as hold the number.

    >>> lenenc_int_bytes(250), lenenc_int_bytes(251)
    (b'\\xfa', b'\\xfc\\xfb\\x00')
    """
    return _written(_write_lenenc_int, _within(value, 64))


def lenenc_bytes(text: Bytes) -> bytes:
    """A text after its length.

    >>> lenenc_bytes(b"one")
    b'\\x03one'
    """
    text = _bytes_of(text)
    return lenenc_int_bytes(len(text)) + text


def null_bytes(text: Bytes) -> bytes:
    """A text, which must have no zero, and a zero.

    >>> null_bytes(b"root")
    b'root\\x00'
    """
    text = _bytes_of(text)
    if 0 in text:
        raise ValueError("the text has a zero")
    return text + b"\0"
