//! The calls of the library as safe functions: all `unsafe` code of this crate. Each answers the
//! library's code, which `mysql_wire.h` explains.
//!
//! What the library asks of a caller holds of all of them: a slice is valid for its length, a place
//! is borrowed for the call alone, and a handle is one that `mysql_wire_open` made, on which one call
//! is made at a time: it isn't `Sync`. What a call lends is borrowed from the handle, and the calls
//! that take `&Handle` leave it.

use mysql_wire_sys as c;
use std::cell::UnsafeCell;
use std::mem::MaybeUninit;
use std::ops::Range;
use std::ptr;
use std::slice;

const NOTHING: c::View = c::View { at: ptr::null(), len: 0 };

/// A connection's handle. It is closed where it is dropped.
pub struct Handle(UnsafeCell<c::Handle>);

// SAFETY: a connection has no state beside its own memory, so it may move to another thread; it isn't
// `Sync`, so that one thread makes calls at a time.
unsafe impl Send for Handle {}

impl Drop for Handle {
    fn drop(&mut self) {
        // SAFETY: the handle is open. NULL is left.
        unsafe { c::mysql_wire_close(self.0.get()) }
    }
}

/// A session's handle. It is freed where it is dropped.
pub struct SessionHandle(UnsafeCell<c::SessionHandle>);

// SAFETY: a session has no state beside its own memory, so it may move to another thread; it isn't
// `Sync`, so that one thread makes calls at a time.
unsafe impl Send for SessionHandle {}

impl Drop for SessionHandle {
    fn drop(&mut self) {
        // SAFETY: the handle has a session. NULL is left.
        unsafe { c::mysql_wire_session_free(self.0.get()) }
    }
}

pub fn version() -> u32 {
    // SAFETY: it takes nothing.
    unsafe { c::mysql_wire_version() }
}

pub fn open(limit: usize) -> Result<Handle, i32> {
    let mut handle = ptr::null_mut();
    // SAFETY: the handle is NULL, as it has to be.
    match unsafe { c::mysql_wire_open(limit, &mut handle) } {
        0 => Ok(Handle(UnsafeCell::new(handle))),
        code => Err(code),
    }
}

pub fn feed(handle: &mut Handle, bytes: &[u8]) -> i32 {
    // SAFETY: the handle is open, and the slice valid for its length.
    unsafe { c::mysql_wire_feed(handle.0.get(), bytes.as_ptr(), bytes.len()) }
}

/// The code, and the packet where the code is above 0. It borrows from the connection.
pub fn peek(handle: &mut Handle) -> (i32, &[u8]) {
    let mut packet = NOTHING;
    // SAFETY: the handle is open, and the view a local. Where the code is above 0 the view is set, to
    // bytes that stay until the next call on the handle, which is borrowed as long as they are.
    unsafe {
        let code = c::mysql_wire_peek(handle.0.get(), &mut packet);
        (code, if code > 0 { slice::from_raw_parts(packet.at, packet.len) } else { &[] })
    }
}

pub fn take(handle: &mut Handle) -> i32 {
    // SAFETY: the handle is open.
    unsafe { c::mysql_wire_take(handle.0.get()) }
}

pub fn set_limit(handle: &mut Handle, limit: usize) -> i32 {
    // SAFETY: the handle is open.
    unsafe { c::mysql_wire_set_limit(handle.0.get(), limit) }
}

pub fn unread(handle: &Handle) -> usize {
    // SAFETY: the handle is open.
    unsafe { c::mysql_wire_unread(handle.0.get()) }
}

pub fn encode(handle: &mut Handle, payload: &[u8]) -> i32 {
    // SAFETY: the handle is open, and the slice valid for its length.
    unsafe { c::mysql_wire_encode(handle.0.get(), payload.as_ptr(), payload.len()) }
}

pub fn pending(handle: &Handle) -> &[u8] {
    let mut bytes = NOTHING;
    // SAFETY: the handle is open, and the view a local, which the call sets, to bytes that stay until
    // the next call on the handle.
    unsafe {
        c::mysql_wire_pending(handle.0.get(), &mut bytes);
        slice::from_raw_parts(bytes.at, bytes.len)
    }
}

pub fn sent(handle: &mut Handle, count: usize) {
    // SAFETY: the handle is open.
    unsafe { c::mysql_wire_sent(handle.0.get(), count) };
}

pub fn reset(handle: &mut Handle) -> i32 {
    // SAFETY: the handle is open.
    unsafe { c::mysql_wire_reset(handle.0.get()) }
}

pub fn sequence_id(handle: &Handle) -> i32 {
    // SAFETY: the handle is open.
    unsafe { c::mysql_wire_sequence_id(handle.0.get()) }
}

pub fn packet_id(handle: &Handle) -> i32 {
    // SAFETY: the handle is open.
    unsafe { c::mysql_wire_packet_id(handle.0.get()) }
}

pub fn judge_front(handle: &Handle) -> i32 {
    // SAFETY: the handle is open.
    unsafe { c::mysql_wire_judge_front(handle.0.get()) }
}

pub fn new_spans(limit: usize, id: u8) -> c::Spans {
    let mut spans = c::Spans {
        limit: 0,
        size: 0,
        left: 0,
        header: [0; 3],
        header_len: 0,
        id: 0,
        next_id: 0,
        reserved: [0; 34],
    };
    // SAFETY: the record is a local.
    unsafe { c::mysql_wire_spans_init(&mut spans, limit, id) };
    spans
}

/// The code, how many bytes were used, and how many of these, at their end, are the span; whether it
/// ends its packet.
pub fn next_span(spans: &mut c::Spans, bytes: &[u8]) -> (i32, usize, usize, bool) {
    let (mut used, mut ends, mut span) = (0, 0, NOTHING);
    // SAFETY: the slice is valid for its length, the others are places of their types.
    let code = unsafe {
        let (at, len) = (bytes.as_ptr(), bytes.len());
        c::mysql_wire_spans_next(spans, at, len, &mut used, &mut span, &mut ends)
    };
    (code, used, span.len, ends == 1)
}

/// The code, and how many bytes may go.
pub fn renumber(spans: &mut c::Spans, bytes: &mut [u8]) -> (i32, usize) {
    let mut used = 0;
    let (at, len) = (bytes.as_mut_ptr(), bytes.len());
    // SAFETY: the slice is valid for its length, the others are places of their types.
    let code = unsafe { c::mysql_wire_spans_renumber(spans, at, len, &mut used) };
    (code, used)
}

pub fn read_int(bytes: &[u8], at: &mut usize, width: usize, value: &mut u64) -> i32 {
    // SAFETY: the slice is valid for its length, the others are places of their types.
    unsafe { c::mysql_wire_read_int(bytes.as_ptr(), bytes.len(), at, width, value) }
}

pub fn read_lenenc_int(bytes: &[u8], at: &mut usize, value: &mut u64) -> i32 {
    // SAFETY: as of `read_int`.
    unsafe { c::mysql_wire_read_lenenc_int(bytes.as_ptr(), bytes.len(), at, value) }
}

pub fn read_lenenc_bytes(bytes: &[u8], at: &mut usize, text: &mut c::Span) -> i32 {
    // SAFETY: as of `read_int`.
    unsafe { c::mysql_wire_read_lenenc_bytes(bytes.as_ptr(), bytes.len(), at, text) }
}

pub fn read_null_bytes(bytes: &[u8], at: &mut usize, text: &mut c::Span) -> i32 {
    // SAFETY: as of `read_int`.
    unsafe { c::mysql_wire_read_null_bytes(bytes.as_ptr(), bytes.len(), at, text) }
}

pub fn read_row(bytes: &[u8], at: &mut usize, texts: &mut [c::Span]) -> i32 {
    let (places, count) = (texts.as_mut_ptr(), texts.len());
    // SAFETY: the slices are valid for their lengths, and `at` is a place.
    unsafe { c::mysql_wire_read_row(bytes.as_ptr(), bytes.len(), at, places, count) }
}

pub fn write_int(room: &mut [u8], at: &mut usize, width: usize, value: u64) -> i32 {
    // SAFETY: the room is valid for its length, and `at` is a place.
    unsafe { c::mysql_wire_write_int(room.as_mut_ptr(), room.len(), at, width, value) }
}

pub fn write_lenenc_int(room: &mut [u8], at: &mut usize, value: u64) -> i32 {
    // SAFETY: as of `write_int`.
    unsafe { c::mysql_wire_write_lenenc_int(room.as_mut_ptr(), room.len(), at, value) }
}

/// The code, how many of the bytes were used, and the packet where the code is above 0. It borrows
/// from the connection, or from the bytes.
#[inline]
pub fn decode<'a>(handle: &'a mut Handle, bytes: &'a [u8]) -> (i32, usize, &'a [u8]) {
    let (mut used, mut packet) = (0, NOTHING);
    // SAFETY: the handle is open, the slice valid for its length, the others are places of their
    // types. Where the code is above 0 the view is set, to bytes that stay until the next call on the
    // handle and as long as the slice, which are borrowed as long as they are.
    unsafe {
        let (at, len) = (bytes.as_ptr(), bytes.len());
        let code = c::mysql_wire_decode(handle.0.get(), at, len, &mut used, &mut packet);
        (code, used, if code > 0 { slice::from_raw_parts(packet.at, packet.len) } else { &[] })
    }
}

/// Where a packet stands in the bytes that were read.
#[derive(Clone, Copy, Debug)]
#[repr(transparent)]
pub struct Place(c::Span);

impl Place {
    /// Where no packet is, since no bytes are this many: for
    /// [`Connection::decode_many`](crate::Connection::decode_many) to write over.
    pub const NOWHERE: Place = Place(c::Span { at: 0, len: usize::MAX });

    /// The payload's bytes among those that were read.
    #[inline]
    pub fn range(self) -> Range<usize> {
        self.0.at..self.0.at + self.0.len
    }

    /// How many bytes the payload has.
    #[inline]
    pub fn payload_len(self) -> usize {
        self.0.len
    }
}

/// How many packets there are, and how many of the bytes were used.
#[inline]
pub fn decode_many(handle: &mut Handle, bytes: &[u8], places: &mut [Place]) -> (usize, usize) {
    let (mut count, mut used) = (0, 0);
    // SAFETY: the handle is open, the slices are valid for their lengths (a `Place` is a `Span`), the
    // others are places of their types.
    unsafe {
        let (at, len) = (bytes.as_ptr(), bytes.len());
        let (spans, room) = (places.as_mut_ptr().cast(), places.len());
        c::mysql_wire_decode_many(handle.0.get(), at, len, spans, room, &mut count, &mut used);
    }
    (count, used)
}

/// The code, and how many bytes.
pub fn framed_len(len: usize) -> (i32, usize) {
    let mut framed = 0;
    // SAFETY: `framed` is a place.
    let code = unsafe { c::mysql_wire_framed_len(len, &mut framed) };
    (code, framed)
}

/// The code, and how many bytes stand in the room, or are needed.
#[inline]
pub fn encode_to(
    handle: &mut Handle,
    payload: &[u8],
    room: &mut [MaybeUninit<u8>],
) -> (i32, usize) {
    let mut written = 0;
    // SAFETY: the handle is open, the slices are valid for their lengths, and what is written is not
    // read.
    let code = unsafe {
        let (at, len) = (payload.as_ptr(), payload.len());
        let (room, room_len) = (room.as_mut_ptr().cast(), room.len());
        c::mysql_wire_encode_to(handle.0.get(), at, len, room, room_len, &mut written)
    };
    (code, written)
}

/// The code, and the header.
#[inline]
pub fn encode_header(handle: &mut Handle, len: usize) -> (i32, [u8; 4]) {
    let mut header = [0; 4];
    // SAFETY: the handle is open, and the header a local of 4 bytes.
    let code = unsafe { c::mysql_wire_encode_header(handle.0.get(), len, header.as_mut_ptr()) };
    (code, header)
}

pub fn set_sequence_id(handle: &mut Handle, id: u8) -> i32 {
    // SAFETY: the handle is open.
    unsafe { c::mysql_wire_set_sequence_id(handle.0.get(), id) }
}

pub fn new_session() -> Result<SessionHandle, i32> {
    let mut handle = ptr::null_mut();
    // SAFETY: the handle is NULL, as it has to be.
    match unsafe { c::mysql_wire_session_new(&mut handle) } {
        0 => Ok(SessionHandle(UnsafeCell::new(handle))),
        code => Err(code),
    }
}

/// The code, and the number of a kind, or 0.
pub fn session_packet(handle: &mut SessionHandle, side: u32, id: u8, payload: &[u8]) -> (i32, u32) {
    let mut kind = 0;
    let (at, len) = (payload.as_ptr(), payload.len());
    // SAFETY: the handle has a session, the slice is valid for its length, and `kind` is a place.
    let code =
        unsafe { c::mysql_wire_session_packet(handle.0.get(), side, id, at, len, &mut kind) };
    (code, kind)
}

/// The code, and the number of a kind, or 0.
#[inline]
pub fn session_front(
    handle: &mut SessionHandle,
    side: u32,
    id: u8,
    len: usize,
    front: &[u8],
) -> (i32, u32) {
    let mut kind = 0;
    // SAFETY: as of `session_packet`.
    let code = unsafe {
        let (at, front_len) = (front.as_ptr(), front.len());
        c::mysql_wire_session_front(handle.0.get(), side, id, len, at, front_len, &mut kind)
    };
    (code, kind)
}

/// The code, and the number of a kind, or 0.
pub fn session_classify(
    handle: &SessionHandle,
    side: u32,
    id: u8,
    len: usize,
    front: &[u8],
) -> (i32, u32) {
    let mut kind = 0;
    // SAFETY: as of `session_packet`.
    let code = unsafe {
        let (at, front_len) = (front.as_ptr(), front.len());
        c::mysql_wire_session_classify(handle.0.get(), side, id, len, at, front_len, &mut kind)
    };
    (code, kind)
}

pub fn session_pass(handle: &mut SessionHandle, side: u32, id: u8, len: usize) -> i32 {
    // SAFETY: the handle has a session.
    unsafe { c::mysql_wire_session_pass(handle.0.get(), side, id, len) }
}

pub fn session_phase(handle: &SessionHandle) -> i32 {
    // SAFETY: the handle has a session.
    unsafe { c::mysql_wire_session_phase(handle.0.get()) }
}

pub fn session_next_sender(handle: &SessionHandle) -> i32 {
    // SAFETY: the handle has a session.
    unsafe { c::mysql_wire_session_next_sender(handle.0.get()) }
}

pub fn session_is_idle(handle: &SessionHandle) -> i32 {
    // SAFETY: the handle has a session.
    unsafe { c::mysql_wire_session_is_idle(handle.0.get()) }
}

pub fn session_status(handle: &SessionHandle) -> i32 {
    // SAFETY: the handle has a session.
    unsafe { c::mysql_wire_session_status(handle.0.get()) }
}

pub fn session_capabilities(handle: &SessionHandle) -> u32 {
    // SAFETY: the handle has a session.
    unsafe { c::mysql_wire_session_capabilities(handle.0.get()) }
}

pub fn session_next_id(handle: &SessionHandle) -> i32 {
    // SAFETY: the handle has a session.
    unsafe { c::mysql_wire_session_next_id(handle.0.get()) }
}

/// The code, and how many parameters and columns there are.
pub fn session_statement(handle: &SessionHandle, number: u32) -> (i32, u16, u16) {
    let (mut parameters, mut columns) = (0, 0);
    // SAFETY: the handle has a session, and the others are places.
    let code = unsafe {
        c::mysql_wire_session_statement(handle.0.get(), number, &mut parameters, &mut columns)
    };
    (code, parameters, columns)
}
