//! The calls of `mysql_wire.h`, which says what each answers and what a caller upholds.

#![no_std]

use core::ffi::c_void;
use core::marker::{PhantomData, PhantomPinned};

/// What a connection points to.
#[repr(C)]
pub struct State {
    opaque: [u8; 0],
    marker: PhantomData<(*mut u8, PhantomPinned)>,
}

/// `mysql_wire_connection`: NULL where it is closed.
pub type Handle = *mut State;

/// What a session points to.
#[repr(C)]
pub struct SessionState {
    opaque: [u8; 0],
    marker: PhantomData<(*mut u8, PhantomPinned)>,
}

/// `mysql_wire_session`: NULL where there is none.
pub type SessionHandle = *mut SessionState;

/// `mysql_wire_view`: bytes that are lent.
#[repr(C)]
pub struct View {
    pub at: *const u8,
    pub len: usize,
}

/// `mysql_wire_span`: where a text or a packet stands in the bytes that were read.
#[repr(C)]
#[derive(Clone, Copy, Debug)]
pub struct Span {
    pub at: usize,
    pub len: usize,
}

/// `mysql_wire_spans`: the place in a stream of packets.
#[repr(C)]
#[derive(Clone, Copy, Debug)]
pub struct Spans {
    pub limit: usize,
    pub size: usize,
    pub left: usize,
    pub header: [u8; 3],
    pub header_len: u8,
    pub id: u8,
    pub next_id: u8,
    pub reserved: [u8; 34],
}

extern "C" {
    pub fn mysql_wire_version() -> u32;
    pub fn mysql_wire_set_memory(
        allocates: extern "C" fn(usize) -> *mut c_void,
        reallocates: extern "C" fn(*mut c_void, usize) -> *mut c_void,
        releases: extern "C" fn(*mut c_void),
    );
    pub fn mysql_wire_open(limit: usize, connection: *mut Handle) -> i32;
    pub fn mysql_wire_close(connection: *mut Handle);
    pub fn mysql_wire_feed(connection: *mut Handle, bytes: *const u8, len: usize) -> i32;
    pub fn mysql_wire_peek(connection: *mut Handle, packet: *mut View) -> i32;
    pub fn mysql_wire_take(connection: *mut Handle) -> i32;
    pub fn mysql_wire_next(
        connection: *mut Handle,
        room: *mut u8,
        room_len: usize,
        len: *mut usize,
    ) -> i32;
    pub fn mysql_wire_decode(
        connection: *mut Handle,
        bytes: *const u8,
        len: usize,
        used: *mut usize,
        packet: *mut View,
    ) -> i32;
    pub fn mysql_wire_decode_many(
        connection: *mut Handle,
        bytes: *const u8,
        len: usize,
        spans: *mut Span,
        room: usize,
        count: *mut usize,
        used: *mut usize,
    ) -> i32;
    pub fn mysql_wire_judge_front(connection: *mut Handle) -> i32;
    pub fn mysql_wire_set_limit(connection: *mut Handle, limit: usize) -> i32;
    pub fn mysql_wire_unread(connection: *mut Handle) -> usize;
    pub fn mysql_wire_encode(connection: *mut Handle, payload: *const u8, len: usize) -> i32;
    pub fn mysql_wire_framed_len(len: usize, framed: *mut usize) -> i32;
    pub fn mysql_wire_encode_to(
        connection: *mut Handle,
        payload: *const u8,
        len: usize,
        room: *mut u8,
        room_len: usize,
        written: *mut usize,
    ) -> i32;
    pub fn mysql_wire_encode_header(connection: *mut Handle, len: usize, header: *mut u8) -> i32;
    pub fn mysql_wire_output(connection: *mut Handle, room: *mut u8, room_len: usize) -> usize;
    pub fn mysql_wire_pending(connection: *mut Handle, bytes: *mut View);
    pub fn mysql_wire_sent(connection: *mut Handle, count: usize) -> usize;
    pub fn mysql_wire_reset(connection: *mut Handle) -> i32;
    pub fn mysql_wire_set_sequence_id(connection: *mut Handle, id: u8) -> i32;
    pub fn mysql_wire_sequence_id(connection: *mut Handle) -> i32;
    pub fn mysql_wire_packet_id(connection: *mut Handle) -> i32;
    pub fn mysql_wire_spans_init(spans: *mut Spans, limit: usize, id: u8);
    pub fn mysql_wire_spans_next(
        spans: *mut Spans,
        bytes: *const u8,
        len: usize,
        used: *mut usize,
        span: *mut View,
        ends: *mut u8,
    ) -> i32;
    pub fn mysql_wire_spans_renumber(
        spans: *mut Spans,
        bytes: *mut u8,
        len: usize,
        used: *mut usize,
    ) -> i32;
    pub fn mysql_wire_session_new(session: *mut SessionHandle) -> i32;
    pub fn mysql_wire_session_free(session: *mut SessionHandle);
    pub fn mysql_wire_session_packet(
        session: *mut SessionHandle,
        side: u32,
        id: u8,
        payload: *const u8,
        len: usize,
        kind: *mut u32,
    ) -> i32;
    pub fn mysql_wire_session_front(
        session: *mut SessionHandle,
        side: u32,
        id: u8,
        len: usize,
        front: *const u8,
        front_len: usize,
        kind: *mut u32,
    ) -> i32;
    pub fn mysql_wire_session_classify(
        session: *mut SessionHandle,
        side: u32,
        id: u8,
        len: usize,
        front: *const u8,
        front_len: usize,
        kind: *mut u32,
    ) -> i32;
    pub fn mysql_wire_session_pass(
        session: *mut SessionHandle,
        side: u32,
        id: u8,
        len: usize,
    ) -> i32;
    pub fn mysql_wire_session_phase(session: *mut SessionHandle) -> i32;
    pub fn mysql_wire_session_next_sender(session: *mut SessionHandle) -> i32;
    pub fn mysql_wire_session_is_idle(session: *mut SessionHandle) -> i32;
    pub fn mysql_wire_session_status(session: *mut SessionHandle) -> i32;
    pub fn mysql_wire_session_capabilities(session: *mut SessionHandle) -> u32;
    pub fn mysql_wire_session_next_id(session: *mut SessionHandle) -> i32;
    pub fn mysql_wire_session_statement(
        session: *mut SessionHandle,
        number: u32,
        parameters: *mut u16,
        columns: *mut u16,
    ) -> i32;
    pub fn mysql_wire_message(code: i32, text: *mut View);
    pub fn mysql_wire_read_int(
        bytes: *const u8,
        len: usize,
        at: *mut usize,
        width: usize,
        value: *mut u64,
    ) -> i32;
    pub fn mysql_wire_read_lenenc_int(
        bytes: *const u8,
        len: usize,
        at: *mut usize,
        value: *mut u64,
    ) -> i32;
    pub fn mysql_wire_read_lenenc_bytes(
        bytes: *const u8,
        len: usize,
        at: *mut usize,
        text: *mut Span,
    ) -> i32;
    pub fn mysql_wire_read_null_bytes(
        bytes: *const u8,
        len: usize,
        at: *mut usize,
        text: *mut Span,
    ) -> i32;
    pub fn mysql_wire_read_bytes(
        bytes: *const u8,
        len: usize,
        at: *mut usize,
        count: usize,
        text: *mut Span,
    ) -> i32;
    pub fn mysql_wire_skip(bytes: *const u8, len: usize, at: *mut usize, count: usize) -> i32;
    pub fn mysql_wire_read_rest(
        bytes: *const u8,
        len: usize,
        at: *mut usize,
        text: *mut Span,
    ) -> i32;
    pub fn mysql_wire_read_nullable_bytes(
        bytes: *const u8,
        len: usize,
        at: *mut usize,
        text: *mut Span,
    ) -> i32;
    pub fn mysql_wire_read_row(
        bytes: *const u8,
        len: usize,
        at: *mut usize,
        texts: *mut Span,
        count: usize,
    ) -> i32;
    pub fn mysql_wire_write_int(
        room: *mut u8,
        len: usize,
        at: *mut usize,
        width: usize,
        value: u64,
    ) -> i32;
    pub fn mysql_wire_write_lenenc_int(room: *mut u8, len: usize, at: *mut usize, value: u64)
        -> i32;
    pub fn mysql_wire_write_lenenc_bytes(
        room: *mut u8,
        len: usize,
        at: *mut usize,
        text: *const u8,
        text_len: usize,
    ) -> i32;
    pub fn mysql_wire_write_null_bytes(
        room: *mut u8,
        len: usize,
        at: *mut usize,
        text: *const u8,
        text_len: usize,
    ) -> i32;
}
