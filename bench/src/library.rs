//! The library's functions, as they are exported: a slice is a pointer and a length, and every
//! number has 64 bits.

unsafe extern "C" {
    fn mw_frame(ptr: *const u8, len: usize, count: u64, form: u64, reps: u64) -> u64;
    fn mw_append(ptr: *const u8, len: usize, piece: u64, reps: u64) -> u64;
    fn mw_decode(ptr: *const u8, len: usize, piece: u64, limit: u64, reps: u64) -> u64;
    fn mw_decode_fresh(ptr: *const u8, len: usize, piece: u64, limit: u64, reps: u64) -> u64;
    fn mw_place(ptr: *const u8, len: usize, piece: u64, limit: u64, reps: u64) -> u64;
    fn mw_spans(ptr: *const u8, len: usize, piece: u64, limit: u64, reps: u64) -> u64;
    fn mw_renumber(ptr: *const u8, len: usize, piece: u64, limit: u64, reps: u64) -> u64;
    fn mw_relay(ptr: *const u8, len: usize, piece: u64, limit: u64, form: u64, reps: u64) -> u64;
    fn mw_place_row(ptr: *const u8, len: usize, cols: u64, row: u64, form: u64, reps: u64) -> u64;
    fn mw_read(ptr: *const u8, len: usize, limit: u64, form: u64, reps: u64) -> u64;
    fn mw_relay_each(ptr: *const u8, len: usize, limit: u64, form: u64, reps: u64) -> u64;
    fn mw_session(ptr: *const u8, len: usize, form: u64, reps: u64) -> u64;
    fn mw_write(ptr: *const u8, len: usize, count: u64, reps: u64) -> u64;
    fn mw_row(ptr: *const u8, len: usize, cols: u64, form: u64, reps: u64) -> u64;
    fn mw_row_copy(ptr: *const u8, len: usize, form: u64, reps: u64) -> u64;
    fn mw_null(ptr: *const u8, len: usize, form: u64, reps: u64) -> u64;
    fn mw_put_lenenc(ptr: *const u8, len: usize, form: u64, reps: u64) -> u64;
    fn mw_eat_lenenc(ptr: *const u8, len: usize, reps: u64) -> u64;
    fn mw_ok(ptr: *const u8, len: usize, form: u64, reps: u64) -> u64;
    fn mw_values(ptr: *const u8, len: usize, form: u64, reps: u64) -> u64;
    fn mw_text_rows(
        ptr: *const u8,
        len: usize,
        row: u64,
        columns: u64,
        form: u64,
        reps: u64,
    ) -> u64;
    fn mw_binary_rows(ptr: *const u8, len: usize, row: u64, form: u64, reps: u64) -> u64;
    fn mw_coldef(ptr: *const u8, len: usize, reps: u64) -> u64;
    fn mw_coldef_by_hand(ptr: *const u8, len: usize, reps: u64) -> u64;
    fn mw_coldef_copy(ptr: *const u8, len: usize, form: u64, reps: u64) -> u64;
    fn mw_elsewhere(ptr: *const u8, len: usize, form: u64) -> u64;
}

/// A payload framed `count` times a repetition: form 0 by `packet_to_chunks`, form 1 by
/// `PacketCodec::encode`, form 2 by `encode`, and all copied once into a vector.
pub fn frame(bytes: &[u8], count: u64, form: u64, reps: u64) -> u64 {
    unsafe { mw_frame(bytes.as_ptr(), bytes.len(), count, form, reps) }
}

/// A stream appended in pieces and advanced over.
pub fn append(bytes: &[u8], piece: u64, reps: u64) -> u64 {
    unsafe { mw_append(bytes.as_ptr(), bytes.len(), piece, reps) }
}

/// A stream of whole packets decoded in pieces, into one buffer or a new one for each packet.
pub fn decode(bytes: &[u8], piece: u64, limit: u64, fresh: bool, reps: u64) -> u64 {
    if fresh {
        unsafe { mw_decode_fresh(bytes.as_ptr(), bytes.len(), piece, limit, reps) }
    } else {
        unsafe { mw_decode(bytes.as_ptr(), bytes.len(), piece, limit, reps) }
    }
}

/// A stream of whole packets in pieces, each taken where it lies.
pub fn place(bytes: &[u8], piece: u64, limit: u64, reps: u64) -> u64 {
    unsafe { mw_place(bytes.as_ptr(), bytes.len(), piece, limit, reps) }
}

/// A stream of whole packets in pieces, in spans.
pub fn spans(bytes: &[u8], piece: u64, limit: u64, reps: u64) -> u64 {
    unsafe { mw_spans(bytes.as_ptr(), bytes.len(), piece, limit, reps) }
}

/// A copy of such a stream whose ids are written in place, in pieces.
pub fn renumber(bytes: &[u8], piece: u64, limit: u64, reps: u64) -> u64 {
    unsafe { mw_renumber(bytes.as_ptr(), bytes.len(), piece, limit, reps) }
}

/// Such a stream passed on in both directions, in pieces: form 0 in spans with other ids in place,
/// form 1 decoded and encoded.
pub fn relay(bytes: &[u8], piece: u64, limit: u64, form: u64, reps: u64) -> u64 {
    unsafe { mw_relay(bytes.as_ptr(), bytes.len(), piece, limit, form, reps) }
}

/// A stream of rows of texts appended to a buffer: form 0 read where they lie, form 1 not read,
/// form 2 read of payloads whose length is known, without a codec.
pub fn place_row(bytes: &[u8], cols: u64, row: usize, form: u64, reps: u64) -> u64 {
    unsafe { mw_place_row(bytes.as_ptr(), bytes.len(), cols, row as u64, form, reps) }
}

/// A stream of whole packets read by `PacketReader`: form 0 by `next_packet`, form 1 lent.
pub fn read(bytes: &[u8], limit: u64, form: u64, reps: u64) -> u64 {
    unsafe { mw_read(bytes.as_ptr(), bytes.len(), limit, form, reps) }
}

/// A stream of whole packets, each passed on and written: form 0 by `relay_packet`, form 1 lent and
/// queued.
pub fn relay_each(bytes: &[u8], limit: u64, form: u64, reps: u64) -> u64 {
    unsafe { mw_relay_each(bytes.as_ptr(), bytes.len(), limit, form, reps) }
}

/// A session's packets followed: form 0 by their fronts, form 1 a row by its kind.
pub fn session(bytes: &[u8], form: u64, reps: u64) -> u64 {
    unsafe { mw_session(bytes.as_ptr(), bytes.len(), form, reps) }
}

/// A payload queued `count` times by a `PacketWriter`, and written at once.
pub fn write(bytes: &[u8], count: u64, reps: u64) -> u64 {
    unsafe { mw_write(bytes.as_ptr(), bytes.len(), count, reps) }
}

/// Rows of length-encoded texts read: form 0 by `checked_eat_lenenc_str`, form 1 by `parse` as
/// `RawBytes<LenEnc>`.
pub fn row(bytes: &[u8], cols: u64, form: u64, reps: u64) -> u64 {
    unsafe { mw_row(bytes.as_ptr(), bytes.len(), cols, form, reps) }
}

/// The same read and written again, form 0 into a `Vec`, form 1 into a `BytesMut`.
pub fn row_copy(bytes: &[u8], form: u64, reps: u64) -> u64 {
    unsafe { mw_row_copy(bytes.as_ptr(), bytes.len(), form, reps) }
}

/// Texts that a zero ends: form 0 by `eat_null_str`, form 1 by `parse` as `RawBytes<NullBytes>`.
pub fn null(bytes: &[u8], form: u64, reps: u64) -> u64 {
    unsafe { mw_null(bytes.as_ptr(), bytes.len(), form, reps) }
}

/// Numbers of 8 bytes put as length-encoded integers, form 0 into a `Vec`, form 1 into a
/// `BytesMut`.
pub fn put_lenenc(bytes: &[u8], form: u64, reps: u64) -> u64 {
    unsafe { mw_put_lenenc(bytes.as_ptr(), bytes.len(), form, reps) }
}

/// Length-encoded integers read.
pub fn eat_lenenc(bytes: &[u8], reps: u64) -> u64 {
    unsafe { mw_eat_lenenc(bytes.as_ptr(), bytes.len(), reps) }
}

/// Column definitions read by `parse`.
pub fn coldef(bytes: &[u8], reps: u64) -> u64 {
    unsafe { mw_coldef(bytes.as_ptr(), bytes.len(), reps) }
}

/// The same, each part read by a call of the buffer's.
pub fn coldef_by_hand(bytes: &[u8], reps: u64) -> u64 {
    unsafe { mw_coldef_by_hand(bytes.as_ptr(), bytes.len(), reps) }
}

/// The same read and written again, form 0 by `parse` and `serialize`, form 1 each part by hand.
pub fn coldef_copy(bytes: &[u8], form: u64, reps: u64) -> u64 {
    unsafe { mw_coldef_copy(bytes.as_ptr(), bytes.len(), form, reps) }
}

/// `OK_Packet`s one after another, form 0 by `OkPacket`, form 1 field by field.
pub fn ok(bytes: &[u8], form: u64, reps: u64) -> u64 {
    unsafe { mw_ok(bytes.as_ptr(), bytes.len(), form, reps) }
}

/// Values of rows one after another, form 0 by `TextValue`, form 1 by hand.
pub fn values(bytes: &[u8], form: u64, reps: u64) -> u64 {
    unsafe { mw_values(bytes.as_ptr(), bytes.len(), form, reps) }
}

/// Rows of `row` bytes each, of texts: form 0 by `TextValues`, form 1 by `checked_eat_lenenc_str`,
/// form 2 by `TextRow`.
pub fn text_rows(bytes: &[u8], row: u64, columns: u64, form: u64, reps: u64) -> u64 {
    unsafe { mw_text_rows(bytes.as_ptr(), bytes.len(), row, columns, form, reps) }
}

/// Rows in the binary form, of `row` bytes each, after a bitmap of two: form 0 by `BinaryValues`,
/// form 1 by `BinaryRow::value`, form 2 by hand.
pub fn binary_rows(bytes: &[u8], row: u64, form: u64, reps: u64) -> u64 {
    unsafe { mw_binary_rows(bytes.as_ptr(), bytes.len(), row, form, reps) }
}

/// The calls of a form, each once, from a second place.
pub fn elsewhere(bytes: &[u8], form: u64) -> u64 {
    unsafe { mw_elsewhere(bytes.as_ptr(), bytes.len(), form) }
}
