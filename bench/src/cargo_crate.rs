//! The codec of bindings/rust over `BytesMut`, beside the steps of `mysql_common` in plain Rust.

use crate::check::summary;
use crate::in_rust;
use crate::inputs::{Numbers, framing, size_name};
use crate::library;
use crate::packets::{count_for, stream_of};
use crate::timing::Row;
use bytes::BytesMut;
use mysql_wire_bytes::{PacketCodec, PacketCodecError};
use std::hint::black_box;

const SIZES: [usize; 4] = [16, 256, 4 << 10, 1 << 20];

fn codec(limit: usize) -> PacketCodec {
    let mut codec = PacketCodec::default();
    codec.max_allowed_packet = limit;
    codec
}

/// What a workload answers where anything is refused.
const REFUSED: u64 = u64::MAX;

// A payload framed this many times a repetition, in the form of `in_rust::frame`.
fn frame(payload: &[u8], count: usize, reps: u64) -> u64 {
    let (mut codec, mut dst) = (codec(payload.len()), BytesMut::new());
    let mut sum = 0u64;
    for _ in 0..reps {
        dst.clear();
        codec.reset_seq_id();
        for _ in 0..count {
            if codec.encode(&mut black_box(payload), &mut dst).is_err() {
                return REFUSED;
            }
        }
        sum = sum.wrapping_add(summary(&dst));
    }
    sum
}

fn drain(codec: &mut PacketCodec, src: &mut BytesMut, dst: &mut Vec<u8>) -> Result<u64, PacketCodecError> {
    let mut sum = 0u64;
    while codec.decode(src, dst)? {
        sum = sum.wrapping_add(summary(dst));
        dst.clear();
    }
    Ok(sum)
}

// A stream decoded in pieces, in the form of `in_rust::decode`.
fn decode(stream: &[u8], piece: usize, limit: usize, reps: u64) -> u64 {
    let (mut codec, mut src, mut dst) = (codec(limit), BytesMut::new(), Vec::new());
    let mut sum = 0u64;
    for _ in 0..reps {
        codec.reset_seq_id();
        for part in stream.chunks(piece) {
            src.extend_from_slice(black_box(part));
            match drain(&mut codec, &mut src, &mut dst) {
                Ok(value) => sum = sum.wrapping_add(value),
                Err(_) => return REFUSED,
            }
        }
    }
    sum
}

fn encode_row(rows: &mut Vec<Row>, size: usize) {
    let payload = Numbers::new(size as u64 * 31 + 1).bytes(size);
    let count = count_for(size);
    let (mut framed, mut id) = (Vec::new(), 0);
    for _ in 0..count {
        id = framing(id, &payload, &mut framed);
    }
    let (beside, plain) = (payload.clone(), payload.clone());
    rows.push(Row {
        name: format!("cargo: encode {}, of encode", size_name(size)),
        items: count as u64,
        bytes: (size * count) as u64,
        call: Box::new(move |reps| frame(&payload, count, reps)),
        want: summary(&framed),
        copy: Box::new(move |reps| library::frame(&beside, count as u64, 1, reps)),
        rust: in_rust!(move |reps| in_rust::frame(&plain, count as u64, true, reps)),
    });
}

fn decode_row(rows: &mut Vec<Row>, size: usize, piece: usize) {
    let count = count_for(size);
    let (stream, want) = stream_of(size as u64 * 37 + piece as u64, size);
    let (beside, plain) = (stream.clone(), stream.clone());
    rows.push(Row {
        name: format!("cargo: decode {} by {}, of decode", size_name(size), size_name(piece)),
        items: count as u64,
        bytes: (size * count) as u64,
        call: Box::new(move |reps| decode(&stream, piece, size, reps)),
        want,
        copy: Box::new(move |reps| library::decode(&beside, piece as u64, size as u64, false, reps)),
        rust: in_rust!(move |reps| in_rust::decode(&plain, piece, size, false, reps)),
    });
}

pub fn rows(rows: &mut Vec<Row>) {
    for size in SIZES {
        encode_row(rows, size);
        decode_row(rows, size, 8 << 10);
        decode_row(rows, size, 64 << 10);
    }
}
