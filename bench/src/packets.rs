//! Framing and decoding.

use crate::check::{ends, summary};
#[cfg(with_bytes)]
use crate::in_rust;
use crate::inputs::{MAX_PAYLOAD_LEN, Numbers, chunk_lens, framing, size_name};
use crate::library;
use crate::timing::Row;
use std::hint::black_box;

/// The forms of framing, by their numbers.
const WRITERS: [&str; 2] = ["packet_to_chunks", "encode"];

/// How many packets of a size make about a quarter of a megabyte, at least one.
pub fn count_for(size: usize) -> usize {
    (1 << 18) / size.max(16) + 1
}

fn frame_row(rows: &mut Vec<Row>, size: usize, form: u64) {
    let payload = Numbers::new(size as u64 + 1).bytes(size);
    let count = count_for(size);
    let mut framed = Vec::new();
    let mut id = 0;
    for _ in 0..count {
        id = framing(id, &payload, &mut framed);
    }
    let want = summary(&framed) + if form == 0 { id as u64 } else { 0 };
    let (copied, mut out) = (payload.clone(), Vec::with_capacity(framed.len()));
    let plain = payload.clone();
    rows.push(Row {
        name: format!("{} {}", WRITERS[form as usize], size_name(size)),
        items: count as u64,
        bytes: (size * count) as u64,
        call: Box::new(move |reps| library::frame(&payload, count as u64, form, reps)),
        want,
        copy: Box::new(move |reps| {
            for _ in 0..reps {
                out.clear();
                for _ in 0..count {
                    out.extend_from_slice(black_box(&copied));
                }
            }
            out.len() as u64
        }),
        rust: in_rust!(move |reps| in_rust::frame(&plain, count as u64, form == 1, reps)),
    });
}

// The same bytes copied in the same steps, with the lengths of the chunks known beforehand: each
// piece after what is there, each chunk's payload to another buffer once it is whole, and what is
// left moved to the front where that is less than what was taken.
fn copy_steps(
    stream: &[u8],
    step: usize,
    lens: &[(usize, bool)],
    fresh: bool,
    src: &mut Vec<u8>,
    dst: &mut Vec<u8>,
) -> u64 {
    let mut sum = 0u64;
    let mut taken = 0;
    let mut next = lens.iter();
    let mut chunk = next.next();
    src.clear();
    for part in stream.chunks(step) {
        if taken >= src.len() - taken {
            src.copy_within(taken.., 0);
            src.truncate(src.len() - taken);
            taken = 0;
        }
        src.extend_from_slice(black_box(part));
        while let Some((len, last)) = chunk.filter(|(len, _)| src.len() - taken >= 4 + len) {
            dst.extend_from_slice(&src[taken + 4..taken + 4 + len]);
            taken += 4 + len;
            if *last {
                sum += dst.len() as u64;
                if fresh {
                    *dst = Vec::new();
                } else {
                    dst.clear();
                }
            }
            chunk = next.next();
        }
    }
    sum
}

fn decode_name(size: usize, piece: usize, fresh: bool) -> String {
    let step = match piece {
        0 => "all".to_string(),
        piece => size_name(piece),
    };
    let kind = if fresh { ", fresh" } else { "" };
    format!("decode {} by {step}{kind}", size_name(size))
}

/// A stream of packets of a size, and the sum of their check values.
pub fn stream_of(seed: u64, size: usize) -> (Vec<u8>, u64) {
    let mut numbers = Numbers::new(seed);
    let mut stream = Vec::new();
    let mut sum = 0u64;
    let mut id = 0;
    for _ in 0..count_for(size) {
        let payload = numbers.bytes(size);
        id = framing(id, &payload, &mut stream);
        sum = sum.wrapping_add(summary(&payload));
    }
    (stream, sum)
}

// Packets of a size, decoded from pieces.
fn decode_row(rows: &mut Vec<Row>, size: usize, piece: usize, fresh: bool) {
    let count = count_for(size);
    let (stream, want) = stream_of(size as u64 * 3 + piece as u64, size);
    let mut lens = Vec::new();
    for _ in 0..count {
        lens.extend(chunk_lens(size).map(|len| (len, len < MAX_PAYLOAD_LEN)));
    }
    let limit = size.max(1) as u64;
    let name = decode_name(size, piece, fresh);
    let step = if piece == 0 { stream.len() } else { piece };
    let (copied, plain) = (stream.clone(), stream.clone());
    let (mut src, mut dst) = (Vec::new(), Vec::new());
    rows.push(Row {
        name,
        items: count as u64,
        bytes: (size * count) as u64,
        call: Box::new(move |reps| library::decode(&stream, piece as u64, limit, fresh, reps)),
        want,
        copy: Box::new(move |reps| {
            let mut sum = 0u64;
            for _ in 0..reps {
                sum = sum.wrapping_add(copy_steps(&copied, step, &lens, fresh, &mut src, &mut dst));
            }
            sum
        }),
        rust: in_rust!(move |reps| in_rust::decode(&plain, step, size.max(1), fresh, reps)),
    });
}

fn append_row(rows: &mut Vec<Row>, piece: usize) {
    let stream = Numbers::new(piece as u64).bytes(1 << 18);
    let want = stream.chunks(piece).map(ends).fold(0u64, u64::wrapping_add);
    let (copied, plain) = (stream.clone(), stream.clone());
    let mut src = Vec::with_capacity(piece);
    rows.push(Row {
        name: format!("append and advance by {}", size_name(piece)),
        items: stream.chunks(piece).count() as u64,
        bytes: stream.len() as u64,
        call: Box::new(move |reps| library::append(&stream, piece as u64, reps)),
        want,
        copy: Box::new(move |reps| {
            let mut sum = 0u64;
            for _ in 0..reps {
                for part in copied.chunks(piece) {
                    src.clear();
                    src.extend_from_slice(black_box(part));
                    sum += src.len() as u64;
                }
            }
            sum
        }),
        rust: in_rust!(move |reps| in_rust::append(&plain, piece, reps)),
    });
}

pub fn rows(rows: &mut Vec<Row>) {
    for size in [16, 256, 4 << 10, 64 << 10, 1 << 20, 20 << 20] {
        frame_row(rows, size, 0);
    }
    for size in [16, 4 << 10, 1 << 20] {
        frame_row(rows, size, 1);
    }
    for piece in [16, 1460, 64 << 10] {
        append_row(rows, piece);
    }
    for size in [16, 256, 4 << 10, 64 << 10, 1 << 20, 20 << 20] {
        decode_row(rows, size, 0, false);
        decode_row(rows, size, 1460, false);
    }
    for size in [4 << 10, 27_427] {
        decode_row(rows, size, 8 << 10, false);
    }
    for size in [16, 4 << 10, 1 << 20] {
        decode_row(rows, size, 0, true);
    }
}
