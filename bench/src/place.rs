//! Packets where they lie, beside `decode` and beside the append alone.

use crate::check::summary;
use crate::fields::lenenc;
#[cfg(with_bytes)]
use crate::in_rust;
use crate::inputs::{Numbers, framing, size_name};
use crate::library;
use crate::packets::{count_for, stream_of};
use crate::timing::Row;

const SIZES: [usize; 4] = [16, 256, 4 << 10, 1 << 20];

const PIECES: [usize; 3] = [0, 1460, 8 << 10];

const COLUMNS: usize = 20;

const TEXT: usize = 8;

// Packets of a size taken where they lie, of pieces, beside the append or `decode`.
fn place_row(rows: &mut Vec<Row>, size: usize, piece: usize, decoded: bool) {
    let count = count_for(size);
    let (stream, want) = stream_of((size * 11 + piece) as u64, size);
    let (copied, plain) = (stream.clone(), stream.clone());
    let step = if piece == 0 { stream.len() } else { piece };
    let (limit, piece) = (size as u64, piece as u64);
    let by = if piece == 0 { "all".to_string() } else { size_name(piece as usize) };
    let beside = if decoded { "decode" } else { "append" };
    rows.push(Row {
        name: format!("front_packet {} by {by}, of {beside}", size_name(size)),
        items: count as u64,
        bytes: (size * count) as u64,
        call: Box::new(move |reps| library::place(&stream, piece, limit, reps)),
        want,
        copy: Box::new(move |reps| match decoded {
            true => library::decode(&copied, piece, limit, false, reps),
            false => library::append(&copied, piece, reps),
        }),
        rust: match decoded {
            true => in_rust!(move |reps| in_rust::decode(&plain, step, size, false, reps)),
            false => None,
        },
    });
}

// Rows of texts read where they lie, beside the same without a codec.
fn columns_row(rows: &mut Vec<Row>) {
    let mut numbers = Numbers::new(20);
    let (mut stream, mut id, mut want) = (Vec::new(), 0, 0u64);
    let count = 1000;
    let row = COLUMNS * (TEXT + 1);
    for _ in 0..count {
        let mut payload = Vec::new();
        for _ in 0..COLUMNS {
            let text = numbers.bytes(TEXT);
            payload.extend(lenenc(TEXT as u64));
            payload.extend_from_slice(&text);
            want = want.wrapping_add(summary(&text));
        }
        id = framing(id, &payload, &mut stream);
    }
    let copied = stream.clone();
    rows.push(Row {
        name: "row of 20 texts in place, of texts alone".to_string(),
        items: count,
        bytes: count * row as u64,
        call: Box::new(move |reps| library::place_row(&stream, COLUMNS as u64, row, 0, reps)),
        want,
        copy: Box::new(move |reps| library::place_row(&copied, COLUMNS as u64, row, 2, reps)),
        rust: None,
    });
}

pub fn rows(rows: &mut Vec<Row>) {
    for size in SIZES {
        for piece in PIECES {
            place_row(rows, size, piece, false);
            place_row(rows, size, piece, true);
        }
    }
    columns_row(rows);
}
