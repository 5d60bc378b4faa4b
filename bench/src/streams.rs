//! Packets over a reader and a writer, beside the same work on a buffer and one copy more.

use crate::check::summary;
#[cfg(with_bytes)]
use crate::in_rust;
use crate::inputs::{Numbers, framing, size_name};
use crate::library;
use crate::packets::{count_for, stream_of};
use crate::timing::Row;

const SIZES: [usize; 4] = [16, 4 << 10, 1 << 20, 20 << 20];

const RELAYED: [usize; 4] = [0, 16, 100, 4 << 10];

// The forms of reading, by their numbers.
const READERS: [&str; 2] = ["next_packet", "fill_packet"];

// Packets of a size read from a slice, beside `decode` of the same bytes appended to a buffer: into a
// new vector for each packet where the packet is handed out in one, else into the same.
fn read_row(rows: &mut Vec<Row>, size: usize, form: u64) {
    let count = count_for(size);
    let (stream, want) = stream_of(size as u64 * 5, size);
    let (copied, plain) = (stream.clone(), stream.clone());
    let limit = size as u64;
    let fresh = form == 0;
    rows.push(Row {
        name: format!("{} {}, of append and decode", READERS[form as usize], size_name(size)),
        items: count as u64,
        bytes: (size * count) as u64,
        call: Box::new(move |reps| library::read(&stream, limit, form, reps)),
        want,
        copy: Box::new(move |reps| library::decode(&copied, 0, limit, fresh, reps)),
        rust: in_rust!(move |reps| in_rust::decode(&plain, 8 << 10, size, fresh, reps)),
    });
}

// A payload queued and written into a vector, beside `encode` and a copy of what it made.
fn write_row(rows: &mut Vec<Row>, size: usize) {
    let payload = Numbers::new(size as u64 * 7 + 1).bytes(size);
    let count = count_for(size);
    let mut framed = Vec::new();
    let mut id = 0;
    for _ in 0..count {
        id = framing(id, &payload, &mut framed);
    }
    let copied = payload.clone();
    rows.push(Row {
        name: format!("queue and write {}, of encode and copy", size_name(size)),
        items: count as u64,
        bytes: (size * count) as u64,
        call: Box::new(move |reps| library::write(&payload, count as u64, reps)),
        want: summary(&framed),
        copy: Box::new(move |reps| library::frame(&copied, count as u64, 2, reps)),
        rust: None,
    });
}

// Packets of a size passed on from a slice to a vector, each written by itself, beside the same with
// each packet lent and queued.
fn relay_row(rows: &mut Vec<Row>, size: usize) {
    let count = count_for(size);
    let (stream, _) = stream_of(size as u64 * 11 + 3, size);
    let want = stream.len() as u64;
    let copied = stream.clone();
    let limit = size as u64;
    rows.push(Row {
        name: format!("relay and write {}, of lend and queue", size_name(size)),
        items: count as u64,
        bytes: (size * count) as u64,
        call: Box::new(move |reps| library::relay_each(&stream, limit, 0, reps)),
        want,
        copy: Box::new(move |reps| library::relay_each(&copied, limit, 1, reps)),
        rust: None,
    });
}

pub fn rows(rows: &mut Vec<Row>) {
    for size in SIZES {
        for form in 0..2 {
            read_row(rows, size, form);
        }
    }
    for size in SIZES {
        write_row(rows, size);
    }
    for size in RELAYED {
        relay_row(rows, size);
    }
}
