//! Packets through the C library, beside `decode` of the same bytes appended to a buffer.

use crate::check::summary;
#[cfg(with_bytes)]
use crate::in_rust;
use crate::inputs::{Numbers, framing, size_name};
use crate::library;
use crate::packets::{count_for, stream_of};
use crate::timing::Row;
use mysql_wire_sys::*;
use std::cell::RefCell;
use std::hint::black_box;
use std::ptr;
use std::slice;

const SIZES: [usize; 3] = [16, 4 << 10, 1 << 20];

const PACKET: i32 = 1;

type Decoded = fn(&[u8], usize, u64) -> u64;

type Encoded = fn(&[u8], usize, &mut [u8], u64) -> u64;

const NOTHING: View = View { at: ptr::null(), len: 0 };

// The sum over the packets that are there, each lent and taken.
fn lent(connection: &mut Handle) -> u64 {
    let mut view = NOTHING;
    let mut sum = 0u64;
    unsafe {
        while mysql_wire_peek(connection, &mut view) == PACKET {
            sum = sum.wrapping_add(summary(slice::from_raw_parts(view.at, view.len)));
            mysql_wire_take(connection);
        }
    }
    sum
}

// The same, each copied to room of the caller's.
fn copied(connection: &mut Handle, room: &mut [u8]) -> u64 {
    let mut len = 0;
    let mut sum = 0u64;
    unsafe {
        while mysql_wire_next(connection, room.as_mut_ptr(), room.len(), &mut len) == PACKET {
            sum = sum.wrapping_add(summary(&room[..len]));
        }
    }
    sum
}

// A stream fed at once, and its packets taken, this many times over one connection.
fn received(stream: &[u8], size: usize, lends: bool, reps: u64) -> u64 {
    let mut connection = ptr::null_mut();
    let mut room = vec![0; size];
    let mut sum = 0u64;
    unsafe {
        mysql_wire_open(size, &mut connection);
        for _ in 0..reps {
            mysql_wire_reset(&mut connection);
            mysql_wire_feed(&mut connection, stream.as_ptr(), stream.len());
            sum = sum.wrapping_add(if lends {
                lent(&mut connection)
            } else {
                copied(&mut connection, &mut room)
            });
        }
        mysql_wire_close(&mut connection);
    }
    sum
}

fn receive_row(rows: &mut Vec<Row>, size: usize, lends: bool) {
    let count = count_for(size);
    let (stream, want) = stream_of(size as u64 * 11, size);
    let (decoded, plain) = (stream.clone(), stream.clone());
    let way = if lends { "peek and take" } else { "next" };
    rows.push(Row {
        name: format!("C: feed, {way} {}, of decode", size_name(size)),
        items: count as u64,
        bytes: (size * count) as u64,
        call: Box::new(move |reps| received(&stream, size, lends, reps)),
        want,
        copy: Box::new(move |reps| library::decode(&decoded, 0, size as u64, false, reps)),
        rust: in_rust!(move |reps| in_rust::decode(&plain, plain.len(), size, false, reps)),
    });
}

// A stream whose packets are lent out of the caller's bytes, this many times over one connection.
fn decoded(stream: &[u8], size: usize, reps: u64) -> u64 {
    let mut connection = ptr::null_mut();
    let mut view = NOTHING;
    let mut sum = 0u64;
    unsafe {
        mysql_wire_open(size, &mut connection);
        for _ in 0..reps {
            mysql_wire_reset(&mut connection);
            let (mut at, mut used) = (0, 0);
            while mysql_wire_decode(
                &mut connection,
                stream.as_ptr().add(at),
                stream.len() - at,
                &mut used,
                &mut view,
            ) == PACKET
            {
                sum = sum.wrapping_add(summary(slice::from_raw_parts(view.at, view.len)));
                at += used;
            }
        }
        mysql_wire_close(&mut connection);
    }
    sum
}

// How many packets one call lends.
const PLACES: usize = 64;

// The same, as many by one call as there are places.
fn decoded_many(stream: &[u8], size: usize, reps: u64) -> u64 {
    let mut connection = ptr::null_mut();
    let mut spans = [Span { at: 0, len: 0 }; PLACES];
    let mut sum = 0u64;
    unsafe {
        mysql_wire_open(size, &mut connection);
        for _ in 0..reps {
            mysql_wire_reset(&mut connection);
            let (mut rest, mut count, mut used) = (stream, 0, 0);
            while mysql_wire_decode_many(
                &mut connection,
                rest.as_ptr(),
                rest.len(),
                spans.as_mut_ptr(),
                PLACES,
                &mut count,
                &mut used,
            ) == PACKET
            {
                for span in &spans[..count] {
                    sum = sum.wrapping_add(summary(&rest[span.at..span.at + span.len]));
                }
                rest = &rest[used..];
            }
        }
        mysql_wire_close(&mut connection);
    }
    sum
}

// The same, each header by a call, and the payload copied after it.
fn headed(payload: &[u8], count: usize, room: &mut [u8], reps: u64) -> u64 {
    let mut connection = ptr::null_mut();
    let mut sum = 0u64;
    unsafe {
        mysql_wire_open(payload.len(), &mut connection);
        for _ in 0..reps {
            mysql_wire_reset(&mut connection);
            for packet in room.chunks_exact_mut(4 + payload.len()).take(count) {
                let (header, behind) = packet.split_at_mut(4);
                mysql_wire_encode_header(&mut connection, payload.len(), header.as_mut_ptr());
                behind.copy_from_slice(black_box(payload));
            }
            sum = sum.wrapping_add(summary(room));
        }
        mysql_wire_close(&mut connection);
    }
    sum
}

// A payload framed into the caller's room, one packet after the other.
fn encoded(payload: &[u8], count: usize, room: &mut [u8], reps: u64) -> u64 {
    let mut connection = ptr::null_mut();
    let mut sum = 0u64;
    unsafe {
        mysql_wire_open(payload.len(), &mut connection);
        for _ in 0..reps {
            mysql_wire_reset(&mut connection);
            let mut at = 0;
            for _ in 0..count {
                let mut written = 0;
                mysql_wire_encode_to(
                    &mut connection,
                    payload.as_ptr(),
                    payload.len(),
                    room.as_mut_ptr().add(at),
                    room.len() - at,
                    &mut written,
                );
                at += written;
            }
            sum = sum.wrapping_add(summary(&room[..at]));
        }
        mysql_wire_close(&mut connection);
    }
    sum
}

fn decode_row(rows: &mut Vec<Row>, size: usize, call: &'static str, decoded: Decoded) {
    let count = count_for(size);
    let (stream, want) = stream_of(size as u64 * 23, size);
    let (beside, plain) = (stream.clone(), stream.clone());
    rows.push(Row {
        name: format!("C: {call} {}, of decode", size_name(size)),
        items: count as u64,
        bytes: (size * count) as u64,
        call: Box::new(move |reps| decoded(&stream, size, reps)),
        want,
        copy: Box::new(move |reps| library::decode(&beside, 0, size as u64, false, reps)),
        rust: in_rust!(move |reps| in_rust::decode(&plain, plain.len(), size, false, reps)),
    });
}

fn encode_row(rows: &mut Vec<Row>, size: usize, call: &'static str, encoded: Encoded) {
    let payload = Numbers::new(size as u64 * 29 + 1).bytes(size);
    let count = count_for(size);
    let (mut framed, mut id) = (Vec::new(), 0);
    for _ in 0..count {
        id = framing(id, &payload, &mut framed);
    }
    let (beside, plain) = (payload.clone(), payload.clone());
    let room = RefCell::new(vec![0; framed.len()]);
    rows.push(Row {
        name: format!("C: {call} {}, of encode", size_name(size)),
        items: count as u64,
        bytes: (size * count) as u64,
        call: Box::new(move |reps| encoded(&payload, count, &mut room.borrow_mut(), reps)),
        want: summary(&framed),
        copy: Box::new(move |reps| library::frame(&beside, count as u64, 1, reps)),
        rust: in_rust!(move |reps| in_rust::frame(&plain, count as u64, true, reps)),
    });
}

pub fn rows(rows: &mut Vec<Row>) {
    for size in SIZES {
        receive_row(rows, size, true);
        receive_row(rows, size, false);
        decode_row(rows, size, "decode", decoded);
        encode_row(rows, size, "encode_to", encoded);
        if size < 1 << 20 {
            decode_row(rows, size, "decode_many", decoded_many);
            encode_row(rows, size, "encode_header", headed);
        }
    }
}
