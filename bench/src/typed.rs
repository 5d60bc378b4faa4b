//! Packets of a connection by their types, beside the same fields read by hand.

use crate::check::summary;
use crate::fields::lenenc;
#[cfg(with_bytes)]
use crate::in_rust;
use crate::inputs::Numbers;
use crate::library;
use crate::timing::Row;

const PACKETS: usize = 1000;
const ROWS: usize = 1000;
const COLUMNS: usize = 20;
/// A text has this many bytes, and each eighth value is NULL.
const TEXT: usize = 8;

fn lenenc_text(text: &[u8], out: &mut Vec<u8>) {
    out.extend(lenenc(text.len() as u64));
    out.extend_from_slice(text);
}

// A row of `items`, read by their types: form 0 of a workload, beside its form 1, by hand.
fn beside_by_hand(
    rows: &mut Vec<Row>,
    name: &str,
    items: usize,
    bytes: Vec<u8>,
    want: u64,
    workload: fn(&[u8], u64, u64) -> u64,
    rust: Option<fn(&[u8], u64) -> u64>,
) {
    let (by_hand, plain) = (bytes.clone(), bytes.clone());
    rows.push(Row {
        name: format!("{name}, of by hand"),
        items: items as u64,
        bytes: bytes.len() as u64,
        call: Box::new(move |reps| workload(&bytes, 0, reps)),
        want,
        copy: Box::new(move |reps| workload(&by_hand, 1, reps)),
        rust: rust.map(|call| Box::new(move |reps| call(&plain, reps)) as Box<dyn Fn(u64) -> u64>),
    });
}

// `OK_Packet`s with words of 40 bytes.
fn ok_row(rows: &mut Vec<Row>) {
    let mut numbers = Numbers::new(41);
    let (mut bytes, mut want) = (Vec::new(), 0u64);
    for _ in 0..PACKETS {
        let (affected_rows, last_insert_id) = (numbers.next() % 100, numbers.next() % 100_000);
        let (status, warnings) = (numbers.next() as u16, numbers.next() as u16);
        let info = numbers.bytes(40);
        bytes.push(0);
        bytes.extend(lenenc(affected_rows));
        bytes.extend(lenenc(last_insert_id));
        bytes.extend(status.to_le_bytes());
        bytes.extend(warnings.to_le_bytes());
        lenenc_text(&info, &mut bytes);
        want += affected_rows + last_insert_id + u64::from(status) + u64::from(warnings);
        want += summary(&info);
    }
    let rust = plain!(in_rust::ok);
    beside_by_hand(rows, "OkPacket", PACKETS, bytes, want, library::ok, rust);
}

fn values_row(rows: &mut Vec<Row>) {
    let mut numbers = Numbers::new(43);
    let (mut bytes, mut want) = (Vec::new(), 0u64);
    for _ in 0..ROWS * COLUMNS {
        if numbers.next() % 8 == 0 {
            bytes.push(0xfb);
            want += 1;
        } else {
            let text = numbers.bytes(TEXT);
            lenenc_text(&text, &mut bytes);
            want += summary(&text);
        }
    }
    let rust = plain!(in_rust::values);
    beside_by_hand(rows, "row of 20 TextValues", ROWS, bytes, want, library::values, rust);
}

pub fn rows(rows: &mut Vec<Row>) {
    ok_row(rows);
    values_row(rows);
}
