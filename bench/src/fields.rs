//! Texts and numbers in rows.

use crate::check::{summary, total};
#[cfg(with_bytes)]
use crate::in_rust;
use crate::inputs::{Numbers, size_name};
use crate::library;
use crate::timing::Row;
use std::hint::black_box;
use std::iter::repeat_with;

/// How many columns a row has, and how many texts are read in all.
const COLUMNS: u64 = 20;
const TEXTS: usize = 10_000;

/// The forms of each workload, by their numbers.
const LENENC_READERS: [&str; 2] = ["checked_eat_lenenc_str", "parse::<RawBytes<LenEnc>>"];
const NULL_READERS: [&str; 2] = ["eat_null_str", "parse::<RawBytes<NullBytes>>"];
const TARGETS: [&str; 2] = ["Vec", "BytesMut"];

fn made_up_texts(len: usize) -> Vec<Vec<u8>> {
    let mut numbers = Numbers::new(len as u64 + 7);
    (0..TEXTS).map(|_| numbers.bytes(len)).collect()
}

// Texts below 16 bytes, whose lengths no branch foretells.
fn mixed_texts() -> Vec<Vec<u8>> {
    let mut numbers = Numbers::new(16);
    let one = || {
        let len = (numbers.next() % 16) as usize;
        numbers.bytes(len)
    };
    repeat_with(one).take(TEXTS).collect()
}

/// The length-encoded spelling of a number, written plainly.
pub fn lenenc(n: u64) -> Vec<u8> {
    let bytes = n.to_le_bytes();
    match n {
        0..251 => vec![bytes[0]],
        251..0x1_0000 => [&[0xfc], &bytes[..2]].concat(),
        0x1_0000..0x100_0000 => [&[0xfd], &bytes[..3]].concat(),
        _ => [&[0xfe], &bytes[..]].concat(),
    }
}

// Copies each part after the one before it.
fn copy_parts(parts: &[Vec<u8>]) -> Box<dyn FnMut(u64) -> u64> {
    let lens: Vec<usize> = parts.iter().map(Vec::len).collect();
    let bytes = parts.concat();
    let mut out: Vec<u8> = Vec::new();
    Box::new(move |reps| {
        for _ in 0..reps {
            out.clear();
            let mut rest = bytes.as_slice();
            for len in &lens {
                let (part, after) = rest.split_at(*len);
                out.extend_from_slice(black_box(part));
                rest = after;
            }
        }
        out.len() as u64
    })
}

/// A workload on these bytes, beside a copy of these parts.
pub fn parts_row(
    name: String,
    parts: &[Vec<u8>],
    input: &[u8],
    want: u64,
    call: impl Fn(&[u8], u64) -> u64 + 'static,
    rust: Option<fn(&[u8], u64) -> u64>,
) -> Row {
    let (input, plain) = (input.to_vec(), input.to_vec());
    Row {
        name,
        items: parts.len() as u64,
        bytes: parts.iter().map(Vec::len).sum::<usize>() as u64,
        call: Box::new(move |reps| call(&input, reps)),
        want,
        copy: copy_parts(parts),
        rust: rust.map(|call| Box::new(move |reps| call(&plain, reps)) as Box<dyn Fn(u64) -> u64>),
    }
}

// Texts of a length, each after it.
fn lenenc_rows(rows: &mut Vec<Row>, len: usize) {
    let texts = made_up_texts(len);
    let mut spelled = Vec::new();
    for text in &texts {
        spelled.extend(lenenc(text.len() as u64));
        spelled.extend_from_slice(text);
    }
    let read = total(&texts);
    let size = size_name(len);
    for (form, reader) in LENENC_READERS.iter().enumerate() {
        let name = format!("{reader} {size}");
        let call = move |bytes: &[u8], reps| library::row(bytes, COLUMNS, form as u64, reps);
        rows.push(parts_row(name, &texts, &spelled, read, call, plain!(in_rust::row)));
    }
    let written = summary(&spelled);
    for (form, target) in TARGETS.iter().enumerate() {
        let name = format!("read and put_lenenc_str {size}, {target}");
        let call = move |bytes: &[u8], reps| library::row_copy(bytes, form as u64, reps);
        let rust = match form {
            0 => plain!(|bytes, reps| in_rust::row_copy(bytes, false, reps)),
            _ => plain!(|bytes, reps| in_rust::row_copy(bytes, true, reps)),
        };
        rows.push(parts_row(name, &texts, &spelled, written, call, rust));
    }
}

// Texts, each before a zero, and with none in it.
fn null_rows(rows: &mut Vec<Row>, mut texts: Vec<Vec<u8>>, size: &str) {
    texts.iter_mut().flatten().for_each(|byte| *byte |= 1);
    let mut spelled = Vec::new();
    for text in &texts {
        spelled.extend_from_slice(text);
        spelled.push(0);
    }
    let want = total(&texts);
    for (form, reader) in NULL_READERS.iter().enumerate() {
        let name = format!("{reader} {size}");
        let call = move |bytes: &[u8], reps| library::null(bytes, form as u64, reps);
        rows.push(parts_row(name, &texts, &spelled, want, call, plain!(in_rust::null)));
    }
}

// Numbers of mixed magnitudes.
fn made_up_values() -> Vec<u64> {
    let mut numbers = Numbers::new(99);
    let one = || {
        let bits = [7, 7, 7, 14, 20, 40][(numbers.next() % 6) as usize];
        numbers.next() >> (64 - bits)
    };
    repeat_with(one).take(10_000).collect()
}

fn number_rows(rows: &mut Vec<Row>) {
    let values = made_up_values();
    let spellings: Vec<Vec<u8>> = values.iter().map(|n| lenenc(*n)).collect();
    let spelled = spellings.concat();
    let fixed: Vec<u8> = values.iter().flat_map(|n| n.to_le_bytes()).collect();
    let written = summary(&spelled);
    for (form, target) in TARGETS.iter().enumerate() {
        let name = format!("put_lenenc_int, {target}");
        let call = move |bytes: &[u8], reps| library::put_lenenc(bytes, form as u64, reps);
        let rust = match form {
            0 => plain!(|bytes, reps| in_rust::put_lenenc(bytes, false, reps)),
            _ => plain!(|bytes, reps| in_rust::put_lenenc(bytes, true, reps)),
        };
        rows.push(parts_row(name, &spellings, &fixed, written, call, rust));
    }
    let name = "checked_eat_lenenc_int".to_string();
    let sum = values.iter().copied().fold(0, u64::wrapping_add);
    let call = library::eat_lenenc;
    rows.push(parts_row(name, &spellings, &spelled, sum, call, plain!(in_rust::eat_lenenc)));
}

pub fn rows(rows: &mut Vec<Row>) {
    for len in [1, 4, 8, 100, 2000] {
        lenenc_rows(rows, len);
        null_rows(rows, made_up_texts(len), &size_name(len));
    }
    null_rows(rows, mixed_texts(), "of 0 to 15 B");
    number_rows(rows);
}
