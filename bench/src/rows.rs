//! Rows by their values, where they lie.

use crate::check::summary;
use crate::fields::lenenc;
use crate::inputs::Numbers;
use crate::library;
use crate::timing::Row;

const ROWS: u64 = 1000;
const COLUMNS: usize = 20;
const TEXT: usize = 8;

fn put_text(text: &[u8], out: &mut Vec<u8>) -> u64 {
    out.extend(lenenc(text.len() as u64));
    out.extend_from_slice(text);
    summary(text)
}

// Rows of 20 texts, none NULL.
fn text_rows(rows: &mut Vec<Row>) {
    let mut numbers = Numbers::new(47);
    let (mut bytes, mut want) = (Vec::new(), 0u64);
    for _ in 0..ROWS as usize * COLUMNS {
        want += put_text(&numbers.bytes(TEXT), &mut bytes);
    }
    let row = (COLUMNS * (TEXT + 1)) as u64;
    let forms = [
        (0, "row of 20 texts by TextValues iterator, of texts alone"),
        (2, "row of 20 texts as a TextRow, a Vec of values, of texts alone"),
    ];
    for (form, name) in forms {
        let (mine, by_hand) = (bytes.clone(), bytes.clone());
        let columns = COLUMNS as u64;
        rows.push(Row {
            name: name.to_string(),
            items: ROWS,
            bytes: bytes.len() as u64,
            call: Box::new(move |reps| library::text_rows(&mine, row, columns, form, reps)),
            want,
            copy: Box::new(move |reps| library::text_rows(&by_hand, row, columns, 1, reps)),
            rust: None,
        });
    }
}

// A number of this many bytes.
fn put_number(numbers: &mut Numbers, len: usize, out: &mut Vec<u8>) -> u64 {
    let bytes = numbers.next().to_le_bytes();
    out.extend_from_slice(&bytes[..len]);
    let mut number = [0; 8];
    number[..len].copy_from_slice(&bytes[..len]);
    u64::from_le_bytes(number)
}

// A date and its time.
fn put_date(numbers: &mut Numbers, out: &mut Vec<u8>) -> u64 {
    let bytes = numbers.bytes(7);
    out.push(7);
    out.extend_from_slice(&bytes);
    let year = u16::from_le_bytes([bytes[0], bytes[1]]);
    let part = |at: usize| u64::from(bytes[at]);
    (65536 * u64::from(year) + 256 * part(2) + part(3))
        + (65536 * part(4) + 256 * part(5) + part(6))
}

// A row's bitmap, in which one of the two texts of 8 bytes is NULL, and its values.
fn put_row(numbers: &mut Numbers, out: &mut Vec<u8>) -> u64 {
    let first_is_null = numbers.next() % 2 == 0;
    out.extend_from_slice(if first_is_null { &[0x08, 0] } else { &[0x80, 0] });
    let mut sum = put_number(numbers, 8, out);
    if first_is_null {
        sum = sum.wrapping_add(1);
    } else {
        sum = sum.wrapping_add(put_text(&numbers.bytes(TEXT), out));
    }
    sum = sum.wrapping_add(put_number(numbers, 4, out));
    sum = sum.wrapping_add(put_date(numbers, out));
    sum = sum.wrapping_add(put_number(numbers, 8, out));
    if first_is_null {
        sum = sum.wrapping_add(put_text(&numbers.bytes(TEXT), out));
    } else {
        sum = sum.wrapping_add(1);
    }
    sum = sum.wrapping_add(put_number(numbers, 1, out));
    sum = sum.wrapping_add(put_number(numbers, 4, out));
    sum = sum.wrapping_add(put_number(numbers, 2, out));
    sum.wrapping_add(put_text(&numbers.bytes(4), out))
}

// Rows of ten values in the binary form.
fn binary_rows(rows: &mut Vec<Row>) {
    let mut numbers = Numbers::new(53);
    let (mut bytes, mut want) = (Vec::new(), 0u64);
    for _ in 0..ROWS {
        want = want.wrapping_add(put_row(&mut numbers, &mut bytes));
    }
    let row = bytes.len() as u64 / ROWS;
    let forms = [
        (0, "binary row of 10 values by BinaryValues, of by hand"),
        (1, "binary row of 10 values by value, of by hand"),
    ];
    for (form, name) in forms {
        let (mine, by_hand) = (bytes.clone(), bytes.clone());
        rows.push(Row {
            name: name.to_string(),
            items: ROWS,
            bytes: bytes.len() as u64,
            call: Box::new(move |reps| library::binary_rows(&mine, row, form, reps)),
            want,
            copy: Box::new(move |reps| library::binary_rows(&by_hand, row, 2, reps)),
            rust: None,
        });
    }
}

pub fn rows(rows: &mut Vec<Row>) {
    text_rows(rows);
    binary_rows(rows);
}
