//! Column definitions.

use crate::check::summary;
use crate::fields::{lenenc, parts_row};
use crate::inputs::Numbers;
use crate::library;
use crate::timing::Row;
use std::borrow::Cow;
use std::hint::black_box;
use std::io::{Error, ErrorKind, Result};
use std::iter::repeat_with;

const DEFINITIONS: usize = 1000;

/// The numbers of types of columns that servers send.
const TYPES: [u8; 8] = [0x01, 0x03, 0x08, 0x0c, 0xf5, 0xf6, 0xfc, 0xfd];

/// The forms of reading, and of writing again what was read, by their numbers.
const COPIES: [&str; 2] = ["parse and serialize", "read and put by hand"];

struct Definition<'a> {
    names: [Cow<'a, [u8]>; 6],
    collation: u16,
    length: u32,
    column_type: u8,
    flags: u16,
    decimals: u8,
}

impl Definition<'_> {
    fn made_up(numbers: &mut Numbers) -> Self {
        let names = [3, 8, 12, 12, 10, 10].map(|len| Cow::Owned(numbers.bytes(len)));
        Definition {
            names,
            collation: numbers.next() as u16,
            length: numbers.next() as u32,
            column_type: TYPES[(numbers.next() % 8) as usize],
            flags: numbers.next() as u16,
            decimals: numbers.next() as u8,
        }
    }

    fn bytes(&self) -> Vec<u8> {
        let mut bytes = Vec::new();
        for name in &self.names {
            bytes.extend(lenenc(name.len() as u64));
            bytes.extend_from_slice(name);
        }
        bytes.push(0x0c);
        bytes.extend(self.collation.to_le_bytes());
        bytes.extend(self.length.to_le_bytes());
        bytes.push(self.column_type);
        bytes.extend(self.flags.to_le_bytes());
        bytes.extend([self.decimals, 0, 0]);
        bytes
    }

    fn value(&self) -> u64 {
        let names: u64 = self.names.iter().map(|name| summary(name)).sum();
        names
            + self.collation as u64
            + self.length as u64
            + self.column_type as u64
            + self.flags as u64
            + self.decimals as u64
    }
}

// A reader in the steps of `mysql_common`: each text is looked for by itself, and the numbers in a
// block of their own, whose length is looked at once.
struct Reader<'a>(&'a [u8]);

impl<'a> Reader<'a> {
    fn eat(&mut self, count: usize) -> &'a [u8] {
        let (front, rest) = self.0.split_at(count);
        self.0 = rest;
        front
    }

    fn checked_eat(&mut self, count: usize) -> Result<&'a [u8]> {
        if self.0.len() < count {
            return Err(Error::from(ErrorKind::UnexpectedEof));
        }
        Ok(self.eat(count))
    }

    fn number(&mut self, count: usize) -> Result<u64> {
        let mut bytes = [0; 8];
        bytes[..count].copy_from_slice(self.checked_eat(count)?);
        Ok(u64::from_le_bytes(bytes))
    }

    fn lenenc_number(&mut self) -> Result<u64> {
        match self.checked_eat(1)?[0] {
            0xfc => self.number(2),
            0xfd => self.number(3),
            0xfe => self.number(8),
            0xfb | 0xff => Ok(0),
            n => Ok(n as u64),
        }
    }

    fn text(&mut self) -> Result<Cow<'a, [u8]>> {
        let len = self.lenenc_number()?;
        self.checked_eat(len as usize).map(Cow::Borrowed)
    }

    fn definition(&mut self) -> Result<Definition<'a>> {
        let names =
            [self.text()?, self.text()?, self.text()?, self.text()?, self.text()?, self.text()?];
        let block = self.checked_eat(13)?;
        if block[0] != 0x0c || !is_type(block[7]) {
            return Err(Error::from(ErrorKind::InvalidData));
        }
        Ok(Definition {
            names,
            collation: u16::from_le_bytes([block[1], block[2]]),
            length: u32::from_le_bytes([block[3], block[4], block[5], block[6]]),
            column_type: block[7],
            flags: u16::from_le_bytes([block[8], block[9]]),
            decimals: block[10],
        })
    }
}

fn is_type(byte: u8) -> bool {
    matches!(byte, 0..=20 | 242..=255) && byte != 244
}

fn read_all(bytes: &[u8]) -> Result<u64> {
    let mut reader = Reader(bytes);
    let mut sum = 0u64;
    while !reader.0.is_empty() {
        sum = sum.wrapping_add(reader.definition()?.value());
    }
    Ok(sum)
}

// The answer of the library's functions, given by this file's reader.
fn read_in_rust(bytes: &[u8], reps: u64) -> u64 {
    let mut sum = 0u64;
    for _ in 0..reps {
        match read_all(black_box(bytes)) {
            Ok(value) => sum = sum.wrapping_add(value),
            Err(_) => return u64::MAX,
        }
    }
    sum
}

pub fn rows(rows: &mut Vec<Row>) {
    let mut numbers = Numbers::new(41);
    let one = || Definition::made_up(&mut numbers);
    let definitions: Vec<Definition> = repeat_with(one).take(DEFINITIONS).collect();
    let parts: Vec<Vec<u8>> = definitions.iter().map(Definition::bytes).collect();
    let bytes = parts.concat();
    let read: u64 = definitions.iter().map(Definition::value).sum();
    let mut row = |name: &str, want, call: Box<dyn Fn(&[u8], u64) -> u64>| {
        let name = format!("column definition, {name}");
        let rust = (want == read).then_some(read_in_rust as fn(&[u8], u64) -> u64);
        rows.push(parts_row(name, &parts, &bytes, want, call, rust));
    };
    row("parse", read, Box::new(library::coldef));
    row("by hand", read, Box::new(library::coldef_by_hand));
    for (form, name) in COPIES.iter().enumerate() {
        let call = move |bytes: &[u8], reps| library::coldef_copy(bytes, form as u64, reps);
        row(name, summary(&bytes), Box::new(call));
    }
}
