//! The fields of a payload.

use crate::calls;
use crate::error::{checked, Error};
use mysql_wire_sys as c;

/// Reads the fields of a payload, one after another. A refusal reads nothing.
// The library checks that a field ends inside the bytes, wherever `at` stands.
#[derive(Clone, Debug)]
pub struct Fields<'a> {
    bytes: &'a [u8],
    at: usize,
}

impl<'a> Fields<'a> {
    /// From the first field on.
    pub fn new(payload: &'a [u8]) -> Fields<'a> {
        Fields::starting_at(payload, 0)
    }

    /// From the place `at` on.
    pub fn starting_at(payload: &'a [u8], at: usize) -> Fields<'a> {
        Fields { bytes: payload, at }
    }

    /// Where the next field stands.
    pub fn at(&self) -> usize {
        self.at
    }

    /// Goes past `count` bytes, or past the end.
    pub fn skip(&mut self, count: usize) {
        self.at = self.at.saturating_add(count);
    }

    /// What is left.
    pub fn rest(&self) -> &'a [u8] {
        self.bytes.get(self.at..).unwrap_or_default()
    }

    /// A number of `width` bytes, 1 to 8, the least significant first.
    pub fn int(&mut self, width: usize) -> Result<u64, Error> {
        let mut value = 0;
        checked(calls::read_int(self.bytes, &mut self.at, width, &mut value))?;
        Ok(value)
    }

    /// A length-encoded integer.
    pub fn lenenc_int(&mut self) -> Result<u64, Error> {
        let mut value = 0;
        checked(calls::read_lenenc_int(self.bytes, &mut self.at, &mut value))?;
        Ok(value)
    }

    /// A text after its length.
    pub fn lenenc_bytes(&mut self) -> Result<&'a [u8], Error> {
        let mut text = c::Span { at: 0, len: 0 };
        checked(calls::read_lenenc_bytes(self.bytes, &mut self.at, &mut text))?;
        Ok(self.text(text))
    }

    /// A value of a text row: a text after its length, or `None` where `fb` stands for NULL.
    pub fn lenenc_bytes_or_null(&mut self) -> Result<Option<&'a [u8]>, Error> {
        if self.rest().first() == Some(&0xfb) {
            self.at += 1;
            return Ok(None);
        }
        self.lenenc_bytes().map(Some)
    }

    /// The values of a text row, this many, by one call of the library: each a text, or `None` for NULL.
    ///
    /// ```
    /// # fn main() -> Result<(), mysql_wire::Error> {
    /// let mut fields = mysql_wire::Fields::new(b"\x03one\xfb\0");
    /// assert_eq!(fields.row(3)?, [Some(&b"one"[..]), None, Some(b"")]);
    /// # Ok(())
    /// # }
    /// ```
    pub fn row(&mut self, columns: usize) -> Result<Vec<Option<&'a [u8]>>, Error> {
        // (each value has a byte, so that a number which is too large takes no memory)
        if columns > self.rest().len() {
            return Err(Error::MissingBytes);
        }
        let mut texts = vec![c::Span { at: 0, len: 0 }; columns];
        checked(calls::read_row(self.bytes, &mut self.at, &mut texts))?;
        let value = |text: c::Span| (text.at != usize::MAX).then(|| self.text(text));
        Ok(texts.into_iter().map(value).collect())
    }

    /// The text before the next zero, which is read with it.
    pub fn null_bytes(&mut self) -> Result<&'a [u8], Error> {
        let mut text = c::Span { at: 0, len: 0 };
        checked(calls::read_null_bytes(self.bytes, &mut self.at, &mut text))?;
        Ok(self.text(text))
    }

    fn text(&self, text: c::Span) -> &'a [u8] {
        let end = text.at.saturating_add(text.len);
        self.bytes.get(text.at..end).unwrap_or_default()
    }
}

/// Appends the low `width` bytes of a number, 1 to 8, the least significant first.
pub fn put_int(out: &mut Vec<u8>, value: u64, width: usize) -> Result<(), Error> {
    let (mut room, mut at) = ([0; 8], 0);
    checked(calls::write_int(&mut room, &mut at, width, value))?;
    out.extend_from_slice(&room[..at]);
    Ok(())
}

/// Appends a length-encoded integer, in as few bytes as hold the number.
pub fn put_lenenc_int(out: &mut Vec<u8>, value: u64) {
    let (mut room, mut at) = ([0; 9], 0);
    // Nine bytes hold each number, so that it isn't refused.
    calls::write_lenenc_int(&mut room, &mut at, value);
    out.extend_from_slice(&room[..at]);
}

/// Appends a text after its length.
pub fn put_lenenc_bytes(out: &mut Vec<u8>, text: &[u8]) {
    put_lenenc_int(out, text.len() as u64);
    out.extend_from_slice(text);
}

/// Appends a text, which should have no zero, and a zero.
pub fn put_null_bytes(out: &mut Vec<u8>, text: &[u8]) {
    out.extend_from_slice(text);
    out.push(0);
}
