//! Packets in spans, other ids in place, and both ways of passing a stream on.

use crate::inputs::{MAX_PAYLOAD_LEN, Numbers, framing, size_name};
use crate::library;
use crate::timing::Row;
use std::hint::black_box;

const SIZES: [usize; 5] = [16, 256, 4 << 10, 1 << 20, 64 << 20];

const PIECES: [usize; 2] = [1460, 64 << 10];

// How many packets a stream has: a quarter of a megabyte of small ones, so that it stays in the
// second cache.
fn count_for(size: usize) -> usize {
    (1 << 18) / size.max(16) + 1
}

/// Packets of a size: the stream, how many packets and chunks, and their lengths and last bytes
/// added up.
struct Stream {
    bytes: Vec<u8>,
    packets: usize,
    chunks: usize,
    sum: u64,
}

impl Stream {
    fn new(seed: usize, size: usize) -> Self {
        let mut numbers = Numbers::new(seed as u64);
        let packets = count_for(size);
        let (mut bytes, mut id, mut sum) = (Vec::new(), 0, 0u64);
        for _ in 0..packets {
            let payload = numbers.bytes(size);
            id = framing(id, &payload, &mut bytes);
            sum += size as u64 + payload.last().map_or(0, |last| *last as u64);
        }
        let chunks = packets * (size / MAX_PAYLOAD_LEN + 1);
        Stream { bytes, packets, chunks, sum }
    }
}

/// The decoder of spans once more, in plain Rust.
struct Decoder {
    limit: usize,
    next_id: u8,
    size: usize,
    header: [u8; 4],
    came: usize,
    left: usize,
    is_full: bool,
}

impl Decoder {
    fn new(limit: usize) -> Self {
        Decoder { limit, next_id: 0, size: 0, header: [0; 4], came: 0, left: 0, is_full: false }
    }

    // Judges the header, and opens its chunk.
    fn open(&mut self) -> Result<(), ()> {
        let word = u32::from_le_bytes(self.header);
        let len = (word & 0xff_ffff) as usize;
        if len > 0 && self.size + len > self.limit {
            return Err(());
        }
        if (word >> 24) as u8 != self.next_id {
            return Err(());
        }
        self.size += len;
        self.next_id = self.next_id.wrapping_add(1);
        self.left = len;
        self.is_full = len == MAX_PAYLOAD_LEN;
        Ok(())
    }

    // The next bytes of a packet, and whether they end it.
    #[inline(always)]
    fn next<'a>(&mut self, piece: &mut &'a [u8]) -> Result<Option<(&'a [u8], bool)>, ()> {
        if self.came < 4 {
            if let (0, Some(header)) = (self.came, piece.first_chunk()) {
                self.header = *header;
                *piece = &piece[4..];
            } else {
                let count = (4 - self.came).min(piece.len());
                let (front, rest) = piece.split_at(count);
                self.header[self.came..self.came + count].copy_from_slice(front);
                *piece = rest;
                self.came += count;
                if self.came < 4 {
                    return Ok(None);
                }
            }
            self.came = 4;
            self.open()?;
        }
        let (bytes, rest) = piece.split_at(self.left.min(piece.len()));
        *piece = rest;
        self.left -= bytes.len();
        if self.left > 0 {
            return Ok((!bytes.is_empty()).then_some((bytes, false)));
        }
        self.came = 0;
        if self.is_full {
            return Ok(Some((bytes, false)));
        }
        self.size = 0;
        Ok(Some((bytes, true)))
    }

    fn piece(&mut self, piece: &[u8]) -> Result<u64, ()> {
        let (mut rest, mut sum) = (piece, 0u64);
        while let Some((bytes, ends_packet)) = self.next(&mut rest)? {
            sum += bytes.len() as u64;
            if ends_packet {
                sum += bytes.last().map_or(0, |last| *last as u64);
            }
        }
        Ok(sum)
    }
}

/// A stream in pieces, in spans of plain Rust.
fn plain_spans(stream: &[u8], piece: usize, limit: usize, reps: u64) -> u64 {
    let mut decoder = Decoder::new(limit);
    let mut sum = 0u64;
    for _ in 0..reps {
        decoder.next_id = 0;
        for part in stream.chunks(piece) {
            match decoder.piece(black_box(part)) {
                Ok(value) => sum = sum.wrapping_add(value),
                Err(()) => return u64::MAX,
            }
        }
    }
    sum
}

/// A stream copied piece by piece to one buffer.
pub fn copied(stream: &[u8], piece: usize, out: &mut Vec<u8>, reps: u64) -> u64 {
    for _ in 0..reps {
        for part in stream.chunks(piece) {
            out.clear();
            out.extend_from_slice(black_box(part));
        }
    }
    out.len() as u64
}

// What stands beside the spans.
#[derive(Clone, Copy, PartialEq)]
enum Beside {
    Decode,
    InPlace,
}

fn spans_row(rows: &mut Vec<Row>, size: usize, piece: usize, beside: Beside) {
    let stream = Stream::new(size * 13 + piece, size);
    let (copied, plain) = (stream.bytes.clone(), stream.bytes.clone());
    let limit = size as u64;
    let name = match beside {
        Beside::Decode => "decode",
        Beside::InPlace => "front_packet",
    };
    rows.push(Row {
        name: format!("spans {} by {}, of {name}", size_name(size), size_name(piece)),
        items: stream.packets as u64,
        bytes: (size * stream.packets) as u64,
        call: Box::new(move |reps| library::spans(&stream.bytes, piece as u64, limit, reps)),
        want: stream.sum,
        copy: Box::new(move |reps| match beside {
            Beside::Decode => library::decode(&copied, piece as u64, limit, false, reps),
            Beside::InPlace => library::place(&copied, piece as u64, limit, reps),
        }),
        rust: match beside {
            Beside::Decode => Some(Box::new(move |reps| plain_spans(&plain, piece, size, reps))),
            Beside::InPlace => None,
        },
    });
}

fn renumber_row(rows: &mut Vec<Row>, size: usize, piece: usize, of_spans: bool) {
    let stream = Stream::new(size * 17 + piece, size);
    let (other, mut out) = (stream.bytes.clone(), Vec::with_capacity(piece));
    let limit = size as u64;
    let name = if of_spans { "spans" } else { "copy" };
    rows.push(Row {
        name: format!("renumber {} by {}, of {name}", size_name(size), size_name(piece)),
        items: stream.packets as u64,
        bytes: (size * stream.packets) as u64,
        want: (stream.bytes.len() + stream.chunks % 128) as u64,
        call: Box::new(move |reps| library::renumber(&stream.bytes, piece as u64, limit, reps)),
        copy: Box::new(move |reps| match of_spans {
            true => library::spans(&other, piece as u64, limit, reps),
            false => copied(&other, piece, &mut out, reps),
        }),
        rust: None,
    });
}

fn relay_row(rows: &mut Vec<Row>, size: usize, piece: usize) {
    let stream = Stream::new(size * 19 + piece, size);
    let copied = stream.bytes.clone();
    let limit = size as u64;
    rows.push(Row {
        name: format!("relay in spans {} by {}, of codecs", size_name(size), size_name(piece)),
        items: 2 * stream.packets as u64,
        bytes: 2 * (size * stream.packets) as u64,
        want: 2 * (stream.bytes.len() as u64 + stream.sum),
        call: Box::new(move |reps| library::relay(&stream.bytes, piece as u64, limit, 0, reps)),
        copy: Box::new(move |reps| library::relay(&copied, piece as u64, limit, 1, reps)),
        rust: None,
    });
}

pub fn rows(rows: &mut Vec<Row>) {
    for size in SIZES {
        for piece in PIECES {
            spans_row(rows, size, piece, Beside::Decode);
            // A packet of several chunks is never lent.
            if size < MAX_PAYLOAD_LEN {
                spans_row(rows, size, piece, Beside::InPlace);
            }
        }
    }
    // Each call makes its own copy of the stream, which is dearer than the ids of few packets.
    for size in SIZES.into_iter().filter(|size| *size < MAX_PAYLOAD_LEN) {
        for piece in PIECES {
            renumber_row(rows, size, piece, true);
            renumber_row(rows, size, piece, false);
        }
    }
    for size in SIZES {
        for piece in PIECES {
            relay_row(rows, size, piece);
        }
    }
}
