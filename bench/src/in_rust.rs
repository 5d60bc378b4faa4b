//! The same work in plain Rust over the crate `bytes`, in the steps of `mysql_common`: what the
//! library's workloads are measured beside, where that crate is found.

use crate::check::{ends, summary};
use crate::inputs::MAX_PAYLOAD_LEN;
use bytes::{Buf, BufMut, BytesMut};
use std::hint::black_box;
use std::num::NonZeroUsize;

/// What a workload answers where anything is refused.
const REFUSED: u64 = u64::MAX;

enum Refusal {
    TooLarge,
    OutOfSync,
}

/// Whether a chunk goes on, and its id.
enum ChunkInfo {
    Middle(u8),
    Last(u8),
}

#[derive(Clone, Copy)]
enum ChunkDecoder {
    Idle,
    Chunk { seq_id: u8, needed: NonZeroUsize },
}

impl ChunkDecoder {
    fn decode<T: AsRef<[u8]> + BufMut>(
        &mut self,
        src: &mut BytesMut,
        dst: &mut T,
        limit: usize,
    ) -> Result<Option<ChunkInfo>, Refusal> {
        let (seq_id, needed) = match *self {
            ChunkDecoder::Chunk { seq_id, needed } => (seq_id, needed),
            ChunkDecoder::Idle => {
                let Some(&[a, b, c, seq_id]) = src.first_chunk() else { return Ok(None) };
                let len = u32::from_le_bytes([a, b, c, 0]) as usize;
                let Some(needed) = NonZeroUsize::new(len) else {
                    src.advance(4);
                    return Ok(Some(ChunkInfo::Last(seq_id)));
                };
                if dst.as_ref().len() + len > limit {
                    return Err(Refusal::TooLarge);
                }
                *self = ChunkDecoder::Chunk { seq_id, needed };
                (seq_id, needed)
            }
        };
        if src.len() < 4 + needed.get() {
            return Ok(None);
        }
        src.advance(4);
        dst.put_slice(&src[..needed.get()]);
        src.advance(needed.get());
        *self = ChunkDecoder::Idle;
        match dst.as_ref().len() % MAX_PAYLOAD_LEN {
            0 => Ok(Some(ChunkInfo::Middle(seq_id))),
            _ => Ok(Some(ChunkInfo::Last(seq_id))),
        }
    }
}

struct PacketCodec {
    limit: usize,
    seq_id: u8,
    chunk: ChunkDecoder,
}

impl PacketCodec {
    fn new(limit: usize) -> Self {
        PacketCodec { limit, seq_id: 0, chunk: ChunkDecoder::Idle }
    }

    fn check_seq_id(&mut self, seq_id: u8) -> Result<(), Refusal> {
        if self.seq_id != seq_id {
            return Err(Refusal::OutOfSync);
        }
        self.seq_id = self.seq_id.wrapping_add(1);
        Ok(())
    }

    fn decode<T: AsRef<[u8]> + BufMut>(
        &mut self,
        src: &mut BytesMut,
        dst: &mut T,
    ) -> Result<bool, Refusal> {
        loop {
            match self.chunk.decode(src, dst, self.limit)? {
                None => return Ok(false),
                Some(ChunkInfo::Middle(seq_id)) => self.check_seq_id(seq_id)?,
                Some(ChunkInfo::Last(seq_id)) => {
                    self.check_seq_id(seq_id)?;
                    return Ok(true);
                }
            }
        }
    }

    fn encode<T: Buf>(&mut self, packet: &mut T, dst: &mut BytesMut) -> Result<(), Refusal> {
        if packet.remaining() > self.limit {
            return Err(Refusal::TooLarge);
        }
        self.seq_id = packet_to_chunks(self.seq_id, packet, dst);
        Ok(())
    }
}

fn packet_to_chunks<T: Buf>(mut seq_id: u8, packet: &mut T, dst: &mut BytesMut) -> u8 {
    let is_full = packet.remaining() % MAX_PAYLOAD_LEN == 0;
    dst.reserve(packet.remaining() + packet.remaining() / MAX_PAYLOAD_LEN * 4 + 4);
    while packet.has_remaining() {
        let mut left = packet.remaining().min(MAX_PAYLOAD_LEN);
        dst.put_u32_le(left as u32 | u32::from(seq_id) << 24);
        while left > 0 {
            let part = packet.chunk();
            let count = part.len().min(left);
            dst.put(&part[..count]);
            left -= count;
            packet.advance(count);
        }
        seq_id = seq_id.wrapping_add(1);
    }
    if is_full {
        dst.put_u32_le(u32::from(seq_id) << 24);
        seq_id = seq_id.wrapping_add(1);
    }
    seq_id
}

/// A payload framed `count` times a repetition, by `encode` or by `packet_to_chunks`.
pub fn frame(bytes: &[u8], count: u64, encodes: bool, reps: u64) -> u64 {
    let mut dst = BytesMut::new();
    let mut codec = PacketCodec::new(usize::MAX);
    let mut sum = 0u64;
    for _ in 0..reps {
        dst.clear();
        codec.seq_id = 0;
        let mut seq_id = 0;
        for _ in 0..count {
            let mut packet = black_box(bytes);
            if !encodes {
                seq_id = packet_to_chunks(seq_id, &mut packet, &mut dst);
            } else if codec.encode(&mut packet, &mut dst).is_err() {
                return REFUSED;
            }
        }
        sum = sum.wrapping_add(summary(&dst)).wrapping_add(u64::from(seq_id));
    }
    sum
}

/// A stream appended in pieces and advanced over.
pub fn append(bytes: &[u8], piece: usize, reps: u64) -> u64 {
    let mut src = BytesMut::new();
    let mut sum = 0u64;
    for _ in 0..reps {
        for part in bytes.chunks(piece) {
            src.extend_from_slice(black_box(part));
            sum = sum.wrapping_add(ends(&src));
            src.advance(src.len());
        }
    }
    sum
}

fn drain(
    codec: &mut PacketCodec,
    src: &mut BytesMut,
    dst: &mut Vec<u8>,
    fresh: bool,
) -> Result<u64, Refusal> {
    let mut sum = 0u64;
    while codec.decode(src, dst)? {
        sum = sum.wrapping_add(summary(dst));
        if fresh {
            *dst = Vec::new();
        } else {
            dst.clear();
        }
    }
    Ok(sum)
}

/// A stream of whole packets decoded in pieces, into one buffer or a new one for each packet.
pub fn decode(bytes: &[u8], piece: usize, limit: usize, fresh: bool, reps: u64) -> u64 {
    let mut codec = PacketCodec::new(limit);
    let (mut src, mut dst) = (BytesMut::new(), Vec::new());
    let mut sum = 0u64;
    for _ in 0..reps {
        codec.seq_id = 0;
        for part in bytes.chunks(piece) {
            src.extend_from_slice(black_box(part));
            match drain(&mut codec, &mut src, &mut dst, fresh) {
                Ok(value) => sum = sum.wrapping_add(value),
                Err(Refusal::TooLarge | Refusal::OutOfSync) => return REFUSED,
            }
        }
    }
    sum
}

/// The borrowed buffer.
struct ParseBuf<'a>(&'a [u8]);

impl<'a> ParseBuf<'a> {
    fn eat(&mut self, count: usize) -> &'a [u8] {
        let (front, rest) = self.0.split_at(count);
        self.0 = rest;
        front
    }

    fn checked_eat(&mut self, count: usize) -> Option<&'a [u8]> {
        (self.0.len() >= count).then(|| self.eat(count))
    }

    fn number(&mut self, count: usize) -> Option<u64> {
        let mut bytes = [0; 8];
        bytes[..count].copy_from_slice(self.checked_eat(count)?);
        Some(u64::from_le_bytes(bytes))
    }

    fn lenenc_int(&mut self) -> Option<u64> {
        match self.checked_eat(1)?[0] {
            0xfc => self.number(2),
            0xfd => self.number(3),
            0xfe => self.number(8),
            0xfb | 0xff => Some(0),
            n => Some(u64::from(n)),
        }
    }

    fn lenenc_str(&mut self) -> Option<&'a [u8]> {
        let len = self.lenenc_int()?;
        self.checked_eat(len as usize)
    }

    fn null_str(&mut self) -> &'a [u8] {
        let end = self.0.iter().position(|byte| *byte == 0);
        match self.eat(end.map_or(self.0.len(), |at| at + 1)) {
            [text @ .., 0] => text,
            text => text,
        }
    }
}

fn put_lenenc_int<T: BufMut>(out: &mut T, n: u64) {
    match n {
        0..251 => out.put_u8(n as u8),
        251..0x1_0000 => {
            out.put_u8(0xfc);
            out.put_u16_le(n as u16);
        }
        0x1_0000..0x100_0000 => {
            out.put_u8(0xfd);
            out.put_uint_le(n, 3);
        }
        _ => {
            out.put_u8(0xfe);
            out.put_u64_le(n);
        }
    }
}

// So many repetitions of what may be refused.
fn sum_of(reps: u64, mut once: impl FnMut() -> Option<u64>) -> u64 {
    let mut sum = 0u64;
    for _ in 0..reps {
        match once() {
            Some(value) => sum = sum.wrapping_add(value),
            None => return REFUSED,
        }
    }
    sum
}

/// Length-encoded texts read.
pub fn row(bytes: &[u8], reps: u64) -> u64 {
    sum_of(reps, || {
        let mut buf = ParseBuf(black_box(bytes));
        let mut sum = 0u64;
        while !buf.0.is_empty() {
            sum = sum.wrapping_add(summary(buf.lenenc_str()?));
        }
        Some(sum)
    })
}

// Each text read and written again.
fn copy_texts<T: BufMut>(bytes: &[u8], out: &mut T) {
    let mut buf = ParseBuf(black_box(bytes));
    while let Some(text) = buf.lenenc_str() {
        put_lenenc_int(out, text.len() as u64);
        out.put_slice(text);
    }
}

/// Length-encoded texts read and written again, into a `BytesMut` or a `Vec`.
pub fn row_copy(bytes: &[u8], shares: bool, reps: u64) -> u64 {
    let (mut out, mut shared) = (Vec::new(), BytesMut::new());
    sum_of(reps, || {
        if shares {
            shared.clear();
            copy_texts(bytes, &mut shared);
            Some(summary(&shared))
        } else {
            out.clear();
            copy_texts(bytes, &mut out);
            Some(summary(&out))
        }
    })
}

/// Texts that a zero ends, read.
pub fn null(bytes: &[u8], reps: u64) -> u64 {
    sum_of(reps, || {
        let mut buf = ParseBuf(black_box(bytes));
        let mut sum = 0u64;
        while !buf.0.is_empty() {
            sum = sum.wrapping_add(summary(buf.null_str()));
        }
        Some(sum)
    })
}

fn put_numbers<T: BufMut>(bytes: &[u8], out: &mut T) {
    let mut numbers = ParseBuf(black_box(bytes));
    while let Some(number) = numbers.number(8) {
        put_lenenc_int(out, number);
    }
}

/// Numbers of 8 bytes put as length-encoded integers, into a `BytesMut` or a `Vec`.
pub fn put_lenenc(bytes: &[u8], shares: bool, reps: u64) -> u64 {
    let (mut out, mut shared) = (Vec::new(), BytesMut::new());
    sum_of(reps, || {
        if shares {
            shared.clear();
            put_numbers(bytes, &mut shared);
            Some(summary(&shared))
        } else {
            out.clear();
            put_numbers(bytes, &mut out);
            Some(summary(&out))
        }
    })
}

/// Length-encoded integers read.
pub fn eat_lenenc(bytes: &[u8], reps: u64) -> u64 {
    sum_of(reps, || {
        let mut buf = ParseBuf(black_box(bytes));
        let mut sum = 0u64;
        while !buf.0.is_empty() {
            sum = sum.wrapping_add(buf.lenenc_int()?);
        }
        Some(sum)
    })
}

fn ok_fields(buf: &mut ParseBuf<'_>) -> Option<u64> {
    if buf.checked_eat(1)? != [0] {
        return None;
    }
    let counts = buf.lenenc_int()?.wrapping_add(buf.lenenc_int()?);
    let flags = buf.number(2)?.wrapping_add(buf.number(2)?);
    Some(counts.wrapping_add(flags).wrapping_add(summary(buf.lenenc_str()?)))
}

/// `OK_Packet`s with words, one after another.
pub fn ok(bytes: &[u8], reps: u64) -> u64 {
    sum_of(reps, || {
        let mut buf = ParseBuf(black_box(bytes));
        let mut sum = 0u64;
        while !buf.0.is_empty() {
            sum = sum.wrapping_add(ok_fields(&mut buf)?);
        }
        Some(sum)
    })
}

/// Values of rows, one after another, where `fb` is NULL.
pub fn values(bytes: &[u8], reps: u64) -> u64 {
    sum_of(reps, || {
        let mut buf = ParseBuf(black_box(bytes));
        let mut sum = 0u64;
        while let Some(first) = buf.0.first() {
            let value = match first {
                0xfb => u64::from(buf.eat(1) == [0xfb]),
                _ => summary(buf.lenenc_str()?),
            };
            sum = sum.wrapping_add(value);
        }
        Some(sum)
    })
}
