//! Made-up inputs, the same in every run.

use std::iter::{repeat_n, repeat_with};

/// The numbers of a seed (xorshift).
pub struct Numbers(u64);

impl Numbers {
    pub fn new(seed: u64) -> Self {
        Numbers(seed.wrapping_mul(0x9e37_79b9_7f4a_7c15) | 1)
    }

    pub fn next(&mut self) -> u64 {
        self.0 ^= self.0 << 13;
        self.0 ^= self.0 >> 7;
        self.0 ^= self.0 << 17;
        self.0
    }

    pub fn bytes(&mut self, len: usize) -> Vec<u8> {
        repeat_with(|| self.next() as u8).take(len).collect()
    }
}

pub const MAX_PAYLOAD_LEN: usize = 16_777_215;

/// The lengths of a payload's chunks. The last is shorter than the others, and maybe empty.
pub fn chunk_lens(size: usize) -> impl Iterator<Item = usize> {
    repeat_n(MAX_PAYLOAD_LEN, size / MAX_PAYLOAD_LEN).chain([size % MAX_PAYLOAD_LEN])
}

fn put_header(len: usize, id: u8, out: &mut Vec<u8>) {
    out.extend_from_slice(&(len as u32).to_le_bytes()[..3]);
    out.push(id);
}

/// The framing of a payload from an id, and the id after it, written plainly.
pub fn framing(first_id: u8, payload: &[u8], out: &mut Vec<u8>) -> u8 {
    let mut id = first_id;
    let mut rest = payload;
    for len in chunk_lens(payload.len()) {
        let (chunk, after) = rest.split_at(len);
        put_header(len, id, out);
        out.extend_from_slice(chunk);
        rest = after;
        id = id.wrapping_add(1);
    }
    id
}

/// The same of a made-up payload, which is never held by itself.
pub fn made_up_framing(first_id: u8, size: usize, numbers: &mut Numbers, out: &mut Vec<u8>) -> u8 {
    let mut id = first_id;
    for len in chunk_lens(size) {
        put_header(len, id, out);
        out.extend(repeat_with(|| numbers.next() as u8).take(len));
        id = id.wrapping_add(1);
    }
    id
}

pub fn size_name(size: usize) -> String {
    match size {
        s if s >= 1 << 20 && s % (1 << 20) == 0 => format!("{} MiB", s >> 20),
        s if s >= 1 << 10 && s % (1 << 10) == 0 => format!("{} KiB", s >> 10),
        s => format!("{s} B"),
    }
}
