//! Packets once more, written plainly: what a stream of chunks has to give.
#![allow(dead_code)] // (no test uses all of it)

use mysql_wire::{Connection, Error};

pub const FULL: usize = 16777215;

/// The chunks of a payload, numbered from `number`.
pub fn framed(mut number: u8, payload: &[u8]) -> Vec<u8> {
    let mut out = Vec::new();
    let mut rest = payload;
    loop {
        let len = rest.len().min(FULL);
        out.extend_from_slice(&(len as u32).to_le_bytes()[..3]);
        out.push(number);
        out.extend_from_slice(&rest[..len]);
        rest = &rest[len..];
        if len < FULL {
            return out;
        }
        number = number.wrapping_add(1);
    }
}

/// The packets of a whole stream of short ones, and how it ends. A decoder that waits for a whole
/// chunk says that its number is another one only then; one that doesn't says so at its header.
pub fn read(limit: usize, stream: &[u8], waits: bool) -> (Vec<Vec<u8>>, Result<(), Error>) {
    let (mut packets, mut rest) = (Vec::new(), stream);
    for number in 0_usize.. {
        let Some((&[a, b, c, id], behind)) = rest.split_first_chunk() else { break };
        let len = u32::from_le_bytes([a, b, c, 0]) as usize;
        if len > limit && len > 0 {
            return (packets, Err(Error::PacketTooLarge));
        }
        let is_whole = len <= behind.len();
        if id != number as u8 && (is_whole || !waits) {
            return (packets, Err(Error::PacketsOutOfSync));
        }
        if !is_whole {
            break;
        }
        packets.push(behind[..len].to_vec());
        rest = &behind[len..];
    }
    (packets, Ok(()))
}

/// The packets that a connection hands out of pieces, and how it ends.
pub fn fed(limit: usize, pieces: &[&[u8]]) -> (Vec<Vec<u8>>, Result<(), Error>) {
    let mut connection = Connection::new(limit).unwrap();
    let mut packets = Vec::new();
    for piece in pieces {
        if let Err(error) = connection.feed(piece) {
            return (packets, Err(error));
        }
        loop {
            match connection.next_packet() {
                Ok(Some(packet)) => packets.push(packet),
                Ok(None) => break,
                Err(error) => return (packets, Err(error)),
            }
        }
    }
    (packets, Ok(()))
}

/// Numbers of a seed (xorshift).
pub struct Numbers(u64);

impl Numbers {
    pub fn new(seed: u64) -> Numbers {
        Numbers(seed.wrapping_mul(0x9e37_79b9_7f4a_7c15) | 1)
    }

    pub fn below(&mut self, bound: usize) -> usize {
        self.0 ^= self.0 << 13;
        self.0 ^= self.0 >> 7;
        self.0 ^= self.0 << 17;
        (self.0 >> 11) as usize % bound
    }

    /// A stream of short packets, of which some are damaged and some cut short.
    pub fn stream(&mut self) -> Vec<u8> {
        let mut stream = Vec::new();
        for number in 0..self.below(12) {
            let payload: Vec<u8> = (0..self.below(40)).map(|_| self.below(256) as u8).collect();
            stream.extend(framed(number as u8, &payload));
        }
        if !stream.is_empty() && self.below(3) == 0 {
            let at = self.below(stream.len());
            stream[at] = self.below(256) as u8;
        }
        if self.below(3) == 0 {
            stream.truncate(self.below(stream.len() + 1));
        }
        stream
    }

    /// The same stream in pieces.
    pub fn pieces<'a>(&mut self, mut stream: &'a [u8]) -> Vec<&'a [u8]> {
        let mut pieces = Vec::new();
        while !stream.is_empty() {
            let (piece, rest) = stream.split_at(1 + self.below(stream.len().min(60)));
            pieces.push(piece);
            stream = rest;
        }
        pieces
    }
}
