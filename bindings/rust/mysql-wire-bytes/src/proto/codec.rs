//! `PacketCodec`.

pub mod error;

use self::error::PacketCodecError;
use bytes::{Buf, BufMut, BytesMut};
use mysql_wire::{Connection, Error, Place};
use std::mem::MaybeUninit;
use std::slice;

const DEFAULT_MAX_ALLOWED_PACKET: usize = 4 << 20;
const MAX_PAYLOAD_LEN: usize = 0xff_ffff;
const HEADER_LEN: usize = 4;

// How many packets are judged by one call of the library.
const MOST_JUDGED: usize = 64;

// The most room that a header alone takes for its chunk.
const MOST_PROMISED: usize = 32 << 10;

/// Makes packets of bytes, and bytes of packets, of one connection in both directions.
#[derive(Debug)]
pub struct PacketCodec {
    /// The most payload bytes of a packet.
    pub max_allowed_packet: usize,
    // Made at the first call, since it takes memory; and the limit that it has.
    connection: Option<Connection>,
    limit: usize,
    // Whether the connection has taken bytes of a packet that isn't whole.
    is_begun: bool,
    // How many bytes `src` had when more were last asked for, and how many came then: about what a read
    // brings.
    left: usize,
    came: usize,
    judged: Judged,
}

// The packets that the connection accepted and that weren't handed out. It is after all of them; so
// where another call comes than one that hands out the next of them, it is set back to its number.
#[derive(Debug)]
struct Judged {
    // Those from `next` on, up to `end`, where `NOWHERE` stands. The first was handed out at once; so
    // its place is free for that where all others are taken.
    places: [Place; MOST_JUDGED],
    next: usize,
    end: usize,
    // The number of the next of them, as the highest byte.
    next_id: u32,
}

impl Judged {
    // The length of the next of them.
    #[inline]
    fn next_len(&self) -> usize {
        self.places[self.next % MOST_JUDGED].payload_len()
    }

    // So many are judged, from this number on.
    #[inline]
    fn fill(&mut self, count: usize, id: u8) {
        (self.next, self.end) = (0, count);
        self.next_id = u32::from(id) << 24;
        self.places[count % MOST_JUDGED] = Place::NOWHERE;
    }

    // The next of them is handed out.
    #[inline]
    fn step(&mut self) {
        self.next += 1;
        self.next_id = self.next_id.wrapping_add(1 << 24);
    }

    // None is left.
    fn clear(&mut self) {
        self.end = self.next;
        self.places[self.end % MOST_JUDGED] = Place::NOWHERE;
    }
}

impl Default for PacketCodec {
    fn default() -> PacketCodec {
        let limit = DEFAULT_MAX_ALLOWED_PACKET;
        let judged = Judged { places: [Place::NOWHERE; MOST_JUDGED], next: 0, end: 0, next_id: 0 };
        PacketCodec {
            max_allowed_packet: limit,
            connection: None,
            limit,
            is_begun: false,
            left: 0,
            came: 0,
            judged,
        }
    }
}

impl PacketCodec {
    // The connection, under the limit that is set.
    #[inline]
    fn connection(&mut self) -> Result<&mut Connection, Error> {
        if self.connection.is_none() || self.limit != self.max_allowed_packet {
            self.begin()?;
        }
        // (there is one)
        self.connection.as_mut().ok_or(Error::OutOfMemory)
    }

    // Makes the connection, where there is none, and sets its limit.
    #[cold]
    fn begin(&mut self) -> Result<(), Error> {
        let limit = self.max_allowed_packet;
        match &mut self.connection {
            Some(connection) => connection.set_limit(limit)?,
            None => self.connection = Some(Connection::new(limit)?),
        }
        self.limit = limit;
        Ok(())
    }

    // How many bytes are to come, where the front of `src` is left there until more has come: a
    // chunk that is cut short, of less than 16777215 bytes, and within the limit.
    #[inline]
    fn missing(&self, src: &[u8]) -> Option<usize> {
        let Some((header, bytes)) = src.split_first_chunk::<HEADER_LEN>() else {
            return Some(0);
        };
        let len = u32::from_le_bytes(*header) as usize & MAX_PAYLOAD_LEN;
        if len <= bytes.len() {
            return None;
        }
        let is_cut = len < MAX_PAYLOAD_LEN && len <= self.max_allowed_packet;
        is_cut.then(|| len - bytes.len())
    }

    // The length of the packet in front, where the connection has accepted it: its header is the next
    // judged one, it is there whole, and the limit is the one that it was judged by.
    #[inline]
    fn accepted(&self, src: &[u8]) -> Option<usize> {
        let (header, bytes) = src.split_first_chunk::<HEADER_LEN>()?;
        let len = self.judged.next_len();
        let fits = len <= bytes.len() && self.limit == self.max_allowed_packet;
        let is_next = u32::from_le_bytes(*header) == len as u32 | self.judged.next_id;
        (fits && is_next).then_some(len)
    }

    // Sets the connection after the last packet that was handed out.
    #[inline]
    fn forget_judged(&mut self) {
        if self.judged.next < self.judged.end {
            self.set_back();
        }
    }

    #[cold]
    fn set_back(&mut self) {
        self.judged.clear();
        if let Some(connection) = &mut self.connection {
            // It is refused only where a packet is lent, and none is.
            let _ = connection.set_sequence_id((self.judged.next_id >> 24) as u8);
        }
    }

    // The length of the packet in front, where the connection accepts it, with those after it.
    #[inline]
    fn judge(&mut self, src: &[u8]) -> Result<Option<usize>, Error> {
        self.connection()?;
        let (Some(connection), judged) = (&mut self.connection, &mut self.judged) else {
            return Ok(None);
        };
        let (_, packets) = connection.decode_many(src, &mut judged.places);
        let (first, count) = (packets.first().copied(), packets.len());
        judged.fill(count, src.get(HEADER_LEN - 1).copied().unwrap_or_default());
        Ok(first.map(Place::payload_len))
    }

    // Puts an accepted packet into `dst`.
    #[inline]
    fn hand_out(&mut self, len: usize, src: &mut BytesMut, dst: &mut impl BufMut) {
        self.judged.step();
        dst.put_slice(&src[HEADER_LEN..HEADER_LEN + len]);
        src.advance(HEADER_LEN + len);
    }

    /// Appends the next packet's payload to `dst`, if it has come whole; otherwise false. What is used
    /// of `src` is advanced over. After `PacketTooLarge` a larger limit goes on; after
    /// `PacketsOutOfSync` each call answers the same.
    #[inline]
    pub fn decode<T>(&mut self, src: &mut BytesMut, dst: &mut T) -> Result<bool, PacketCodecError>
    where
        T: AsRef<[u8]> + BufMut,
    {
        if let Some(len) = self.accepted(src) {
            self.hand_out(len, src, dst);
            return Ok(true);
        }
        Ok(self.decode_next(src, dst)?)
    }

    // The same where the packet in front isn't accepted yet.
    #[cold]
    fn decode_next(&mut self, src: &mut BytesMut, dst: &mut impl BufMut) -> Result<bool, Error> {
        self.forget_judged();
        if !self.is_begun {
            if src.len() > self.left {
                self.came = src.len() - self.left;
            }
            self.left = usize::MAX;
            if let Some(missing) = self.missing(src) {
                self.left = src.len();
                make_room(missing, self.came, src);
                return Ok(false);
            }
            if let Some(len) = self.judge(src)? {
                self.hand_out(len, src, dst);
                return Ok(true);
            }
        }
        self.decode_alone(src, dst)
    }

    // One packet, by a call of its own.
    fn decode_alone(&mut self, src: &mut BytesMut, dst: &mut impl BufMut) -> Result<bool, Error> {
        let connection = self.connection()?;
        let bytes = src.as_ptr_range();
        let (used, answer) = connection.decode(src);
        match answer {
            Ok(Some(packet)) => {
                dst.put_slice(packet);
                if !bytes.contains(&packet.as_ptr()) {
                    // It was put together by the connection. Where it is empty it may have lain at
                    // the end of `src`, and then there is none to take.
                    let _ = connection.take();
                }
                src.advance(used);
                self.is_begun = false;
                Ok(true)
            }
            Ok(None) => {
                src.advance(used);
                self.is_begun = true;
                Ok(false)
            }
            Err(error) => {
                src.advance(used);
                self.is_begun = true;
                Err(error)
            }
        }
    }

    /// Frames a packet after what `dst` holds, and empties it. After a refusal nothing has changed.
    #[inline]
    pub fn encode<T: Buf>(
        &mut self,
        packet: &mut T,
        dst: &mut BytesMut,
    ) -> Result<(), PacketCodecError> {
        let len = packet.remaining();
        if len > self.max_allowed_packet {
            return Err(PacketCodecError::PacketTooLarge);
        }
        self.forget_judged();
        if len >= MAX_PAYLOAD_LEN {
            return Ok(self.encode_chunks(packet, dst)?);
        }
        let connection = self.connection()?;
        dst.reserve(HEADER_LEN + len);
        let header = connection.encode_header(len)?;
        if packet.chunk().len() == len {
            put_packet(header, packet.chunk(), dst);
            packet.advance(len);
        } else {
            dst.put_slice(&header);
            dst.put(packet.take(len));
        }
        Ok(())
    }

    // A packet of more than one chunk.
    fn encode_chunks<T: Buf>(&mut self, packet: &mut T, dst: &mut BytesMut) -> Result<(), Error> {
        let len = packet.remaining();
        let connection = self.connection()?;
        // (where a sum is cut, there is no such room, and the connection refuses it)
        dst.reserve(len.saturating_add(HEADER_LEN * (len / MAX_PAYLOAD_LEN + 1)));
        if packet.chunk().len() == len {
            append(connection, packet.chunk(), dst)?;
            packet.advance(len);
            Ok(())
        } else {
            append(connection, &packet.copy_to_bytes(len), dst)
        }
    }

    /// Numbers the next packet 0, as at the start of a command.
    pub fn reset_seq_id(&mut self) {
        self.judged.clear();
        if let Some(connection) = &mut self.connection {
            // It is refused only where a packet is lent, and none is.
            let _ = connection.reset_seq_id();
        }
    }

    /// Changes nothing: it is there for the compressed protocol, which isn't.
    pub fn sync_seq_id(&mut self) {}
}

/// Takes room for the bytes that a packet lacks and what a read brings after them, or for eight times
/// what has come. `BytesMut` moves what it holds where room is short: now that is the least of the
/// packet.
#[inline]
fn make_room(missing: usize, came: usize, src: &mut BytesMut) {
    let wanted = missing.saturating_add(came);
    if missing > 0 && src.capacity() - src.len() < wanted {
        let most = src.len().saturating_mul(8).max(MOST_PROMISED);
        src.reserve(wanted.min(most));
    }
}

/// Puts a header and a payload after what is there, into room that was reserved.
#[inline]
fn put_packet(header: [u8; HEADER_LEN], payload: &[u8], dst: &mut BytesMut) {
    let len = HEADER_LEN + payload.len();
    let room = &mut dst.chunk_mut()[..len];
    room[..HEADER_LEN].copy_from_slice(&header);
    room[HEADER_LEN..].copy_from_slice(payload);
    // SAFETY: this many bytes of the room were written.
    unsafe { dst.advance_mut(len) };
}

/// Frames a payload after what is there, in room that was taken.
#[inline]
fn append(connection: &mut Connection, payload: &[u8], dst: &mut BytesMut) -> Result<(), Error> {
    let room = dst.chunk_mut();
    // SAFETY: the room is valid for its length, and need not hold values.
    let room = unsafe {
        slice::from_raw_parts_mut(room.as_mut_ptr().cast::<MaybeUninit<u8>>(), room.len())
    };
    let written = connection.encode_to(payload, room)?;
    // SAFETY: this many bytes of the room were written.
    unsafe { dst.advance_mut(written) };
    Ok(())
}
