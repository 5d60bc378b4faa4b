//! One side of a connection.

use crate::calls::{self, Handle, Place};
use crate::error::{checked, Error};
use std::fmt;
use std::mem::MaybeUninit;

/// One side of a connection: the bytes that came and aren't taken yet, the packet that is put
/// together, the number of the next packet, and the bytes that wait to be sent.
///
/// What is fed is kept: feed what one read gave, and take packets until there is none. Then at most
/// 3 bytes more are unread than the limit in force when the last header of the unfinished packet was
/// fed, and at most 3 bytes where no header has come.
pub struct Connection(Handle);

impl Connection {
    /// For packets of at most `limit` payload bytes each way. The next of them is numbered 0.
    pub fn new(limit: usize) -> Result<Connection, Error> {
        match calls::open(limit) {
            Ok(handle) => Ok(Connection(handle)),
            Err(code) => Err(Error::of(code)),
        }
    }

    /// Takes bytes that came; they are copied. After a refusal none were taken.
    pub fn feed(&mut self, bytes: &[u8]) -> Result<(), Error> {
        checked(calls::feed(&mut self.0, bytes)).map(drop)
    }

    /// The next packet's payload, where it stands whole. It is lent again until `take`, and, below
    /// 16777215 bytes, not copied. After `PacketTooLarge` a larger limit goes on; after
    /// `PacketsOutOfSync` each later call that reads answers the same.
    pub fn peek(&mut self) -> Result<Option<&[u8]>, Error> {
        let (code, packet) = calls::peek(&mut self.0);
        Ok((checked(code)? > 0).then_some(packet))
    }

    /// Takes the packet that `peek` lent. `NoPacket` changes nothing.
    pub fn take(&mut self) -> Result<(), Error> {
        checked(calls::take(&mut self.0)).map(drop)
    }

    /// A copy of the next packet's payload, which is taken.
    pub fn next_packet(&mut self) -> Result<Option<Vec<u8>>, Error> {
        let Some(packet) = self.peek()?.map(<[u8]>::to_vec) else {
            return Ok(None);
        };
        self.take()?;
        Ok(Some(packet))
    }

    /// Takes the packet that is lent, and lends the next one: out of `bytes`, with no copy and no
    /// memory, where it lies whole there in one chunk and nothing that came before is unread. Else the
    /// connection takes as many bytes as complete a packet, or all. The count says how many were used:
    /// go on with the others, also after a refusal.
    #[inline]
    pub fn decode<'a>(&'a mut self, bytes: &'a [u8]) -> (usize, Result<Option<&'a [u8]>, Error>) {
        let (code, used, packet) = calls::decode(&mut self.0, bytes);
        (used, checked(code).map(|code| (code > 0).then_some(packet)))
    }

    /// Takes the packet that is lent, and says where as many packets stand as `bytes` begin with, at
    /// most one for each of these places, with one call of the library: packets of one chunk each that
    /// lie whole there, one after the other, where nothing that came before is unread. The connection
    /// is after all of them; the count says how many bytes were used. Where there is none, `decode`
    /// goes on.
    ///
    /// ```
    /// # fn main() -> Result<(), mysql_wire::Error> {
    /// let mut connection = mysql_wire::Connection::new(1 << 24)?;
    /// let bytes = b"\x01\0\0\0a\x02\0\0\x01bc\x01\0"; // what one read gave
    /// let mut places = [mysql_wire::Place::NOWHERE; 16];
    /// let (used, packets) = connection.decode_many(bytes, &mut places);
    /// let packets: Vec<&[u8]> = packets.iter().map(|place| &bytes[place.range()]).collect();
    /// assert_eq!((used, packets), (11, vec![&b"a"[..], b"bc"]));
    /// assert_eq!(connection.decode(&bytes[used..]), (2, Ok(None)));
    /// # Ok(())
    /// # }
    /// ```
    #[inline]
    pub fn decode_many<'a>(
        &mut self,
        bytes: &[u8],
        places: &'a mut [Place],
    ) -> (usize, &'a [Place]) {
        let (count, used) = calls::decode_many(&mut self.0, bytes, places);
        (used, places.get(..count).unwrap_or_default())
    }

    /// Whether the header in front bears the expected number, as soon as it has come: ask it where
    /// `peek` or `decode` answers `None`, which refuse a packet of another number only once its chunk
    /// has come whole, of up to 16777215 bytes. A client wants to be told here. It changes nothing, and
    /// no later call lends a packet that it refuses.
    ///
    /// ```
    /// # fn main() -> Result<(), mysql_wire::Error> {
    /// let mut connection = mysql_wire::Connection::new(1 << 24)?;
    /// connection.feed(b"\0\0\x80\x05")?; // a header of 8 MiB, numbered 5
    /// assert_eq!(connection.peek(), Ok(None));
    /// assert_eq!(connection.judge_front(), Err(mysql_wire::Error::PacketsOutOfSync));
    /// # Ok(())
    /// # }
    /// ```
    pub fn judge_front(&self) -> Result<(), Error> {
        checked(calls::judge_front(&self.0)).map(drop)
    }

    /// Sets the most payload bytes of a packet, for what is fed, and encoded, from now on. Where the
    /// packet in front is too large, it holds for that one too. `PacketWaits`: a packet stands
    /// whole, and has to be taken first.
    pub fn set_limit(&mut self, limit: usize) -> Result<(), Error> {
        checked(calls::set_limit(&mut self.0, limit)).map(drop)
    }

    /// How many bytes came of which no packet was made: 0 between two packets.
    pub fn unread(&self) -> usize {
        calls::unread(&self.0)
    }

    /// Frames a payload after the bytes that wait to be sent. Its number follows that of the last
    /// packet. A refusal changes nothing.
    pub fn encode(&mut self, payload: &[u8]) -> Result<(), Error> {
        checked(calls::encode(&mut self.0, payload)).map(drop)
    }

    /// Frames a payload at the front of `room`, numbered as by `encode`, and answers how many bytes
    /// that took: [`framed_len`] says how many. What waits to be sent goes first. A refusal changes
    /// nothing.
    #[inline]
    pub fn encode_to(
        &mut self,
        payload: &[u8],
        room: &mut [MaybeUninit<u8>],
    ) -> Result<usize, Error> {
        let (code, written) = calls::encode_to(&mut self.0, payload, room);
        checked(code).map(|_| written)
    }

    /// The header of a packet of `len` bytes, numbered as by `encode`, for who puts the payload after
    /// it: both together are what `encode_to` frames. `PacketTooLarge` also from 16777215 bytes on, for
    /// which `encode_to` is there. A refusal changes nothing.
    #[inline]
    pub fn encode_header(&mut self, len: usize) -> Result<[u8; 4], Error> {
        let (code, header) = calls::encode_header(&mut self.0, len);
        checked(code).map(|_| header)
    }

    /// The bytes that wait to be sent.
    pub fn pending(&self) -> &[u8] {
        calls::pending(&self.0)
    }

    /// Drops the first `count` of the bytes that wait, or all where there are fewer.
    pub fn sent(&mut self, count: usize) {
        calls::sent(&mut self.0, count);
    }

    /// Numbers the next packet 0, as at the start of a command.
    pub fn reset_seq_id(&mut self) -> Result<(), Error> {
        checked(calls::reset(&mut self.0)).map(drop)
    }

    /// Numbers the next packet `id`, as for a stream that is read from its midst.
    pub fn set_sequence_id(&mut self, id: u8) -> Result<(), Error> {
        checked(calls::set_sequence_id(&mut self.0, id)).map(drop)
    }

    /// The number of the next packet. `PacketsOutOfSync`: the stream is lost.
    pub fn sequence_id(&self) -> Result<u8, Error> {
        Ok(checked(calls::sequence_id(&self.0))? as u8)
    }

    /// The number of the packet that was lent, taken or sent last, and of its last chunk where it has
    /// more; 255 where none was. `PacketsOutOfSync`: the stream is lost.
    pub fn packet_id(&self) -> Result<u8, Error> {
        Ok(checked(calls::packet_id(&self.0))? as u8)
    }
}

impl fmt::Debug for Connection {
    fn fmt(&self, f: &mut fmt::Formatter<'_>) -> fmt::Result {
        f.debug_struct("Connection").finish_non_exhaustive()
    }
}

/// How many bytes a payload takes with the headers of its chunks. `PacketTooLarge`: more than a
/// `usize` counts.
pub fn framed_len(len: usize) -> Result<usize, Error> {
    let (code, framed) = calls::framed_len(len);
    checked(code).map(|_| framed)
}
