//! Packets in spans of the bytes that bring them.

use crate::calls;
use crate::error::{checked, Error};
use mysql_wire_sys as c;

/// Bytes of a packet, borrowed from the piece that brought them.
#[derive(Clone, Copy, Debug, PartialEq, Eq)]
pub struct Span<'a> {
    pub bytes: &'a [u8],
    /// Whether these are the packet's last bytes.
    pub ends_packet: bool,
}

/// The place in a stream of packets that come in pieces. Packets of any size are handed out in
/// spans of the pieces, or go on with other numbers; nothing is kept but 64 bytes, and no memory is
/// asked for.
///
/// ```
/// use mysql_wire::Spans;
///
/// # fn main() -> Result<(), mysql_wire::Error> {
/// let mut spans = Spans::new(1 << 30, 0);
/// let mut packets = vec![Vec::new()];
/// for read in [b"\x03\0\0\0ab".as_slice(), b"c\0\0\0", b"\x01"] {
///     let mut piece = read;
///     while let Some(span) = spans.next_span(&mut piece)? {
///         packets.last_mut().unwrap().extend_from_slice(span.bytes);
///         if span.ends_packet {
///             packets.push(Vec::new());
///         }
///     }
/// }
/// assert!(spans.is_between_packets());
/// assert_eq!(packets, [b"abc".to_vec(), Vec::new(), Vec::new()]);
/// # Ok(())
/// # }
/// ```
// Only calls and the numbers that may be set change the record: it is the place of some stream, and
// never refused as none.
#[derive(Clone, Debug)]
pub struct Spans(c::Spans);

impl Spans {
    /// Between two packets of at most `limit` payload bytes each, the next of them numbered `id`.
    pub fn new(limit: usize, id: u8) -> Spans {
        Spans(calls::new_spans(limit, id))
    }

    /// Eats the front of the piece: the next bytes of a packet, or `None` where the piece is used
    /// up. An empty packet is one span of no bytes, and so is the end of a packet of a multiple of
    /// 16777215 bytes.
    ///
    /// A refusal changes nothing: after `PacketTooLarge` a larger limit goes on, and after
    /// `PacketsOutOfSync` the answer stays.
    pub fn next_span<'a>(&mut self, piece: &mut &'a [u8]) -> Result<Option<Span<'a>>, Error> {
        let (code, used, len, ends_packet) = calls::next_span(&mut self.0, piece);
        let code = checked(code)?;
        let (eaten, rest) = piece.split_at(used.min(piece.len()));
        *piece = rest;
        let bytes = &eaten[eaten.len().saturating_sub(len)..];
        Ok((code > 0).then_some(Span { bytes, ends_packet }))
    }

    /// Writes other numbers over those of the packets in the piece, from `next_id` on. Nothing else
    /// changes. Where a packet is refused, the count says how many bytes may go: its header begins
    /// there, and what is left may be given again. It is 0 where earlier pieces brought
    /// `partial_header_len` bytes of that header, which have gone.
    pub fn renumber(&mut self, piece: &mut [u8]) -> Result<(), (usize, Error)> {
        let (code, used) = calls::renumber(&mut self.0, piece);
        checked(code).map(drop).map_err(|error| (used, error))
    }

    /// The most payload bytes of a packet.
    pub fn limit(&self) -> usize {
        self.0.limit
    }

    /// Sets it, for the headers to come.
    pub fn set_limit(&mut self, limit: usize) {
        self.0.limit = limit;
    }

    /// The number that the next chunk is to bear.
    pub fn sequence_id(&self) -> u8 {
        self.0.id
    }

    /// Sets it: between two packets a new stream begins with it.
    pub fn set_sequence_id(&mut self, id: u8) {
        self.0.id = id;
    }

    /// The number that `renumber` gives the next chunk; at first that of the first packet.
    pub fn next_id(&self) -> u8 {
        self.0.next_id
    }

    /// Sets it.
    pub fn set_next_id(&mut self, id: u8) {
        self.0.next_id = id;
    }

    /// How many bytes came of a header that has not come whole.
    pub fn partial_header_len(&self) -> usize {
        usize::from(self.0.header_len)
    }

    /// Whether the stream stands between two packets.
    pub fn is_between_packets(&self) -> bool {
        self.0.size == 0 && self.0.header_len == 0
    }
}
