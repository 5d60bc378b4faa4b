//! What one side sends, on its way to the other.

use mysql_wire::{Error, Spans};

// The bytes of a chunk's header, of which the first three are its length.
const HEADER: usize = 4;
const LENGTH: usize = 3;
// The most bytes of a packet that are looked at, where it isn't asked for whole.
const FRONT: usize = 512;
// The most that are looked at then: those of a login. What else may be asked for whole begins with all
// that has to be known of it.
const WHOLE: usize = 1 << 16;
// The most bytes that wait for the other side, but for a packet that is asked for whole. A front has
// to fit.
const ROOM: usize = 1 << 14;

/// The front of a packet, before it goes on. What is written to it goes on in its place.
pub struct Front<'a> {
    pub bytes: &'a mut [u8],
    /// How many bytes the packet's first chunk has.
    pub len: usize,
    /// The number of that chunk.
    pub number: u8,
    /// Whether these are all bytes, or as many as are looked at of any packet.
    pub is_whole: bool,
}

/// A packet that comes next.
pub struct Coming {
    at: usize,
    len: usize,
    front: usize,
    spans: Spans,
}

impl Front<'_> {
    /// The first byte, where the packet isn't empty.
    pub fn first(&self) -> Option<u8> {
        self.bytes.first().copied()
    }
}

/// The bytes of one side that came and haven't gone to the other: those that may go, and after them
/// those that may not yet.
pub struct Stream {
    room: Vec<u8>,
    came: usize,
    passed: usize,
    spans: Spans,
    /// How many bytes of the next packet are looked at.
    wanted: usize,
}

impl Stream {
    /// For packets of at most `limit` bytes.
    pub fn new(limit: usize) -> Stream {
        let spans = Spans::new(limit, 0);
        Stream { room: vec![0; ROOM], came: 0, passed: 0, spans, wanted: FRONT }
    }

    /// Where the next bytes are read to.
    pub fn spare(&mut self) -> &mut [u8] {
        &mut self.room[self.came..]
    }

    /// So many bytes were read there.
    pub fn add(&mut self, count: usize) {
        self.came += count;
    }

    /// Whether no more can be read.
    pub fn is_full(&self) -> bool {
        self.came == self.room.len()
    }

    /// The bytes that may go.
    pub fn pending(&self) -> &[u8] {
        &self.room[..self.passed]
    }

    /// The first `count` of them went.
    pub fn sent(&mut self, count: usize) {
        self.room.copy_within(count..self.came, 0);
        self.came -= count;
        self.passed -= count;
    }

    /// Whether the next bytes begin a packet.
    pub fn is_between_packets(&self) -> bool {
        self.spans.is_between_packets()
    }

    /// Whether more came than may go.
    pub fn is_held(&self) -> bool {
        self.passed < self.came
    }

    /// Whether all that came has gone.
    pub fn is_empty(&self) -> bool {
        self.came == 0
    }

    /// The number in the header that comes next, where it came.
    pub fn coming_number(&self) -> Option<u8> {
        self.room[self.passed..self.came].get(LENGTH).copied()
    }

    /// The number of the next chunk.
    pub fn number(&self) -> u8 {
        self.spans.sequence_id()
    }

    /// Sets the number of the next packet.
    pub fn set_number(&mut self, number: u8) {
        self.spans.set_sequence_id(number);
    }

    /// Sets it to the one that the next packet bears, whatever that is.
    pub fn take_coming_number(&mut self) {
        if let (true, Some(number)) = (self.is_between_packets(), self.coming_number()) {
            self.set_number(number);
        }
    }

    /// Sets the most bytes of a packet.
    pub fn set_limit(&mut self, limit: usize) {
        self.spans.set_limit(limit);
    }

    /// Where the packet begins that comes next, once its front came. A header that is refused is so
    /// at once, whatever came after it.
    pub fn coming(&self) -> Result<Option<Coming>, Error> {
        let waiting = &self.room[self.passed..self.came];
        let Some((header, payload)) = waiting.split_at_checked(HEADER) else { return Ok(None) };
        let len = header[..LENGTH].iter().rev().fold(0, |len, &byte| len << 8 | usize::from(byte));
        let front = len.min(self.wanted);
        if payload.len() < front {
            self.spans.clone().next_span(&mut &*header)?;
            return Ok(None);
        }
        Ok(Some(Coming { at: self.passed, len, front, spans: self.spans.clone() }))
    }

    /// The front of a packet of which nothing has gone yet.
    pub fn front(&mut self, coming: &Coming) -> Front<'_> {
        let (at, len) = (coming.at + HEADER, coming.len);
        let number = self.room[coming.at + LENGTH];
        let is_whole = coming.front == len.min(WHOLE);
        Front { bytes: &mut self.room[at..at + coming.front], len, number, is_whole }
    }

    /// Holds it back, though it was passed.
    pub fn hold(&mut self, coming: Coming) {
        self.passed = coming.at;
        self.spans = coming.spans;
    }

    /// Holds it back until it has come whole, or as many of its bytes as are looked at then.
    pub fn hold_for_whole(&mut self, coming: Coming) {
        self.wanted = WHOLE;
        let room = HEADER + coming.len.min(WHOLE);
        if self.room.len() < room {
            self.room.resize(room, 0);
        }
        self.hold(coming);
    }

    /// It was looked at, and goes.
    pub fn let_go(&mut self) {
        self.wanted = FRONT;
    }

    /// Lets go what came of the packet in front. Whether that was its end. Where a chunk is refused,
    /// those before it go all the same.
    pub fn pass(&mut self) -> Result<bool, Error> {
        let mut piece = &self.room[self.passed..self.came];
        let ended = next_end(&mut self.spans, &mut piece);
        self.passed = self.came - piece.len();
        ended
    }
}

/// Eats a piece up to the end of the packet in front. Whether that came.
fn next_end(spans: &mut Spans, piece: &mut &[u8]) -> Result<bool, Error> {
    while let Some(span) = spans.next_span(piece)? {
        if span.ends_packet {
            return Ok(true);
        }
    }
    Ok(false)
}
