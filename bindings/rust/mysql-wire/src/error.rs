//! What is refused.

use std::fmt;

/// A refusal. Each call says what it leaves.
#[derive(Clone, Copy, Debug, PartialEq, Eq)]
#[non_exhaustive]
pub enum Error {
    /// The packet is above the limit. Its header stays, and under a larger limit the call goes on.
    PacketTooLarge,
    /// A packet bears another number than the expected one. What comes is lost from there on.
    PacketsOutOfSync,
    /// Memory was refused. Nothing is lost, and the call may be made again.
    OutOfMemory,
    /// The room is shorter than the packet with its headers.
    RoomTooSmall,
    /// A packet stands whole, and has to be taken first.
    PacketWaits,
    /// There is no packet to take.
    NoPacket,
    /// The bytes end inside a field.
    MissingBytes,
    /// `fb` or `ff` where a length-encoded integer has to stand, or a width that isn't 1 to 8.
    NotANumber,
    /// Neither a whole payload nor its first bytes, three or more.
    NotAFront,
}

impl Error {
    /// A code below 0, as `mysql_wire.h` lists them. Those of a closed connection, of one that is
    /// opened twice, of an invalid place in a stream, of a side and of a statement don't come here.
    #[cold]
    pub(crate) fn of(code: i32) -> Error {
        match code {
            -1 => Error::PacketTooLarge,
            -2 => Error::PacketsOutOfSync,
            -4 => Error::RoomTooSmall,
            -7 => Error::PacketWaits,
            -8 => Error::NoPacket,
            -9 => Error::MissingBytes,
            -10 => Error::NotANumber,
            -13 => Error::NotAFront,
            _ => Error::OutOfMemory,
        }
    }
}

/// The code of a call that answers 0 or more where it did what it should.
#[inline]
pub(crate) fn checked(code: i32) -> Result<i32, Error> {
    if code < 0 {
        Err(Error::of(code))
    } else {
        Ok(code)
    }
}

impl fmt::Display for Error {
    fn fmt(&self, f: &mut fmt::Formatter<'_>) -> fmt::Result {
        f.write_str(match self {
            Error::PacketTooLarge => "the packet is above the limit",
            Error::PacketsOutOfSync => "a packet bears another number than the expected one",
            Error::OutOfMemory => "memory was refused",
            Error::RoomTooSmall => "the room is too small",
            Error::PacketWaits => "a packet has to be taken first",
            Error::NoPacket => "there is no packet to take",
            Error::MissingBytes => "the bytes end inside a field",
            Error::NotANumber => "no number of this width, or no length-encoded integer",
            Error::NotAFront => "neither a payload nor its first bytes, three or more",
        })
    }
}

impl std::error::Error for Error {}
