//! `PacketCodecError`.

use mysql_wire::Error;
use std::{fmt, io};

/// Why a packet isn't decoded or encoded.
#[derive(Debug)]
pub enum PacketCodecError {
    /// What the caller's streams answer; of the codec itself only that memory was refused.
    Io(io::Error),
    /// A packet is above `max_allowed_packet`.
    PacketTooLarge,
    /// A packet bears another number than the expected one.
    PacketsOutOfSync,
}

impl From<io::Error> for PacketCodecError {
    fn from(error: io::Error) -> PacketCodecError {
        PacketCodecError::Io(error)
    }
}

impl From<Error> for PacketCodecError {
    fn from(error: Error) -> PacketCodecError {
        match error {
            Error::PacketTooLarge => PacketCodecError::PacketTooLarge,
            Error::PacketsOutOfSync => PacketCodecError::PacketsOutOfSync,
            Error::OutOfMemory => PacketCodecError::Io(io::ErrorKind::OutOfMemory.into()),
            other => PacketCodecError::Io(io::Error::other(other)),
        }
    }
}

impl fmt::Display for PacketCodecError {
    fn fmt(&self, f: &mut fmt::Formatter<'_>) -> fmt::Result {
        match self {
            PacketCodecError::Io(error) => write!(f, "IO error: `{error}'"),
            PacketCodecError::PacketTooLarge => {
                f.write_str("Packet is larger than max_allowed_packet")
            }
            PacketCodecError::PacketsOutOfSync => f.write_str("Packets out of sync"),
        }
    }
}

impl std::error::Error for PacketCodecError {
    fn source(&self) -> Option<&(dyn std::error::Error + 'static)> {
        match self {
            PacketCodecError::Io(error) => Some(error),
            PacketCodecError::PacketTooLarge | PacketCodecError::PacketsOutOfSync => None,
        }
    }
}
