//! Why a connection isn't relayed any more, and the error packet by which its client is told.
//!
//! The numbers are those of servers. One of a client, such as 2013, isn't taken from the network:
//! many clients show it as a malformed packet.

use crate::exchange::Misread;
use mysql_wire::Error;
use std::fmt;
use std::io;

// Number, state and text, as MySQL's servers have them.
pub const TOO_MANY_CLIENTS: &[u8] = b"\xff\x10\x04#08004Too many connections";
pub const NO_SERVER: &[u8] = b"\xff\x51\x04#HY000Can't connect to the server";
const BAD_HANDSHAKE: &[u8] = b"\xff\x13\x04#08S01Bad handshake";
const NOT_OFFERED: &[u8] = b"\xff\x13\x04#08S01Bad handshake: TLS and compression are not offered";
const SHUTDOWN: &[u8] = b"\xff\x1d\x04#08S01Server shutdown in progress";
const SERVER_LOST: &[u8] = b"\xff\x1d\x04#08S01The server hung up before its answer";
const PACKET_TOO_LARGE: &[u8] =
    b"\xff\x81\x04#08S01Got a packet bigger than 'max_allowed_packet' bytes";
const OUT_OF_ORDER: &[u8] = b"\xff\x84\x04#08S01Got packets out of order";
const READ_TIMEOUT: &[u8] = b"\xff\x87\x04#08S01Got timeout reading communication packets";
const MALFORMED: &[u8] = b"\xff\x2b\x07#HY000Malformed communication packet";
const IDLE: &[u8] =
    b"\xff\xbf\x0f#HY000The client was disconnected by the server because of inactivity";

/// Why a connection isn't relayed any more.
pub enum Fault {
    Io(&'static str, io::Error),
    Wire(&'static str, Error),
    /// A packet can't be read as what it has to be.
    Malformed(&'static str, Misread),
    GoneInside(&'static str),
    /// The client hung up while an answer was due, and the server did then.
    Left,
    /// The server hung up before anything of the answer that was due.
    Unanswered,
    /// The server hung up after a part of the answer that was due.
    HalfAnswered,
    Late(Late),
    /// The proxy ends.
    Stopped,
}

/// What took too long.
#[derive(Clone, Copy, PartialEq)]
pub enum Late {
    Login,
    Idle,
    /// The rest of a packet of the client.
    Rest,
    /// A side takes none of the bytes that wait for it.
    Stalled(&'static str),
    /// An answer, whose client sends no more.
    Answer,
}

impl Fault {
    /// The error packet by which the client is told.
    pub fn answer(&self) -> Option<&'static [u8]> {
        match self {
            Fault::Wire(_, Error::PacketTooLarge) => Some(PACKET_TOO_LARGE),
            Fault::Wire(_, Error::PacketsOutOfSync) => Some(OUT_OF_ORDER),
            Fault::Malformed(_, Misread::NotOffered) => Some(NOT_OFFERED),
            Fault::Malformed(_, Misread::OldProtocol | Misread::Login(_)) => Some(BAD_HANDSHAKE),
            Fault::Malformed(..) | Fault::Wire(..) => Some(MALFORMED),
            Fault::Unanswered => Some(SERVER_LOST),
            Fault::Late(Late::Login | Late::Rest) => Some(READ_TIMEOUT),
            Fault::Late(Late::Idle) => Some(IDLE),
            Fault::Stopped => Some(SHUTDOWN),
            _ => None,
        }
    }

    /// Whether a chunk of this side was refused, so that its number is used up.
    pub fn refuses(&self, name: &str) -> bool {
        matches!(self, Fault::Wire(side, _) | Fault::Malformed(side, _) if *side == name)
    }
}

impl fmt::Display for Fault {
    fn fmt(&self, f: &mut fmt::Formatter<'_>) -> fmt::Result {
        match self {
            Fault::Io(side, error) => write!(f, "{side}: {error}"),
            Fault::Wire(side, refusal) => write!(f, "{side}: {refusal}"),
            Fault::Malformed(side, misread) => write!(f, "{side}: {misread}"),
            Fault::GoneInside(side) => write!(f, "{side} went away inside a packet"),
            Fault::Left | Fault::Late(Late::Answer) => {
                f.write_str("the client hung up before its answer")
            }
            Fault::Unanswered => f.write_str("the server hung up before its answer"),
            Fault::HalfAnswered => f.write_str("the server hung up inside its answer"),
            Fault::Late(Late::Login) => f.write_str("the login took too long"),
            Fault::Late(Late::Idle) => f.write_str("the client was idle for too long"),
            Fault::Late(Late::Rest) => f.write_str("the client stopped inside a packet"),
            Fault::Late(Late::Stalled(side)) => write!(f, "{side} takes no more bytes"),
            Fault::Stopped => f.write_str("the proxy ends"),
        }
    }
}

/// A packet of one chunk, of at most 255 bytes.
pub fn framed(number: u8, packet: &[u8]) -> Vec<u8> {
    let mut framed = vec![packet.len() as u8, 0, 0, number];
    framed.extend_from_slice(packet);
    framed
}
