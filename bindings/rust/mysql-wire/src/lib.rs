//! The packet layer of MySQL's client/server protocol: packets out of bytes and back, and the fields
//! inside them. The work is done by a proved library. It does no input and no output: feed a
//! [`Connection`] what one read of a socket gave, take the packets that are whole, and send what is
//! pending.
//!
//! ```
//! use mysql_wire::{Connection, Fields};
//!
//! # fn main() -> Result<(), mysql_wire::Error> {
//! let mut connection = Connection::new(1 << 24)?;
//! connection.feed(b"\x05\0\0\0\xff\x15\x04no")?; // what one read gave
//! while let Some(packet) = connection.peek()? {
//!     let mut fields = Fields::new(packet);
//!     assert_eq!((fields.int(1)?, fields.int(2)?), (0xff, 1045));
//!     assert_eq!(fields.rest(), b"no");
//!     connection.take()?;
//! }
//! connection.encode(b"\x01")?;
//! assert_eq!(connection.pending(), b"\x01\0\0\x01\x01"); // to be written
//! # Ok(())
//! # }
//! ```
//!
//! Packets of any size pass in constant memory as [`Spans`] of the bytes that bring them. A [`Session`]
//! says what each packet is, whose turn it is, and where an answer ends.
//!
//! <https://dev.mysql.com/doc/dev/mysql-server/latest/page_protocol_basic_packets.html>

#![deny(unsafe_code)]

#[allow(unsafe_code)]
mod calls;
mod connection;
mod error;
mod fields;
mod session;
mod spans;

pub use calls::Place;
pub use connection::{framed_len, Connection};
pub use error::Error;
pub use fields::{put_int, put_lenenc_bytes, put_lenenc_int, put_null_bytes, Fields};
pub use session::{FrontError, PacketKind, Phase, Received, Sender, Session, Side, Statement};
pub use spans::{Span, Spans};

/// The version of the library: 10000 times its first number, 100 times its second, and its third. The
/// first two are this crate's.
pub fn version() -> u32 {
    calls::version()
}
