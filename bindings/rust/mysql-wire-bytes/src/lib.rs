//! The codec of `mysql_common`, by its names and over the buffers of the crate `bytes`. The work is
//! done by the proved library below [`mysql_wire`].
//!
//! ```
//! use bytes::BytesMut;
//! use mysql_wire_bytes::proto::codec::error::PacketCodecError;
//! use mysql_wire_bytes::proto::codec::PacketCodec;
//!
//! # fn main() -> Result<(), PacketCodecError> {
//! let mut codec = PacketCodec::default();
//! let (mut wire, mut packet) = (BytesMut::new(), Vec::new());
//! codec.encode(&mut b"SELECT 1".as_slice(), &mut wire)?;
//! codec.reset_seq_id();
//! assert!(codec.decode(&mut wire, &mut packet)?);
//! assert_eq!(packet, b"SELECT 1");
//! # Ok(())
//! # }
//! ```
//!
//! It differs from `mysql_common` in what a caller sees of a packet that isn't whole. One of less than
//! 16777215 bytes stays in `src`, with its header, and `src` gets room for the rest and one more read:
//! 32 KiB of it, or up to eight times what has come. Of one of 16777215 bytes and above the codec
//! takes what has come.
//!
//! Of `mysql_common::proto::codec` there is no compression: no `PacketCodec::compress`, `compress`,
//! `CompData`, `CompDecoder`, nor `PacketCodecError::BadCompressedPacketHeader`; and no part of the
//! codec by itself: no `packet_to_chunks`, `ChunkInfo` and `ChunkDecoder`.

pub mod proto;

pub use proto::codec::error::PacketCodecError;
pub use proto::codec::PacketCodec;
