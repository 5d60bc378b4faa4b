//! Packets over tokio: `Framed::new(stream, Packets::default())` is a stream of payloads, and a sink
//! for them.

use bytes::{Bytes, BytesMut};
use mysql_wire_bytes::proto::codec::error::PacketCodecError;
use mysql_wire_bytes::proto::codec::PacketCodec;
use tokio_util::codec::{Decoder, Encoder};

/// The codec, and the packet that isn't whole.
#[derive(Debug, Default)]
pub struct Packets {
    pub codec: PacketCodec,
    unfinished: BytesMut,
}

impl Decoder for Packets {
    type Item = BytesMut;
    type Error = PacketCodecError;

    fn decode(&mut self, src: &mut BytesMut) -> Result<Option<BytesMut>, PacketCodecError> {
        let is_whole = self.codec.decode(src, &mut self.unfinished)?;
        Ok(is_whole.then(|| self.unfinished.split()))
    }
}

impl Encoder<Bytes> for Packets {
    type Error = PacketCodecError;

    fn encode(&mut self, mut packet: Bytes, dst: &mut BytesMut) -> Result<(), PacketCodecError> {
        self.codec.encode(&mut packet, dst)
    }
}
