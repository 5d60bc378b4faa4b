//! The codec once more, with a call of the library for each packet.

use bytes::{Buf, BytesMut};
use mysql_wire::{Connection, Error};

pub struct Alone {
    pub max_allowed_packet: usize,
    connection: Connection,
    limit: usize,
    is_begun: bool,
}

impl Alone {
    pub fn new(limit: usize) -> Alone {
        let connection = Connection::new(limit).unwrap();
        Alone { max_allowed_packet: limit, connection, limit, is_begun: false }
    }

    fn set_limit(&mut self) -> Result<(), Error> {
        if self.limit != self.max_allowed_packet {
            self.connection.set_limit(self.max_allowed_packet)?;
            self.limit = self.max_allowed_packet;
        }
        Ok(())
    }

    /// Packets of less than 16777215 bytes.
    pub fn decode(&mut self, src: &mut BytesMut, dst: &mut Vec<u8>) -> Result<bool, Error> {
        if !self.is_begun {
            let Some((&[a, b, c, _], bytes)) = src.split_first_chunk() else { return Ok(false) };
            let len = u32::from_le_bytes([a, b, c, 0]) as usize;
            if bytes.len() < len && len <= self.max_allowed_packet {
                return Ok(false);
            }
        }
        self.set_limit()?;
        let bytes = src.as_ptr_range();
        let (used, answer) = self.connection.decode(src);
        let answer = answer.map(|packet| {
            let packet = packet?;
            dst.extend_from_slice(packet);
            Some(bytes.contains(&packet.as_ptr()))
        });
        if answer == Ok(Some(false)) {
            let _ = self.connection.take();
        }
        src.advance(used);
        self.is_begun = !matches!(answer, Ok(Some(_)));
        answer.map(|lent| lent.is_some())
    }

    pub fn encode(&mut self, payload: &[u8], dst: &mut BytesMut) -> Result<(), Error> {
        if payload.len() > self.max_allowed_packet {
            return Err(Error::PacketTooLarge);
        }
        self.set_limit()?;
        self.connection.encode(payload)?;
        dst.extend_from_slice(self.connection.pending());
        self.connection.sent(usize::MAX);
        Ok(())
    }

    pub fn reset_seq_id(&mut self) {
        self.connection.reset_seq_id().unwrap();
    }
}
