//! The codec's cases, under the names that `mysql_common` has for them, and made-up streams beside a
//! plain reading, and beside a codec that judges each packet alone.

mod alone;
#[path = "../../mysql-wire/tests/plain/mod.rs"]
mod plain;

use alone::Alone;
use bytes::{Buf, BytesMut};
use mysql_wire::Error;
use mysql_wire_bytes::proto::codec::error::PacketCodecError;
use mysql_wire_bytes::proto::codec::PacketCodec;
use std::io;
use plain::{framed, read, Numbers, FULL};

fn with_limit(limit: usize) -> PacketCodec {
    let mut codec = PacketCodec::default();
    codec.max_allowed_packet = limit;
    codec
}

// An error as one that can be compared.
fn plain_error(error: PacketCodecError) -> Error {
    match error {
        PacketCodecError::PacketTooLarge => Error::PacketTooLarge,
        PacketCodecError::PacketsOutOfSync => Error::PacketsOutOfSync,
        PacketCodecError::Io(_) => Error::OutOfMemory,
    }
}

fn decode(codec: &mut PacketCodec, src: &mut BytesMut, dst: &mut Vec<u8>) -> Result<bool, Error> {
    codec.decode(src, dst).map_err(plain_error)
}

fn encode(codec: &mut PacketCodec, mut packet: impl Buf, dst: &mut BytesMut) -> Result<(), Error> {
    codec.encode(&mut packet, dst).map_err(plain_error)
}

fn decoded(codec: &mut PacketCodec, bytes: &[u8]) -> (Vec<Vec<u8>>, Result<(), Error>) {
    drained(codec, &mut BytesMut::from(bytes))
}

fn drained(codec: &mut PacketCodec, src: &mut BytesMut) -> (Vec<Vec<u8>>, Result<(), Error>) {
    let (mut packets, mut dst) = (Vec::new(), Vec::new());
    loop {
        match decode(codec, src, &mut dst) {
            Ok(true) => packets.push(std::mem::take(&mut dst)),
            Ok(false) => return (packets, Ok(())),
            Err(error) => return (packets, Err(error)),
        }
    }
}

#[test]
fn zero_len_packet() {
    let mut codec = PacketCodec::default();
    assert_eq!(decoded(&mut codec, b"\0\0\0\0"), (vec![Vec::new()], Ok(())));
    let mut wire = BytesMut::new();
    codec.encode(&mut b"".as_slice(), &mut wire).unwrap();
    assert_eq!(wire.as_ref(), b"\0\0\0\x01");
}

#[test]
fn regular_packet() {
    let mut codec = PacketCodec::default();
    let answer = decoded(&mut codec, b"\x01\0\0\0a\x02\0\0\x01bc\x01\0");
    assert_eq!(answer, (vec![b"a".to_vec(), b"bc".to_vec()], Ok(())));
    // (what is cut short stands in the buffer, with its header)
    let mut src = BytesMut::from(b"\x01\0".as_slice());
    assert_eq!(drained(&mut codec, &mut src), (vec![], Ok(())));
    src.extend_from_slice(b"\0\x02");
    assert_eq!(drained(&mut codec, &mut src), (vec![], Ok(())));
    assert_eq!(src.as_ref(), b"\x01\0\0\x02");
    src.extend_from_slice(b"d");
    assert_eq!(drained(&mut codec, &mut src), (vec![b"d".to_vec()], Ok(())));
}

#[test]
fn room_for_what_is_missing() {
    let mut codec = PacketCodec::default();
    // (a header alone, of 3 MiB)
    let mut src = BytesMut::from(b"\0\0\x30\0".as_slice());
    assert_eq!(drained(&mut codec, &mut src), (vec![], Ok(())));
    assert!((32 << 10..128 << 10).contains(&(src.capacity() - src.len())));
    src.resize(16 << 10, 0);
    assert_eq!(drained(&mut codec, &mut src), (vec![], Ok(())));
    assert!((128 << 10..1 << 20).contains(&(src.capacity() - src.len())));
    src.resize(4 + (3 << 20), 0);
    assert_eq!(drained(&mut codec, &mut src), (vec![vec![0; 3 << 20]], Ok(())));
    // (an empty `src` takes none)
    let mut src = BytesMut::new();
    assert_eq!(drained(&mut codec, &mut src), (vec![], Ok(())));
    assert_eq!(src.capacity(), 0);
}

#[test]
fn out_of_sync() {
    let mut codec = PacketCodec::default();
    let answer = decoded(&mut codec, b"\x01\0\0\0a\x01\0\0\x02b");
    assert_eq!(answer, (vec![b"a".to_vec()], Err(Error::PacketsOutOfSync)));
}

#[test]
fn packet_too_large() {
    let mut codec = with_limit(2);
    let mut src = BytesMut::from(b"\x03\0\0\0abc".as_slice());
    assert_eq!(drained(&mut codec, &mut src), (vec![], Err(Error::PacketTooLarge)));
    let mut wire = BytesMut::new();
    let mut packet = b"abc".as_slice();
    let answer = codec.encode(&mut packet, &mut wire).map_err(plain_error);
    assert_eq!(answer, Err(Error::PacketTooLarge));
    assert!(packet.len() == 3 && wire.is_empty());
    codec.max_allowed_packet = 3;
    assert_eq!(drained(&mut codec, &mut src), (vec![b"abc".to_vec()], Ok(())));
}

#[test]
fn packet_sequence() {
    let mut codec = PacketCodec::default();
    let mut wire = BytesMut::new();
    for _ in 0..300 {
        codec.encode(&mut b"x".as_slice(), &mut wire).unwrap();
    }
    assert_eq!(&wire[5 * 299..], b"\x01\0\0\x2bx");
    codec.reset_seq_id();
    assert_eq!(decoded(&mut codec, &wire).0.len(), 300);
}

#[test]
fn large_packets() {
    for len in [FULL - 1, FULL, FULL + 1, 2 * FULL] {
        let payload = vec![b'x'; len];
        let mut codec = with_limit(len);
        let mut wire = BytesMut::new();
        let (front, back) = payload.split_at(len / 3);
        codec.encode(&mut front.chain(back), &mut wire).unwrap();
        assert!(wire.as_ref() == framed(0, &payload).as_slice());
        codec.reset_seq_id();
        assert!(decoded(&mut codec, &wire) == (vec![payload], Ok(())));
    }
}

#[test]
fn each_stream_is_read_as_the_whole() {
    for seed in 0..20_000 {
        let mut numbers = Numbers::new(seed);
        let (stream, limit) = (numbers.stream(), numbers.below(60));
        let (mut codec, mut packets, mut end) = (with_limit(limit), Vec::new(), Ok(()));
        let mut src = BytesMut::new();
        for piece in numbers.pieces(&stream) {
            src.extend_from_slice(piece);
            let (more, answer) = drained(&mut codec, &mut src);
            packets.extend(more);
            end = answer;
            if end.is_err() {
                break;
            }
        }
        assert_eq!((packets, end), read(limit, &stream, true), "seed {seed}");
    }
}

// Three packets, numbered from 0, of which the first is handed out.
fn after_the_first(codec: &mut PacketCodec) -> BytesMut {
    let mut src = BytesMut::from(b"\x01\0\0\0a\x02\0\0\x01bc\x01\0\0\x02d".as_slice());
    let mut dst = Vec::new();
    assert_eq!((decode(codec, &mut src, &mut dst), dst), (Ok(true), b"a".to_vec()));
    src
}

#[test]
fn other_bytes_between_two_calls() {
    let mut codec = PacketCodec::default();
    let mut src = after_the_first(&mut codec);
    // (another payload, and then the same bytes again)
    let rest = std::mem::replace(&mut src, BytesMut::from(b"\x02\0\0\x01xy".as_slice()));
    assert_eq!(drained(&mut codec, &mut src), (vec![b"xy".to_vec()], Ok(())));
    src.extend_from_slice(&rest);
    assert_eq!(drained(&mut codec, &mut src), (vec![], Err(Error::PacketsOutOfSync)));
    // another length
    let mut codec = PacketCodec::default();
    let mut src = after_the_first(&mut codec);
    src[0] = 1;
    src[6..8].copy_from_slice(b"\0\0");
    src.truncate(5);
    src.extend_from_slice(b"\0\0\0\x02");
    assert_eq!(drained(&mut codec, &mut src), (vec![b"b".to_vec(), vec![]], Ok(())));
    // another number
    let mut codec = PacketCodec::default();
    let mut src = after_the_first(&mut codec);
    src[3] = 2;
    assert_eq!(drained(&mut codec, &mut src), (vec![], Err(Error::PacketsOutOfSync)));
    // less of them, and the others later
    let mut codec = PacketCodec::default();
    let mut src = after_the_first(&mut codec);
    let rest = src.split_off(5);
    assert_eq!(drained(&mut codec, &mut src), (vec![], Ok(())));
    assert_eq!(src.as_ref(), b"\x02\0\0\x01b");
    src.extend_from_slice(&rest);
    assert_eq!(drained(&mut codec, &mut src), (vec![b"bc".to_vec(), b"d".to_vec()], Ok(())));
}

#[test]
fn other_calls_between_two_packets() {
    // a lower limit, and a higher one
    let mut codec = PacketCodec::default();
    let mut src = after_the_first(&mut codec);
    codec.max_allowed_packet = 1;
    assert_eq!(drained(&mut codec, &mut src), (vec![], Err(Error::PacketTooLarge)));
    codec.max_allowed_packet = 2;
    assert_eq!(drained(&mut codec, &mut src), (vec![b"bc".to_vec(), b"d".to_vec()], Ok(())));
    // a packet that is sent, whose number is the one after the first
    let mut codec = PacketCodec::default();
    let (mut src, mut wire) = (after_the_first(&mut codec), BytesMut::new());
    codec.encode(&mut b"x".as_slice(), &mut wire).unwrap();
    assert_eq!(wire.as_ref(), b"\x01\0\0\x01x");
    assert_eq!(drained(&mut codec, &mut src), (vec![], Err(Error::PacketsOutOfSync)));
    // (none is, where it is refused)
    let mut codec = with_limit(2);
    let mut src = after_the_first(&mut codec);
    assert_eq!(encode(&mut codec, [0; 3].as_slice(), &mut wire), Err(Error::PacketTooLarge));
    assert_eq!(drained(&mut codec, &mut src), (vec![b"bc".to_vec(), b"d".to_vec()], Ok(())));
    // a reset
    let mut codec = PacketCodec::default();
    let mut src = after_the_first(&mut codec);
    codec.reset_seq_id();
    assert_eq!(drained(&mut codec, &mut src), (vec![], Err(Error::PacketsOutOfSync)));
    let mut codec = PacketCodec::default();
    let mut src = after_the_first(&mut codec);
    codec.reset_seq_id();
    src[3] = 0;
    src[9] = 1;
    assert_eq!(drained(&mut codec, &mut src), (vec![b"bc".to_vec(), b"d".to_vec()], Ok(())));
}

#[test]
fn whatever_stands_between_the_calls() {
    for seed in 0..20_000 {
        let mut numbers = Numbers::new(seed);
        let limit = 20 + numbers.below(40);
        let (mut codec, mut alone) = (with_limit(limit), Alone::new(limit));
        let (mut src, mut other_src) = (BytesMut::new(), BytesMut::new());
        let (mut wire, mut other_wire) = (BytesMut::new(), BytesMut::new());
        // (the number that the next packet of the stream bears, mostly the one expected)
        let mut number = 0_u8;
        for step in 0..40 {
            let at = format!("seed {seed}, step {step}");
            match numbers.below(16) {
                0 => {
                    codec.reset_seq_id();
                    alone.reset_seq_id();
                    if numbers.below(2) == 0 {
                        number = 0;
                    }
                }
                1 => {
                    codec.max_allowed_packet = numbers.below(60);
                    alone.max_allowed_packet = codec.max_allowed_packet;
                }
                2 => {
                    let payload = vec![b'x'; numbers.below(50)];
                    let (front, back) = payload.split_at(numbers.below(payload.len() + 1));
                    let answer = encode(&mut codec, front.chain(back), &mut wire);
                    assert_eq!(answer, alone.encode(&payload, &mut other_wire), "{at}");
                    if answer.is_ok() && numbers.below(2) == 0 {
                        number = number.wrapping_add(1);
                    }
                }
                3 if !src.is_empty() => {
                    let place = numbers.below(src.len());
                    src[place] = numbers.below(8) as u8;
                    other_src[place] = src[place];
                }
                4 => {
                    let left = numbers.below(src.len() + 1);
                    src.truncate(left);
                    other_src.truncate(left);
                }
                5 => {
                    src = BytesMut::from(&src[..]); // (the same bytes elsewhere)
                }
                6..=9 => {
                    for _ in 0..numbers.below(40) {
                        let payload = vec![number; numbers.below(20)];
                        src.extend_from_slice(&framed(number, &payload));
                        number = number.wrapping_add(1);
                    }
                    src.truncate(src.len() - numbers.below(src.len().min(3) + 1));
                    other_src.clear();
                    other_src.extend_from_slice(&src);
                }
                _ => {
                    for _ in 0..numbers.below(40) {
                        let (mut dst, mut other_dst) = (Vec::new(), Vec::new());
                        let answer = decode(&mut codec, &mut src, &mut dst);
                        assert_eq!(answer, alone.decode(&mut other_src, &mut other_dst), "{at}");
                        assert_eq!((&dst, &src), (&other_dst, &other_src), "{at}");
                        if answer != Ok(true) {
                            break;
                        }
                    }
                }
            }
        }
        assert_eq!(wire, other_wire, "seed {seed}");
    }
}

#[test]
fn errors_are_of_streams_too() {
    let error = PacketCodecError::from(io::Error::from(io::ErrorKind::BrokenPipe));
    assert!(matches!(&error, PacketCodecError::Io(io) if io.kind() == io::ErrorKind::BrokenPipe));
    assert_eq!(error.to_string(), "IO error: `broken pipe'");
    assert!(std::error::Error::source(&error).is_some());
    let error = PacketCodecError::from(Error::OutOfMemory);
    assert!(matches!(&error, PacketCodecError::Io(io) if io.kind() == io::ErrorKind::OutOfMemory));
}
