//! Packets in spans, beside what is written plainly.

mod plain;

use mysql_wire::{Error, Spans};
use plain::{framed, FULL};

/// The packets of a stream that comes in pieces of `step` bytes, and the open one.
fn gathered(spans: &mut Spans, stream: &[u8], step: usize) -> (Vec<Vec<u8>>, Result<(), Error>) {
    let mut packets = vec![Vec::new()];
    for mut piece in stream.chunks(step) {
        loop {
            match spans.next_span(&mut piece) {
                Ok(Some(span)) => {
                    packets.last_mut().unwrap().extend_from_slice(span.bytes);
                    if span.ends_packet {
                        packets.push(Vec::new());
                    }
                }
                Ok(None) => break,
                Err(error) => return (packets, Err(error)),
            }
        }
        assert!(piece.is_empty());
    }
    (packets, Ok(()))
}

#[test]
fn each_cutting_gives_the_same_packets() {
    let payloads = [b"".to_vec(), b"a".to_vec(), vec![b'x'; 300], b"bc".to_vec(), Vec::new()];
    let stream: Vec<u8> =
        payloads[..4].iter().zip(250..).flat_map(|(each, id)| framed(id, each)).collect();
    for step in [1, 2, 3, 5, 64, stream.len()] {
        let mut spans = Spans::new(300, 250);
        assert_eq!(gathered(&mut spans, &stream, step), (payloads.to_vec(), Ok(())));
        assert!(spans.is_between_packets() && spans.sequence_id() == 254);
    }
}

#[test]
fn long_packets_come_and_go_on_with_other_numbers() {
    for len in [FULL - 1, FULL, FULL + 1] {
        let payload: Vec<u8> = (0..len).map(|at| at as u8).collect();
        let mut stream = framed(7, &payload);
        let mut spans = Spans::new(len, 7);
        spans.set_next_id(255);
        for piece in stream.chunks_mut(4097) {
            assert_eq!(spans.renumber(piece), Ok(()));
        }
        assert_eq!(stream, framed(255, &payload));
        assert_eq!(spans.next_id(), (len / FULL) as u8);
        let mut others = Spans::new(len, 255);
        assert_eq!(gathered(&mut others, &stream, 65536), (vec![payload, Vec::new()], Ok(())));
    }
}

#[test]
fn a_refusal_leaves_all() {
    let mut spans = Spans::new(2, 0);
    let mut piece = b"\x01\0\0\0a\x03\0\0\x01bcd".as_slice();
    assert_eq!(spans.next_span(&mut piece).unwrap().unwrap().bytes, b"a");
    assert_eq!(spans.next_span(&mut piece), Err(Error::PacketTooLarge));
    assert_eq!(piece.len(), 7);
    spans.set_limit(3);
    spans.set_sequence_id(0);
    assert_eq!(spans.next_span(&mut piece), Err(Error::PacketsOutOfSync));
    spans.set_sequence_id(1);
    let span = spans.next_span(&mut piece).unwrap().unwrap();
    assert_eq!((span.bytes, span.ends_packet, spans.limit()), (b"bcd".as_slice(), true, 3));
    assert_eq!(spans.next_span(&mut piece), Ok(None));
}

#[test]
fn a_refused_header_does_not_go() {
    let mut spans = Spans::new(16, 3);
    let mut piece = *b"\x01\0\0\x03a\0\0\0\x05";
    assert_eq!(spans.renumber(&mut piece), Err((5, Error::PacketsOutOfSync)));
    assert_eq!(piece, *b"\x01\0\0\x03a\0\0\0\x05");
    assert_eq!(spans.renumber(&mut piece[5..7]), Ok(()));
    assert_eq!(spans.renumber(&mut piece[7..]), Err((0, Error::PacketsOutOfSync)));
    assert_eq!((spans.partial_header_len(), spans.is_between_packets()), (2, false));
}
