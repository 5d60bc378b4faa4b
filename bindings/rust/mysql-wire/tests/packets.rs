//! Packets and fields, beside what is written plainly.

mod plain;

use mysql_wire::{put_int, put_lenenc_bytes, put_lenenc_int, put_null_bytes, Connection, Error, Fields};
use plain::{fed, framed, FULL};

/// The packets of a stream that comes in pieces of `step` bytes.
fn packets(limit: usize, stream: &[u8], step: usize) -> (Vec<Vec<u8>>, Result<(), Error>) {
    fed(limit, &stream.chunks(step).collect::<Vec<_>>())
}

#[test]
fn each_cutting_gives_the_same_packets() {
    let payloads = [b"".to_vec(), b"a".to_vec(), vec![b'x'; 300], b"bc".to_vec()];
    let stream: Vec<u8> = payloads.iter().zip(0..).flat_map(|(each, id)| framed(id, each)).collect();
    for step in [1, 2, 3, 5, 64, stream.len()] {
        assert_eq!(packets(300, &stream, step), (payloads.to_vec(), Ok(())));
    }
}

#[test]
fn long_packets_are_put_together() {
    for len in [FULL - 1, FULL, FULL + 1] {
        let payload: Vec<u8> = (0..len).map(|at| at as u8).collect();
        let mut connection = Connection::new(len).unwrap();
        connection.encode(&payload).unwrap();
        assert_eq!(connection.pending(), framed(0, &payload));
        let wire = connection.pending().to_vec();
        assert_eq!(packets(len, &wire, 65536), (vec![payload], Ok(())));
    }
}

// The cases of the Rust crate's own tests, written anew.
#[test]
fn a_packet_past_the_limit_and_one_of_another_number_are_refused() {
    let mut stream = framed(0, b"abc");
    assert_eq!(packets(2, &stream, 1), (vec![], Err(Error::PacketTooLarge)));
    stream.extend(framed(2, b"d"));
    let (before, error) = packets(3, &stream, 4);
    assert_eq!((before.len(), error), (1, Err(Error::PacketsOutOfSync)));
}

#[test]
fn a_larger_limit_goes_on() {
    let mut connection = Connection::new(2).unwrap();
    connection.feed(&framed(0, b"abc")).unwrap();
    assert_eq!(connection.peek(), Err(Error::PacketTooLarge));
    connection.set_limit(3).unwrap();
    assert_eq!(connection.peek(), Ok(Some(&b"abc"[..])));
    assert_eq!(connection.set_limit(9), Err(Error::PacketWaits));
    connection.take().unwrap();
    assert_eq!(connection.take(), Err(Error::NoPacket));
    assert_eq!((connection.unread(), connection.sequence_id()), (0, Ok(1)));
}

#[test]
fn what_is_sent_is_numbered_on_and_goes_out_in_parts() {
    let mut connection = Connection::new(100).unwrap();
    connection.encode(b"\x03DO 1").unwrap();
    connection.encode(b"").unwrap();
    assert_eq!(connection.encode(&[0; 101]), Err(Error::PacketTooLarge));
    assert_eq!(connection.pending(), [framed(0, b"\x03DO 1"), framed(1, b"")].concat());
    connection.sent(5);
    assert_eq!(connection.pending(), b"DO 1\0\0\0\x01");
    connection.reset_seq_id().unwrap();
    assert_eq!(connection.sequence_id(), Ok(0));
}

#[test]
fn a_header_is_that_of_the_framing() {
    let mut connection = Connection::new(FULL).unwrap();
    for (number, len) in [(0, 0), (1, 3), (2, 300), (3, FULL - 1)] {
        let header = connection.encode_header(len).unwrap();
        assert_eq!(header, framed(number, &vec![0; len])[..4]);
    }
    assert_eq!(connection.encode_header(FULL), Err(Error::PacketTooLarge));
    assert_eq!(connection.sequence_id(), Ok(4));
}

#[test]
fn a_connection_moves_between_threads() {
    let mut connection = Connection::new(1).unwrap();
    connection.feed(&framed(0, b"a")).unwrap();
    let moved = std::thread::spawn(move || connection.next_packet()).join().unwrap();
    assert_eq!(moved, Ok(Some(b"a".to_vec())));
}

#[test]
fn fields_come_back() {
    let mut payload = Vec::new();
    put_int(&mut payload, 0x0a0b0c, 3).unwrap();
    put_lenenc_int(&mut payload, 251);
    put_lenenc_bytes(&mut payload, b"text");
    payload.push(0xfb);
    put_null_bytes(&mut payload, b"name");
    payload.extend_from_slice(b"rest");
    let mut fields = Fields::new(&payload);
    assert_eq!((fields.int(3), fields.lenenc_int()), (Ok(0x0a0b0c), Ok(251)));
    assert_eq!(fields.lenenc_bytes_or_null(), Ok(Some(&b"text"[..])));
    assert_eq!(fields.lenenc_bytes_or_null(), Ok(None));
    assert_eq!((fields.null_bytes(), fields.rest()), (Ok(&b"name"[..]), &b"rest"[..]));
}

#[test]
fn refusals_read_nothing() {
    let mut fields = Fields::new(b"\x05abc");
    assert_eq!(fields.lenenc_bytes(), Err(Error::MissingBytes));
    assert_eq!((fields.int(9), fields.int(5)), (Err(Error::NotANumber), Err(Error::MissingBytes)));
    assert_eq!(fields.null_bytes(), Err(Error::MissingBytes));
    assert_eq!(Fields::new(b"\xff").lenenc_int(), Err(Error::NotANumber));
    assert_eq!((fields.at(), fields.rest()), (0, &b"\x05abc"[..]));
    assert_eq!(Fields::starting_at(b"a", usize::MAX).int(1), Err(Error::MissingBytes));
}

#[test]
fn what_only_reads_takes_a_shared_reference() {
    let mut connection = Connection::new(9).unwrap();
    connection.encode(b"a").unwrap();
    let shared = &connection;
    let pending = shared.pending();
    assert_eq!((shared.unread(), shared.sequence_id()), (0, Ok(1)));
    assert_eq!(pending, framed(0, b"a"));
}

#[test]
fn the_version_is_the_crate_s() {
    let numbers: Vec<u32> =
        env!("CARGO_PKG_VERSION").split('.').map(|number| number.parse().unwrap()).collect();
    assert_eq!(mysql_wire::version(), 10_000 * numbers[0] + 100 * numbers[1] + numbers[2]);
}

#[test]
fn another_number_is_told_with_its_header() {
    let mut connection = Connection::new(1 << 24).unwrap();
    for (piece, wanted) in [
        (&b"\x01\0\0"[..], Ok(())),
        (b"\0", Ok(())),
        (b"a\0\0\x80", Ok(())),
        (b"\x07", Err(Error::PacketsOutOfSync)),
        (b"b", Err(Error::PacketsOutOfSync)),
    ] {
        connection.feed(piece).unwrap();
        while connection.next_packet().unwrap().is_some() {}
        assert_eq!(connection.judge_front(), wanted);
    }
    connection.set_sequence_id(7).unwrap();
    assert_eq!(connection.judge_front(), Ok(()));
}

#[test]
fn a_packet_has_its_number() {
    let mut connection = Connection::new(9).unwrap();
    assert_eq!(connection.packet_id(), Ok(255));
    connection.set_sequence_id(255).unwrap();
    connection.feed(&framed(255, b"a")).unwrap();
    assert_eq!(connection.next_packet(), Ok(Some(b"a".to_vec())));
    assert_eq!((connection.packet_id(), connection.sequence_id()), (Ok(255), Ok(0)));
}

#[test]
fn a_row_is_read_at_once() {
    let row = b"\x02ab\xfb\0\xfc\x01\0c\xff";
    let mut fields = Fields::new(row);
    assert_eq!(fields.row(5), Err(Error::NotANumber));
    assert_eq!(fields.row(4), Ok(vec![Some(&b"ab"[..]), None, Some(b""), Some(b"c")]));
    assert_eq!((fields.at(), fields.row(0)), (9, Ok(vec![])));
    for columns in [2, usize::MAX] {
        assert_eq!((fields.row(columns), fields.at()), (Err(Error::MissingBytes), 9));
    }
    assert_eq!(Fields::new(b"\x02a").row(1), Err(Error::MissingBytes));
}
