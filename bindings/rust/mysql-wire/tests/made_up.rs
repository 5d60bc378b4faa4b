//! Made-up streams in made-up pieces, beside a plain reading of the whole.

mod plain;

use mysql_wire::{Connection, Error, Place, Spans};
use plain::{fed, read, Numbers};

const STREAMS: u64 = 20_000;

fn spanned(limit: usize, pieces: &[&[u8]]) -> (Vec<Vec<u8>>, Result<(), Error>) {
    let mut spans = Spans::new(limit, 0);
    let (mut packets, mut open) = (Vec::new(), Vec::new());
    for piece in pieces {
        let mut piece = *piece;
        loop {
            match spans.next_span(&mut piece) {
                Ok(Some(span)) => {
                    open.extend_from_slice(span.bytes);
                    if span.ends_packet {
                        packets.push(std::mem::take(&mut open));
                    }
                }
                Ok(None) => break,
                Err(error) => return (packets, Err(error)),
            }
        }
    }
    (packets, Ok(()))
}

fn placed(limit: usize, pieces: &[&[u8]]) -> (Vec<Vec<u8>>, Result<(), Error>) {
    let mut connection = Connection::new(limit).unwrap();
    let (mut packets, mut places) = (Vec::new(), [Place::NOWHERE; 3]);
    for piece in pieces {
        let mut bytes = *piece;
        while !bytes.is_empty() {
            let (mut used, lent) = connection.decode_many(bytes, &mut places);
            packets.extend(lent.iter().map(|place| bytes[place.range()].to_vec()));
            if lent.is_empty() {
                let (count, answer) = connection.decode(bytes);
                match answer {
                    Ok(packet) => packets.extend(packet.map(<[u8]>::to_vec)),
                    Err(error) => return (packets, Err(error)),
                }
                used = count;
            }
            bytes = &bytes[used..];
        }
    }
    (packets, Ok(()))
}

type Reader = fn(usize, &[&[u8]]) -> (Vec<Vec<u8>>, Result<(), Error>);

// `waits` is as of `read`.
fn reads_each_stream_as_the_whole(reader: Reader, waits: bool) {
    for seed in 0..STREAMS {
        let mut numbers = Numbers::new(seed);
        let (stream, limit) = (numbers.stream(), numbers.below(60));
        let pieces = numbers.pieces(&stream);
        assert_eq!(reader(limit, &pieces), read(limit, &stream, waits), "seed {seed}");
    }
}

#[test]
fn a_connection_reads_each_stream_as_the_whole() {
    reads_each_stream_as_the_whole(fed, true);
}

#[test]
fn many_at_once_are_as_the_whole() {
    reads_each_stream_as_the_whole(placed, true);
}

#[test]
fn spans_read_each_stream_as_the_whole() {
    reads_each_stream_as_the_whole(spanned, false);
}

#[test]
fn what_is_encoded_is_read_again() {
    for seed in 0..STREAMS / 10 {
        let mut numbers = Numbers::new(seed);
        let mut connection = Connection::new(1 << 10).unwrap();
        let payloads: Vec<Vec<u8>> = (0..numbers.below(300))
            .map(|_| (0..numbers.below(50)).map(|_| numbers.below(256) as u8).collect())
            .collect();
        for payload in &payloads {
            connection.encode(payload).unwrap();
        }
        let stream = connection.pending().to_vec();
        let pieces = numbers.pieces(&stream);
        assert_eq!(fed(1 << 10, &pieces), (payloads, Ok(())), "seed {seed}");
    }
}
