//! A session, packet by packet: by whole payloads, and by their fronts.

use mysql_wire::{
    Error, FrontError, PacketKind as Kind, Phase, Received, Sender, Session, Side, Statement,
};
use Side::{Client, Server};

const GREETING: &[u8] =
    b"\x0a8.4.0\0\x05\0\0\0abcdefgh\0\xff\xff\xff\x02\0\xff\xdf\x15\0\0\0\0\0\0\0\0\0\0\
    ijklmnopqrst\0caching_sha2_password\0";
/// It wants EOFs.
const LOGIN: &[u8] =
    b"\x81\x82\x08\0\0\0\0\x01\x2d\0\0\0\0\0\0\0\0\0\0\0\0\0\0\0\0\0\0\0\0\0\0\0root\0\0\
    caching_sha2_password\0";
const DEFINITION: &[u8] = b"\x03def\0\0\0\x011\0\x0c\x3f\0\x01\0\0\0\x08\x81\0\0\0\0";
const DONE: &[u8] = b"\0\0\0\x02\0\0\0";
const EOF: &[u8] = b"\xfe\0\0\x02\0";

/// Whose packet it is, what it is, and what is waited for after it.
type Row = (Side, &'static [u8], Kind, Phase);

const CONNECTION: &[Row] = &[
    (Server, GREETING, Kind::Greeting, Phase::Login),
    (Client, LOGIN, Kind::Login, Phase::Authentication),
    (Server, DONE, Kind::Ok, Phase::Command),
];
const QUERY: &[Row] = &[
    (Client, b"\x03SELECT 1", Kind::Query, Phase::Answer),
    (Server, b"\x01", Kind::ColumnCount, Phase::Columns),
    (Server, DEFINITION, Kind::Column, Phase::ColumnsEnd),
    (Server, EOF, Kind::Eof, Phase::Rows),
    (Server, b"\x011", Kind::Row, Phase::Rows),
    (Server, b"\xfe\0\0\x22\0", Kind::Eof, Phase::Command),
];
/// The statement 7, of two parameters and a column.
const PREPARE: &[Row] = &[
    (Client, b"\x16SELECT ?", Kind::Prepare, Phase::PrepareAnswer),
    (Server, b"\0\x07\0\0\0\x01\0\x02\0\0\0\0", Kind::Prepared, Phase::Columns),
];
/// A piece of the file looks like a query.
const LOAD: &[Row] = &[
    (Client, b"\x03LOAD DATA", Kind::Query, Phase::Answer),
    (Server, b"\xfbf", Kind::LocalInfile, Phase::File),
    (Client, b"\x03SELECT 1", Kind::File, Phase::File),
    (Client, b"", Kind::File, Phase::Answer),
    (Server, DONE, Kind::Ok, Phase::Command),
];

fn front_of(payload: &[u8]) -> &[u8] {
    &payload[..payload.len().min(3)]
}

fn by_payload(session: &mut Session, side: Side, id: u8, payload: &[u8]) -> Kind {
    let received = session.advance(side, id, payload).unwrap();
    assert!(!received.is_refused);
    received.kind
}

fn by_front(session: &mut Session, side: Side, id: u8, payload: &[u8]) -> Kind {
    match session.advance_front(side, id, payload.len(), front_of(payload)) {
        Err(FrontError::NeedsWhole(kind)) => {
            assert_eq!(session.advance_front(side, id, payload.len(), payload), Ok(kind));
            kind
        }
        advanced => advanced.unwrap(),
    }
}

fn follow(session: &mut Session, rows: &[Row], advance: fn(&mut Session, Side, u8, &[u8]) -> Kind) {
    for (&(side, payload, kind, phase), id) in rows.iter().zip(0..) {
        assert!(session.next_sender().may_be(side));
        assert_eq!(session.classify(side, id, payload.len(), front_of(payload)), Ok(kind));
        assert_eq!(advance(session, side, id, payload), kind);
        assert_eq!((session.phase(), session.next_id()), (phase, id + 1));
        assert_eq!(session.is_idle(), phase == Phase::Command);
    }
}

#[test]
fn a_session_is_followed() {
    for advance in [by_payload, by_front] {
        let mut session = Session::new().unwrap();
        assert_eq!((session.status(), session.capabilities()), (0, 1 << 9));
        follow(&mut session, CONNECTION, advance);
        assert_eq!((session.status(), session.capabilities()), (2, 0x0008_8281));
        follow(&mut session, QUERY, advance);
        assert_eq!((session.status(), session.statement(7)), (0x22, None));
        follow(&mut session, LOAD, advance);
        follow(&mut session, PREPARE, advance);
        assert_eq!(session.statement(7), Some(Statement { parameters: 2, columns: 1 }));
    }
}

#[test]
fn a_wrong_packet_is_told() {
    let mut session = Session::new().unwrap();
    let greeting = Received { kind: Kind::Greeting, is_refused: true };
    assert_eq!(session.advance(Server, 0, b"\x0a8"), Ok(greeting));
    assert_eq!(session.phase(), Phase::Login);
    let none = Received { kind: Kind::Refused, is_refused: true };
    assert_eq!(session.advance(Server, 1, b"\x09"), Ok(none));
}

#[test]
fn what_is_no_front_changes_nothing() {
    let mut session = Session::new().unwrap();
    for (len, front) in [(9, &b"\x0a8"[..]), (2, b"\x0a8."), (usize::MAX, b"")] {
        assert_eq!(session.classify(Server, 0, len, front), Err(Error::NotAFront));
        let refused = FrontError::Refused(Error::NotAFront);
        assert_eq!(session.advance_front(Server, 0, len, front), Err(refused));
    }
    assert_eq!((session.phase(), session.next_sender()), (Phase::Greeting, Sender::Server));
}

#[test]
fn a_packet_is_passed_over() {
    let mut session = Session::new().unwrap();
    follow(&mut session, CONNECTION, by_front);
    session.pass(Client, 0, 20_000_000);
    assert_eq!((session.phase(), session.next_id()), (Phase::Answer, 2));
}

#[test]
fn a_session_moves_to_another_thread() {
    let mut session = Session::new().unwrap();
    let moved = std::thread::spawn(move || {
        follow(&mut session, CONNECTION, by_front);
        session
    });
    assert_eq!(format!("{:?}", moved.join().unwrap()), "Session { phase: Command, .. }");
}

#[test]
fn refusals_have_texts() {
    let refused = FrontError::Refused(Error::NotAFront);
    assert_eq!(refused.to_string(), "neither a payload nor its first bytes, three or more");
    let whole = FrontError::NeedsWhole(Kind::Login);
    assert_eq!(whole.to_string(), "the whole packet is needed: Login");
}
