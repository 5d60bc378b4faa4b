//! Sessions that are followed packet by packet.

use crate::fields::lenenc;
use crate::inputs::{framing, Numbers};
use crate::library;
use crate::timing::Row;

/// A session's packets, both sides' in their order, and what a workload answers of them.
struct Session {
    bytes: Vec<u8>,
    packets: u64,
    idle: u64,
}

impl Session {
    /// A greeting, a login and an OK, of a client that wants EOFs.
    fn new() -> Self {
        let mut session = Session { bytes: Vec::new(), packets: 0, idle: 0 };
        let greeting = [
            &b"\x0a5.7.0\0\x01\0\0\0abcdefgh\0\xff\xf7\x21\x02\0\xff\x81\x15"[..],
            &[0; 10],
            b"abcdefghijkl\0mysql_native_password\0",
        ];
        session.put(0, &greeting.concat());
        let login = [
            &b"\0\x82\x08\0\0\0\0\x01\x21"[..],
            &[0; 23],
            b"user\0\0mysql_native_password\0",
        ];
        session.put(1, &login.concat());
        session.put(2, OK);
        session.idle += 1;
        session
    }

    fn put(&mut self, id: u8, payload: &[u8]) {
        framing(id, payload, &mut self.bytes);
        self.packets += 1;
    }

    /// A query that is answered with rows of a text.
    fn query(&mut self, rows: usize, numbers: &mut Numbers) {
        let mut id = 0u8;
        let mut put = |session: &mut Self, payload: &[u8]| {
            session.put(id, payload);
            id = id.wrapping_add(1);
        };
        put(self, b"\x03select a from t");
        put(self, b"\x01");
        put(self, b"\x03def\x01d\x01t\x01t\x01a\x01a\x0c\x21\0\0\x01\0\0\xfd\0\0\0\0\0");
        put(self, EOF);
        for _ in 0..rows {
            let text = numbers.bytes(TEXT);
            let mut row = lenenc(TEXT as u64);
            row.extend_from_slice(&text);
            put(self, &row);
        }
        put(self, EOF);
        self.idle += 1;
    }

    /// A command that an OK answers.
    fn ping(&mut self) {
        self.put(0, b"\x0e");
        self.put(1, OK);
        self.idle += 1;
    }
}

const OK: &[u8] = b"\0\0\0\x02\0\0\0";
const EOF: &[u8] = b"\xfe\0\0\x02\0";

/// A row's text has this many bytes.
const TEXT: usize = 40;
const ROWS: usize = 10_000;
const COMMANDS: usize = 1000;

fn rows_of(rows: &mut Vec<Row>, name: &str, session: Session, form: u64) {
    let bytes = session.bytes.len() as u64;
    let copied = session.bytes.clone();
    let stream = session.bytes;
    rows.push(Row {
        name: name.to_string(),
        items: session.packets,
        bytes,
        call: Box::new(move |reps| library::session(&stream, form, reps)),
        want: session.packets + session.idle,
        copy: Box::new(move |reps| library::frame(&copied, 1, 2, reps)),
        rust: None,
    });
}

pub fn rows(rows: &mut Vec<Row>) {
    for (form, name) in ["session, a row of 40 B", "session, a row of 40 B by kind"].iter().enumerate() {
        let mut session = Session::new();
        session.query(ROWS, &mut Numbers::new(71));
        rows_of(rows, name, session, form as u64);
    }
    let mut session = Session::new();
    let mut numbers = Numbers::new(73);
    for _ in 0..COMMANDS {
        session.ping();
        session.query(1, &mut numbers);
    }
    rows_of(rows, "session, small commands, a packet", session, 0);
}
