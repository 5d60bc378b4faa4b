//! A session, followed packet by packet.

mod numbers;

use crate::calls::{self, SessionHandle};
use crate::error::{checked, Error};
pub use numbers::{PacketKind, Phase, Sender, Side};
use std::fmt;

/// The code of a payload that is no packet of its kind.
const REFUSED: i32 = 5;
/// The code where a front is not enough.
const NEEDS_WHOLE: i32 = 4;

/// What both sides of a connection have sent so far, as far as it says what comes next: what each
/// packet is, whose turn it is, and where an answer ends. It is told of every packet of either side,
/// in order.
///
/// ```
/// use mysql_wire::{PacketKind, Sender, Session, Side};
///
/// # fn main() -> Result<(), mysql_wire::Error> {
/// let mut session = Session::new()?;
/// # let greeting = [&b"\x0a8\0"[..], &[0; 13], b"\0\x82\x2d\x02", &[0; 27]].concat();
/// # let login = [&b"\0\x82"[..], &[0; 30], b"root\0\0"].concat();
/// # assert!(!session.advance(Side::Server, 0, &greeting)?.is_refused);
/// # assert!(!session.advance(Side::Client, 1, &login)?.is_refused);
/// let ok = b"\0\0\0\x02\0\0\0";
/// // .. the greeting, the login, and the OK that ends both
/// session.advance(Side::Server, 2, ok)?;
/// assert!(session.is_idle());
/// let sent = session.advance(Side::Client, 0, b"\x0e")?;
/// assert_eq!(sent.kind, PacketKind::Ping);
/// assert_eq!(session.next_sender(), Sender::Server);
/// session.advance(Side::Server, 1, ok)?;
/// assert!(session.is_idle());
/// # Ok(())
/// # }
/// ```
///
/// It holds some 100 bytes, the types of an answer's columns in up to 4096, and the last 64 statements
/// that were prepared in up to 1536. It keeps no payload.
pub struct Session(SessionHandle);

/// A payload that was read, and gone on after.
#[derive(Clone, Copy, Debug, PartialEq, Eq)]
pub struct Received {
    /// What it is, at its place.
    pub kind: PacketKind,
    /// Whether it is no packet of that kind. The session goes on after it by its kind and length alone.
    pub is_refused: bool,
}

/// Why a session did not go on after a front. It is as it was.
#[derive(Clone, Copy, Debug, PartialEq, Eq)]
pub enum FrontError {
    /// What is known after a packet of this kind hangs on all of it: give the whole payload.
    NeedsWhole(PacketKind),
    /// `NotAFront`, or, of a whole payload, `OutOfMemory`.
    Refused(Error),
}

/// What the answer to `COM_STMT_PREPARE` told of a statement.
#[derive(Clone, Copy, Debug, PartialEq, Eq)]
pub struct Statement {
    /// How many parameters it takes.
    pub parameters: u16,
    /// How many columns its rows have.
    pub columns: u16,
}

impl Session {
    /// A session that begins: the server's greeting comes first.
    pub fn new() -> Result<Session, Error> {
        match calls::new_session() {
            Ok(handle) => Ok(Session(handle)),
            Err(code) => Err(Error::of(code)),
        }
    }

    /// Reads a whole payload, whose first chunk is numbered `id`, and goes on after it. `OutOfMemory`
    /// changes nothing.
    pub fn advance(&mut self, side: Side, id: u8, payload: &[u8]) -> Result<Received, Error> {
        let (code, kind) = calls::session_packet(&mut self.0, side as u32, id, payload);
        let is_refused = checked(code)? == REFUSED;
        Ok(Received { kind: kind_of(kind), is_refused })
    }

    /// Goes on after a packet of `len` bytes, of which this front has come: three bytes or more, or
    /// all. Rows, pieces of files, statements and most other packets need no more; of the others that
    /// is `NeedsWhole`, where the front is not all. Whether it is a packet of its kind, only `advance`
    /// says.
    #[inline]
    pub fn advance_front(
        &mut self,
        side: Side,
        id: u8,
        len: usize,
        front: &[u8],
    ) -> Result<PacketKind, FrontError> {
        let (code, kind) = calls::session_front(&mut self.0, side as u32, id, len, front);
        match checked(code) {
            Ok(NEEDS_WHOLE) => Err(FrontError::NeedsWhole(kind_of(kind))),
            Ok(_) => Ok(kind_of(kind)),
            Err(error) => Err(FrontError::Refused(error)),
        }
    }

    /// What such a packet is. Nothing changes. `NotAFront`: fewer bytes than three and than `len`, or
    /// more than `len`.
    pub fn classify(
        &self,
        side: Side,
        id: u8,
        len: usize,
        front: &[u8],
    ) -> Result<PacketKind, Error> {
        let (code, kind) = calls::session_classify(&self.0, side as u32, id, len, front);
        checked(code).map(|_| kind_of(kind))
    }

    /// Goes on after a packet of `len` bytes that was not looked at, as one above a limit.
    pub fn pass(&mut self, side: Side, id: u8, len: usize) {
        calls::session_pass(&mut self.0, side as u32, id, len);
    }

    /// What is waited for.
    #[inline]
    pub fn phase(&self) -> Phase {
        Phase::of(calls::session_phase(&self.0) as u32).unwrap_or(Phase::Closed)
    }

    /// Whose packet is next.
    #[inline]
    pub fn next_sender(&self) -> Sender {
        Sender::of(calls::session_next_sender(&self.0))
    }

    /// Whether a command is waited for, so that another client may have the connection.
    #[inline]
    pub fn is_idle(&self) -> bool {
        calls::session_is_idle(&self.0) == 1
    }

    /// The flags that the last OK or EOF told: whether a transaction is open, say. 0 before the first.
    pub fn status(&self) -> u16 {
        calls::session_status(&self.0) as u16
    }

    /// The flags of what the client can do, by its login; before that, `CLIENT_PROTOCOL_41` alone.
    pub fn capabilities(&self) -> u32 {
        calls::session_capabilities(&self.0)
    }

    /// The number that follows the last packet's last chunk.
    #[inline]
    pub fn next_id(&self) -> u8 {
        calls::session_next_id(&self.0) as u8
    }

    /// The newest statement of this number, of the last 64 that were prepared.
    pub fn statement(&self, number: u32) -> Option<Statement> {
        let (code, parameters, columns) = calls::session_statement(&self.0, number);
        (code == 0).then_some(Statement { parameters, columns })
    }
}

#[inline]
fn kind_of(number: u32) -> PacketKind {
    PacketKind::of(number).unwrap_or(PacketKind::Refused)
}

impl fmt::Debug for Session {
    fn fmt(&self, f: &mut fmt::Formatter<'_>) -> fmt::Result {
        f.debug_struct("Session").field("phase", &self.phase()).finish_non_exhaustive()
    }
}

impl fmt::Display for FrontError {
    fn fmt(&self, f: &mut fmt::Formatter<'_>) -> fmt::Result {
        match self {
            FrontError::NeedsWhole(kind) => write!(f, "the whole packet is needed: {kind:?}"),
            FrontError::Refused(error) => error.fmt(f),
        }
    }
}

impl std::error::Error for FrontError {}
