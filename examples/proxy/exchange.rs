//! What the packets of a connection mean to the proxy. Whose turn it is, and where an answer ends, the
//! library's `Session` says; here is what isn't offered, and what there is to log.

use crate::answer::Answer;
use crate::log::{front, ClientLog};
use crate::stream::Front;
use mysql_wire::{Error, Fields, FrontError, PacketKind, Phase, Received, Sender, Session, Side};
use std::fmt;

// The first byte of a greeting.
const HANDSHAKE_V10: u8 = 0x0a;

// Capabilities, as both sides announce them: four bytes, and above them four of MariaDB's own,
// which MySQL leaves 0.
const CLIENT_MYSQL: u64 = 1;
const COMPRESS: u64 = 1 << 5;
const PROTOCOL_41: u64 = 1 << 9;
const SSL: u64 = 1 << 11;
const OPTIONAL_METADATA: u64 = 1 << 25;
const ZSTD: u64 = 1 << 26;
const QUERY_ATTRIBUTES: u32 = 1 << 27;
const CACHE_METADATA: u64 = 1 << 36;

// What the relay keeps a server from offering. What passes stays plain and can be looked at, and
// each number of columns is followed by all definitions.
const NOT_OFFERED: u64 = NOT_PLAIN | OPTIONAL_METADATA | CACHE_METADATA;
// Under these a client goes on in bytes that aren't packets.
const NOT_PLAIN: u64 = SSL | COMPRESS | ZSTD;

// A login's own bytes of MariaDB's capabilities, and where its user stands.
const LOGIN_MARIADB: usize = 28;
const LOGIN_USER: usize = 32;

// As many bytes of a packet as say what it is.
const FEW: usize = 3;

const COMMANDS: [(u8, &str); 26] = [
    (0x01, "COM_QUIT"),
    (0x02, "COM_INIT_DB"),
    (0x03, "COM_QUERY"),
    (0x04, "COM_FIELD_LIST"),
    (0x05, "COM_CREATE_DB"),
    (0x06, "COM_DROP_DB"),
    (0x07, "COM_REFRESH"),
    (0x08, "COM_SHUTDOWN"),
    (0x09, "COM_STATISTICS"),
    (0x0a, "COM_PROCESS_INFO"),
    (0x0c, "COM_PROCESS_KILL"),
    (0x0d, "COM_DEBUG"),
    (0x0e, "COM_PING"),
    (0x11, "COM_CHANGE_USER"),
    (0x12, "COM_BINLOG_DUMP"),
    (0x15, "COM_REGISTER_SLAVE"),
    (0x16, "COM_STMT_PREPARE"),
    (0x17, "COM_STMT_EXECUTE"),
    (0x18, "COM_STMT_SEND_LONG_DATA"),
    (0x19, "COM_STMT_CLOSE"),
    (0x1a, "COM_STMT_RESET"),
    (0x1b, "COM_SET_OPTION"),
    (0x1c, "COM_STMT_FETCH"),
    (0x1e, "COM_BINLOG_DUMP_GTID"),
    (0x1f, "COM_RESET_CONNECTION"),
    (0xfa, "COM_STMT_BULK_EXECUTE"),
];

/// Why a packet isn't one that can stand where it does.
pub enum Misread {
    Field(Error),
    /// It is no packet of its kind.
    Kind(PacketKind),
    /// A login is cut short, or has no user.
    Login(Option<Error>),
    OldProtocol,
    /// A login asks for TLS or compression.
    NotOffered,
}

impl From<Error> for Misread {
    fn from(refusal: Error) -> Misread {
        Misread::Field(refusal)
    }
}

impl fmt::Display for Misread {
    fn fmt(&self, f: &mut fmt::Formatter<'_>) -> fmt::Result {
        match self {
            Misread::Field(refusal) => write!(f, "a malformed packet: {refusal}"),
            Misread::Kind(kind) => write!(f, "a malformed packet: {kind:?}"),
            Misread::Login(Some(refusal)) => write!(f, "a malformed login: {refusal}"),
            Misread::Login(None) => f.write_str("a malformed login"),
            Misread::OldProtocol => f.write_str("a protocol older than 4.1"),
            Misread::NotOffered => f.write_str("a login that asks for TLS or compression"),
        }
    }
}

/// Follows the packets of one connection.
pub struct Exchange {
    log: ClientLog,
    session: Session,
    phase: Phase,
    sender: Sender,
    answer: Answer,
    offered: u64,
    logged_in: bool,
}

impl Exchange {
    /// A connection on which nothing was said yet.
    pub fn new(log: ClientLog) -> Result<Exchange, Error> {
        let session = Session::new()?;
        Ok(Exchange {
            answer: Answer::new(log.clone()),
            log,
            phase: session.phase(),
            sender: session.next_sender(),
            session,
            offered: 0,
            logged_in: false,
        })
    }

    /// Whether the next packet of the client may be looked at. What a client sends before that
    /// waits, such as a command after another one that isn't answered yet.
    pub fn client_speaks(&self) -> bool {
        !self.server_owes() || self.is_authenticating() || self.is_dumping()
    }

    /// Whether the next packet of the server may be looked at. Between two commands it may have a
    /// last word, such as that the client was idle for too long.
    pub fn server_speaks(&self) -> bool {
        self.phase != Phase::File
    }

    /// Whether the client waits for the server.
    pub fn server_owes(&self) -> bool {
        self.sender == Sender::Server || self.is_authenticating()
    }

    /// Whether a login is checked.
    pub fn is_authenticating(&self) -> bool {
        self.phase == Phase::Authentication
    }

    /// Whether a command is answered.
    pub fn is_answering(&self) -> bool {
        self.sender == Sender::Server && self.phase != Phase::Greeting
    }

    /// Whether a replica gets the binary log. Meanwhile it acknowledges what came, where it was
    /// asked to, and both sides begin to count anew there.
    pub fn is_dumping(&self) -> bool {
        self.phase == Phase::BinaryLog
    }

    /// Whether the next packet is a command.
    pub fn is_between_commands(&self) -> bool {
        matches!(self.phase, Phase::Command | Phase::Closed)
    }

    /// Whether no command runs, or none that has an end of its own.
    pub fn rests(&self) -> bool {
        !self.logged_in || self.is_between_commands() || self.is_dumping()
    }

    /// Whether the server said OK to a login.
    pub fn is_logged_in(&self) -> bool {
        self.logged_in
    }

    /// Goes past a packet of the client, by its front. Whether that was enough; else it is to be
    /// heard again once it has come whole. Acknowledgements of the binary log say nothing more.
    pub fn hear_client(&mut self, packet: &mut Front) -> Result<bool, Misread> {
        match self.phase {
            Phase::BinaryLog => return Ok(true),
            Phase::Login if !packet.is_whole => return Ok(false),
            Phase::Login => self.hear_login(packet.bytes)?,
            _ => {}
        }
        let before = self.phase;
        let Some(received) = self.tell(Side::Client, packet)? else { return Ok(false) };
        match before {
            Phase::Login if received.is_refused => return Err(Misread::Login(None)),
            Phase::Command | Phase::Closed => self.hear_command(received.kind, packet.bytes),
            _ => {}
        }
        Ok(true)
    }

    /// Goes past a packet of the server, by its front. Whether that was enough.
    pub fn hear_server(&mut self, packet: &mut Front) -> Result<bool, Misread> {
        let before = self.phase;
        if before == Phase::Greeting && packet.first() == Some(HANDSHAKE_V10) {
            self.hear_greeting(packet.bytes)?;
        }
        let Some(Received { kind, is_refused }) = self.tell(Side::Server, packet)? else {
            return Ok(false);
        };
        let is_wrong = match kind {
            // (nothing hangs on what these say)
            PacketKind::Column | PacketKind::Error => false,
            // (the words behind an OK's status may have another form, but it is done all the same)
            PacketKind::Ok | PacketKind::Eof => is_refused && self.phase == before,
            // (ways to log in have packets of their own)
            PacketKind::Refused => before != Phase::Authentication,
            _ => is_refused,
        };
        if is_wrong {
            return Err(Misread::Kind(kind));
        }
        if before == Phase::Authentication && self.phase == Phase::Command {
            self.logged_in = true;
            self.log.say(format_args!("  logged in"));
        } else {
            self.answer.hear(before, kind, packet.bytes)?;
        }
        Ok(true)
    }

    /// Tells the session of a packet, by as much of it as it wants. `None`: it wants all, which
    /// hasn't come.
    fn tell(&mut self, side: Side, packet: &Front) -> Result<Option<Received>, Misread> {
        let received = self.advance(side, packet)?;
        // (most packets are rows, and after a row another one is waited for)
        let is_row = received.is_some_and(|received| is_row(received.kind));
        if !(is_row && self.phase == Phase::Rows) {
            self.phase = self.session.phase();
            self.sender = self.session.next_sender();
        }
        Ok(received)
    }

    /// The pieces of a file get the numbers that the session expects of them: how many chunks came of
    /// the last one, it wasn't told. What comes out of order was refused before.
    fn advance(&mut self, side: Side, packet: &Front) -> Result<Option<Received>, Misread> {
        let id = if self.phase == Phase::File { self.session.next_id() } else { packet.number };
        if packet.len > FEW {
            match self.session.advance_front(side, id, packet.len, &packet.bytes[..FEW]) {
                Ok(kind) => return Ok(Some(Received { kind, is_refused: false })),
                Err(FrontError::NeedsWhole(_)) if packet.is_whole => {}
                Err(FrontError::NeedsWhole(_)) => return Ok(None),
                Err(FrontError::Refused(refusal)) => return Err(refusal.into()),
            }
        }
        Ok(Some(self.session.advance(side, id, packet.bytes)?))
    }

    /// Clears what the server doesn't offer. The flag of MySQL's clients stays: MariaDB's servers
    /// don't offer it, and read by it what a client is.
    fn hear_login(&mut self, packet: &mut [u8]) -> Result<(), Misread> {
        let cut = |refusal| Misread::Login(Some(refusal));
        let mut asked = Fields::new(packet).int(4).map_err(cut)?;
        if asked & self.offered & PROTOCOL_41 == 0 {
            return Err(Misread::OldProtocol);
        }
        asked |= Fields::starting_at(packet, LOGIN_MARIADB).int(4).map_err(cut)? << 32;
        if asked & NOT_PLAIN != 0 {
            return Err(Misread::NotOffered);
        }
        let kept = asked & (self.offered | CLIENT_MYSQL);
        overwrite(packet, 0, 4, kept);
        overwrite(packet, LOGIN_MARIADB, 4, kept >> 32);
        let user = packet[LOGIN_USER..].split(|&byte| byte == 0).next().unwrap_or_default();
        self.log.say(format_args!("login of {}", front(user)));
        Ok(())
    }

    fn hear_command(&mut self, kind: PacketKind, packet: &[u8]) {
        self.answer.begin(kind);
        let Some((&number, text)) = packet.split_first() else {
            return self.log.say(format_args!("a command without a number"));
        };
        let Some((_, name)) = COMMANDS.iter().find(|command| command.0 == number) else {
            return self.log.say(format_args!("command {number:#04x}"));
        };
        let detail = match kind {
            PacketKind::Query => self.statement(packet),
            PacketKind::Prepare | PacketKind::InitDatabase => self.log.statement(text),
            _ => String::new(),
        };
        self.log.say(format_args!("{name}{detail}"));
    }

    /// The front of a `COM_QUERY`'s statement, where it is asked for. Attributes of a query stand
    /// in front of it.
    fn statement(&self, packet: &[u8]) -> String {
        let mut fields = Fields::starting_at(packet, 1);
        if self.session.capabilities() & QUERY_ATTRIBUTES != 0 {
            match (fields.lenenc_int(), fields.lenenc_int()) {
                (Ok(0), Ok(_)) => {}
                _ => return String::from(" (with attributes)"),
            }
        }
        self.log.statement(fields.rest())
    }

    /// Takes back what isn't to be offered.
    fn hear_greeting(&mut self, packet: &mut [u8]) -> Result<(), Misread> {
        let mut fields = Fields::starting_at(packet, 1);
        let version = fields.null_bytes()?;
        self.log.say(format_args!("server {}", front(version)));
        fields.skip(13);
        let low_at = fields.at();
        let low = fields.int(2)?;
        fields.skip(3);
        let high_at = fields.at();
        let high = fields.int(2)?;
        fields.skip(7);
        let mariadb_at = fields.at();
        let mariadb = fields.int(4)?;

        self.offered = (low | high << 16 | mariadb << 32) & !NOT_OFFERED;
        overwrite(packet, low_at, 2, self.offered);
        overwrite(packet, high_at, 2, self.offered >> 16);
        overwrite(packet, mariadb_at, 4, self.offered >> 32);
        Ok(())
    }
}

fn is_row(kind: PacketKind) -> bool {
    matches!(kind, PacketKind::Row | PacketKind::BinaryRow)
}

/// Writes the low bytes of a number over a field, the least significant first.
fn overwrite(packet: &mut [u8], at: usize, width: usize, value: u64) {
    packet[at..at + width].copy_from_slice(&value.to_le_bytes()[..width]);
}
