//! Sides, senders, phases and kinds of packets, by the numbers that the library has for them.

/// An enum, and its variant of a number.
macro_rules! numbered {
    (
        $(#[$doc:meta])*
        $name:ident
        $($(#[$of:meta])* $variant:ident = $number:literal,)+
    ) => {
        $(#[$doc])*
        #[derive(Clone, Copy, Debug, PartialEq, Eq, Hash)]
        #[non_exhaustive]
        pub enum $name {
            $($(#[$of])* $variant = $number,)+
        }

        impl $name {
            #[inline]
            pub(super) fn of(number: u32) -> Option<$name> {
                match number {
                    $($number => Some($name::$variant),)+
                    _ => None,
                }
            }
        }
    };
}

/// One of the two that a connection joins.
#[derive(Clone, Copy, Debug, PartialEq, Eq, Hash)]
pub enum Side {
    /// The one that sends commands.
    Client = 0,
    /// The one that answers them.
    Server = 1,
}

/// Whose packet is next.
#[derive(Clone, Copy, Debug, PartialEq, Eq, Hash)]
pub enum Sender {
    /// The client's.
    Client = 0,
    /// The server's.
    Server = 1,
    /// Either's: while the client authenticates itself, and where no packet is waited for.
    Either = 2,
}

impl Sender {
    #[inline]
    pub(super) fn of(number: i32) -> Sender {
        match number {
            0 => Sender::Client,
            1 => Sender::Server,
            _ => Sender::Either,
        }
    }

    /// Whether this side's packet may be next.
    #[inline]
    pub fn may_be(self, side: Side) -> bool {
        match self {
            Sender::Client => side == Side::Client,
            Sender::Server => side == Side::Server,
            Sender::Either => true,
        }
    }
}

numbered! {
    /// What a session waits for.
    Phase
    /// The server's first packet.
    Greeting = 0,
    /// The client's answer to it.
    Login = 1,
    /// What both sides send until the client is in.
    Authentication = 2,
    /// The client's next command: the session is idle.
    Command = 3,
    /// The first packet of an answer, which may be one with rows.
    Answer = 4,
    /// The answer to `COM_STMT_PREPARE`.
    PrepareAnswer = 5,
    /// The answer to `COM_SET_OPTION` and its like, which may be an EOF.
    OptionAnswer = 6,
    /// The answer to `COM_STATISTICS`: a text.
    Statistics = 7,
    /// The answer to `COM_FIELD_LIST`.
    FieldList = 8,
    /// The events of a binary log.
    BinaryLog = 9,
    /// Definitions of columns or parameters.
    Columns = 10,
    /// The EOF that ends definitions.
    ColumnsEnd = 11,
    /// Rows, and what ends them.
    Rows = 12,
    /// A file of the client, which an empty packet ends.
    File = 13,
    /// Nothing: the client has quit, or was refused.
    Closed = 14,
    /// TLS, which hides the packets.
    Encrypted = 15,
}

numbered! {
    /// What a packet is, at its place.
    PacketKind
    /// The server's first packet.
    Greeting = 1,
    /// The client asks for TLS; what follows is hidden by it.
    TlsRequest = 2,
    /// The client's answer to the greeting.
    Login = 3,
    /// The server asks for another way to log in.
    AuthSwitch = 4,
    /// The server says more of a way to log in.
    AuthMoreData = 5,
    /// The client's answer to these.
    AuthAnswer = 6,
    /// What was asked for is done.
    Ok = 7,
    /// It is refused.
    Error = 8,
    /// How far a command has come.
    Progress = 9,
    /// The end of definitions, or of rows; also an OK in its place.
    Eof = 10,
    /// How many columns an answer has.
    ColumnCount = 11,
    /// The definition of a column or a parameter.
    Column = 12,
    /// A row of texts.
    Row = 13,
    /// A row of a prepared statement.
    BinaryRow = 14,
    /// The server asks for a file.
    LocalInfile = 15,
    /// A piece of the file; an empty one ends it.
    File = 16,
    /// The first packet of the answer to `COM_STMT_PREPARE`.
    Prepared = 17,
    /// The text that answers `COM_STATISTICS`.
    Statistics = 18,
    /// An event of the binary log.
    BinaryLogEvent = 19,
    /// `COM_QUERY`
    Query = 20,
    /// `COM_INIT_DB`
    InitDatabase = 21,
    /// `COM_PING`
    Ping = 22,
    /// `COM_QUIT`
    Quit = 23,
    /// `COM_CHANGE_USER`
    ChangeUser = 24,
    /// `COM_STMT_PREPARE`
    Prepare = 25,
    /// `COM_STMT_EXECUTE`
    Execute = 26,
    /// `COM_STMT_SEND_LONG_DATA`
    LongData = 27,
    /// `COM_STMT_CLOSE`
    CloseStatement = 28,
    /// `COM_STMT_RESET`
    ResetStatement = 29,
    /// `COM_STMT_FETCH`
    Fetch = 30,
    /// `COM_FIELD_LIST`
    FieldList = 31,
    /// `COM_SET_OPTION`
    SetOption = 32,
    /// `COM_STATISTICS`
    StatisticsRequest = 33,
    /// `COM_RESET_CONNECTION`
    ResetConnection = 34,
    /// `COM_BINLOG_DUMP`, `COM_BINLOG_DUMP_GTID`
    BinaryLogRequest = 35,
    /// Another command.
    OtherCommand = 36,
    /// Longer than a limit: the payload was passed over.
    TooLarge = 37,
    /// No packet that may stand there.
    Refused = 38,
}
