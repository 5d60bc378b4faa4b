/*
 * The constants of MySQL's client/server protocol, as crates/wire_const has them, whose
 * scripts/c_constants.py wrote this file. A constant bears its name in the protocol after
 * MYSQL_WIRE_, but for a leading MYSQL_. At the end stand those of a session, as
 * crates/mysql_wire_session has them.
 */
#ifndef MYSQL_WIRE_CONSTANTS_H
#define MYSQL_WIRE_CONSTANTS_H

/* The most payload bytes that one chunk carries: the length in a chunk's header has three bytes. */
#define MYSQL_WIRE_MAX_PAYLOAD_LEN 16777215u
/* The limit of a packet, in payload bytes, where none is set. */
#define MYSQL_WIRE_DEFAULT_MAX_ALLOWED_PACKET 4194304u
/* A payload of fewer bytes is not worth compressing. */
#define MYSQL_WIRE_MIN_COMPRESS_LENGTH 50u
/* The number of the collation utf8_general_ci. */
#define MYSQL_WIRE_UTF8_GENERAL_CI 33u
/* The number of the collation utf8mb4_general_ci. */
#define MYSQL_WIRE_UTF8MB4_GENERAL_CI 45u

/* CapabilityFlags: What a client and a server can do. */

/* An improved form of the oldest password hash. */
#define MYSQL_WIRE_CLIENT_LONG_PASSWORD 0x00000001u
/* A statement that changes rows answers how many it found, and not how many it changed. */
#define MYSQL_WIRE_CLIENT_FOUND_ROWS 0x00000002u
/* The flags of a column are two bytes wide. */
#define MYSQL_WIRE_CLIENT_LONG_FLAG 0x00000004u
/* The client names a database as it connects. */
#define MYSQL_WIRE_CLIENT_CONNECT_WITH_DB 0x00000008u
/* A column may not be named as database.table.column. */
#define MYSQL_WIRE_CLIENT_NO_SCHEMA 0x00000010u
/* Packets may be compressed by zlib once the client is accepted. */
#define MYSQL_WIRE_CLIENT_COMPRESS 0x00000020u
/* The client is an ODBC driver. */
#define MYSQL_WIRE_CLIENT_ODBC 0x00000040u
/* The client may send its own files, for LOAD DATA LOCAL. */
#define MYSQL_WIRE_CLIENT_LOCAL_FILES 0x00000080u
/* Blanks may stand between a function's name and its parenthesis. */
#define MYSQL_WIRE_CLIENT_IGNORE_SPACE 0x00000100u
/* Packets have the form that they have since MySQL 4.1. */
#define MYSQL_WIRE_CLIENT_PROTOCOL_41 0x00000200u
/* A person is at the client: the server waits interactive_timeout for a command. */
#define MYSQL_WIRE_CLIENT_INTERACTIVE 0x00000400u
/* The connection changes to TLS before the client says who it is. */
#define MYSQL_WIRE_CLIENT_SSL 0x00000800u
/* The client library ignores SIGPIPE. */
#define MYSQL_WIRE_CLIENT_IGNORE_SIGPIPE 0x00001000u
/* OK and EOF packets hold status flags. */
#define MYSQL_WIRE_CLIENT_TRANSACTIONS 0x00002000u
/* An old flag of the protocol of MySQL 4.1. */
#define MYSQL_WIRE_CLIENT_RESERVED 0x00004000u
/* Authentication by the password hash of MySQL 4.1. */
#define MYSQL_WIRE_CLIENT_SECURE_CONNECTION 0x00008000u
/* One COM_QUERY may hold several statements. */
#define MYSQL_WIRE_CLIENT_MULTI_STATEMENTS 0x00010000u
/* COM_QUERY may be answered by several results. */
#define MYSQL_WIRE_CLIENT_MULTI_RESULTS 0x00020000u
/* COM_STMT_EXECUTE may be answered by several results, and by output parameters. */
#define MYSQL_WIRE_CLIENT_PS_MULTI_RESULTS 0x00040000u
/* The two agree on a plugin that shows who the client is. */
#define MYSQL_WIRE_CLIENT_PLUGIN_AUTH 0x00080000u
/* The client sends attributes of the connection, each a name and a value. */
#define MYSQL_WIRE_CLIENT_CONNECT_ATTRS 0x00100000u
/* The client's proof of who it is has a length-encoded length, and may pass 255 bytes. */
#define MYSQL_WIRE_CLIENT_PLUGIN_AUTH_LENENC_CLIENT_DATA 0x00200000u
/* The client can go on under a password that has expired. */
#define MYSQL_WIRE_CLIENT_CAN_HANDLE_EXPIRED_PASSWORDS 0x00400000u
/* OK packets may list what has changed in the session. */
#define MYSQL_WIRE_CLIENT_SESSION_TRACK 0x00800000u
/* An OK packet ends the rows of a result, where an EOF packet did. */
#define MYSQL_WIRE_CLIENT_DEPRECATE_EOF 0x01000000u
/* A result may come without the descriptions of its columns. */
#define MYSQL_WIRE_CLIENT_OPTIONAL_RESULTSET_METADATA 0x02000000u
/* Packets may be compressed by zstd. */
#define MYSQL_WIRE_CLIENT_ZSTD_COMPRESSION_ALGORITHM 0x04000000u
/* COM_QUERY and COM_STMT_EXECUTE may hold attributes of the query. */
#define MYSQL_WIRE_CLIENT_QUERY_ATTRIBUTES 0x08000000u
/* The server may ask for several proofs of who the client is, one after another. */
#define MYSQL_WIRE_MULTI_FACTOR_AUTHENTICATION 0x10000000u
/* Error packets may report progress. */
#define MYSQL_WIRE_CLIENT_PROGRESS_OBSOLETE 0x20000000u
/* The client checks the server's certificate. */
#define MYSQL_WIRE_CLIENT_SSL_VERIFY_SERVER_CERT 0x40000000u
/* The client keeps its options after a connection that failed. */
#define MYSQL_WIRE_CLIENT_REMEMBER_OPTIONS 0x80000000u

/* ColumnFlags: What is known of a column: two bytes of its definition. */

/* The column is never NULL. */
#define MYSQL_WIRE_NOT_NULL_FLAG 0x0001u
/* It is a part of the primary key. */
#define MYSQL_WIRE_PRI_KEY_FLAG 0x0002u
/* It is a part of a unique key. */
#define MYSQL_WIRE_UNIQUE_KEY_FLAG 0x0004u
/* It is a part of a key that isn't unique. */
#define MYSQL_WIRE_MULTIPLE_KEY_FLAG 0x0008u
/* It is a blob or a text. */
#define MYSQL_WIRE_BLOB_FLAG 0x0010u
/* Its numbers have no sign. */
#define MYSQL_WIRE_UNSIGNED_FLAG 0x0020u
/* Its numbers are shown with zeros in front. */
#define MYSQL_WIRE_ZEROFILL_FLAG 0x0040u
/* Its texts are compared byte by byte. */
#define MYSQL_WIRE_BINARY_FLAG 0x0080u
/* It is an enumeration. */
#define MYSQL_WIRE_ENUM_FLAG 0x0100u
/* The server numbers its rows. */
#define MYSQL_WIRE_AUTO_INCREMENT_FLAG 0x0200u
/* It is a timestamp. */
#define MYSQL_WIRE_TIMESTAMP_FLAG 0x0400u
/* It is a set. */
#define MYSQL_WIRE_SET_FLAG 0x0800u
/* It has no default value. */
#define MYSQL_WIRE_NO_DEFAULT_VALUE_FLAG 0x1000u
/* It becomes the time of each change of its row. */
#define MYSQL_WIRE_ON_UPDATE_NOW_FLAG 0x2000u
/* It is a part of some key. */
#define MYSQL_WIRE_PART_KEY_FLAG 0x4000u
/* It is a number. */
#define MYSQL_WIRE_NUM_FLAG 0x8000u

/* CursorType: The cursor that COM_STMT_EXECUTE asks for: one byte. */

/* No cursor: no bit is set. */
#define MYSQL_WIRE_CURSOR_TYPE_NO_CURSOR 0x00u
/* A cursor that reads. */
#define MYSQL_WIRE_CURSOR_TYPE_READ_ONLY 0x01u
/* A cursor for changes. */
#define MYSQL_WIRE_CURSOR_TYPE_FOR_UPDATE 0x02u
/* A cursor that moves both ways. */
#define MYSQL_WIRE_CURSOR_TYPE_SCROLLABLE 0x04u

/* StmtExecuteParamsFlags: Of all parameters of COM_STMT_EXECUTE: one byte. */

/* The types of the parameters stand before their values. */
#define MYSQL_WIRE_NEW_PARAMS_BOUND 0x01u

/* StmtExecuteParamFlags: Of one parameter of COM_STMT_EXECUTE: the byte after its type. */

/* The number has no sign. */
#define MYSQL_WIRE_UNSIGNED 0x80u

/* StmtBulkExecuteFlags: How MariaDB's COM_STMT_BULK_EXECUTE is meant: two bytes. */

/* A result is wanted for each row of parameters. */
#define MYSQL_WIRE_SEND_UNIT_RESULTS 0x0040u
/* The types of the parameters stand before their values. */
#define MYSQL_WIRE_SEND_TYPES_TO_SERVER 0x0080u

/* MariadbCapabilities: What a MariaDB client and server can do beyond MySQL: four bytes in the
   greeting and its answer that are zero in MySQL. */

/* The server may report the progress of a long statement. */
#define MYSQL_WIRE_MARIADB_CLIENT_PROGRESS 0x00000001u
/* Formerly COM_MULTI. */
#define MYSQL_WIRE_MARIADB_CLIENT_RESERVED_1 0x00000002u
/* COM_STMT_BULK_EXECUTE is understood. */
#define MYSQL_WIRE_MARIADB_CLIENT_STMT_BULK_OPERATIONS 0x00000004u
/* A column says more of its type and format. */
#define MYSQL_WIRE_MARIADB_CLIENT_EXTENDED_METADATA 0x00000008u
/* The columns of a prepared statement come again only where they have changed. */
#define MYSQL_WIRE_MARIADB_CLIENT_CACHE_METADATA 0x00000010u
/* COM_STMT_BULK_EXECUTE may be answered by a result for each row of parameters. */
#define MYSQL_WIRE_MARIADB_CLIENT_BULK_UNIT_RESULTS 0x00000020u

/* Flags2: Options of the session in which a statement of the binary log ran: four bytes of a query
   event. */

/* sql_auto_is_null was on. */
#define MYSQL_WIRE_OPTION_AUTO_IS_NULL 0x00004000u
/* autocommit was off. */
#define MYSQL_WIRE_OPTION_NOT_AUTOCOMMIT 0x00080000u
/* foreign_key_checks was off. */
#define MYSQL_WIRE_OPTION_NO_FOREIGN_KEY_CHECKS 0x04000000u
/* unique_checks was off. */
#define MYSQL_WIRE_OPTION_RELAXED_UNIQUE_CHECKS 0x08000000u

/* SqlMode: The SQL mode in which a statement of the binary log ran: eight bytes of a query event.
   */

/* REAL is FLOAT, and not DOUBLE. */
#define MYSQL_WIRE_MODE_REAL_AS_FLOAT 0x1ull
/* Two bars join texts. */
#define MYSQL_WIRE_MODE_PIPES_AS_CONCAT 0x2ull
/* Double quotes enclose names, and not texts. */
#define MYSQL_WIRE_MODE_ANSI_QUOTES 0x4ull
/* Blanks may stand between a function's name and its parenthesis. */
#define MYSQL_WIRE_MODE_IGNORE_SPACE 0x8ull
/* The bit has no meaning. */
#define MYSQL_WIRE_MODE_NOT_USED 0x10ull
/* A grouped query may name only columns that its groups determine. */
#define MYSQL_WIRE_MODE_ONLY_FULL_GROUP_BY 0x20ull
/* A difference of unsigned numbers has a sign. */
#define MYSQL_WIRE_MODE_NO_UNSIGNED_SUBTRACTION 0x40ull
/* CREATE TABLE ignores where it is told to put its files. */
#define MYSQL_WIRE_MODE_NO_DIR_IN_CREATE 0x80ull
/* As PostgreSQL reads SQL. */
#define MYSQL_WIRE_MODE_POSTGRESQL 0x100ull
/* As Oracle reads SQL. */
#define MYSQL_WIRE_MODE_ORACLE 0x200ull
/* As SQL Server reads SQL. */
#define MYSQL_WIRE_MODE_MSSQL 0x400ull
/* As Db2 reads SQL. */
#define MYSQL_WIRE_MODE_DB2 0x800ull
/* As MaxDB reads SQL. */
#define MYSQL_WIRE_MODE_MAXDB 0x1000ull
/* SHOW CREATE TABLE leaves out MySQL's options of keys. */
#define MYSQL_WIRE_MODE_NO_KEY_OPTIONS 0x2000ull
/* SHOW CREATE TABLE leaves out MySQL's options of tables. */
#define MYSQL_WIRE_MODE_NO_TABLE_OPTIONS 0x4000ull
/* SHOW CREATE TABLE leaves out MySQL's options of columns. */
#define MYSQL_WIRE_MODE_NO_FIELD_OPTIONS 0x8000ull
/* As MySQL 3.23 reads SQL. */
#define MYSQL_WIRE_MODE_MYSQL323 0x10000ull
/* As MySQL 4.0 reads SQL. */
#define MYSQL_WIRE_MODE_MYSQL40 0x20000ull
/* The modes that are nearest to standard SQL, together. */
#define MYSQL_WIRE_MODE_ANSI 0x40000ull
/* A zero in a numbered column stays a zero. */
#define MYSQL_WIRE_MODE_NO_AUTO_VALUE_ON_ZERO 0x80000ull
/* A backslash in a text is a plain byte. */
#define MYSQL_WIRE_MODE_NO_BACKSLASH_ESCAPES 0x100000ull
/* A value that doesn't fit is refused in tables that have transactions. */
#define MYSQL_WIRE_MODE_STRICT_TRANS_TABLES 0x200000ull
/* A value that doesn't fit is refused in all tables. */
#define MYSQL_WIRE_MODE_STRICT_ALL_TABLES 0x400000ull
/* A date's month and day may not be zero. */
#define MYSQL_WIRE_MODE_NO_ZERO_IN_DATE 0x800000ull
/* The date of zeros is refused. */
#define MYSQL_WIRE_MODE_NO_ZERO_DATE 0x1000000ull
/* Days 1 to 31 are taken in each month. */
#define MYSQL_WIRE_MODE_INVALID_DATES 0x2000000ull
/* A division by zero is a fault, and not NULL. */
#define MYSQL_WIRE_MODE_ERROR_FOR_DIVISION_BY_ZERO 0x4000000ull
/* The modes that refuse bad values, together. */
#define MYSQL_WIRE_MODE_TRADITIONAL 0x8000000ull
/* GRANT makes no user without a password. */
#define MYSQL_WIRE_MODE_NO_AUTO_CREATE_USER 0x10000000ull
/* NOT binds tighter than comparisons. */
#define MYSQL_WIRE_MODE_HIGH_NOT_PRECEDENCE 0x20000000ull
/* A storage engine that isn't there is a fault, and no other takes its place. */
#define MYSQL_WIRE_MODE_NO_ENGINE_SUBSTITUTION 0x40000000ull
/* A CHAR is read with the blanks that fill it. */
#define MYSQL_WIRE_MODE_PAD_CHAR_TO_FULL_LENGTH 0x80000000ull
/* Fractions of a second are cut, and not rounded. */
#define MYSQL_WIRE_MODE_TIME_TRUNCATE_FRACTIONAL 0x100000000ull
/* The bit after all others: the end of the server's list. */
#define MYSQL_WIRE_MODE_LAST 0x200000000ull

/* StatusFlags: What the server says of the session and of the statement that it answers: two bytes
   of each OK and EOF packet. */

/* A transaction of several statements is open. */
#define MYSQL_WIRE_SERVER_STATUS_IN_TRANS 0x0001u
/* Each statement outside a transaction is committed by itself. */
#define MYSQL_WIRE_SERVER_STATUS_AUTOCOMMIT 0x0002u
/* Another result follows this one. */
#define MYSQL_WIRE_SERVER_MORE_RESULTS_EXISTS 0x0008u
/* The statement found no good index for its tables. */
#define MYSQL_WIRE_SERVER_STATUS_NO_GOOD_INDEX_USED 0x0010u
/* The statement used no index. */
#define MYSQL_WIRE_SERVER_STATUS_NO_INDEX_USED 0x0020u
/* A cursor is open on the result: its rows come by COM_STMT_FETCH. */
#define MYSQL_WIRE_SERVER_STATUS_CURSOR_EXISTS 0x0040u
/* The cursor has no row left, in an answer to COM_STMT_FETCH. */
#define MYSQL_WIRE_SERVER_STATUS_LAST_ROW_SENT 0x0080u
/* A database was dropped. */
#define MYSQL_WIRE_SERVER_STATUS_DB_DROPPED 0x0100u
/* A backslash in a text of a statement is a plain byte. */
#define MYSQL_WIRE_SERVER_STATUS_NO_BACKSLASH_ESCAPES 0x0200u
/* The prepared statement was prepared anew, and its result has other columns now. */
#define MYSQL_WIRE_SERVER_STATUS_METADATA_CHANGED 0x0400u
/* The statement took longer than the server calls slow. */
#define MYSQL_WIRE_SERVER_QUERY_WAS_SLOW 0x0800u
/* The row of this result holds the output parameters of a procedure. */
#define MYSQL_WIRE_SERVER_PS_OUT_PARAMS 0x1000u
/* The open transaction only reads; it stands beside SERVER_STATUS_IN_TRANS. */
#define MYSQL_WIRE_SERVER_STATUS_IN_TRANS_READONLY 0x2000u
/* The packet lists what has changed in the session. */
#define MYSQL_WIRE_SERVER_SESSION_STATE_CHANGED 0x4000u
/* MariaDB: double quotes enclose names, as in the SQL mode ANSI_QUOTES. */
#define MYSQL_WIRE_SERVER_STATUS_ANSI_QUOTES 0x8000u

/* MariadbBulkIndicator: What stands for a parameter in COM_STMT_BULK_EXECUTE: the byte before each.
   */

/* A value, which follows. */
#define MYSQL_WIRE_BULK_INDICATOR_NONE 0
/* NULL. */
#define MYSQL_WIRE_BULK_INDICATOR_NULL 1
/* The column's default value. */
#define MYSQL_WIRE_BULK_INDICATOR_DEFAULT 2
/* The column's default value in an insert, and no change in an update. */
#define MYSQL_WIRE_BULK_INDICATOR_IGNORE 3

/* ColumnType: The type of a column or of a parameter: one byte. */

/* A decimal number, as before MySQL 5.0. */
#define MYSQL_WIRE_TYPE_DECIMAL 0
/* An integer of one byte: TINYINT. */
#define MYSQL_WIRE_TYPE_TINY 1
/* An integer of two bytes: SMALLINT. */
#define MYSQL_WIRE_TYPE_SHORT 2
/* An integer of four bytes: INT. */
#define MYSQL_WIRE_TYPE_LONG 3
/* A floating-point number of four bytes: FLOAT. */
#define MYSQL_WIRE_TYPE_FLOAT 4
/* A floating-point number of eight bytes: DOUBLE. */
#define MYSQL_WIRE_TYPE_DOUBLE 5
/* NULL. */
#define MYSQL_WIRE_TYPE_NULL 6
/* A moment, in UTC: TIMESTAMP. */
#define MYSQL_WIRE_TYPE_TIMESTAMP 7
/* An integer of eight bytes: BIGINT. */
#define MYSQL_WIRE_TYPE_LONGLONG 8
/* An integer of three bytes: MEDIUMINT. */
#define MYSQL_WIRE_TYPE_INT24 9
/* A date: DATE. */
#define MYSQL_WIRE_TYPE_DATE 10
/* A time of day or a span: TIME. */
#define MYSQL_WIRE_TYPE_TIME 11
/* A date and a time: DATETIME. */
#define MYSQL_WIRE_TYPE_DATETIME 12
/* A year: YEAR. */
#define MYSQL_WIRE_TYPE_YEAR 13
/* A date of three bytes. */
#define MYSQL_WIRE_TYPE_NEWDATE 14
/* A text up to a length: VARCHAR. */
#define MYSQL_WIRE_TYPE_VARCHAR 15
/* Bits: BIT. */
#define MYSQL_WIRE_TYPE_BIT 16
/* A moment with fractions of a second. */
#define MYSQL_WIRE_TYPE_TIMESTAMP2 17
/* A date and a time with fractions of a second. */
#define MYSQL_WIRE_TYPE_DATETIME2 18
/* A time with fractions of a second. */
#define MYSQL_WIRE_TYPE_TIME2 19
/* An array. */
#define MYSQL_WIRE_TYPE_TYPED_ARRAY 20
/* A vector: VECTOR. */
#define MYSQL_WIRE_TYPE_VECTOR 242
/* No type is known. */
#define MYSQL_WIRE_TYPE_UNKNOWN 243
/* A JSON document: JSON. */
#define MYSQL_WIRE_TYPE_JSON 245
/* A decimal number: DECIMAL. */
#define MYSQL_WIRE_TYPE_NEWDECIMAL 246
/* One of a list of texts: ENUM. */
#define MYSQL_WIRE_TYPE_ENUM 247
/* Some of a list of texts: SET. */
#define MYSQL_WIRE_TYPE_SET 248
/* Bytes or a text with a length of one byte: TINYBLOB, TINYTEXT. */
#define MYSQL_WIRE_TYPE_TINY_BLOB 249
/* Bytes or a text with a length of three bytes: MEDIUMBLOB, MEDIUMTEXT. */
#define MYSQL_WIRE_TYPE_MEDIUM_BLOB 250
/* Bytes or a text with a length of four bytes: LONGBLOB, LONGTEXT. */
#define MYSQL_WIRE_TYPE_LONG_BLOB 251
/* Bytes or a text with a length of two bytes: BLOB, TEXT. */
#define MYSQL_WIRE_TYPE_BLOB 252
/* Bytes or a text up to a length: VARCHAR, VARBINARY. */
#define MYSQL_WIRE_TYPE_VAR_STRING 253
/* Bytes or a text of a fixed length: CHAR, BINARY. */
#define MYSQL_WIRE_TYPE_STRING 254
/* A geometry: GEOMETRY and its kinds. */
#define MYSQL_WIRE_TYPE_GEOMETRY 255

/* Command: A command: the first byte of the packet by which a client asks for something. */

/* Internal to the server. */
#define MYSQL_WIRE_COM_SLEEP 0
/* Ends the connection. */
#define MYSQL_WIRE_COM_QUIT 1
/* Changes the current database. */
#define MYSQL_WIRE_COM_INIT_DB 2
/* Runs a statement given as text. */
#define MYSQL_WIRE_COM_QUERY 3
/* Lists the columns of a table. */
#define MYSQL_WIRE_COM_FIELD_LIST 4
/* Makes a database. */
#define MYSQL_WIRE_COM_CREATE_DB 5
/* Drops a database. */
#define MYSQL_WIRE_COM_DROP_DB 6
/* Flushes caches and logs. */
#define MYSQL_WIRE_COM_REFRESH 7
/* Formerly COM_SHUTDOWN. */
#define MYSQL_WIRE_COM_DEPRECATED_1 8
/* Asks for a line of the server's statistics. */
#define MYSQL_WIRE_COM_STATISTICS 9
/* Lists the server's connections. */
#define MYSQL_WIRE_COM_PROCESS_INFO 10
/* Internal to the server. */
#define MYSQL_WIRE_COM_CONNECT 11
/* Ends another connection. */
#define MYSQL_WIRE_COM_PROCESS_KILL 12
/* Has the server write what it knows for debugging into its log. */
#define MYSQL_WIRE_COM_DEBUG 13
/* Asks whether the server is there. */
#define MYSQL_WIRE_COM_PING 14
/* Internal to the server. */
#define MYSQL_WIRE_COM_TIME 15
/* Internal to the server. */
#define MYSQL_WIRE_COM_DELAYED_INSERT 16
/* Begins the session anew, as another user. */
#define MYSQL_WIRE_COM_CHANGE_USER 17
/* Asks for the binary log from a position. */
#define MYSQL_WIRE_COM_BINLOG_DUMP 18
/* Formerly asked for a whole table, in replication. */
#define MYSQL_WIRE_COM_TABLE_DUMP 19
/* Internal to the server. */
#define MYSQL_WIRE_COM_CONNECT_OUT 20
/* Says who a replica is. */
#define MYSQL_WIRE_COM_REGISTER_SLAVE 21
/* Prepares a statement. */
#define MYSQL_WIRE_COM_STMT_PREPARE 22
/* Executes a prepared statement. */
#define MYSQL_WIRE_COM_STMT_EXECUTE 23
/* Sends a piece of a parameter ahead of COM_STMT_EXECUTE. */
#define MYSQL_WIRE_COM_STMT_SEND_LONG_DATA 24
/* Forgets a prepared statement. */
#define MYSQL_WIRE_COM_STMT_CLOSE 25
/* Forgets what was sent of a prepared statement's parameters, and closes its cursor. */
#define MYSQL_WIRE_COM_STMT_RESET 26
/* Allows or forbids several statements in one text. */
#define MYSQL_WIRE_COM_SET_OPTION 27
/* Asks for rows of a cursor. */
#define MYSQL_WIRE_COM_STMT_FETCH 28
/* Internal to the server. */
#define MYSQL_WIRE_COM_DAEMON 29
/* Asks for the binary log from a set of transactions. */
#define MYSQL_WIRE_COM_BINLOG_DUMP_GTID 30
/* Begins the session anew, as the same user. */
#define MYSQL_WIRE_COM_RESET_CONNECTION 31
/* The number after all of MySQL's commands. */
#define MYSQL_WIRE_COM_END 32
/* MariaDB: executes a prepared statement for many rows of parameters. */
#define MYSQL_WIRE_COM_STMT_BULK_EXECUTE 250

/* GeometryType: The kind of a geometry, as in its well-known binary form and in the columns of a
   table that the binary log describes. */

/* Any of the others. */
#define MYSQL_WIRE_GEOM_GEOMETRY 0
/* A point. */
#define MYSQL_WIRE_GEOM_POINT 1
/* A line through points. */
#define MYSQL_WIRE_GEOM_LINESTRING 2
/* A polygon, which may have holes. */
#define MYSQL_WIRE_GEOM_POLYGON 3
/* Points. */
#define MYSQL_WIRE_GEOM_MULTIPOINT 4
/* Lines. */
#define MYSQL_WIRE_GEOM_MULTILINESTRING 5
/* Polygons. */
#define MYSQL_WIRE_GEOM_MULTIPOLYGON 6
/* Geometries of any kinds. */
#define MYSQL_WIRE_GEOM_GEOMETRYCOLLECTION 7

/* ItemResult: What a loadable function returns or takes, also as the binary log tells the kind of a
   user's variable. */

/* A text. */
#define MYSQL_WIRE_STRING_RESULT 0
/* A floating-point number of eight bytes. */
#define MYSQL_WIRE_REAL_RESULT 1
/* An integer of eight bytes. */
#define MYSQL_WIRE_INT_RESULT 2
/* A row. */
#define MYSQL_WIRE_ROW_RESULT 3
/* A decimal number, as a text. */
#define MYSQL_WIRE_DECIMAL_RESULT 4

/* SessionStateType: What has changed in the session: the byte before each change that an OK packet
   lists where SERVER_SESSION_STATE_CHANGED is set. */

/* System variables, each a name and a value. */
#define MYSQL_WIRE_SESSION_TRACK_SYSTEM_VARIABLES 0
/* The current database. */
#define MYSQL_WIRE_SESSION_TRACK_SCHEMA 1
/* Whether anything has changed. */
#define MYSQL_WIRE_SESSION_TRACK_STATE_CHANGE 2
/* The identifiers of transactions. */
#define MYSQL_WIRE_SESSION_TRACK_GTIDS 3
/* The statements that set a transaction up as the open one is. */
#define MYSQL_WIRE_SESSION_TRACK_TRANSACTION_CHARACTERISTICS 4
/* What the open transaction has done so far, a letter for each kind. */
#define MYSQL_WIRE_SESSION_TRACK_TRANSACTION_STATE 5

/* Side: One of the two that a connection joins. */

#define MYSQL_WIRE_SIDE_CLIENT 0u
#define MYSQL_WIRE_SIDE_SERVER 1u

/* Sender: Whose packet is next. */

#define MYSQL_WIRE_SENDER_CLIENT 0
#define MYSQL_WIRE_SENDER_SERVER 1
/* Either side's: while the client authenticates itself; and where no packet is waited for. */
#define MYSQL_WIRE_SENDER_EITHER 2

/* Phase: What a session waits for. */

/* The server's first packet. */
#define MYSQL_WIRE_PHASE_GREETING 0
/* The client's answer to it. */
#define MYSQL_WIRE_PHASE_LOGIN 1
/* What both sides send until the client is in. */
#define MYSQL_WIRE_PHASE_AUTHENTICATION 2
/* The client's next command: the session is idle. */
#define MYSQL_WIRE_PHASE_COMMAND 3
/* The first packet of an answer, which may be one with rows. */
#define MYSQL_WIRE_PHASE_ANSWER 4
/* The answer to COM_STMT_PREPARE. */
#define MYSQL_WIRE_PHASE_PREPARE_ANSWER 5
/* The answer to COM_SET_OPTION and its like, which may be an EOF. */
#define MYSQL_WIRE_PHASE_OPTION_ANSWER 6
/* The answer to COM_STATISTICS: a text. */
#define MYSQL_WIRE_PHASE_STATISTICS 7
/* The answer to COM_FIELD_LIST. */
#define MYSQL_WIRE_PHASE_FIELD_LIST 8
/* The events of a binary log. */
#define MYSQL_WIRE_PHASE_BINARY_LOG 9
/* This many definitions of columns, and what follows them. */
#define MYSQL_WIRE_PHASE_COLUMNS 10
/* The EOF that ends definitions. */
#define MYSQL_WIRE_PHASE_COLUMNS_END 11
#define MYSQL_WIRE_PHASE_ROWS 12
/* A file of the client, which an empty packet ends. */
#define MYSQL_WIRE_PHASE_FILE 13
/* Nothing: the client has quit, or was refused. */
#define MYSQL_WIRE_PHASE_CLOSED 14
/* TLS, which hides the packets. */
#define MYSQL_WIRE_PHASE_ENCRYPTED 15

/* PacketKind: What a packet is, at its place. */

#define MYSQL_WIRE_KIND_GREETING 1u
#define MYSQL_WIRE_KIND_TLS_REQUEST 2u
#define MYSQL_WIRE_KIND_LOGIN 3u
#define MYSQL_WIRE_KIND_AUTH_SWITCH 4u
#define MYSQL_WIRE_KIND_AUTH_MORE_DATA 5u
#define MYSQL_WIRE_KIND_AUTH_ANSWER 6u
#define MYSQL_WIRE_KIND_OK 7u
#define MYSQL_WIRE_KIND_ERROR 8u
/* How far a command has come. */
#define MYSQL_WIRE_KIND_PROGRESS 9u
#define MYSQL_WIRE_KIND_EOF 10u
#define MYSQL_WIRE_KIND_COLUMN_COUNT 11u
#define MYSQL_WIRE_KIND_COLUMN 12u
#define MYSQL_WIRE_KIND_ROW 13u
#define MYSQL_WIRE_KIND_BINARY_ROW 14u
#define MYSQL_WIRE_KIND_LOCAL_INFILE 15u
#define MYSQL_WIRE_KIND_FILE 16u
#define MYSQL_WIRE_KIND_PREPARED 17u
#define MYSQL_WIRE_KIND_STATISTICS 18u
#define MYSQL_WIRE_KIND_BINARY_LOG_EVENT 19u
#define MYSQL_WIRE_KIND_QUERY 20u
#define MYSQL_WIRE_KIND_INIT_DATABASE 21u
#define MYSQL_WIRE_KIND_PING 22u
#define MYSQL_WIRE_KIND_QUIT 23u
#define MYSQL_WIRE_KIND_CHANGE_USER 24u
#define MYSQL_WIRE_KIND_PREPARE 25u
#define MYSQL_WIRE_KIND_EXECUTE 26u
#define MYSQL_WIRE_KIND_LONG_DATA 27u
#define MYSQL_WIRE_KIND_CLOSE_STATEMENT 28u
#define MYSQL_WIRE_KIND_RESET_STATEMENT 29u
#define MYSQL_WIRE_KIND_FETCH 30u
#define MYSQL_WIRE_KIND_FIELD_LIST 31u
#define MYSQL_WIRE_KIND_SET_OPTION 32u
#define MYSQL_WIRE_KIND_STATISTICS_REQUEST 33u
#define MYSQL_WIRE_KIND_RESET_CONNECTION 34u
/* COM_BINLOG_DUMP, COM_BINLOG_DUMP_GTID. */
#define MYSQL_WIRE_KIND_BINARY_LOG_REQUEST 35u
/* Another command: COM_PROCESS_KILL, COM_DEBUG, COM_REGISTER_SLAVE, or one that no type of packet
   is for. */
#define MYSQL_WIRE_KIND_OTHER_COMMAND 36u
/* Longer than the limit: the payload was passed over. */
#define MYSQL_WIRE_KIND_TOO_LARGE 37u
/* The type of its place refuses it. */
#define MYSQL_WIRE_KIND_REFUSED 38u

#endif
