/*
 * mysql_wire: the packet layer of MySQL's client/server protocol.
 *
 * A `mysql_wire_connection` is one side of one connection: the bytes that came and aren't taken
 * yet, the packet that is being put together, the number (sequence id) of the next packet, the
 * bytes that wait to be sent. It does no input and no output: bytes are fed to it as they come,
 * and the bytes to send are taken from it.
 *
 *     mysql_wire_connection connection = NULL;
 *     mysql_wire_open(1 << 24, &connection);
 *     for (;;) {
 *         int32_t code;
 *         mysql_wire_view packet;
 *         while ((code = mysql_wire_peek(&connection, &packet)) == MYSQL_WIRE_PACKET) {
 *             use(packet.at, packet.len);
 *             mysql_wire_take(&connection);
 *         }
 *         if (code != MYSQL_WIRE_WAITS) break;
 *         ssize_t count = read(socket, room, sizeof room);
 *         if (count <= 0) break;
 *         if (mysql_wire_feed(&connection, room, count) != MYSQL_WIRE_OK) break;
 *     }
 *     mysql_wire_close(&connection);
 *
 * A `mysql_wire_session` follows both sides of a connection packet by packet: whose turn it is, and
 * where an answer ends.
 *
 * What a caller upholds, since C can't:
 *   - a `mysql_wire_connection` starts as NULL, and is never copied: pass its address. It is closed
 *     in the end, or its memory is lost. The same of a `mysql_wire_session`, as of all that follows;
 *   - one call at a time on one connection. It may move between threads, where each call on it
 *     happens before the next, as under a mutex; calls on two connections may run at once;
 *   - addresses are valid for the lengths given with them (one may be NULL where its length is 0),
 *     and don't overlap each other or the connection's memory: a lent view may be read, not
 *     written, and not handed to a call on the connection that lent it;
 *   - a view lent by a call is read only until the next call on that connection, and not after
 *     `mysql_wire_close`;
 *   - malloc, realloc and free are those of one allocator, and so are the functions in their place;
 *     no call is made from a signal handler.
 * All else is checked and proved: no call writes outside of what it was given, whatever bytes come.
 *
 * What a connection holds: `mysql_wire_feed` keeps all it is given, without a bound of its own. So
 * feed what one read gave, and take packets until the answer is WAITS. Then `mysql_wire_unread` is
 * at most 3 bytes more than the limit in force when the last header of the unfinished packet was
 * fed: an older one, where the limit was set since. Where no header has come, it is at most 3 bytes.
 * The bytes to send stay until they are taken. Buffers grow by doubling and are used again; their
 * memory is given back by `mysql_wire_close`.
 *
 * Link with -lmysql_wire, which bindings/c makes and installs.
 *
 * The protocol: https://dev.mysql.com/doc/dev/mysql-server/latest/page_protocol_basic_packets.html
 */
#ifndef MYSQL_WIRE_H
#define MYSQL_WIRE_H
#include <stddef.h>
#include <stdint.h>

/* The version of this header, as a text, in its parts, and as `mysql_wire_version` answers it. */
#define MYSQL_WIRE_VERSION "0.2.0"
#define MYSQL_WIRE_VERSION_MAJOR 0
#define MYSQL_WIRE_VERSION_MINOR 2
#define MYSQL_WIRE_VERSION_PATCH 0
#define MYSQL_WIRE_VERSION_NUMBER                                          \
    (MYSQL_WIRE_VERSION_MAJOR * 10000u + MYSQL_WIRE_VERSION_MINOR * 100u + \
     MYSQL_WIRE_VERSION_PATCH)

#ifdef __cplusplus
extern "C" {
#endif

/* One side of a connection; NULL where it is closed. */
typedef struct mysql_wire_connection_state *mysql_wire_connection;

/* A session, followed; NULL where there is none. */
typedef struct mysql_wire_session_state *mysql_wire_session;

/* Bytes that are lent. `at` is never NULL after a call that sets it; `len` may be 0. */
typedef struct mysql_wire_view {
    const uint8_t *at;
    size_t len;
} mysql_wire_view;

/* Where a text or a packet stands in the bytes that were read: from `at` on, `len` bytes. */
typedef struct mysql_wire_span {
    size_t at;
    size_t len;
} mysql_wire_span;

/*
 * The answers. Below 0 is a refusal; at each call stands which ones it has, and what they leave.
 * Every call at NULL (a closed connection, no session) answers MYSQL_WIRE_CLOSED, or 0 where it
 * answers a count or flags of 32 bits; it empties a view that it would set, sets a number that it
 * would set to 0, and does nothing else.
 */
enum {
    MYSQL_WIRE_OK = 0,
    MYSQL_WIRE_WAITS = 0,           /* no packet is whole: feed more bytes */
    MYSQL_WIRE_PACKET = 1,          /* a packet stands whole */
    MYSQL_WIRE_SPAN = 2,            /* bytes of a packet */
    MYSQL_WIRE_NULL = 3,            /* the text is NULL */
    MYSQL_WIRE_NEEDS_WHOLE = 4,     /* the session has to see the whole packet */
    MYSQL_WIRE_REFUSED = 5,         /* the payload is no packet of its kind */
    MYSQL_WIRE_TOO_LARGE = -1,      /* the packet is above the limit */
    MYSQL_WIRE_OUT_OF_SYNC = -2,    /* a packet bears another number than the expected one */
    MYSQL_WIRE_NO_MEMORY = -3,      /* memory was refused: the same call may be made again */
    MYSQL_WIRE_ROOM_TOO_SMALL = -4, /* the caller's room is too small */
    MYSQL_WIRE_CLOSED = -5,         /* the connection, or the session, is NULL */
    MYSQL_WIRE_IS_OPEN = -6,        /* the connection to open, or the session, isn't NULL */
    MYSQL_WIRE_PACKET_WAITS = -7,   /* a packet must be taken first */
    MYSQL_WIRE_NO_PACKET = -8,      /* there is no packet to take */
    MYSQL_WIRE_MISSING_BYTES = -9,  /* the bytes end inside a field */
    MYSQL_WIRE_NOT_A_NUMBER = -10,  /* fb or ff where a length-encoded integer has to stand, or a
                                       width that isn't 1 to 8 */
    MYSQL_WIRE_INVALID_STATE = -11, /* the `mysql_wire_spans` is of no stream */
    MYSQL_WIRE_NOT_A_SIDE = -12,    /* the side is neither of the two */
    MYSQL_WIRE_NOT_A_FRONT = -13,   /* neither a payload nor its first bytes, three or more */
    MYSQL_WIRE_NO_STATEMENT = -14   /* no statement of this number is known */
};

/* The version of the library: 10000 times its first number, 100 times its second, and its third. */
uint32_t mysql_wire_version(void);

/*
 * Where all memory of the library comes from and goes to, in place of malloc, realloc and free: three
 * functions of one allocator, none of them NULL, each with the meaning of the one that it stands for.
 * It is called before every other call, once, and by one thread; the three are called by each thread
 * that calls the library. It is there in the libraries that bindings/c makes.
 */
void mysql_wire_set_memory(void *(*allocates)(size_t), void *(*reallocates)(void *, size_t),
                           void (*releases)(void *));

/*
 * A connection of packets of at most `limit` bytes each, the next of them numbered 0. It goes where
 * `connection` points, which has to be NULL there.
 * OK; IS_OPEN and NO_MEMORY change nothing.
 */
int32_t mysql_wire_open(size_t limit, mysql_wire_connection *connection);

/* Frees all, and leaves NULL; at NULL does nothing. */
void mysql_wire_close(mysql_wire_connection *connection);

/* --- what comes --- */

/*
 * Takes `len` bytes that came from the other side; they are copied.
 * OK; NO_MEMORY: none were taken; OUT_OF_SYNC: the stream is lost, and none were taken.
 */
int32_t mysql_wire_feed(mysql_wire_connection *connection, const uint8_t *bytes, size_t len);

/*
 * Lends the next packet's payload, where it stands whole. The same packet is lent again until it is
 * taken. A packet of less than 16777215 bytes is lent where it came, and costs no copy and no
 * memory; but where the limit was set below a packet whose header had come, that one is copied.
 * PACKET: `packet` is the payload. WAITS: feed more bytes. TOO_LARGE: the header stays, and under a
 * larger limit the next call goes on. NO_MEMORY: nothing is lost. OUT_OF_SYNC: the stream is lost;
 * each later peek, next, feed, set_limit and sequence_id answers the same and changes nothing, and
 * encode goes on. Each but PACKET leaves an empty `packet`.
 */
int32_t mysql_wire_peek(mysql_wire_connection *connection, mysql_wire_view *packet);

/* Takes the packet that is lent. OK; NO_PACKET: none is, and nothing changes. */
int32_t mysql_wire_take(mysql_wire_connection *connection);

/*
 * Copies the next packet's payload to `room`, and takes it; `len` is how many bytes it has.
 * PACKET; ROOM_TOO_SMALL: `len` says how many bytes are needed, the packet is lent and stays, and a
 * call with more room goes on. All others as `mysql_wire_peek`, with a `len` of 0. Each but PACKET
 * leaves the room as it was.
 */
int32_t mysql_wire_next(mysql_wire_connection *connection, uint8_t *room, size_t room_len,
                        size_t *len);

/*
 * Takes the packet that is lent, and lends the next one: from `bytes`, without a copy and without
 * memory, where it lies whole there in one chunk and nothing that came before is unread. `used` of
 * the bytes are used up then, and there is nothing more to take. Else the connection takes as many
 * bytes as complete a packet, or all, and the packet is lent as by `mysql_wire_peek`: `used` says how
 * many. So a loop over what a read gave copies only the packets that are cut by its ends:
 *
 *     while ((code = mysql_wire_decode(&connection, bytes, len, &used, &packet)) ==
 *            MYSQL_WIRE_PACKET) {
 *         use(packet.at, packet.len);
 *         bytes += used;
 *         len -= used;
 *     }
 *
 * PACKET: `packet` is the payload, till the next call and as long as `bytes` are there. WAITS: all
 * bytes were used up. TOO_LARGE, NO_MEMORY, OUT_OF_SYNC: as `mysql_wire_peek`; the first `used` bytes
 * are taken, and a call with the others goes on. Each but PACKET leaves an empty `packet`.
 */
int32_t mysql_wire_decode(mysql_wire_connection *connection, const uint8_t *bytes, size_t len,
                          size_t *used, mysql_wire_view *packet);

/*
 * Takes the packet that is lent, and lends as many as `bytes` begin with, in one call: packets of one
 * chunk each that lie whole there, one after the other, where nothing that came before is unread.
 * It costs no copy and no memory. `spans` says where their payloads stand in `bytes`; there is place
 * for `room` of them. `count` is how many there are, `used` how many of the bytes they use up. The
 * connection is after the last of them: what is encoded next follows it, and there is nothing more
 * to take. Where there is none, `mysql_wire_decode` goes on. So for what a read gave:
 *
 *     while (len > 0) {
 *         code = mysql_wire_decode_many(&connection, bytes, len, spans, 64, &count, &used);
 *         for (size_t i = 0; i < count; i++) use(bytes + spans[i].at, spans[i].len);
 *         if (code == MYSQL_WIRE_WAITS) {
 *             code = mysql_wire_decode(&connection, bytes, len, &used, &packet);
 *             if (code != MYSQL_WIRE_PACKET) break;
 *             use(packet.at, packet.len);
 *         }
 *         bytes += used;
 *         len -= used;
 *     }
 *
 * PACKET: `count` is at least 1. It is `room`, or no further packet lies so. WAITS: `count` and `used`
 * are 0, and but for the packet that was lent nothing changes; that says nothing of what stands in
 * front. The places from `count` on stay as they were.
 */
int32_t mysql_wire_decode_many(mysql_wire_connection *connection, const uint8_t *bytes, size_t len,
                               mysql_wire_span *spans, size_t room, size_t *count, size_t *used);

/*
 * Sets the most bytes of a packet. A chunk's header is judged once, by the limit in force when its
 * fourth byte was fed; so the new limit holds for what is fed from now on. Where the packet in
 * front is too large, it holds for that header and all that is unread after it. It also holds for
 * `mysql_wire_encode`.
 * OK. PACKET_WAITS: a packet stands whole; it is lent, as by `mysql_wire_peek`, and has to be taken
 * first. NO_MEMORY; OUT_OF_SYNC: as `mysql_wire_peek`. All but OK leave the limit as it was.
 */
int32_t mysql_wire_set_limit(mysql_wire_connection *connection, size_t limit);

/*
 * How many bytes came of which no packet was made yet; headers of full chunks (of 16777215 bytes)
 * that were put together aren't counted. Where no packet is whole and this is 0, the input stands
 * between two packets.
 */
size_t mysql_wire_unread(mysql_wire_connection *connection);

/*
 * Judges the number of the header in front as soon as its four bytes have come. `mysql_wire_peek` and
 * the other calls that read do so once the whole chunk has come, of up to 16777215 bytes; so where one
 * of them answers WAITS, a client, which has one server, asks this:
 *
 *     if (code == MYSQL_WIRE_WAITS) code = mysql_wire_judge_front(&connection);
 *
 * OK: it bears the expected number, or hasn't come, or a packet is lent. OUT_OF_SYNC: it bears another,
 * and no later call lends that packet; or the stream is lost. Nothing changes: the stream is lost only
 * by a call that reads.
 */
int32_t mysql_wire_judge_front(mysql_wire_connection *connection);

/* --- what goes --- */

/*
 * Frames a payload after the bytes that wait to be sent, in as many chunks as it needs. Its number
 * follows that of the last packet, sent, taken or lent. After OUT_OF_SYNC that goes on: its number is
 * the one that was expected of the chunk that came, or follows that of the last packet sent since.
 * OK; TOO_LARGE: it is above the limit; NO_MEMORY. Both refusals change nothing.
 */
int32_t mysql_wire_encode(mysql_wire_connection *connection, const uint8_t *payload, size_t len);

/*
 * How many bytes a payload of `len` bytes takes with the headers of its chunks: 4 for each, and a
 * chunk more after a full one. OK; TOO_LARGE: more than a size_t counts, and `framed` is 0.
 */
int32_t mysql_wire_framed_len(size_t len, size_t *framed);

/*
 * Frames a payload at the front of `room`, numbered as by `mysql_wire_encode`; `written` is how many
 * bytes that takes, as `mysql_wire_framed_len` says. Bytes that wait to be sent aren't looked at: they
 * bear the numbers before it, and go first.
 * OK; ROOM_TOO_SMALL: `written` says how many bytes are needed; TOO_LARGE: it is above the limit, or
 * takes more bytes than a size_t counts; NO_MEMORY (only where a packet is lent). Each refusal
 * changes nothing, and all but ROOM_TOO_SMALL leave a `written` of 0.
 */
int32_t mysql_wire_encode_to(mysql_wire_connection *connection, const uint8_t *payload, size_t len,
                             uint8_t *room, size_t room_len, size_t *written);

/*
 * The header of a packet of `len` bytes, in the 4 bytes at `header`, for who sends it by `writev`, or
 * copies the payload after it: both together are what `mysql_wire_encode_to` frames. The payload is
 * to follow.
 * OK; TOO_LARGE: it is above the limit, or has 16777215 bytes or more, for which `mysql_wire_encode_to`
 * is there; NO_MEMORY (only where a packet is lent). Each refusal changes nothing.
 */
int32_t mysql_wire_encode_header(mysql_wire_connection *connection, size_t len, uint8_t *header);

/* Moves bytes that wait to `room`, as many as fit, and answers how many. */
size_t mysql_wire_output(mysql_wire_connection *connection, uint8_t *room, size_t room_len);

/* Lends all bytes that wait to be sent. */
void mysql_wire_pending(mysql_wire_connection *connection, mysql_wire_view *bytes);

/* Drops the first `count` bytes that wait, or all where there are fewer, and answers how many. */
size_t mysql_wire_sent(mysql_wire_connection *connection, size_t count);

/* --- numbers of packets --- */

/*
 * Numbers the next packet 0, as at the start of a command.
 * OK; NO_MEMORY (only where a packet is lent): nothing changes.
 */
int32_t mysql_wire_reset(mysql_wire_connection *connection);

/*
 * Numbers the next packet, sent or received, with `id`: where a single direction of a connection is
 * read, or a stream from its midst. In the midst of a packet it is the number of the packet's next
 * chunk. OK; NO_MEMORY (only where a packet is lent): nothing changes.
 */
int32_t mysql_wire_set_sequence_id(mysql_wire_connection *connection, uint8_t id);

/* The number of the next packet: 0 to 255. CLOSED; OUT_OF_SYNC: the stream is lost. */
int32_t mysql_wire_sequence_id(mysql_wire_connection *connection);

/*
 * The number before it: that of the packet which was lent, taken or sent last, and of its last chunk
 * where it has more. CLOSED; OUT_OF_SYNC: the stream is lost.
 */
int32_t mysql_wire_packet_id(mysql_wire_connection *connection);

/*
 * --- packets in spans ---
 * Packets of any size in constant memory: what came of each is lent where it came, in as many spans
 * as bytes come in, and nothing is kept or copied. Or their numbers are written over in place, and
 * the bytes go on.
 *
 *     mysql_wire_spans spans;
 *     mysql_wire_spans_init(&spans, 1 << 30, 0);
 *     while ((count = read(socket, room, sizeof room)) > 0) {
 *         const uint8_t *bytes = room;
 *         size_t len = count, used;
 *         mysql_wire_view span;
 *         uint8_t ends;
 *         while ((code = mysql_wire_spans_next(&spans, bytes, len, &used, &span, &ends)) ==
 *                MYSQL_WIRE_SPAN) {
 *             use(span.at, span.len, ends);
 *             bytes += used;
 *             len -= used;
 *         }
 *         if (code != MYSQL_WIRE_WAITS) break;
 *     }
 */

/*
 * The place in a stream, in the caller's memory: there is nothing to close, and a copy goes on by
 * itself. `limit`, `id` and `next_id` may be read and set between any two calls; the other fields
 * are read, not set. Whatever a record is filled with, no call reads or writes outside of what it
 * was given: INVALID_STATE is the answer where no stream stands so.
 * Between two packets `size` and `header_len` are 0.
 */
typedef struct mysql_wire_spans {
    size_t limit;         /* the most bytes of a packet, for the headers to come */
    size_t size;          /* how many bytes the open packet has, up to the end of its open chunk */
    size_t left;          /* how many bytes of that chunk are to come */
    uint8_t header[3];    /* what came of the next header, and zeros */
    uint8_t header_len;   /* how many bytes came of it */
    uint8_t id;           /* the number that the next chunk is to bear */
    uint8_t next_id;      /* the number that `mysql_wire_spans_renumber` gives it */
    uint8_t reserved[34]; /* set by `mysql_wire_spans_init`, for later versions */
} mysql_wire_spans;

/* Begins a stream, between two packets; `id` is the number of the next one, and it is given it. */
void mysql_wire_spans_init(mysql_wire_spans *spans, size_t limit, uint8_t id);

/*
 * Eats `used` bytes from the front. Their last ones are the next bytes of a packet's payload, which
 * `span` lends; `ends` is 1 where they are the packet's last, and else 0. An empty packet is one
 * span of no bytes, and so is the end of a packet of a multiple of 16777215 bytes. The id is
 * counted on.
 * SPAN. WAITS: all bytes were used up (no span; feed what comes next). TOO_LARGE: with the chunk in
 * front the packet would be above the limit; under a larger limit the same call goes on.
 * OUT_OF_SYNC: the chunk in front bears another number. INVALID_STATE. Each refusal uses no byte
 * and leaves `spans`; each but SPAN leaves an empty `span` and an `ends` of 0.
 */
int32_t mysql_wire_spans_next(mysql_wire_spans *spans, const uint8_t *bytes, size_t len,
                              size_t *used, mysql_wire_view *span, uint8_t *ends);

/*
 * Writes `next_id` and the numbers after it over those of the chunks that come, and changes nothing
 * else of the bytes; `used` of them may go.
 * WAITS: all of them. TOO_LARGE, OUT_OF_SYNC: as `mysql_wire_spans_next`; `used` is where the
 * refused header begins, and `spans` stands there: what is left may be given again. It is 0 where
 * earlier calls let `header_len` bytes of that header go. INVALID_STATE: nothing changes, and
 * `used` is 0.
 */
int32_t mysql_wire_spans_renumber(mysql_wire_spans *spans, uint8_t *bytes, size_t len,
                                  size_t *used);

/*
 * --- a session ---
 * What each packet of a connection is, whose turn it is, and where an answer ends: a session is told
 * of every packet that either side sends, in order, and knows what its packets have said. For
 * proxies, pools, and who shows what was captured.
 *
 *     mysql_wire_session session = NULL;
 *     mysql_wire_session_new(&session);
 *     ..
 *     code = mysql_wire_session_packet(&session, MYSQL_WIRE_SIDE_SERVER, id, at, len, &kind);
 *     if (code >= 0 && mysql_wire_session_is_idle(&session) == 1) reuse(connection);
 *
 * mysql_wire_constants.h has the constants that are named here: `side` is a MYSQL_WIRE_SIDE, `kind` a
 * MYSQL_WIRE_KIND, or 0 where none is told. `id` is the number of the packet's first chunk, `len` the
 * length of its payload without the headers of chunks, of up to SIZE_MAX bytes. A packet is taken for
 * what the phase, its length and its first three bytes make it, whichever side may be next: whether
 * that side's turn it is, `mysql_wire_session_next_sender` says before.
 *
 * A session holds some 100 bytes, the types of an answer's columns in up to 4096, and the last 64
 * statements that were prepared in up to 1536. It keeps no payload.
 */

/*
 * A session that begins: the server's greeting comes first. It goes where `session` points, which has
 * to be NULL there.
 * OK; IS_OPEN and NO_MEMORY change nothing.
 */
int32_t mysql_wire_session_new(mysql_wire_session *session);

/* Frees all, and leaves NULL; at NULL does nothing. */
void mysql_wire_session_free(mysql_wire_session *session);

/*
 * Reads a whole payload as what it has to be, and goes on after it.
 * OK. REFUSED: it is no packet of its kind, which `kind` is all the same; the session goes on after it
 * by its kind and length alone. NOT_A_SIDE and NO_MEMORY change nothing, and leave a `kind` of 0.
 */
int32_t mysql_wire_session_packet(mysql_wire_session *session, uint32_t side, uint8_t id,
                                  const uint8_t *payload, size_t len, uint32_t *kind);

/*
 * Goes on after a packet of `len` bytes, of which the first `front_len` have come: three of them or
 * more, or all. Rows, pieces of files, statements and most other packets need no more. Whether it is a
 * packet of its kind, `mysql_wire_session_packet` alone says.
 * OK. NEEDS_WHOLE: what is known after a packet of this kind hangs on all of it: gather it, and call
 * again with a `front_len` of `len`, or `mysql_wire_session_packet`. So it is with logins, requests for
 * TLS, OKs, EOFs, errors, counts and definitions of columns, answers to COM_STMT_PREPARE, requests for
 * a file, and COM_STMT_FETCH; and with COM_STMT_EXECUTE of which fewer than 6 bytes have come, since its
 * flags say whether rows follow. NOT_A_SIDE; NOT_A_FRONT: `front_len` is above `len`, or below it and
 * below 3; NO_MEMORY, which only a whole payload gets. All but OK change nothing, and all but OK and
 * NEEDS_WHOLE leave a `kind` of 0.
 */
int32_t mysql_wire_session_front(mysql_wire_session *session, uint32_t side, uint8_t id, size_t len,
                                 const uint8_t *front, size_t front_len, uint32_t *kind);

/*
 * What such a packet is. Nothing changes. OK; NOT_A_SIDE, NOT_A_FRONT: `kind` is 0.
 */
int32_t mysql_wire_session_classify(mysql_wire_session *session, uint32_t side, uint8_t id,
                                    size_t len, const uint8_t *front, size_t front_len,
                                    uint32_t *kind);

/*
 * Goes on after a packet of `len` bytes that was not looked at, as one above a limit: a command of the
 * client is answered next, whichever it was; and a definition of a column has gone by.
 * OK; NOT_A_SIDE changes nothing.
 */
int32_t mysql_wire_session_pass(mysql_wire_session *session, uint32_t side, uint8_t id, size_t len);

/* What is waited for, a MYSQL_WIRE_PHASE: 0 or more. CLOSED. */
int32_t mysql_wire_session_phase(mysql_wire_session *session);

/* Whose packet is next, a MYSQL_WIRE_SENDER: 0 or more. CLOSED. */
int32_t mysql_wire_session_next_sender(mysql_wire_session *session);

/*
 * 1 where a command is waited for, so that another client may have the connection; else 0. Whether a
 * transaction is open, `mysql_wire_session_status` says. CLOSED.
 */
int32_t mysql_wire_session_is_idle(mysql_wire_session *session);

/* The status that the last OK or EOF told: 0 to 65535, flags as MYSQL_WIRE_SERVER_STATUS_IN_TRANS; 0
   before the first. CLOSED. */
int32_t mysql_wire_session_status(mysql_wire_session *session);

/* What the client can do, by its login: flags as MYSQL_WIRE_CLIENT_PROTOCOL_41, which is the only one
   before that. 0 at NULL. */
uint32_t mysql_wire_session_capabilities(mysql_wire_session *session);

/* The number that follows the last packet's last chunk: 0 to 255. CLOSED. */
int32_t mysql_wire_session_next_id(mysql_wire_session *session);

/*
 * How many parameters and columns the newest statement of this number has, of the last 64 that were
 * prepared. OK; NO_STATEMENT: none of them has it, or it was never prepared, and both are 0.
 */
int32_t mysql_wire_session_statement(mysql_wire_session *session, uint32_t number,
                                     uint16_t *parameters, uint16_t *columns);

/* A text for a code, ended by a zero that isn't counted in `len`. It is there for good. */
void mysql_wire_message(int32_t code, mysql_wire_view *text);

/*
 * --- fields ---
 * `at` is where to read or write next. It moves past the field where the answer is OK or NULL; any
 * other answer changes nothing.
 */

/* `width` bytes, 1 to 8, the least significant first. OK, MISSING_BYTES, NOT_A_NUMBER. */
int32_t mysql_wire_read_int(const uint8_t *bytes, size_t len, size_t *at, size_t width,
                            uint64_t *value);

/* int<lenenc>. OK, MISSING_BYTES, NOT_A_NUMBER. */
int32_t mysql_wire_read_lenenc_int(const uint8_t *bytes, size_t len, size_t *at, uint64_t *value);

/* string<lenenc>: where its text stands. OK, MISSING_BYTES, NOT_A_NUMBER. */
int32_t mysql_wire_read_lenenc_bytes(const uint8_t *bytes, size_t len, size_t *at,
                                     mysql_wire_span *text);

/* string<NUL>: where the text before the zero stands. OK, MISSING_BYTES. */
int32_t mysql_wire_read_null_bytes(const uint8_t *bytes, size_t len, size_t *at,
                                   mysql_wire_span *text);

/* `count` bytes: where they stand. OK, MISSING_BYTES. */
int32_t mysql_wire_read_bytes(const uint8_t *bytes, size_t len, size_t *at, size_t count,
                              mysql_wire_span *text);

/* Moves past `count` bytes. OK, MISSING_BYTES. */
int32_t mysql_wire_skip(const uint8_t *bytes, size_t len, size_t *at, size_t count);

/* string<EOF>: where the bytes up to the end stand. OK; MISSING_BYTES: `at` is past the end. */
int32_t mysql_wire_read_rest(const uint8_t *bytes, size_t len, size_t *at, mysql_wire_span *text);

/*
 * string<lenenc>, or NULL, as in a row of a text result: where its text stands.
 * OK; NULL: it is one byte, fb, and `text` has no bytes; NOT_A_NUMBER: its first byte is ff;
 * MISSING_BYTES.
 */
int32_t mysql_wire_read_nullable_bytes(const uint8_t *bytes, size_t len, size_t *at,
                                       mysql_wire_span *text);

/*
 * The values of a row of a text result, `count` of them, in one call: where the text of each stands.
 * The `at` of one that is NULL is SIZE_MAX, and its `len` 0.
 * OK. NOT_A_NUMBER, MISSING_BYTES: as `mysql_wire_read_nullable_bytes` of the first value that is
 * refused; `at` stays, and only the places in `texts` before that one's were written.
 */
int32_t mysql_wire_read_row(const uint8_t *bytes, size_t len, size_t *at, mysql_wire_span *texts,
                            size_t count);

/* The low `width` bytes of a number, 1 to 8. OK, ROOM_TOO_SMALL, NOT_A_NUMBER. */
int32_t mysql_wire_write_int(uint8_t *room, size_t len, size_t *at, size_t width, uint64_t value);

/* int<lenenc>, in as few bytes as hold the number. OK, ROOM_TOO_SMALL. */
int32_t mysql_wire_write_lenenc_int(uint8_t *room, size_t len, size_t *at, uint64_t value);

/* string<lenenc>. OK, ROOM_TOO_SMALL. */
int32_t mysql_wire_write_lenenc_bytes(uint8_t *room, size_t len, size_t *at, const uint8_t *text,
                                      size_t text_len);

/* string<NUL>: the text, which should have no zero, and a zero. OK, ROOM_TOO_SMALL. */
int32_t mysql_wire_write_null_bytes(uint8_t *room, size_t len, size_t *at, const uint8_t *text,
                                    size_t text_len);

#ifdef __cplusplus
}
#endif
#endif
