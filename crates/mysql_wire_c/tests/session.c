/* A session, packet by packet: a connection, answers with rows, prepared statements, a file, several
   results; by whole payloads and by their fronts; what is refused; and each request for memory
   refused in turn. */
#include "mysql_wire_constants.h"
#include "tests.h"

#define CLIENT MYSQL_WIRE_SIDE_CLIENT
#define SERVER MYSQL_WIRE_SIDE_SERVER

/* A packet, what it is, what is waited for after it, and the status then. */
typedef struct packet {
    uint32_t side;
    uint8_t id;
    const char *payload;
    size_t len;
    uint32_t kind;
    int32_t phase;
    int32_t status;
} packet;

#define ROW(side, id, payload, kind, phase, status)                          \
    {side, id, payload, sizeof(payload) - 1, MYSQL_WIRE_KIND_##kind, \
     MYSQL_WIRE_PHASE_##phase, status}

#define GREETING                                                                                 \
    "\x0a" "8.4.0\0\x05\0\0\0" "abcdefgh\0\xff\xff\xff\x02\0\xff\xdf\x15\0\0\0\0\0\0\0\0\0\0" \
    "ijklmnopqrst\0" "caching_sha2_password\0"
/* It wants EOFs. */
#define LOGIN                                                                                   \
    "\x81\x82\x08\0\0\0\0\x01\x2d\0\0\0\0\0\0\0\0\0\0\0\0\0\0\0\0\0\0\0\0\0\0\0root\0\0" \
    "caching_sha2_password\0"
#define DEFINITION "\x03" "def\0\0\0\x01" "1\0\x0c\x3f\0\x01\0\0\0\x08\x81\0\0\0\0"
#define DONE "\0\0\0\x02\0\0\0"
#define EOF_PACKET "\xfe\0\0\x02\0"

static const packet connection[] = {
    ROW(SERVER, 0, GREETING, GREETING, LOGIN, 0),
    ROW(CLIENT, 1, LOGIN, LOGIN, AUTHENTICATION, 0),
    ROW(SERVER, 2, DONE, OK, COMMAND, 2),
};

/* A column, two rows. The last EOF says that no index was used. */
static const packet query[] = {
    ROW(CLIENT, 0, "\x03SELECT 1", QUERY, ANSWER, 2),
    ROW(SERVER, 1, "\x01", COLUMN_COUNT, COLUMNS, 2),
    ROW(SERVER, 2, DEFINITION, COLUMN, COLUMNS_END, 2),
    ROW(SERVER, 3, EOF_PACKET, EOF, ROWS, 2),
    ROW(SERVER, 4, "\x01" "1", ROW, ROWS, 2),
    ROW(SERVER, 5, "\xfb", ROW, ROWS, 2),
    ROW(SERVER, 6, "\xfe\0\0\x22\0", EOF, COMMAND, 0x22),
};

/* The statement 7, of one parameter and one column. */
static const packet prepared[] = {
    ROW(CLIENT, 0, "\x16SELECT ?", PREPARE, PREPARE_ANSWER, 0x22),
    ROW(SERVER, 1, "\0\x07\0\0\0\x01\0\x01\0\0\0\0", PREPARED, COLUMNS, 0x22),
    ROW(SERVER, 2, DEFINITION, COLUMN, COLUMNS_END, 0x22),
    ROW(SERVER, 3, EOF_PACKET, EOF, COLUMNS, 2),
    ROW(SERVER, 4, DEFINITION, COLUMN, COLUMNS_END, 2),
    ROW(SERVER, 5, EOF_PACKET, EOF, COMMAND, 2),
};

/* It is executed with a cursor, and a row is fetched. */
static const packet executed[] = {
    ROW(CLIENT, 0, "\x17\x07\0\0\0\x01\x01\0\0\0\0\x01\x08\0\x05\0\0\0\0\0\0\0", EXECUTE, ANSWER, 2),
    ROW(SERVER, 1, "\x01", COLUMN_COUNT, COLUMNS, 2),
    ROW(SERVER, 2, DEFINITION, COLUMN, COLUMNS_END, 2),
    ROW(SERVER, 3, "\xfe\0\0\x42\0", EOF, COMMAND, 0x42),
};
static const packet fetched[] = {
    ROW(CLIENT, 0, "\x1c\x07\0\0\0\x02\0\0\0", FETCH, ROWS, 0x42),
    ROW(SERVER, 1, "\0\0\x05\0\0\0\0\0\0\0", BINARY_ROW, ROWS, 0x42),
    ROW(SERVER, 2, "\xfe\0\0\xc2\0", EOF, COMMAND, 0xc2),
};

/* A file of 300 pieces, which look like queries: after 255 their ids go on with 0. */
#define PIECES 300
static const packet asked[] = {
    ROW(CLIENT, 0, "\x03LOAD DATA", QUERY, ANSWER, 0xc2),
    ROW(SERVER, 1, "\xfb" "f", LOCAL_INFILE, FILE, 0xc2),
};
static const packet piece[] = {ROW(CLIENT, 2, "\x03SELECT 1", FILE, FILE, 0xc2)};
static const packet loaded[] = {
    ROW(CLIENT, (2 + PIECES) % 256, "", FILE, ANSWER, 0xc2),
    ROW(SERVER, (3 + PIECES) % 256, DONE, OK, COMMAND, 2),
};

/* After the first OK another result follows. */
static const packet several[] = {
    ROW(CLIENT, 0, "\x03" "CALL p()", QUERY, ANSWER, 2),
    ROW(SERVER, 1, "\0\0\0\x0a\0\0\0", OK, ANSWER, 10),
    ROW(SERVER, 2, DONE, OK, COMMAND, 2),
};

/* A procedure selects inside an open cursor of its own: rows follow the EOF that tells of it. */
#define EOF_IN_CURSOR "\xfe\0\0\x4a\0"
static const packet called[] = {
    ROW(CLIENT, 0, "\x03" "CALL p()", QUERY, ANSWER, 2),
    ROW(SERVER, 1, "\x01", COLUMN_COUNT, COLUMNS, 2),
    ROW(SERVER, 2, DEFINITION, COLUMN, COLUMNS_END, 2),
    ROW(SERVER, 3, EOF_IN_CURSOR, EOF, ROWS, 0x4a),
    ROW(SERVER, 4, "\x01" "1", ROW, ROWS, 0x4a),
    ROW(SERVER, 5, EOF_IN_CURSOR, EOF, ANSWER, 0x4a),
    ROW(SERVER, 6, DONE, OK, COMMAND, 2),
};

static const packet pinged[] = {
    ROW(CLIENT, 0, "\x0e", PING, ANSWER, 2),
    ROW(SERVER, 1, DONE, OK, COMMAND, 2),
};

/* After a command of two chunks. */
static const packet passed[] = {ROW(SERVER, 2, DONE, OK, COMMAND, 2)};

static const packet quit[] = {ROW(CLIENT, 0, "\x01", QUIT, CLOSED, 2)};

/* Packets that come this many times; each time their ids are higher by 1. */
typedef struct exchange {
    const packet *packets;
    size_t count, times;
} exchange;

#define EXCHANGE(packets) {packets, LENGTH(packets), 1}

static const exchange exchanges[] = {
    EXCHANGE(connection), EXCHANGE(query),  EXCHANGE(prepared), EXCHANGE(executed),
    EXCHANGE(fetched),    EXCHANGE(asked),  {piece, 1, PIECES}, EXCHANGE(loaded),
    EXCHANGE(several),    EXCHANGE(called), EXCHANGE(pinged), EXCHANGE(quit),
};

static const uint8_t *bytes_of(const packet *one) { return (const uint8_t *)one->payload; }

/* How a session goes on after a packet: by its payload, or by its front. */
typedef int32_t advances(mysql_wire_session *session, const packet *next, uint32_t *kind);

static int32_t by_payload(mysql_wire_session *session, const packet *next, uint32_t *kind) {
    return mysql_wire_session_packet(session, next->side, next->id, bytes_of(next), next->len, kind);
}

/* All of the payload is its front. */
static int32_t by_whole_front(mysql_wire_session *session, const packet *next, uint32_t *kind) {
    return mysql_wire_session_front(session, next->side, next->id, next->len, bytes_of(next),
                                    next->len, kind);
}

/* How many bytes of a payload make a front, at least. */
static size_t front_of(const packet *next) { return next->len < 3 ? next->len : 3; }

/* Of how many packets the front was not enough. */
static size_t whole;

static int32_t by_front(mysql_wire_session *session, const packet *next, uint32_t *kind) {
    int32_t code = mysql_wire_session_front(session, next->side, next->id, next->len,
                                            bytes_of(next), front_of(next), kind);
    if (code != MYSQL_WIRE_NEEDS_WHOLE || *kind != next->kind) return code;
    whole++;
    return by_whole_front(session, next, kind);
}

/* What a session says of itself, and of the statement 7. */
typedef struct state {
    int32_t phase, status, next_id, statement, parameters, columns;
} state;

static state state_of(mysql_wire_session *session) {
    uint16_t parameters, columns;
    int32_t statement = mysql_wire_session_statement(session, 7, &parameters, &columns);
    return (state){mysql_wire_session_phase(session), mysql_wire_session_status(session),
                   mysql_wire_session_next_id(session), statement, parameters, columns};
}

/* How many requests for memory were refused. */
static size_t refusals;

/* The same with the first request for memory refused, the second and so on, until none is. A call
   that is refused changes nothing, and is made again. */
static int32_t refused_in_turn(mysql_wire_session *session, const packet *next, uint32_t *kind,
                               advances *advance) {
    state before = state_of(session);
    for (size_t nth = 1;; nth++) {
        refuse_request(nth);
        int32_t code = advance(session, next, kind);
        bool refused = was_refused();
        refuse_request(0);
        if (!refused) return code;
        refusals++;
        state after = state_of(session);
        bool stays = code == MYSQL_WIRE_NO_MEMORY && *kind == 0 &&
                     memcmp(&after, &before, sizeof after) == 0;
        if (!HOLDS(stays)) return MYSQL_WIRE_NO_MEMORY;
    }
}

static int32_t refused_payloads(mysql_wire_session *session, const packet *next, uint32_t *kind) {
    return refused_in_turn(session, next, kind, by_payload);
}

static int32_t refused_fronts(mysql_wire_session *session, const packet *next, uint32_t *kind) {
    return refused_in_turn(session, next, kind, by_front);
}

/* Whether a packet is taken for what it is, by a front of this many bytes. */
static bool is_called(mysql_wire_session *session, const packet *next, size_t front) {
    uint32_t kind = 99;
    CHECK(mysql_wire_session_classify(session, next->side, next->id, next->len, bytes_of(next),
                                      front, &kind) == MYSQL_WIRE_OK);
    CHECK(kind == next->kind);
    return true;
}

/* Whether the session says what it must before and after a packet. */
static bool goes_on(mysql_wire_session *session, const packet *next, advances *advance) {
    int32_t sender = mysql_wire_session_next_sender(session);
    uint32_t kind = 99;
    CHECK(sender == MYSQL_WIRE_SENDER_EITHER || sender == (int32_t)next->side);
    CHECK(is_called(session, next, next->len) && is_called(session, next, front_of(next)));
    CHECK(advance(session, next, &kind) == MYSQL_WIRE_OK);
    CHECK(kind == next->kind);
    CHECK(mysql_wire_session_phase(session) == next->phase);
    CHECK(mysql_wire_session_status(session) == next->status);
    CHECK(mysql_wire_session_next_id(session) == (uint8_t)(next->id + 1));
    CHECK(mysql_wire_session_is_idle(session) == (next->phase == MYSQL_WIRE_PHASE_COMMAND));
    return true;
}

static bool follows(mysql_wire_session *session, const exchange *one, advances *advance) {
    for (size_t i = 0; i < one->times * one->count; i++) {
        packet next = one->packets[i % one->count];
        next.id = (uint8_t)(next.id + i / one->count);
        CHECK(goes_on(session, &next, advance));
    }
    return true;
}

static bool is_known(mysql_wire_session *session, uint32_t number, uint16_t parameters,
                     uint16_t columns) {
    uint16_t told[2] = {9, 9};
    int32_t code = mysql_wire_session_statement(session, number, &told[0], &told[1]);
    CHECK(code == MYSQL_WIRE_OK || code == MYSQL_WIRE_NO_STATEMENT);
    CHECK(told[0] == parameters && told[1] == columns);
    return code == MYSQL_WIRE_OK;
}

static bool follows_all(advances *advance) {
    mysql_wire_session one = NULL;
    bool holds = HOLDS(mysql_wire_session_new(&one) == MYSQL_WIRE_OK);
    for (size_t i = 0; i < LENGTH(exchanges); i++)
        holds = holds && follows(&one, &exchanges[i], advance);
    holds = holds && HOLDS(is_known(&one, 7, 1, 1));
    mysql_wire_session_free(&one);
    return holds && HOLDS(one == NULL);
}

static bool a_session_is_followed(void) { return follows_all(by_payload); }

/* Greetings, commands, rows and pieces need no more than a front. */
static bool fronts_are_enough(void) {
    whole = 0;
    CHECK(follows_all(by_front));
    CHECK(whole == 23);
    return follows_all(by_whole_front);
}

/* The first type of a column and the first statement ask for room. */
static bool a_refused_call_leaves_the_session(void) {
    refusals = 0;
    CHECK(follows_all(refused_payloads));
    CHECK(refusals == 2);
    CHECK(follows_all(refused_fronts));
    CHECK(refusals == 4);
    return true;
}

static bool a_session_needs_memory(void) {
    mysql_wire_session one = NULL;
    refuse_request(1);
    CHECK(mysql_wire_session_new(&one) == MYSQL_WIRE_NO_MEMORY && one == NULL);
    CHECK(was_refused());
    refuse_request(0);
    CHECK(mysql_wire_session_new(&one) == MYSQL_WIRE_OK && one != NULL);
    CHECK(mysql_wire_session_new(&one) == MYSQL_WIRE_IS_OPEN);
    mysql_wire_session_free(&one);
    mysql_wire_session_free(&one);
    CHECK(one == NULL);
    return true;
}

/* A session that is in, for what follows. */
static bool begins(mysql_wire_session *session) {
    static const exchange in = EXCHANGE(connection);
    CHECK(mysql_wire_session_new(session) == MYSQL_WIRE_OK);
    CHECK(mysql_wire_session_capabilities(session) == MYSQL_WIRE_CLIENT_PROTOCOL_41);
    CHECK(follows(session, &in, by_payload));
    CHECK(mysql_wire_session_capabilities(session) == 0x00088281);
    return true;
}

/* Sixty-four statements are known; of one number, the newest. */
static bool statements_are_known(void) {
    mysql_wire_session one = NULL;
    uint8_t answer[12] = {0, 0, 0, 0, 0, 2, 0, 1};
    uint32_t kind;
    bool holds = begins(&one) && HOLDS(!is_known(&one, 0, 0, 0));
    for (unsigned number = 0; holds && number < 66; number++) {
        answer[1] = (uint8_t)number;
        holds = HOLDS(mysql_wire_session_packet(&one, CLIENT, 0, (const uint8_t *)"\x16?", 2,
                                                &kind) == MYSQL_WIRE_OK) &&
                HOLDS(mysql_wire_session_packet(&one, SERVER, 1, answer, 12, &kind) ==
                      MYSQL_WIRE_OK) &&
                HOLDS(kind == MYSQL_WIRE_KIND_PREPARED && is_known(&one, number, 1, 2));
        mysql_wire_session_pass(&one, SERVER, 2, 30);
    }
    holds = holds && HOLDS(!is_known(&one, 1, 0, 0)) && HOLDS(is_known(&one, 2, 1, 2));
    mysql_wire_session_free(&one);
    return holds;
}

/* A payload that its type refuses, and one that its place has no type for. */
static bool wrong_packets_are_told(void) {
    mysql_wire_session one = NULL;
    uint32_t kind = 99;
    CHECK(mysql_wire_session_new(&one) == MYSQL_WIRE_OK);
    CHECK(mysql_wire_session_packet(&one, SERVER, 0, (const uint8_t *)"\x0a" "8", 2, &kind) ==
          MYSQL_WIRE_REFUSED);
    CHECK(kind == MYSQL_WIRE_KIND_GREETING);
    CHECK(mysql_wire_session_phase(&one) == MYSQL_WIRE_PHASE_LOGIN);
    mysql_wire_session_free(&one);
    CHECK(mysql_wire_session_new(&one) == MYSQL_WIRE_OK);
    CHECK(mysql_wire_session_packet(&one, SERVER, 0, (const uint8_t *)"\x09", 1, &kind) ==
          MYSQL_WIRE_REFUSED);
    CHECK(kind == MYSQL_WIRE_KIND_REFUSED);
    CHECK(mysql_wire_session_phase(&one) == MYSQL_WIRE_PHASE_GREETING);
    CHECK(mysql_wire_session_next_id(&one) == 1);
    mysql_wire_session_free(&one);
    return true;
}

/* What is neither a side nor a front changes nothing. */
static bool wrong_arguments_change_nothing(void) {
    static const uint8_t row[] = "\x03SELECT 1";
    mysql_wire_session one = NULL;
    uint32_t kind = 99;
    CHECK(begins(&one));
    for (uint32_t side = 2; side != 0; side += side) {
        CHECK(mysql_wire_session_packet(&one, side, 0, row, 9, &kind) == MYSQL_WIRE_NOT_A_SIDE);
        CHECK(mysql_wire_session_front(&one, side, 0, 9, row, 9, &kind) == MYSQL_WIRE_NOT_A_SIDE);
        CHECK(mysql_wire_session_classify(&one, side, 0, 9, row, 9, &kind) ==
              MYSQL_WIRE_NOT_A_SIDE);
        CHECK(mysql_wire_session_pass(&one, side, 0, 9) == MYSQL_WIRE_NOT_A_SIDE);
        CHECK(kind == 0);
    }
    for (size_t front = 0; front < 12; front++) {
        bool is_front = front >= 3 && front <= 9;
        int32_t code = mysql_wire_session_classify(&one, CLIENT, 0, 9, (const uint8_t *)LOGIN,
                                                   front, &kind);
        CHECK(code == (is_front ? MYSQL_WIRE_OK : MYSQL_WIRE_NOT_A_FRONT));
        CHECK((kind == 0) != is_front);
        if (is_front) continue;
        CHECK(mysql_wire_session_front(&one, CLIENT, 0, 9, (const uint8_t *)LOGIN, front, &kind) ==
              MYSQL_WIRE_NOT_A_FRONT);
        CHECK(kind == 0);
    }
    CHECK(mysql_wire_session_phase(&one) == MYSQL_WIRE_PHASE_COMMAND);
    CHECK(mysql_wire_session_next_id(&one) == 3);
    CHECK(mysql_wire_session_front(&one, CLIENT, 0, 0, NULL, 0, &kind) == MYSQL_WIRE_OK);
    CHECK(kind == MYSQL_WIRE_KIND_REFUSED);
    mysql_wire_session_free(&one);
    return true;
}

/* A command above a limit is answered all the same; its last chunk is numbered 1. */
static bool payloads_are_passed_over(void) {
    static const exchange answer = EXCHANGE(passed);
    static advances *const ways[] = {by_payload, by_front};
    mysql_wire_session one = NULL;
    uint32_t kind;
    CHECK(begins(&one));
    for (size_t i = 0; i < LENGTH(ways); i++) {
        CHECK(mysql_wire_session_pass(&one, CLIENT, 0, 20000000) == MYSQL_WIRE_OK);
        CHECK(mysql_wire_session_phase(&one) == MYSQL_WIRE_PHASE_ANSWER);
        CHECK(mysql_wire_session_next_id(&one) == 2);
        CHECK(follows(&one, &answer, ways[i]));
    }
    CHECK(mysql_wire_session_front(&one, CLIENT, 0, SIZE_MAX, (const uint8_t *)"\x03--", 3,
                                   &kind) == MYSQL_WIRE_OK);
    CHECK(kind == MYSQL_WIRE_KIND_QUERY && mysql_wire_session_is_idle(&one) == 0);
    mysql_wire_session_free(&one);
    return true;
}

static bool where_there_is_no_session_nothing_is_done(void) {
    mysql_wire_session one = NULL;
    uint32_t kind = 99;
    uint16_t parameters = 9, columns = 9;
    CHECK(mysql_wire_session_packet(&one, 0, 0, NULL, 0, &kind) == MYSQL_WIRE_CLOSED);
    CHECK(kind == 0);
    kind = 99;
    CHECK(mysql_wire_session_front(&one, 0, 0, 0, NULL, 0, &kind) == MYSQL_WIRE_CLOSED);
    CHECK(kind == 0);
    kind = 99;
    CHECK(mysql_wire_session_classify(&one, 0, 0, 0, NULL, 0, &kind) == MYSQL_WIRE_CLOSED);
    CHECK(kind == 0);
    CHECK(mysql_wire_session_pass(&one, 0, 0, 0) == MYSQL_WIRE_CLOSED);
    CHECK(mysql_wire_session_phase(&one) == MYSQL_WIRE_CLOSED);
    CHECK(mysql_wire_session_next_sender(&one) == MYSQL_WIRE_CLOSED);
    CHECK(mysql_wire_session_is_idle(&one) == MYSQL_WIRE_CLOSED);
    CHECK(mysql_wire_session_status(&one) == MYSQL_WIRE_CLOSED);
    CHECK(mysql_wire_session_capabilities(&one) == 0);
    CHECK(mysql_wire_session_next_id(&one) == MYSQL_WIRE_CLOSED);
    CHECK(mysql_wire_session_statement(&one, 7, &parameters, &columns) == MYSQL_WIRE_CLOSED);
    CHECK(parameters == 0 && columns == 0);
    return one == NULL;
}

/* Of random packets a session always takes one more. */
static bool whatever_comes_is_gone_on_after(void) {
    mysql_wire_session one = NULL;
    numbers from = {20261127};
    uint8_t payload[40];
    uint32_t kind = 0;
    CHECK(mysql_wire_session_new(&one) == MYSQL_WIRE_OK);
    for (int i = 0; i < 20000; i++) {
        uint32_t side = (uint32_t)draw(&from, 2);
        uint8_t id = (uint8_t)draw(&from, 4);
        size_t len = draw(&from, sizeof payload);
        for (size_t at = 0; at < len; at++)
            payload[at] = (uint8_t)(draw(&from, 3) == 0 ? draw(&from, 256) : draw(&from, 3));
        if (len > 0 && draw(&from, 2) == 0) payload[0] = (uint8_t)(0xfb + draw(&from, 5));
        int32_t code = draw(&from, 2) == 0
                           ? mysql_wire_session_packet(&one, side, id, payload, len, &kind)
                           : mysql_wire_session_front(&one, side, id, len, payload, len, &kind);
        CHECK(code == MYSQL_WIRE_OK || code == MYSQL_WIRE_REFUSED);
        CHECK(kind >= MYSQL_WIRE_KIND_GREETING && kind <= MYSQL_WIRE_KIND_REFUSED);
        int32_t phase = mysql_wire_session_phase(&one);
        CHECK(phase >= MYSQL_WIRE_PHASE_GREETING && phase <= MYSQL_WIRE_PHASE_ENCRYPTED);
        CHECK(mysql_wire_session_next_id(&one) == (uint8_t)(id + 1));
        if (phase != MYSQL_WIRE_PHASE_CLOSED && phase != MYSQL_WIRE_PHASE_ENCRYPTED) continue;
        mysql_wire_session_free(&one);
        CHECK(mysql_wire_session_new(&one) == MYSQL_WIRE_OK);
    }
    mysql_wire_session_free(&one);
    return true;
}

const test session_tests[] = {
    {"a session is followed", a_session_is_followed},
    {"fronts of packets are enough", fronts_are_enough},
    {"a refused call leaves the session", a_refused_call_leaves_the_session},
    {"a session needs memory", a_session_needs_memory},
    {"statements are known", statements_are_known},
    {"wrong packets are told", wrong_packets_are_told},
    {"wrong arguments change nothing", wrong_arguments_change_nothing},
    {"payloads are passed over", payloads_are_passed_over},
    {"where there is no session nothing is done", where_there_is_no_session_nothing_is_done},
    {"whatever comes is gone on after", whatever_comes_is_gone_on_after},
    {NULL, NULL},
};
