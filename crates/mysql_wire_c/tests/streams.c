/* Streams in pieces, beside a reading of the whole. */
#include "tests.h"

enum { FULL = 16777215 };

/* A slow reading, from the rules of MySQL's page: a header is judged by the limit of its fourth
   byte. */
typedef struct reading {
    const uint8_t *stream;
    size_t *limits; /* of each byte */
    size_t at;      /* what is read so far */
    uint8_t number;
    uint8_t *packet;
    size_t len;
    bool whole;
} reading;

static int32_t read_packet(reading *of, size_t came) {
    if (of->whole) of->len = 0;
    of->whole = false;
    for (;;) {
        if (came - of->at < 4) return MYSQL_WIRE_WAITS;
        const uint8_t *header = of->stream + of->at;
        size_t len = header[0] + 256u * header[1] + 65536u * header[2];
        if (len > 0 && of->len + len > of->limits[of->at + 3]) return MYSQL_WIRE_TOO_LARGE;
        if (came - of->at - 4 < len) return MYSQL_WIRE_WAITS;
        if (header[3] != of->number) return MYSQL_WIRE_OUT_OF_SYNC;
        if (len > 0) memcpy(of->packet + of->len, header + 4, len);
        of->len += len;
        of->at += 4 + len;
        of->number++;
        if (len < FULL) {
            of->whole = true;
            return MYSQL_WIRE_PACKET;
        }
    }
}

/* The next answer of a connection, by the one way of reading or the other. */
static int32_t answer_of(mysql_wire_connection *one, bool lends, uint8_t *room, size_t room_len,
                         size_t *len) {
    if (!lends) return mysql_wire_next(one, room, room_len, len);
    mysql_wire_view view;
    int32_t code = mysql_wire_peek(one, &view);
    *len = view.len;
    if (code != MYSQL_WIRE_PACKET) return code;
    if (view.len > 0) memcpy(room, view.at, view.len);
    return mysql_wire_take(one) == MYSQL_WIRE_OK ? code : MYSQL_WIRE_NO_PACKET;
}

/* Takes all packets that came, and answers the code that ended it, or 99 where they are others than
   those of the reading. */
static int32_t drain(mysql_wire_connection *one, reading *of, size_t came, bool lends) {
    static uint8_t room[1024];
    for (;;) {
        size_t len = 0;
        int32_t wanted = read_packet(of, came);
        int32_t code = answer_of(one, lends, room, sizeof room, &len);
        if (code != wanted) return 99;
        if (code != MYSQL_WIRE_PACKET) {
            bool same = code == MYSQL_WIRE_OUT_OF_SYNC ||
                        (mysql_wire_sequence_id(one) == of->number &&
                         mysql_wire_unread(one) == came - of->at + of->len);
            return same ? code : 99;
        }
        if (len != of->len || memcmp(room, of->packet, len) != 0) return 99;
        if (mysql_wire_sequence_id(one) != of->number) return 99;
    }
}

typedef struct example {
    size_t limit;
    size_t len;
    const char *bytes;
    int32_t code;
    size_t packets;
} example;

static const example EXAMPLES[] = {
    {16, 7, "\3\0\0\000123", MYSQL_WIRE_WAITS, 1},
    {16, 9, "\0\0\0\0\1\0\0\1a", MYSQL_WIRE_WAITS, 2},
    {16, 11, "\2\0\0\0ab\3\0\0\1c", MYSQL_WIRE_WAITS, 1},
    {16, 13, "\1\0\0\0a\1\0\0\5b\0\0\0", MYSQL_WIRE_OUT_OF_SYNC, 1},
    {4, 12, "\1\0\0\0a\5\0\0\1bcd", MYSQL_WIRE_TOO_LARGE, 1},
    {0, 9, "\0\0\0\0\0\0\0\1\1", MYSQL_WIRE_WAITS, 2},
};

/* One cutting: the bits say after which bytes the stream is cut. */
static bool cut_is_as_the_whole(const example *of, uint64_t cuts, bool lends) {
    size_t limits[16];
    uint8_t packet[16];
    reading whole = {(const uint8_t *)of->bytes, limits, 0, 0, packet, 0, false};
    mysql_wire_connection one = NULL;
    int32_t code = MYSQL_WIRE_WAITS;
    for (size_t i = 0; i < 16; i++) limits[i] = of->limit;
    if (mysql_wire_open(of->limit, &one) != MYSQL_WIRE_OK) return false;
    for (size_t fed = 0; fed < of->len && code == MYSQL_WIRE_WAITS;) {
        size_t piece = 1;
        while (fed + piece < of->len && !(cuts >> (fed + piece - 1) & 1)) piece++;
        if (mysql_wire_feed(&one, whole.stream + fed, piece) != MYSQL_WIRE_OK) break;
        fed += piece;
        code = drain(&one, &whole, fed, lends);
        if (code == MYSQL_WIRE_WAITS && mysql_wire_unread(&one) > of->limit + 3) break;
    }
    size_t unread = mysql_wire_unread(&one);
    mysql_wire_close(&one);
    if (code == MYSQL_WIRE_WAITS && unread > of->limit + 3) return false;
    return code == of->code && whole.number == of->packets;
}

static bool every_cutting_is_as_the_whole(void) {
    for (size_t i = 0; i < LENGTH(EXAMPLES); i++) {
        uint64_t cuttings = (uint64_t)1 << (EXAMPLES[i].len - 1);
        for (uint64_t cuts = 0; cuts < cuttings; cuts++) {
            CHECK(cut_is_as_the_whole(&EXAMPLES[i], cuts, true));
            CHECK(cut_is_as_the_whole(&EXAMPLES[i], cuts, false));
        }
    }
    return true;
}

/* Packets, mostly well numbered and within some hundred bytes; or any bytes at all. */
static size_t fill(numbers *from, uint8_t *stream, size_t room) {
    size_t len = 0;
    uint8_t number = 0;
    bool noise = draw(from, 5) == 0;
    while (noise && len < room) stream[len++] = draw(from, 3) == 0 ? (uint8_t)draw(from, 256) : 0;
    while (!noise && len + 400 < room) {
        size_t payload = draw(from, 4) == 0 ? draw(from, 300) : draw(from, 8);
        stream[len++] = (uint8_t)payload;
        stream[len++] = (uint8_t)(payload >> 8);
        stream[len++] = draw(from, 200) == 0 ? 255 : 0;
        stream[len++] = draw(from, 100) == 0 ? (uint8_t)draw(from, 256) : number;
        number++;
        for (; payload > 0; payload--) stream[len++] = (uint8_t)draw(from, 256);
    }
    return len;
}

/* Sets another limit, which holds for the bytes from this place on. */
static bool moves_limit(mysql_wire_connection *one, reading *of, size_t place, size_t len,
                        size_t limit) {
    if (mysql_wire_set_limit(one, limit) != MYSQL_WIRE_OK) return false;
    for (size_t i = place; i < len; i++) of->limits[i] = limit;
    return true;
}

static bool stream_is_as_the_whole(numbers *from) {
    static uint8_t stream[4096], packet[4096];
    static size_t limits[4096];
    reading whole = {stream, limits, 0, 0, packet, 0, false};
    size_t len = fill(from, stream, sizeof stream), limit = 200 + draw(from, 200);
    mysql_wire_connection one = NULL;
    int32_t code = MYSQL_WIRE_WAITS;
    bool holds = mysql_wire_open(limit, &one) == MYSQL_WIRE_OK;
    for (size_t i = 0; i < len; i++) limits[i] = limit;
    for (size_t fed = 0; holds && fed < len && code == MYSQL_WIRE_WAITS;) {
        size_t piece = 1 + draw(from, draw(from, 2) == 0 ? 5 : 500);
        if (piece > len - fed) piece = len - fed;
        holds = mysql_wire_feed(&one, stream + fed, piece) == MYSQL_WIRE_OK;
        fed += piece;
        code = drain(&one, &whole, fed, draw(from, 2) == 0);
        if (code == MYSQL_WIRE_TOO_LARGE && draw(from, 2) == 0) {
            holds = holds && moves_limit(&one, &whole, whole.at, len, 1000);
            code = drain(&one, &whole, fed, true);
        } else if (code == MYSQL_WIRE_WAITS && draw(from, 4) == 0) {
            holds = holds && moves_limit(&one, &whole, fed, len, draw(from, 400));
        }
    }
    mysql_wire_close(&one);
    return holds && code != 99;
}

static bool generated_streams_are_as_the_whole(void) {
    numbers from = {20261123};
    for (int streams = 0; streams < 3000; streams++) CHECK(stream_is_as_the_whole(&from));
    return true;
}

/* Whether the next packet of the reading is this one. */
static bool is_next(reading *of, size_t came, const uint8_t *packet, size_t len) {
    if (read_packet(of, came) != MYSQL_WIRE_PACKET || len != of->len) return false;
    return len == 0 || memcmp(packet, of->packet, len) == 0;
}

/* Takes all packets of a piece, many by one call, and answers as `drain`. */
static int32_t drain_piece(mysql_wire_connection *one, reading *of, size_t came,
                           const uint8_t *piece, size_t len, size_t room) {
    mysql_wire_span spans[8];
    mysql_wire_view packet;
    size_t count, used;
    while (len > 0) {
        int32_t code = mysql_wire_decode_many(one, piece, len, spans, room, &count, &used);
        if (count > room || used > len || (code == MYSQL_WIRE_PACKET) != (count > 0)) return 99;
        for (size_t i = 0; i < count; i++)
            if (!is_next(of, came, piece + spans[i].at, spans[i].len)) return 99;
        if (code == MYSQL_WIRE_WAITS) {
            code = mysql_wire_decode(one, piece, len, &used, &packet);
            if (code != MYSQL_WIRE_PACKET)
                return read_packet(of, came) == code ? code : 99;
            if (!is_next(of, came, packet.at, packet.len)) return 99;
        }
        piece += used;
        len -= used;
    }
    return MYSQL_WIRE_WAITS;
}

static bool pieces_are_as_the_whole(numbers *from) {
    static uint8_t stream[4096], packet[4096];
    static size_t limits[4096];
    reading whole = {stream, limits, 0, 0, packet, 0, false};
    size_t len = fill(from, stream, sizeof stream), limit = 200 + draw(from, 200);
    mysql_wire_connection one = NULL;
    int32_t code = MYSQL_WIRE_WAITS;
    CHECK(mysql_wire_open(limit, &one) == MYSQL_WIRE_OK);
    for (size_t i = 0; i < len; i++) limits[i] = limit;
    for (size_t came = 0; came < len && code == MYSQL_WIRE_WAITS;) {
        size_t piece = 1 + draw(from, draw(from, 2) == 0 ? 5 : 500);
        if (piece > len - came) piece = len - came;
        came += piece;
        code = drain_piece(&one, &whole, came, stream + came - piece, piece, draw(from, 9));
    }
    mysql_wire_close(&one);
    return code != 99;
}

static bool packets_of_pieces_are_as_the_whole(void) {
    numbers from = {20261125};
    for (int streams = 0; streams < 3000; streams++) CHECK(pieces_are_as_the_whole(&from));
    return true;
}

/* Moves what one connection has to send to another, in pieces. */
static bool moves(mysql_wire_connection *from, mysql_wire_connection *to, size_t piece) {
    mysql_wire_view bytes;
    for (;;) {
        mysql_wire_pending(from, &bytes);
        if (bytes.len == 0) return true;
        size_t count = bytes.len < piece ? bytes.len : piece;
        if (mysql_wire_feed(to, bytes.at, count) != MYSQL_WIRE_OK) return false;
        if (mysql_wire_sent(from, count) != count) return false;
    }
}

static bool long_packet_comes(const uint8_t *payload, size_t len, size_t piece, bool lends) {
    mysql_wire_connection one = NULL, other = NULL;
    mysql_wire_view view;
    uint8_t *room = malloc(len);
    size_t count = 0;
    bool holds = HOLDS(room != NULL);
    holds = holds && HOLDS(mysql_wire_open(len, &one) == MYSQL_WIRE_OK);
    holds = holds && HOLDS(mysql_wire_open(len, &other) == MYSQL_WIRE_OK);
    holds = holds && HOLDS(mysql_wire_encode(&one, payload, len) == MYSQL_WIRE_OK);
    mysql_wire_pending(&one, &view);
    holds = holds && HOLDS(view.len == len + 4 * (len / FULL + 1));
    holds = holds && HOLDS(moves(&one, &other, piece));
    if (lends) {
        holds = holds && HOLDS(mysql_wire_peek(&other, &view) == MYSQL_WIRE_PACKET);
        holds = holds && HOLDS(view.len == len && memcmp(view.at, payload, len) == 0);
        holds = holds && HOLDS(mysql_wire_take(&other) == MYSQL_WIRE_OK);
    } else {
        holds = holds && HOLDS(mysql_wire_next(&other, room, len - 1, &count) ==
                               MYSQL_WIRE_ROOM_TOO_SMALL && count == len);
        holds = holds && HOLDS(mysql_wire_next(&other, room, len, &count) == MYSQL_WIRE_PACKET);
        holds = holds && HOLDS(count == len && memcmp(room, payload, len) == 0);
    }
    holds = holds && HOLDS(mysql_wire_sequence_id(&other) == (int32_t)(len / FULL + 1));
    holds = holds && HOLDS(mysql_wire_sequence_id(&one) == (int32_t)(len / FULL + 1));
    holds = holds && HOLDS(mysql_wire_unread(&other) == 0);
    mysql_wire_close(&one);
    mysql_wire_close(&other);
    free(room);
    return holds;
}

static bool packets_above_16_mib_come(void) {
    static const size_t lens[] = {FULL - 1, FULL, FULL + 1, 2 * FULL, 2 * FULL + 9};
    uint8_t *payload = malloc(2 * FULL + 9);
    bool holds = HOLDS(payload != NULL);
    for (size_t i = 0; holds && i < 2 * FULL + 9; i++) payload[i] = (uint8_t)(i * 7 + i / 256);
    for (size_t i = 0; holds && i < LENGTH(lens); i++)
        holds = long_packet_comes(payload, lens[i], i % 2 == 0 ? 1 << 20 : 1 << 24, i % 2 == 0);
    free(payload);
    return holds;
}

static bool an_unfinished_long_packet_is_unread(void) {
    static uint8_t chunk[4 + FULL] = {255, 255, 255, 0};
    mysql_wire_connection one = NULL;
    mysql_wire_view view;
    CHECK(mysql_wire_open(FULL + 10, &one) == MYSQL_WIRE_OK);
    CHECK(mysql_wire_feed(&one, chunk, sizeof chunk) == MYSQL_WIRE_OK);
    CHECK(mysql_wire_peek(&one, &view) == MYSQL_WIRE_WAITS);
    CHECK(mysql_wire_unread(&one) == FULL && mysql_wire_sequence_id(&one) == 1);
    /* The next chunk would be above the limit with it. */
    CHECK(mysql_wire_feed(&one, (const uint8_t *)"\13\0\0\1", 4) == MYSQL_WIRE_OK);
    CHECK(mysql_wire_peek(&one, &view) == MYSQL_WIRE_TOO_LARGE);
    CHECK(mysql_wire_set_limit(&one, FULL + 11) == MYSQL_WIRE_OK);
    CHECK(mysql_wire_feed(&one, (const uint8_t *)"hello world", 11) == MYSQL_WIRE_OK);
    CHECK(mysql_wire_peek(&one, &view) == MYSQL_WIRE_PACKET && view.len == FULL + 11);
    CHECK(memcmp(view.at + FULL, "hello world", 11) == 0);
    mysql_wire_close(&one);
    return true;
}

/* A command, and an answer of some packets, each side numbered on from the other. */
static bool exchange(mysql_wire_connection *client, mysql_wire_connection *server, numbers *from) {
    uint8_t command[64];
    mysql_wire_view view;
    size_t len = draw(from, sizeof command), packets = draw(from, 5);
    memset(command, 'a' + (int)packets, sizeof command);
    CHECK(mysql_wire_reset(client) == MYSQL_WIRE_OK && mysql_wire_reset(server) == MYSQL_WIRE_OK);
    CHECK(mysql_wire_encode(client, command, len) == MYSQL_WIRE_OK);
    CHECK(moves(client, server, 1 + draw(from, 9)));
    CHECK(mysql_wire_peek(server, &view) == MYSQL_WIRE_PACKET);
    CHECK(view.len == len && memcmp(view.at, command, len) == 0);
    for (size_t i = 0; i < packets; i++)
        CHECK(mysql_wire_encode(server, command, i) == MYSQL_WIRE_OK);
    CHECK(mysql_wire_take(server) == MYSQL_WIRE_OK);
    CHECK(moves(server, client, 1 + draw(from, 9)));
    for (size_t i = 0; i < packets; i++) {
        CHECK(mysql_wire_sequence_id(client) == (int32_t)i + 1);
        CHECK(mysql_wire_peek(client, &view) == MYSQL_WIRE_PACKET && view.len == i);
        CHECK(mysql_wire_take(client) == MYSQL_WIRE_OK);
    }
    CHECK(mysql_wire_peek(client, &view) == MYSQL_WIRE_WAITS && mysql_wire_unread(client) == 0);
    return true;
}

static bool two_connections_talk(void) {
    mysql_wire_connection client = NULL, server = NULL;
    numbers from = {7};
    CHECK(mysql_wire_open(64, &client) == MYSQL_WIRE_OK);
    CHECK(mysql_wire_open(64, &server) == MYSQL_WIRE_OK);
    bool holds = true;
    for (int rounds = 0; holds && rounds < 2000; rounds++)
        holds = exchange(&client, &server, &from);
    mysql_wire_close(&client);
    mysql_wire_close(&server);
    return holds;
}

const test stream_tests[] = {
    {"every cutting is as the whole", every_cutting_is_as_the_whole},
    {"generated streams are as the whole", generated_streams_are_as_the_whole},
    {"packets of pieces are as the whole", packets_of_pieces_are_as_the_whole},
    {"packets above 16 MiB come", packets_above_16_mib_come},
    {"an unfinished long packet is unread", an_unfinished_long_packet_is_unread},
    {"two connections talk", two_connections_talk},
    {NULL, NULL},
};
