/* Packets in spans, and their numbers written over, beside plain loops. */
#include "tests.h"

enum { FULL = 16777215, HEADER = 4 };

/* What came: the bytes of all packets, and how many there were after each packet. In spans, how
   many those were, and how many bytes of the stream are used. */
typedef struct gathered {
    uint8_t bytes[4096];
    size_t len;
    size_t ends[2048];
    size_t count;
    size_t spans;
    size_t used;
} gathered;

static bool same(const gathered *one, const gathered *other) {
    return one->len == other->len && one->count == other->count &&
           memcmp(one->bytes, other->bytes, one->len) == 0 &&
           memcmp(one->ends, other->ends, one->count * sizeof one->ends[0]) == 0;
}

/* A plain reading of a whole stream, from the rules of MySQL's page. `place` is where the chunk
   begins that did not come whole or is refused, and `id` counts the headers that are accepted. Where
   `next` is there, each of them is given the next number. */
static int32_t plain(uint8_t *stream, size_t len, size_t limit, uint8_t *id, gathered *to,
                     size_t *place, uint8_t *next) {
    size_t at = 0, size = 0;
    for (;;) {
        *place = at;
        if (len - at < HEADER) return MYSQL_WIRE_WAITS;
        size_t count = stream[at] + 256u * stream[at + 1] + 65536u * stream[at + 2];
        if (count > 0 && (count > limit || size > limit - count)) return MYSQL_WIRE_TOO_LARGE;
        if (stream[at + 3] != *id) return MYSQL_WIRE_OUT_OF_SYNC;
        if (next != NULL) stream[at + 3] = (*next)++;
        (*id)++;
        at += HEADER;
        size += count;
        size_t came = len - at < count ? len - at : count;
        memcpy(to->bytes + to->len, stream + at, came);
        to->len += came;
        at += came;
        if (came < count) return MYSQL_WIRE_WAITS;
        if (count < FULL) {
            to->ends[to->count++] = to->len;
            size = 0;
        }
    }
}

/* Gathers the spans of a piece. 99: one is not as it has to be. */
static int32_t gather(mysql_wire_spans *spans, const uint8_t *bytes, size_t len, gathered *to) {
    for (;;) {
        size_t used = 77;
        mysql_wire_view span = {NULL, 77};
        uint8_t ends = 77;
        mysql_wire_spans before = *spans;
        int32_t code = mysql_wire_spans_next(spans, bytes, len, &used, &span, &ends);
        if (span.at == NULL || ends > 1 || used > len) return 99;
        to->used += used;
        if (code != MYSQL_WIRE_SPAN) {
            if (span.len != 0 || ends != 0) return 99;
            if (code == MYSQL_WIRE_WAITS) return used == len ? code : 99;
            return used == 0 && memcmp(&before, spans, sizeof before) == 0 ? code : 99;
        }
        if (used == 0 || span.len > used || used > span.len + HEADER) return 99;
        if (span.len == 0 && ends == 0) return 99;
        if (span.len > 0 && span.at != bytes + used - span.len) return 99;
        memcpy(to->bytes + to->len, span.at, span.len);
        to->len += span.len;
        to->spans++;
        if (ends == 1) to->ends[to->count++] = to->len;
        bytes += used;
        len -= used;
    }
}

/* A stream, the limit of its packets, and its first number. */
typedef struct stream {
    uint8_t bytes[4096];
    size_t len, limit;
    uint8_t id;
} stream;

/* Whether what came of a stream, up to this answer, is what the plain reading has. */
static bool is_read(stream *of, size_t limit, int32_t code, const mysql_wire_spans *spans,
                    const gathered *came) {
    gathered whole = {.len = 0};
    uint8_t id = of->id;
    size_t place;
    CHECK(plain(of->bytes, of->len, limit, &id, &whole, &place, NULL) == code);
    CHECK(same(&whole, came) && spans->id == id);
    CHECK(came->used == (code == MYSQL_WIRE_WAITS ? of->len : place + spans->header_len));
    return true;
}

typedef struct example {
    size_t limit;
    size_t len;
    const char *bytes;
    int32_t code;
    size_t packets;
} example;

static const example EXAMPLES[] = {
    {16, 7, "\3\0\0\000123", MYSQL_WIRE_WAITS, 1},
    {16, 9, "\0\0\0\0\1\0\0\1a", MYSQL_WIRE_WAITS, 2},
    {16, 11, "\2\0\0\0ab\3\0\0\1c", MYSQL_WIRE_WAITS, 1},
    {16, 13, "\1\0\0\0a\1\0\0\5b\0\0\0", MYSQL_WIRE_OUT_OF_SYNC, 1},
    {4, 12, "\1\0\0\0a\5\0\0\1bcd", MYSQL_WIRE_TOO_LARGE, 1},
    {4, 10, "\5\0\0\7bcdefg", MYSQL_WIRE_TOO_LARGE, 0},
    {0, 9, "\0\0\0\0\0\0\0\1\1", MYSQL_WIRE_WAITS, 2},
};

/* The piece of a stream that begins at `from`: up to the next bit of `cuts`. */
static size_t piece_at(size_t from, size_t len, uint64_t cuts) {
    size_t piece = 1;
    while (from + piece < len && !(cuts >> (from + piece - 1) & 1)) piece++;
    return piece;
}

/* Gathers the spans of a stream that is cut so, with an empty piece in front of each. */
static int32_t gather_cut(mysql_wire_spans *spans, const uint8_t *bytes, size_t len, uint64_t cuts,
                          gathered *to) {
    int32_t code = MYSQL_WIRE_WAITS;
    for (size_t came = 0; came < len && code == MYSQL_WIRE_WAITS;) {
        size_t piece = piece_at(came, len, cuts);
        if (gather(spans, bytes + came, 0, to) != MYSQL_WIRE_WAITS) return 99;
        code = gather(spans, bytes + came, piece, to);
        came += piece;
    }
    return code;
}

static bool cut_is_as_the_whole(const example *of, uint64_t cuts) {
    stream whole = {.len = of->len};
    gathered pieces = {.len = 0};
    mysql_wire_spans spans;
    memcpy(whole.bytes, of->bytes, of->len);
    mysql_wire_spans_init(&spans, of->limit, 0);
    int32_t code = gather_cut(&spans, whole.bytes, of->len, cuts, &pieces);
    CHECK(code == of->code && pieces.count == of->packets);
    return is_read(&whole, of->limit, code, &spans, &pieces);
}

static bool every_cutting_is_as_the_whole(void) {
    for (size_t i = 0; i < LENGTH(EXAMPLES); i++) {
        uint64_t cuttings = (uint64_t)1 << (EXAMPLES[i].len - 1);
        for (uint64_t cuts = 0; cuts < cuttings; cuts++)
            CHECK(cut_is_as_the_whole(&EXAMPLES[i], cuts));
    }
    return true;
}

/* What comes to a place in a stream, and what comes of it, in spans and with other numbers. */
typedef struct row {
    bool begins; /* else it goes on where the row before stopped, but for what is set here */
    size_t limit;
    uint8_t id, next_id;
    uint64_t cuts;
    size_t len;
    const char *bytes;
    const char *packets; /* each with a bar after it */
    size_t spans;
    int32_t code;
    size_t used;
    const char *out; /* all of the bytes, with other numbers */
    mysql_wire_spans after; /* but for the limit */
} row;

#define STREAM "\3\0\0\376abc\0\0\0\377\1\0\0\0z\2\0\0\1"
#define OTHER "\3\0\0\7abc\0\0\0\10\1\0\0\11z\2\0\0\12"

static const row ROWS[] = {
    {true, 4194304, 254, 7, 0, 20, STREAM, "abc||z|", 3, MYSQL_WIRE_WAITS, 20, OTHER,
     {.size = 2, .left = 2, .id = 2, .next_id = 11}},
    /* Byte by byte: a span of each, and the empty packet. */
    {true, 4194304, 254, 7, UINT64_MAX, 20, STREAM, "abc||z|", 5, MYSQL_WIRE_WAITS, 20, OTHER,
     {.size = 2, .left = 2, .id = 2, .next_id = 11}},
    /* A part of a header is after the packets. */
    {true, 4194304, 254, 7, 0, 18, STREAM, "abc||z|", 3, MYSQL_WIRE_WAITS, 18, OTHER,
     {.header = {2, 0}, .header_len = 2, .id = 1, .next_id = 10}},
    /* Past the limit the piece stays, again and again, until the limit is larger. */
    {true, 3, 0, 5, 1 << 8, 15, "\3\0\0\0abc\4\0\0\1defg", "abc|", 1, MYSQL_WIRE_TOO_LARGE, 9,
     "\3\0\0\5abc\4\0\0\1defg", {.header = {4, 0}, .header_len = 2, .id = 1, .next_id = 6}},
    {false, 3, 1, 6, 0, 6, "\0\1defg", "", 0, MYSQL_WIRE_TOO_LARGE, 0, "\0\1defg",
     {.header = {4, 0}, .header_len = 2, .id = 1, .next_id = 6}},
    {false, 4, 1, 6, 0, 6, "\0\1defg", "defg|", 1, MYSQL_WIRE_WAITS, 6, "\0\6defg",
     {.id = 2, .next_id = 7}},
    /* At a limit of 0 empty packets pass. */
    {true, 0, 0, 5, 0, 9, "\0\0\0\0\1\0\0\1a", "|", 1, MYSQL_WIRE_TOO_LARGE, 4,
     "\0\0\0\5\1\0\0\1a", {.id = 1, .next_id = 6}},
    {false, 1, 1, 6, 0, 5, "\1\0\0\1a", "a|", 1, MYSQL_WIRE_WAITS, 5, "\1\0\0\6a",
     {.id = 2, .next_id = 7}},
    /* It stops in front of another number, and stays lost; the limit is judged first. */
    {true, 4194304, 0, 5, 1 << 10, 13, "\3\0\0\0abc\2\0\0\5de", "abc|", 1,
     MYSQL_WIRE_OUT_OF_SYNC, 7, "\3\0\0\5abc\2\0\0\5de", {.id = 1, .next_id = 6}},
    {false, 4194304, 1, 6, 0, 4, "\2\0\0\5", "", 0, MYSQL_WIRE_OUT_OF_SYNC, 0, "\2\0\0\5",
     {.id = 1, .next_id = 6}},
    {false, 1, 1, 6, 0, 4, "\2\0\0\5", "", 0, MYSQL_WIRE_TOO_LARGE, 0, "\2\0\0\5",
     {.id = 1, .next_id = 6}},
    /* From that number on it goes on. */
    {false, 2, 5, 6, 1 << 3, 6, "\2\0\0\5de", "de|", 1, MYSQL_WIRE_WAITS, 6, "\2\0\0\6de",
     {.id = 6, .next_id = 7}},
    /* It is lost wherever the header is cut. */
    {true, 4194304, 0, 5, 0, 6, "\2\0\0\11bc", "", 0, MYSQL_WIRE_OUT_OF_SYNC, 0,
     "\2\0\0\11bc", {.id = 0, .next_id = 5}},
    {true, 4194304, 0, 5, 1 << 0, 6, "\2\0\0\11bc", "", 0, MYSQL_WIRE_OUT_OF_SYNC, 1,
     "\2\0\0\11bc", {.header = {2}, .header_len = 1, .id = 0, .next_id = 5}},
    {true, 4194304, 0, 5, 1 << 1, 6, "\2\0\0\11bc", "", 0, MYSQL_WIRE_OUT_OF_SYNC, 2,
     "\2\0\0\11bc", {.header = {2, 0}, .header_len = 2, .id = 0, .next_id = 5}},
    {true, 4194304, 0, 5, 1 << 2, 6, "\2\0\0\11bc", "", 0, MYSQL_WIRE_OUT_OF_SYNC, 3,
     "\2\0\0\11bc", {.header = {2, 0, 0}, .header_len = 3, .id = 0, .next_id = 5}},
};

/* Whether these packets came, and nothing after them. */
static bool are(const gathered *of, const char *packets) {
    size_t from = 0;
    for (size_t i = 0; i < of->count; i++) {
        size_t len = of->ends[i] - from;
        if (strncmp(packets, (const char *)of->bytes + from, len) != 0) return false;
        if (packets[len] != '|') return false;
        packets += len + 1;
        from = of->ends[i];
    }
    return from == of->len && *packets == 0;
}

/* Whether this is the place after a row. */
static bool stands(const mysql_wire_spans *spans, const row *of, uint8_t next_id) {
    mysql_wire_spans wanted = of->after;
    wanted.limit = of->limit;
    wanted.next_id = next_id;
    return memcmp(spans, &wanted, sizeof wanted) == 0;
}

/* Writes the numbers of a stream that is cut so, with an empty piece in front of each. */
static int32_t renumber_cut(mysql_wire_spans *spans, uint8_t *bytes, size_t len, uint64_t cuts,
                            size_t *gone) {
    int32_t code = MYSQL_WIRE_WAITS;
    *gone = 0;
    for (size_t came = 0; came < len && code == MYSQL_WIRE_WAITS;) {
        size_t piece = piece_at(came, len, cuts), used = 77;
        code = mysql_wire_spans_renumber(spans, bytes + came, 0, &used);
        if (code != MYSQL_WIRE_WAITS || used != 0) return 99;
        code = mysql_wire_spans_renumber(spans, bytes + came, piece, &used);
        *gone += used;
        came += piece;
    }
    return code;
}

/* Whether a row that is cut so goes as it says, in however many spans; the place is after it. */
static bool goes(mysql_wire_spans *spans, const row *of, uint64_t cuts, gathered *came) {
    uint8_t bytes[20];
    mysql_wire_spans seen = *spans;
    size_t gone;
    memcpy(bytes, of->bytes, of->len);
    CHECK(gather_cut(&seen, bytes, of->len, cuts, came) == of->code);
    CHECK(are(came, of->packets) && came->used == of->used);
    CHECK(stands(&seen, of, spans->next_id));
    CHECK(renumber_cut(spans, bytes, of->len, cuts, &gone) == of->code && gone == of->used);
    CHECK(memcmp(bytes, of->out, of->len) == 0);
    return HOLDS(stands(spans, of, of->after.next_id));
}

static bool each_row_goes_as_it_says(void) {
    mysql_wire_spans spans = {.limit = 0};
    for (size_t i = 0; i < LENGTH(ROWS); i++) {
        const row *of = &ROWS[i];
        gathered came = {.len = 0};
        if (of->begins) mysql_wire_spans_init(&spans, of->limit, of->id);
        spans.limit = of->limit;
        spans.id = of->id;
        spans.next_id = of->next_id;
        CHECK(goes(&spans, of, of->cuts, &came) && came.spans == of->spans);
    }
    return true;
}

/* Both ways, the first row in three pieces. */
static bool each_cutting_into_three_goes(void) {
    const row *of = &ROWS[0];
    for (size_t first = 0; first < of->len; first++) {
        for (size_t second = first; second < of->len; second++) {
            gathered came = {.len = 0};
            mysql_wire_spans spans;
            mysql_wire_spans_init(&spans, of->limit, of->id);
            spans.next_id = of->next_id;
            CHECK(goes(&spans, of, (uint64_t)1 << first | (uint64_t)1 << second, &came));
        }
    }
    return true;
}

static bool numbers_begin_again_after_255(void) {
    mysql_wire_spans in, out;
    gathered came = {.len = 0};
    mysql_wire_spans_init(&in, 0, 0);
    for (size_t i = 0; i < 257; i++) {
        uint8_t empty[] = {0, 0, 0, (uint8_t)i};
        CHECK(gather(&in, empty, 4, &came) == MYSQL_WIRE_WAITS);
    }
    CHECK(came.count == 257 && came.spans == 257 && came.len == 0);
    CHECK(in.id == 1 && in.size == 0 && in.header_len == 0);
    mysql_wire_spans_init(&out, 4194304, 0);
    out.next_id = 200;
    for (size_t i = 0; i < 600; i++) {
        uint8_t piece[] = {1, 0, 0, (uint8_t)i, 9}, wanted[] = {1, 0, 0, (uint8_t)(i + 200), 9};
        size_t used = 77;
        CHECK(mysql_wire_spans_renumber(&out, piece, 5, &used) == MYSQL_WIRE_WAITS && used == 5);
        CHECK(memcmp(piece, wanted, 5) == 0);
    }
    CHECK(out.next_id == 32 && out.size == 0 && out.header_len == 0);
    return true;
}

/* Packets, mostly well numbered, and within some hundred bytes. */
static void draw_large(numbers *from, stream *to) {
    uint8_t id = (uint8_t)draw(from, 256);
    to->id = id;
    to->len = 0;
    to->limit = 200 + draw(from, 200);
    while (to->len + 400 < sizeof to->bytes) {
        size_t payload = draw(from, 4) == 0 ? draw(from, 300) : draw(from, 8);
        to->bytes[to->len++] = (uint8_t)payload;
        to->bytes[to->len++] = (uint8_t)(payload >> 8);
        to->bytes[to->len++] = draw(from, 200) == 0 ? 255 : 0;
        to->bytes[to->len++] = draw(from, 100) == 0 ? (uint8_t)draw(from, 256) : id;
        id++;
        for (; payload > 0; payload--) to->bytes[to->len++] = (uint8_t)draw(from, 256);
    }
}

/* A few small packets, whose bytes look like headers; the answer is where one of them begins. */
static size_t fill_small(numbers *from, stream *to) {
    size_t packets = draw(from, 6), picked = draw(from, 6), start = 0;
    to->len = 0;
    for (size_t i = 0; i < packets; i++) {
        size_t payload = draw(from, 7);
        if (i <= picked) start = to->len;
        to->bytes[to->len++] = (uint8_t)payload;
        to->bytes[to->len++] = 0;
        to->bytes[to->len++] = 0;
        to->bytes[to->len++] = (uint8_t)(to->id + i);
        for (; payload > 0; payload--) to->bytes[to->len++] = (uint8_t)draw(from, 4);
    }
    return start;
}

/* Cuts a stream short, changes a number, a length or any byte, or nothing. */
static void damage(numbers *from, stream *of, size_t start) {
    switch (of->len == 0 ? 4 : draw(from, 5)) {
        case 0: of->len = draw(from, of->len); break;
        case 1: of->bytes[start + 3] = (uint8_t)draw(from, 256); break;
        case 2: of->bytes[start + draw(from, 3)] = (uint8_t)draw(from, 9); break;
        case 3: of->bytes[draw(from, of->len)] = (uint8_t)draw(from, 256); break;
        default: break;
    }
}

/* A few small packets, of which one may be damaged, and a limit near their lengths, or none. */
static void draw_small(numbers *from, stream *to) {
    static const uint8_t ids[] = {0, 0, 1, 253, 255};
    to->id = ids[draw(from, LENGTH(ids))];
    damage(from, to, fill_small(from, to));
    to->limit = draw(from, 4) == 0 ? SIZE_MAX : draw(from, 8);
}

/* How many bytes come next; there may be none. */
static size_t draw_piece(numbers *from, size_t left) {
    size_t piece = draw(from, left < 64 || draw(from, 2) == 0 ? 6 : 500);
    return piece < left ? piece : left;
}

/* Whether a stream comes in spans as the plain reading has it; where it stops at the limit it goes
   on without one, as if it had begun so. */
static bool comes_in_spans(numbers *from, stream *of, int32_t *code) {
    gathered came = {.len = 0};
    mysql_wire_spans spans;
    mysql_wire_spans_init(&spans, of->limit, of->id);
    *code = MYSQL_WIRE_WAITS;
    for (size_t at = 0; at < of->len && *code == MYSQL_WIRE_WAITS;) {
        size_t piece = draw_piece(from, of->len - at);
        *code = gather(&spans, of->bytes + at, piece, &came);
        at += piece;
    }
    CHECK(is_read(of, of->limit, *code, &spans, &came));
    if (*code != MYSQL_WIRE_TOO_LARGE) return true;
    spans.limit = SIZE_MAX;
    int32_t end = gather(&spans, of->bytes + came.used, of->len - came.used, &came);
    return is_read(of, SIZE_MAX, end, &spans, &came);
}

/* Each end comes often. */
static bool drawn_streams_come(uint64_t seed, void (*fill)(numbers *, stream *)) {
    static stream of;
    numbers from = {seed};
    size_t waits = 0, too_large = 0, out_of_sync = 0;
    for (int streams = 0; streams < 2000; streams++) {
        int32_t code;
        fill(&from, &of);
        CHECK(comes_in_spans(&from, &of, &code));
        waits += code == MYSQL_WIRE_WAITS;
        too_large += code == MYSQL_WIRE_TOO_LARGE;
        out_of_sync += code == MYSQL_WIRE_OUT_OF_SYNC;
    }
    return HOLDS(waits > 200 && too_large > 200 && out_of_sync > 200);
}

static bool generated_streams_are_as_the_whole(void) {
    return drawn_streams_come(20261125, draw_large) && drawn_streams_come(4, draw_small);
}

/* A stream of one packet of `payload` bytes, by its places. */
static uint8_t long_byte(size_t payload, size_t at) {
    size_t chunk = at / (HEADER + FULL), place = at % (HEADER + FULL);
    size_t left = payload - chunk * FULL, len = left < FULL ? left : FULL;
    if (place < 3) return (uint8_t)(len >> (8 * place));
    if (place == 3) return (uint8_t)(250 + chunk);
    return (uint8_t)((at - HEADER * (chunk + 1)) * 7);
}

/* It comes in pieces of this room; their numbers are written over first. */
static bool long_packet_comes(size_t payload, uint8_t *room, size_t room_len) {
    size_t len = payload + HEADER * (payload / FULL + 1), came = 0, ends_seen = 0, used;
    mysql_wire_spans in, out;
    mysql_wire_spans_init(&in, payload, 250);
    mysql_wire_spans_init(&out, payload, 9);
    in.next_id = 9;
    for (size_t at = 0; at < len;) {
        size_t piece = len - at < room_len ? len - at : room_len;
        for (size_t i = 0; i < piece; i++) room[i] = long_byte(payload, at + i);
        CHECK(mysql_wire_spans_renumber(&in, room, piece, &used) == MYSQL_WIRE_WAITS);
        CHECK(used == piece);
        at += piece;
        const uint8_t *bytes = room;
        mysql_wire_view span;
        uint8_t ends;
        while (mysql_wire_spans_next(&out, bytes, piece, &used, &span, &ends) == MYSQL_WIRE_SPAN) {
            for (size_t i = 0; i < span.len; i++)
                if (span.at[i] != (uint8_t)((came + i) * 7)) return HOLDS(false);
            came += span.len;
            ends_seen += ends;
            bytes += used;
            piece -= used;
        }
        CHECK(used == piece);
    }
    CHECK(came == payload && ends_seen == 1);
    CHECK(out.id == (uint8_t)(9 + payload / FULL + 1) && in.next_id == out.id);
    CHECK(in.size == 0 && in.header_len == 0 && out.size == 0 && out.left == 0);
    return true;
}

/* What comes after the rows before: bytes, then those of a full chunk in 255 pieces, or none; and
   how many packets came then, how many payload bytes, and the answer to the bytes. */
typedef struct chunk {
    size_t len;
    const char *bytes;
    bool is_full;
    size_t packets, payload;
    int32_t code;
} chunk;

/* A packet of two full chunks ends with an empty one. */
static const chunk TWO[] = {
    {4, "\377\377\377\0", true, 0, FULL, MYSQL_WIRE_WAITS},
    {4, "\377\377\377\1", true, 0, (size_t)2 * FULL, MYSQL_WIRE_WAITS},
    {4, "\0\0\0\2", false, 1, (size_t)2 * FULL, MYSQL_WIRE_WAITS},
};

/* The second chunk bears another number, and then is longer than the limit of the packet allows. */
static const chunk SECOND[] = {
    {4, "\377\377\377\0", true, 0, FULL, MYSQL_WIRE_WAITS},
    {5, "\1\0\0\2z", false, 0, FULL, MYSQL_WIRE_OUT_OF_SYNC},
    {6, "\2\0\0\1zz", false, 0, FULL, MYSQL_WIRE_TOO_LARGE},
    {5, "\1\0\0\1z", false, 1, FULL + 1, MYSQL_WIRE_WAITS},
};

/* Places in one stream, in spans and with other numbers, and what came. */
typedef struct counted {
    mysql_wire_spans in, out;
    size_t packets, payload;
} counted;

/* Counts the packets that end in a piece, and their bytes. */
static int32_t count(counted *to, const uint8_t *bytes, size_t len) {
    for (;;) {
        size_t used;
        mysql_wire_view span;
        uint8_t ends;
        int32_t code = mysql_wire_spans_next(&to->in, bytes, len, &used, &span, &ends);
        if (code != MYSQL_WIRE_SPAN)
            return used == (code == MYSQL_WIRE_WAITS ? len : 0) ? code : 99;
        to->packets += ends;
        to->payload += span.len;
        bytes += used;
        len -= used;
    }
}

/* The same both ways. 99: they do not stand at one place then. */
static int32_t count_both(counted *to, uint8_t *bytes, size_t len) {
    size_t used;
    int32_t code = count(to, bytes, len);
    if (mysql_wire_spans_renumber(&to->out, bytes, len, &used) != code) return 99;
    mysql_wire_spans seen = to->out;
    seen.next_id = to->in.next_id;
    return memcmp(&seen, &to->in, sizeof seen) == 0 ? code : 99;
}

/* Whether the chunks of one packet go as they say, under this limit, and leave this number. */
static bool chunks_go(const chunk *chunks, size_t len, size_t limit, uint8_t id) {
    static uint8_t fill[65793];
    counted to = {.packets = 0};
    mysql_wire_spans_init(&to.in, limit, 0);
    mysql_wire_spans_init(&to.out, limit, 0);
    for (size_t i = 0; i < len; i++) {
        const chunk *of = &chunks[i];
        uint8_t bytes[6];
        memcpy(bytes, of->bytes, of->len);
        CHECK(count_both(&to, bytes, of->len) == of->code);
        for (int pieces = 0; of->is_full && pieces < 255; pieces++)
            CHECK(count_both(&to, fill, sizeof fill) == MYSQL_WIRE_WAITS);
        CHECK(to.packets == of->packets && to.payload == of->payload);
        CHECK(to.in.size == (to.packets == 1 ? 0 : to.payload) && to.in.header_len == 0);
    }
    CHECK(to.payload == limit && to.in.id == id);
    return true;
}

static bool a_packet_of_full_chunks_is_one(void) {
    CHECK(chunks_go(TWO, LENGTH(TWO), (size_t)2 * FULL, 3));
    CHECK(chunks_go(SECOND, LENGTH(SECOND), FULL + 1, 2));
    return true;
}

static bool packets_of_64_mib_come_without_memory(void) {
    static uint8_t room[65536];
    size_t requests = requests_made();
    CHECK(long_packet_comes((size_t)64 << 20, room, sizeof room));
    CHECK(long_packet_comes((size_t)2 * FULL, room, sizeof room - 1));
    CHECK(long_packet_comes(FULL - 1, room, 4095));
    CHECK(requests_made() == requests);
    return true;
}

static bool a_larger_limit_goes_on(void) {
    mysql_wire_spans spans;
    gathered to = {.len = 0};
    mysql_wire_spans_init(&spans, 2, 0);
    CHECK(gather(&spans, (const uint8_t *)"\3\0", 2, &to) == MYSQL_WIRE_WAITS);
    CHECK(spans.header_len == 2 && spans.header[0] == 3 && spans.header[1] == 0);
    CHECK(gather(&spans, (const uint8_t *)"\0\0abc", 5, &to) == MYSQL_WIRE_TOO_LARGE);
    spans.limit = 3;
    CHECK(gather(&spans, (const uint8_t *)"\0\0ab", 4, &to) == MYSQL_WIRE_WAITS);
    CHECK(to.len == 2 && to.count == 0 && spans.size == 3 && spans.left == 1);
    spans.limit = 0; /* of the headers to come alone */
    CHECK(gather(&spans, (const uint8_t *)"c\0\0\0\1", 5, &to) == MYSQL_WIRE_WAITS);
    CHECK(to.len == 3 && to.count == 2 && spans.id == 2 && memcmp(to.bytes, "abc", 3) == 0);
    return true;
}

static bool another_number_stays(void) {
    mysql_wire_spans spans;
    gathered to = {.len = 0};
    mysql_wire_spans_init(&spans, 16, 255);
    CHECK(gather(&spans, (const uint8_t *)"\0\0\0\0", 4, &to) == MYSQL_WIRE_OUT_OF_SYNC);
    CHECK(gather(&spans, (const uint8_t *)"\0\0\0\0", 4, &to) == MYSQL_WIRE_OUT_OF_SYNC);
    CHECK(gather(&spans, (const uint8_t *)"\0\0\0\xff", 4, &to) == MYSQL_WIRE_WAITS);
    CHECK(to.count == 1 && spans.id == 0);
    spans.id = 7; /* a new stream */
    CHECK(gather(&spans, (const uint8_t *)"\1\0\0\7a", 5, &to) == MYSQL_WIRE_WAITS);
    CHECK(to.count == 2 && to.len == 1);
    CHECK(gather(&spans, NULL, 0, &to) == MYSQL_WIRE_WAITS);
    return true;
}

/* Whether the record is refused by both calls, which leave all as it was. */
static bool is_refused(mysql_wire_spans spans) {
    mysql_wire_spans before = spans;
    uint8_t bytes[] = {1, 0, 0, 0, 'a'}, ends = 7;
    size_t used = 7;
    mysql_wire_view span = {NULL, 7};
    CHECK(mysql_wire_spans_next(&spans, bytes, 5, &used, &span, &ends) ==
          MYSQL_WIRE_INVALID_STATE);
    CHECK(used == 0 && span.at != NULL && span.len == 0 && ends == 0);
    used = 7;
    CHECK(mysql_wire_spans_renumber(&spans, bytes, 5, &used) == MYSQL_WIRE_INVALID_STATE);
    CHECK(used == 0 && memcmp(bytes, "\1\0\0\0a", 5) == 0);
    return HOLDS(memcmp(&before, &spans, sizeof spans) == 0);
}

/* Whether it is taken, and no bytes leave it as it was. */
static bool is_taken(mysql_wire_spans spans) {
    mysql_wire_spans before = spans;
    size_t used = 7;
    CHECK(mysql_wire_spans_renumber(&spans, NULL, 0, &used) == MYSQL_WIRE_WAITS && used == 0);
    return HOLDS(memcmp(&before, &spans, sizeof spans) == 0);
}

typedef struct place {
    size_t size, left;
    uint8_t header[3], header_len;
    bool is_one;
} place;

static const place PLACES[] = {
    {0, 0, {0, 0, 0}, 0, true},
    {0, 0, {1, 2, 3}, 3, true},
    {0, 0, {0, 0, 0}, 4, false},
    {0, 0, {1, 2, 3}, 2, false},
    {0, 0, {0, 0, 1}, 0, false},
    {0, 0, {0, 0, 1}, 2, false},
    {1, 0, {0, 0, 0}, 0, false},
    {1, 1, {0, 0, 0}, 0, true},
    {1, 1, {0, 0, 0}, 1, false},
    {2, 1, {0, 0, 0}, 1, false},
    {1, 2, {0, 0, 0}, 0, false},
    {0, 1, {0, 0, 0}, 0, false},
    {FULL, 0, {0, 0, 0}, 0, true},
    {FULL, 0, {1, 2, 3}, 3, true},
    {FULL, FULL, {0, 0, 0}, 0, true},
    {FULL + 1, 2, {0, 0, 0}, 0, false},
    {FULL + 1, 1, {0, 0, 0}, 0, true},
    {(size_t)2 * FULL, FULL, {0, 0, 0}, 0, true},
    {(size_t)2 * FULL, FULL + 1, {0, 0, 0}, 0, false},
    {SIZE_MAX, SIZE_MAX, {255, 255, 255}, 255, false},
};

static bool records_of_no_stream_are_refused(void) {
    for (size_t i = 0; i < LENGTH(PLACES); i++) {
        const place *at = &PLACES[i];
        mysql_wire_spans spans;
        mysql_wire_spans_init(&spans, 0, 1);
        spans.size = at->size;
        spans.left = at->left;
        memcpy(spans.header, at->header, 3);
        spans.header_len = at->header_len;
        CHECK(at->is_one ? is_taken(spans) : is_refused(spans));
    }
    return true;
}

/* Whatever the record has, nothing outside of the bytes is read, written or lent. */
static bool any_record_is_answered(void) {
    numbers from = {3};
    size_t taken = 0;
    for (int records = 0; records < 200000; records++) {
        mysql_wire_spans spans;
        uint8_t *fields = (uint8_t *)&spans, *bytes = malloc(9);
        gathered to = {.len = 0};
        size_t used = 0;
        for (size_t i = 0; i < sizeof spans; i++)
            fields[i] = draw(&from, 4) == 0 ? (uint8_t)draw(&from, 256) : 0;
        if (draw(&from, 2) == 0) memset(&spans.size, 0, 2 * sizeof spans.size);
        for (size_t i = 0; i < 9; i++) bytes[i] = (uint8_t)draw(&from, 3);
        mysql_wire_spans other = spans;
        int32_t code = gather(&spans, bytes, 9, &to);
        int32_t wrote = mysql_wire_spans_renumber(&other, bytes, 9, &used);
        free(bytes);
        CHECK(code != 99 && used <= 9 && code == wrote);
        taken += code != MYSQL_WIRE_INVALID_STATE;
    }
    return HOLDS(taken > 1000 && taken < 100000);
}

/* Whether a stream begins with these packets alone, up to this place, as a connection encodes them
   from the number on. */
static bool begins_encoded(const uint8_t *bytes, size_t place, const gathered *of, uint8_t id) {
    mysql_wire_connection one = NULL;
    mysql_wire_view out;
    size_t from = 0;
    CHECK(mysql_wire_open(SIZE_MAX, &one) == MYSQL_WIRE_OK);
    bool holds = HOLDS(mysql_wire_set_sequence_id(&one, id) == MYSQL_WIRE_OK);
    for (size_t i = 0; holds && i < of->count; i++) {
        size_t len = of->ends[i] - from;
        holds = HOLDS(mysql_wire_encode(&one, of->bytes + from, len) == MYSQL_WIRE_OK);
        from += len;
    }
    mysql_wire_pending(&one, &out);
    holds = holds && HOLDS(out.len == place);
    holds = holds && HOLDS(place == 0 || memcmp(out.at, bytes, place) == 0);
    mysql_wire_close(&one);
    return holds;
}

/* The stream with its numbers written over by a plain loop, and the same in pieces. */
static bool renumbering_is_plain(numbers *from, stream *of) {
    static uint8_t wanted[4096], out[4096];
    gathered whole = {.len = 0};
    uint8_t id = of->id, first = (uint8_t)draw(from, 256), next = first;
    size_t place, gone = 0, used = 0;
    int32_t code = MYSQL_WIRE_WAITS;
    mysql_wire_spans spans;
    mysql_wire_spans_init(&spans, of->limit, id);
    spans.next_id = next;
    memcpy(wanted, of->bytes, of->len);
    memcpy(out, of->bytes, of->len);
    int32_t answer = plain(wanted, of->len, of->limit, &id, &whole, &place, &next);
    while (gone < of->len && code == MYSQL_WIRE_WAITS) {
        size_t piece = draw_piece(from, of->len - gone);
        code = mysql_wire_spans_renumber(&spans, out + gone, piece, &used);
        gone += used;
    }
    CHECK(code == answer && spans.next_id == next && spans.id == id);
    CHECK(gone == (code == MYSQL_WIRE_WAITS ? of->len : place + spans.header_len));
    CHECK(memcmp(out, wanted, of->len) == 0 && begins_encoded(out, place, &whole, first));
    /* What is left may be given again. */
    if (code == MYSQL_WIRE_WAITS) return true;
    CHECK(mysql_wire_spans_renumber(&spans, out + gone, of->len - gone, &used) == code);
    CHECK(used == 0 && memcmp(out, wanted, of->len) == 0);
    return true;
}

static bool renumbering_is_as_the_plain_loop(void) {
    static stream of;
    numbers from = {99};
    for (int streams = 0; streams < 4000; streams++) {
        if (streams % 2 == 0)
            draw_large(&from, &of);
        else
            draw_small(&from, &of);
        CHECK(renumbering_is_plain(&from, &of));
    }
    return true;
}

const test span_tests[] = {
    {"every cutting in spans is as the whole", every_cutting_is_as_the_whole},
    {"each row in spans goes as it says", each_row_goes_as_it_says},
    {"each cutting into three goes", each_cutting_into_three_goes},
    {"numbers in spans begin again after 255", numbers_begin_again_after_255},
    {"generated streams in spans are as the whole", generated_streams_are_as_the_whole},
    {"a packet of full chunks is one", a_packet_of_full_chunks_is_one},
    {"packets of 64 MiB come without memory", packets_of_64_mib_come_without_memory},
    {"a larger limit goes on", a_larger_limit_goes_on},
    {"another number stays", another_number_stays},
    {"records of no stream are refused", records_of_no_stream_are_refused},
    {"any record is answered", any_record_is_answered},
    {"renumbering is as the plain loop", renumbering_is_as_the_plain_loop},
    {NULL, NULL},
};
