/*
 * Statements are executed with parameters, each is answered by ten rows in binary, and all are read
 * from a stream that comes in pieces.
 */
#include "binary_rows.h"
#include "jobs.h"

enum { STATEMENTS = 200, ROWS = 10, EXECUTE = 0x17, EXECUTE_HEAD = 33 };

/* The types of a statement's parameters, each followed by its flags. */
static const uint8_t bound[2 * VALUES] = {LONGLONG, 0, VAR_STRING, 0, LONG, 0, DATETIME, 0,
                                          DOUBLE, 0, VAR_STRING, 0, TINY, 128, TIME, 0,
                                          SHORT, 0, DECIMAL, 0};

/* Frames a statement that is executed. */
static uint8_t make_execute(Buffer *stream, uint8_t id, Draws *draws)
{
    uint8_t payload[VALUES_ROOM];
    uint16_t nulls;
    room_end = payload + sizeof payload;
    uint8_t *end = put_values(payload + EXECUTE_HEAD, &nulls, 1, draws);
    uint8_t *to = put(put(payload, EXECUTE, 1), draw_byte(draws), 4);
    to = put(put(to, 0, 1), 1, 4);
    memcpy(put(put(to, nulls, 2), 1, 1), bound, sizeof bound);
    return frame(stream, id, payload, end, false);
}

static void make_stream(Buffer *stream, Draws *draws)
{
    uint8_t id = 0;
    for (int statement = 0; statement < STATEMENTS; statement++) {
        id = make_execute(stream, id, draws);
        for (int row = 0; row < ROWS; row++)
            id = make_binary_row(stream, id, draws, false);
    }
}

static inline uint64_t clock_number(Clock clock)
{
    return (uint64_t)(65536 * clock.hour + 256 * clock.minute + clock.second);
}

static inline void tell_date(Digest *digest, Date date)
{
    if (date.size == 0) {
        digest_add(digest, 2);
        return;
    }
    digest_add(digest, 65536 * (uint64_t)date.year + 256 * date.month + date.day);
    if (date.size > 4)
        digest_add(digest, clock_number(date.clock));
    if (date.size > 7)
        digest_add(digest, date.micros);
}

static inline void tell_span(Digest *digest, Span span)
{
    if (span.size == 0) {
        digest_add(digest, 3);
        return;
    }
    digest_add(digest, 2 * (uint64_t)span.days + span.sign);
    digest_add(digest, clock_number(span.clock));
    if (span.size > 8)
        digest_add(digest, span.micros);
}

/* Tells a value of a type, which is drawn where there are draws, and else taken. */
INLINE void tell_value(Digest *digest, Draws *draws, const uint8_t **from, uint8_t type)
{
    if (type == DATETIME)
        tell_date(digest, draws ? draw_date(draws) : take_date(from));
    else if (type == TIME)
        tell_span(digest, draws ? draw_span(draws) : take_span(from));
    else if (type == DECIMAL || type == VAR_STRING)
        digest_text(digest, draws ? draw_short_text(draws) : take_text(from));
    else
        digest_add(digest, draws ? cut(draw_word(draws), type) : take_number(from, type));
}

/* Tells ten values, whose types stand `step` bytes apart; the first one's bit is the lowest. */
INLINE void tell_values(Digest *digest, Draws *draws, const uint8_t *from, uint64_t nulls,
                        const uint8_t *types, size_t step)
{
    Digest local = *digest;
#pragma GCC unroll 10
    for (int place = 0; place < VALUES; place++, nulls >>= 1, types += step) {
        if (draws ? draw_below(draws, 20) == 0 : nulls & 1)
            digest_add(&local, 1);
        else
            tell_value(&local, draws, &from, *types);
    }
    *digest = local;
}

/* A value of any type, as a library hands it out. */
typedef struct {
    enum { NUMBER, DATE, SPAN, TEXT } kind;
    union {
        uint64_t number;
        Date date;
        Span span;
        Text text;
    };
} Value;

static inline Value take_any(const uint8_t **from, uint8_t type)
{
    switch (type) {
    case DATETIME:
        return (Value){.kind = DATE, .date = take_date(from)};
    case TIME:
        return (Value){.kind = SPAN, .span = take_span(from)};
    case DECIMAL:
    case VAR_STRING:
        return (Value){.kind = TEXT, .text = take_text(from)};
    case TINY:
        return (Value){.kind = NUMBER, .number = take_number(from, TINY)};
    case SHORT:
        return (Value){.kind = NUMBER, .number = take_number(from, SHORT)};
    case LONG:
        return (Value){.kind = NUMBER, .number = take_number(from, LONG)};
    default:
        test(type == LONGLONG || type == DOUBLE);
        return (Value){.kind = NUMBER, .number = take_number(from, LONGLONG)};
    }
}

static void tell_any(Digest *digest, const Value *value)
{
    switch (value->kind) {
    case DATE:
        tell_date(digest, value->date);
        break;
    case SPAN:
        tell_span(digest, value->span);
        break;
    case TEXT:
        digest_text(digest, value->text);
        break;
    default:
        digest_add(digest, value->number);
    }
}

/* The same as `tell_values`, of values that are taken one by one, each by the type that stands at
 * its place when it is taken, as the job does. */
static void tell_each(Digest *digest, const uint8_t *from, const uint8_t *nulls, unsigned bit,
                      const uint8_t *types, size_t step)
{
    for (int place = 0; place < VALUES; place++, bit++, types += step) {
        if (nulls[bit / 8] >> bit % 8 & 1) {
            digest_add(digest, 1);
        } else {
            Value value = take_any(&from, *types);
            tell_any(digest, &value);
        }
    }
    test(from == bytes_end);
}

static void read_tested(Digest *digest, const uint8_t *payload)
{
    test_bytes(payload, bytes_end, ROW_HEAD);
    if (payload[0] == EXECUTE) {
        test_bytes(payload, bytes_end, EXECUTE_HEAD);
        digest_add(digest, load(payload + 1, 4));
        tell_each(digest, payload + EXECUTE_HEAD, payload + 10, 0, payload + 13, 2);
    } else {
        tell_each(digest, payload + ROW_HEAD, payload + 1, 2, VALUE_TYPES, 1);
    }
}

static void read_packet(Digest *digest, const uint8_t *payload)
{
    if (IS_TESTED) {
        read_tested(digest, payload);
    } else if (payload[0] == EXECUTE) {
        digest_add(digest, load(payload + 1, 4));
        tell_values(digest, NULL, payload + EXECUTE_HEAD, load(payload + 10, 2), payload + 13, 2);
    } else {
        tell_values(digest, NULL, payload + ROW_HEAD, load(payload + 1, 2) >> 2, VALUE_TYPES, 1);
    }
}

/* Makes a stream, and reads it, of which this many bytes come at a time; each packet has memory of
 * its own. */
static uint64_t execute(Draws *draws, size_t step)
{
    Digest digest = {0};
    Buffer stream = {0}, packet = {0};
    make_stream(&stream, draws);
    Receiver receiver = receiver_of(&stream, step);
    for (Text lent; (lent = next_packet(&receiver)).bytes;) {
        memcpy(buffer_end(&packet, lent.len + PAST_END), lent.bytes, lent.len);
        bytes_end = packet.bytes + lent.len;
        read_packet(&digest, packet.bytes);
    }
    free(receiver.bytes);
    free(packet.bytes);
    free(stream.bytes);
    return digest_value(&digest);
}

/* The values of a stream that is not made. A statement's id is told after them. */
static uint64_t tell(Draws *draws)
{
    Digest digest = {0};
    Draws local = *draws;
    for (int packet = 0; packet < STATEMENTS * (1 + ROWS); packet++) {
        tell_values(&digest, &local, NULL, 0, VALUE_TYPES, 1);
        if (packet % (1 + ROWS) == 0)
            digest_add(&digest, draw_byte(&local));
    }
    *draws = local;
    return digest_value(&digest);
}

uint64_t execute_statements(Draws *draws, size_t rounds, bool is_own)
{
    Digest digest = {0};
    for (size_t round = 0; round < rounds; round++)
        digest_add(&digest, is_own ? tell(draws) : execute(draws, step_of(round)));
    return digest_value(&digest);
}
