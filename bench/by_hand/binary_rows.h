/*
 * Values in their binary form, and rows of ten of them: how they are drawn, put into a payload, and
 * taken out of one.
 */
#pragma once

#include "draws.h"
#include "framing.h"
#include "payload.h"

/* The types of a statement's parameters and of a row's columns, by MySQL's numbers. */
enum { TINY = 1, SHORT = 2, LONG = 3, DOUBLE = 5, LONGLONG = 8, TIME = 11, DATETIME = 12 };
enum { DECIMAL = 246, VAR_STRING = 253 };

enum { VALUES = 10 };
static const uint8_t VALUE_TYPES[VALUES] = {LONGLONG, VAR_STRING, LONG, DATETIME, DOUBLE,
                                            VAR_STRING, TINY, TIME, SHORT, DECIMAL};

/* What stands before a row's values, and room for a row or a statement. */
enum { ROW_HEAD = 3, VALUES_ROOM = 512 };

/* These lie as they are sent. */
typedef struct {
    uint8_t hour, minute, second;
} Clock;

/* A date, of which so many bytes are sent: none, or 4, 7 or 11, up to the day, the second, all. */
typedef struct __attribute__((packed)) {
    uint8_t size;
    uint16_t year;
    uint8_t month, day;
    Clock clock;
    uint32_t micros;
} Date;

/* A span of time, of which this many bytes are sent: 0, 8 or 12. */
typedef struct __attribute__((packed)) {
    uint8_t size, sign;
    uint32_t days;
    Clock clock;
    uint32_t micros;
} Span;

static inline Clock draw_clock(Draws *draws)
{
    Clock clock;
    clock.hour = draw_byte(draws) % 24;
    clock.minute = draw_byte(draws) % 60;
    clock.second = draw_byte(draws) % 60;
    return clock;
}

static inline Date draw_date(Draws *draws)
{
    Date date = {0};
    date.year = (uint16_t)(1970 + draw_byte(draws));
    date.month = 1 + draw_byte(draws) % 12;
    date.day = 1 + draw_byte(draws) % 28;
    size_t kind = draw_below(draws, 8);
    date.size = kind == 0 ? 0 : kind < 3 ? 4 : kind == 3 ? 11 : 7;
    if (kind >= 3)
        date.clock = draw_clock(draws);
    if (kind == 3)
        date.micros = draw_byte(draws);
    return date;
}

static inline Span draw_span(Draws *draws)
{
    Span span = {0};
    span.sign = draw_byte(draws) % 2;
    span.days = draw_byte(draws);
    span.clock = draw_clock(draws);
    size_t kind = draw_below(draws, 8);
    span.size = kind == 0 ? 0 : kind == 1 ? 12 : 8;
    if (kind == 1)
        span.micros = draw_byte(draws);
    return span;
}

static inline Text draw_short_text(Draws *draws)
{
    size_t len = draw_below(draws, 30);
    return draw_text(draws, PLAIN, len);
}

/* All parts are put; those that are not sent lie behind the end. */
static inline uint8_t *put_date(uint8_t *to, Date date)
{
    test_bytes(to, room_end, sizeof date);
    memcpy(to, &date, sizeof date);
    return to + 1 + date.size;
}

static inline uint8_t *put_span(uint8_t *to, Span span)
{
    test_bytes(to, room_end, sizeof span);
    memcpy(to, &span, sizeof span);
    return to + 1 + span.size;
}

/* Copies what is taken, where it is there. */
INLINE void take_into(void *value, const uint8_t *from, size_t size)
{
    test_bytes(from, bytes_end, size);
    memcpy(value, from, size);
}

/* A date or a span, of which just what is sent is read: its size, and so many bytes behind it. */
INLINE void take_sent(void *value, const uint8_t *from, size_t least, size_t usual, size_t most)
{
    test_bytes(from, bytes_end, 1);
    size_t size = *from;
    if (size == usual)
        take_into(value, from, 1 + usual);
    else if (size == least)
        take_into(value, from, 1 + least);
    else if (size == most)
        take_into(value, from, 1 + most);
    else
        test(size == 0);
}

/* What is not sent is read from what lies behind, and not used. */
static inline Date take_date(const uint8_t **from)
{
    Date date = {0};
    if (IS_TESTED)
        take_sent(&date, *from, 4, 7, 11);
    else
        memcpy(&date, *from, sizeof date);
    *from += 1 + date.size;
    return date;
}

static inline Span take_span(const uint8_t **from)
{
    Span span = {0};
    if (IS_TESTED)
        take_sent(&span, *from, 8, 8, 12);
    else
        memcpy(&span, *from, sizeof span);
    *from += 1 + span.size;
    return span;
}

/* How many bytes a number of a type has. */
INLINE size_t width_of(uint8_t type)
{
    static const uint8_t widths[] = {
        [TINY] = 1, [SHORT] = 2, [LONG] = 4, [DOUBLE] = 8, [LONGLONG] = 8};
    return widths[type];
}

/* A word's bytes that a number of a type has. */
INLINE uint64_t cut(uint64_t word, uint8_t type)
{
    return word & UINT64_MAX >> (64 - 8 * width_of(type));
}

/* A number of 1, 2, 4 or 8 bytes, of which no other is read. */
INLINE uint64_t load_just(const uint8_t *from, size_t width)
{
    switch (width) {
    case 1:
        return *from;
    case 2:
        return load(from, 2);
    case 4:
        return load(from, 4);
    default:
        return load(from, 8);
    }
}

/* A number of a type, which is taken. */
INLINE uint64_t take_number(const uint8_t **from, uint8_t type)
{
    test_bytes(*from, bytes_end, width_of(type));
    uint64_t number = IS_TESTED ? load_just(*from, width_of(type)) : cut(load(*from, 8), type);
    *from += width_of(type);
    return number;
}

/* Draws a value of a type, and puts it; more of a number's word lies behind it. */
INLINE uint8_t *draw_into(uint8_t *to, Draws *draws, uint8_t type)
{
    switch (type) {
    case DATETIME:
        return put_date(to, draw_date(draws));
    case TIME:
        return put_span(to, draw_span(draws));
    case DECIMAL:
    case VAR_STRING:
        return put_text(to, draw_short_text(draws));
    default:
        put(to, draw_word(draws), IS_TESTED ? width_of(type) : 8);
        return to + width_of(type);
    }
}

/* Puts ten values, of which one in twenty is NULL: its bit is set, the first one's being `bit`. */
INLINE uint8_t *put_values(uint8_t *restrict to, uint16_t *restrict nulls, uint16_t bit,
                           Draws *restrict draws)
{
    Draws local = *draws;
    uint16_t bits = 0;
#pragma GCC unroll 10
    for (int place = 0; place < VALUES; place++, bit *= 2) {
        if (draw_below(&local, 20) == 0)
            bits |= bit;
        else
            to = draw_into(to, &local, VALUE_TYPES[place]);
    }
    *draws = local;
    *nulls = bits;
    return to;
}

/* Frames a row from an id on, and gives the next id. */
static inline uint8_t make_binary_row(Buffer *stream, uint8_t id, Draws *draws, bool is_own)
{
    uint8_t payload[VALUES_ROOM];
    uint16_t nulls;
    room_end = payload + sizeof payload;
    uint8_t *end = put_values(payload + ROW_HEAD, &nulls, 4, draws);
    put(put(payload, 0, 1), nulls, 2);
    return frame(stream, id, payload, end, is_own);
}
