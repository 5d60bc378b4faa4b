/*
 * The lines of a dump, of what a server sends: a packet's head, and the fields of a definition, of
 * a row of texts, of a row in binary, and of other words. There is room for them, as in `lines.h`.
 */
#pragma once

#include "binary_rows.h"
#include "lines.h"

/* (a payload that is shorter than SHORT_PAYLOAD is no row) */
enum { MOST_COLUMNS = 20, NAMES = 13, STATISTICS = NAMES - 1, SHORT_PAYLOAD = 9 };

/* Some letters, and how many they are. */
typedef struct {
    char letters[39];
    uint8_t len;
} Words;

typedef struct {
    char letters[15];
    uint8_t len;
} Place;

/* What stands before a packet's length, a column's value, and a value with a name: of lines, and of
 * objects of JSON. */
extern Words heads[2][256];
extern Place places[2][MOST_COLUMNS];
extern Words names[2][NAMES];

/* Fills these tables and all that they rest on; comes before all else. */
void fill_dump_tables(void);

/* The fields of a column's definition. */
uint8_t *put_definition_fields(uint8_t *out, const uint8_t *payload, bool is_json);

/* A date and a span of time as people write them, in quotes. */
uint8_t *put_date_text(uint8_t *out, Date date);
uint8_t *put_span_text(uint8_t *out, Span span);

/* The text of a number of these bits, of at most 24 letters, which is neither 0 nor infinite. Its
 * powers of ten are computed first. */
uint8_t *put_double(uint8_t *out, uint64_t bits);
void fill_powers(void);

/* What a packet is. */
#define PUT_KIND(out, is_json, kind) \
    ((is_json) ? PUT(out, ",\"packet\":\"" kind "\"") : PUT(out, " " kind))

/* Room for a packet's lines. */
static inline size_t lines_room(Text packet)
{
    return 128 + 48 * MOST_COLUMNS + 6 * packet.len;
}

INLINE uint8_t *put_words(uint8_t *out, const Words *words)
{
    memcpy(out, words, sizeof *words);
    return out + words->len;
}

INLINE uint8_t *put_place(uint8_t *out, int place, bool is_json)
{
    const Place *before = &places[is_json][place];
    memcpy(out, before, sizeof *before);
    return out + before->len;
}

/* The head of a packet's line, up to its length. */
INLINE uint8_t *put_head(uint8_t *out, Text packet, bool is_json)
{
    return put_decimal(put_words(out, &heads[is_json][packet.bytes[-1]]), packet.len);
}

/* The end of a line, whose fields are some. */
INLINE uint8_t *put_end(uint8_t *out, bool is_json)
{
    return is_json ? PUT(out, "}}\n") : PUT(out, "\n");
}

INLINE uint8_t *put_statistics(uint8_t *out, Text payload, bool is_json)
{
    return put_quoted(put_words(out, &names[is_json][STATISTICS]), payload, is_json);
}

INLINE uint8_t *put_text_fields(uint8_t *out, const uint8_t *payload, int columns, bool is_json)
{
    for (int place = 0; place < columns; place++) {
        out = put_place(out, place, is_json);
        Text value = take_value(&payload);
        out = value.bytes ? put_quoted(out, value, is_json) : PUT(out, "null");
    }
    return out;
}

/* A value of a type, which is taken. */
INLINE uint8_t *put_binary_value(uint8_t *out, const uint8_t **from, uint8_t type, bool is_json)
{
    switch (type) {
    case DATETIME:
        return put_date_text(out, take_date(from));
    case TIME:
        return put_span_text(out, take_span(from));
    case DECIMAL:
    case VAR_STRING:
        return put_quoted(out, take_text(from), is_json);
    case DOUBLE:
        return put_double(out, take_number(from, type));
    default:
        return put_decimal(out, take_number(from, type));
    }
}

INLINE uint8_t *put_binary_fields(uint8_t *out, const uint8_t *payload, bool is_json)
{
    uint64_t nulls = load(payload + 1, 2) >> 2;
    const uint8_t *from = payload + ROW_HEAD;
    for (int place = 0; place < VALUES; place++, nulls >>= 1) {
        out = put_place(out, place, is_json);
        if (nulls & 1)
            out = PUT(out, "null");
        else
            out = put_binary_value(out, &from, VALUE_TYPES[place], is_json);
    }
    return out;
}
