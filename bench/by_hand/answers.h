/*
 * Answers to queries: definitions of columns, rows of texts, and what ends both.
 */
#pragma once

#include "digest.h"
#include "framing.h"
#include "payload.h"

enum { END_LEN = 5 };
#define END_OF_ROWS ((Text){(const uint8_t *)"\xfe\0\0\2\0", END_LEN})

/* The names of a definition, as they follow one another behind the catalog's. */
enum { SCHEMA, TABLE, ORG_TABLE, NAME, ORG_NAME, DEFINITION_NAMES };

typedef struct {
    Text names[DEFINITION_NAMES];
    uint32_t column_length;
    uint16_t flags;
} Definition;

static inline Text draw_name(Draws *draws)
{
    size_t len = 3 + draw_below(draws, 9);
    return draw_text(draws, PLAIN, len);
}

static inline Definition draw_definition(Draws *draws)
{
    Definition definition;
    definition.names[TABLE] = draw_name(draws);
    definition.names[NAME] = draw_name(draws);
    definition.names[SCHEMA] = draw_name(draws);
    definition.names[ORG_TABLE] = draw_text(draws, PLAIN, 8);
    definition.names[ORG_NAME] = draw_text(draws, PLAIN, 8);
    definition.column_length = (uint32_t)(255 + draw_below(draws, 1000));
    definition.flags = draw_byte(draws);
    return definition;
}

static inline uint8_t *put_definition(uint8_t *to, const Definition *definition)
{
    test_bytes(to, room_end, 4);
    memcpy(to, "\3def", 4);
    to += 4;
    for (int i = 0; i < DEFINITION_NAMES; i++)
        to = put_text(to, definition->names[i]);
    to = put(put(to, 0x0c, 1), 45, 2);
    to = put(put(to, definition->column_length, 4), 0xfd, 1);
    return put(put(to, definition->flags, 2), 0, 3);
}

/* How many columns a drawn answer has. */
static inline size_t draw_columns(Draws *draws)
{
    return 5 + draw_below(draws, 16);
}

/* How long a text of a column is: mostly below 40 bytes, and in the first one up to 4,095. */
INLINE size_t draw_text_len(Draws *draws, size_t column)
{
    size_t len = draw_below(draws, 40);
    if (column > 0)
        return len;
    size_t kind = draw_below(draws, 64);
    if (kind == 0)
        return 300 + draw_below(draws, 3796);
    return kind < 5 ? 251 + draw_below(draws, 50) : len;
}

static inline Script script_of(size_t column)
{
    switch (column % 8) {
    case 5:
        return QUOTED;
    case 6:
        return WIDE;
    default:
        return PLAIN;
    }
}

/* A value of a column; one in twenty is NULL. */
INLINE Text draw_value(Draws *draws, size_t column)
{
    if (draw_below(draws, 20) == 0)
        return (Text){0};
    size_t len = draw_text_len(draws, column);
    return draw_text(draws, script_of(column), len);
}

/* Room for a definition, or a row of this many columns. */
static inline size_t row_room(size_t columns)
{
    return LONGEST_TEXT + columns * 41 + 2 * PAST_END;
}

/* Puts a row of this many columns, or a short one, whose values all are as the second column's. For
 * a job's own making, they are drawn and passed. */
static inline uint8_t *put_row(uint8_t *restrict to, Draws *restrict draws, size_t columns,
                               bool is_short, bool is_own)
{
    Draws local = *draws;
    for (size_t column = 0; column < columns; column++) {
        Text value = draw_value(&local, is_short ? 1 : column);
        to = is_own ? pass_text(to + 1, value) : put_value(to, value);
    }
    *draws = local;
    return to;
}

/* Puts an answer of this many rows into the stream, framed from id 0 on. */
static inline void make_answer(Buffer *stream, Draws *draws, size_t columns, size_t rows,
                               bool is_own)
{
    uint8_t *payload = malloc(row_room(columns));
    room_end = payload + row_room(columns);
    uint8_t id = frame(stream, 0, payload, put_lenenc(payload, columns), is_own);
    for (size_t column = 0; column < columns; column++) {
        Definition definition = draw_definition(draws);
        id = frame(stream, id, payload, put_definition(payload, &definition), is_own);
    }
    id = frame(stream, id, END_OF_ROWS.bytes, END_OF_ROWS.bytes + END_LEN, is_own);
    for (size_t row = 0; row < rows; row++) {
        uint8_t *end = is_own ? put_row(payload, draws, columns, false, true)
                              : put_row(payload, draws, columns, false, false);
        id = frame(stream, id, payload, end, is_own);
    }
    frame(stream, id, END_OF_ROWS.bytes, END_OF_ROWS.bytes + END_LEN, is_own);
    free(payload);
}
