/*
 * The parts of a payload that have no fixed length: each is put, and the place behind it given, or
 * taken from a place that goes on.
 */
#pragma once

#include "bytes.h"

enum { NULL_MARK = 0xfb };

/* A number of 1, 3, 4 or 9 bytes, whichever are enough. */
static inline uint8_t *put_lenenc(uint8_t *to, uint64_t number)
{
    if (number < 251)
        return put(to, number, 1);
    if (number < 1 << 16)
        return put(put(to, 0xfc, 1), number, 2);
    if (number < 1 << 24)
        return put(to, number << 8 | 0xfd, 4);
    return put(put(to, 0xfe, 1), number, 8);
}

/* A text without its length: 48 bytes for a short one, which are no call. */
static inline uint8_t *put_bytes(uint8_t *restrict to, Text text)
{
    test_bytes(to, room_end, text.len);
    if (text.len <= PAST_END && !IS_TESTED)
        memcpy(to, text.bytes, PAST_END);
    else
        memcpy(to, text.bytes, text.len);
    return to + text.len;
}

static inline uint8_t *put_text(uint8_t *to, Text text)
{
    return put_bytes(put_lenenc(to, text.len), text);
}

/* A text or NULL. */
static inline uint8_t *put_value(uint8_t *to, Text value)
{
    return value.bytes ? put_text(to, value) : put(to, NULL_MARK, 1);
}

static inline uint64_t take_lenenc(const uint8_t **from)
{
    const uint8_t *at = *from;
    test_bytes(at, bytes_end, 1);
    if (*at < 251) {
        *from = at + 1;
        return *at;
    }
    test_bytes(at, bytes_end, 9); /* (long texts are rare: the job has no number behind them) */
    if (*at == 0xfc) {
        *from = at + 3;
        return load(at + 1, 2);
    }
    if (*at == 0xfd) {
        *from = at + 4;
        return load(at, 4) >> 8;
    }
    *from = at + 9;
    return load(at + 1, 8);
}

static inline Text take_text(const uint8_t **from)
{
    size_t len = take_lenenc(from);
    test_bytes(*from, bytes_end, len);
    Text text = {*from, len};
    *from += len;
    return text;
}

static inline Text take_value(const uint8_t **from)
{
    test_bytes(*from, bytes_end, 1);
    if (**from != NULL_MARK)
        return take_text(from);
    ++*from;
    return (Text){0};
}
