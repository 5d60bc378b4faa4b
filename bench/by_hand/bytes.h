/*
 * Bytes that lie somewhere, numbers among them, and a buffer that grows.
 *
 * All input is known to be well formed, memory is never refused, and nothing is checked. The reads
 * of a text may go up to 48 bytes past its end, and so may the writes of one: there is room.
 *
 * Compiled with TESTED, `answers`, `statements`, `server` and `dump` make the tests that a library
 * makes that trusts nobody: of the room for what is put, of the bytes for what is taken, of a
 * packet's length and id. No byte of a caller's is read or written past a text's end.
 */
#pragma once

#include <stdbool.h>
#include <stdint.h>
#include <stdlib.h>
#include <string.h>

enum { PAST_END = 48 };

/* Compiled into each of its few callers, for the constants that they give. */
#define INLINE static inline __attribute__((always_inline))

#ifdef TESTED
enum { IS_TESTED = true };
#else
enum { IS_TESTED = false };
#endif

/* Where the room for what is put ends, and the bytes that are taken. */
static const uint8_t *room_end __attribute__((unused));
static const uint8_t *bytes_end __attribute__((unused));

INLINE void test(bool holds)
{
    if (IS_TESTED && __builtin_expect(!holds, false))
        abort();
}

/* Whether this many bytes stand from here to an end. */
INLINE void test_bytes(const uint8_t *from, const uint8_t *end, size_t count)
{
    test((size_t)(end - from) >= count);
}

/* A text; without bytes it is NULL. */
typedef struct {
    const uint8_t *bytes;
    size_t len;
} Text;

static inline size_t smaller(size_t a, size_t b)
{
    return a < b ? a : b;
}

/* A number of so many bytes, the lowest first. */
INLINE uint64_t load(const uint8_t *from, size_t width)
{
    uint64_t number = 0;
    memcpy(&number, from, width);
    return number;
}

/* Puts a number's lowest bytes, and gives the place behind. */
INLINE uint8_t *put(uint8_t *to, uint64_t number, size_t width)
{
    test_bytes(to, room_end, width);
    memcpy(to, &number, width);
    return to + width;
}

typedef struct {
    uint8_t *bytes;
    size_t len, room;
} Buffer;

/* The buffer's end, behind which there is room for this many bytes. */
static inline uint8_t *buffer_end(Buffer *buffer, size_t more)
{
    if (buffer->room - buffer->len < more) {
        buffer->room = 2 * buffer->room + more;
        buffer->bytes = realloc(buffer->bytes, buffer->room);
    }
    return buffer->bytes + buffer->len;
}

/* What was put behind the buffer's end, up to here, is the buffer's. */
static inline void buffer_grow(Buffer *buffer, const uint8_t *end)
{
    buffer->len = (size_t)(end - buffer->bytes);
}

static inline void buffer_put(Buffer *buffer, const void *bytes, size_t len)
{
    memcpy(buffer_end(buffer, len), bytes, len);
    buffer->len += len;
}
