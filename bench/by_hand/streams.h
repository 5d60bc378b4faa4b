/*
 * Streams of packets of letters, which the jobs `proxy` and `streams` make.
 */
#pragma once

#include "draws.h"
#include "framing.h"
#include "payload.h"

/* Puts a payload of this many bytes, or up to two fewer: plain letters, and wide ones at the end.
 * Gives the payload's end. */
INLINE uint8_t *put_letters(uint8_t *to, Draws *draws, size_t len, bool is_own)
{
    for (size_t part = 0; part < len / LONGEST_TEXT; part++) {
        Text text = draw_text(draws, PLAIN, LONGEST_TEXT);
        to = is_own ? pass_text(to, text) : put_bytes(to, text);
    }
    Text text = draw_text(draws, WIDE, len % LONGEST_TEXT);
    return is_own ? pass_text(to, text) : put_bytes(to, text);
}

/* Makes a stream of so many packets, numbered from 0 on, of `least` bytes and a drawn number of
 * more, which is below `spread`; 0 for none. */
static inline void make_stream(Buffer *stream, Draws *draws, size_t least, size_t spread,
                               size_t count, bool is_own)
{
    uint8_t *payload = malloc(least + spread + PAST_END);
    Draws local = *draws;
    uint8_t id = 0;
    stream->len = 0;
    for (; count > 0; count--) {
        size_t len = least + (spread > 0 ? draw_below(&local, spread) : 0);
        id = frame(stream, id, payload, put_letters(payload, &local, len, is_own), is_own);
    }
    *draws = local;
    free(payload);
}
