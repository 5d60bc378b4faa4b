/*
 * Packets of standard input, which is read 64 KiB at once into a buffer where each packet lies as
 * it came, and what waits for standard output, which is written where it is 64 KiB. Memory is not
 * freed before the end.
 */
#pragma once

#include "framing.h"

#include <unistd.h>

enum { AT_ONCE = 65536 };

/* What is read: whole packets up to `whole`, and behind them the chunks that came of the next. */
typedef struct {
    Buffer buffer;
    size_t begin;
    size_t whole;
    size_t chunk; /* where the first chunk that has not come whole begins */
    uint8_t next_id;
} Input;

/* Reads once more; false at the end. What is unread goes to the front where there is no room. */
static inline bool read_more(Input *input)
{
    Buffer *buffer = &input->buffer;
    if (input->begin > 0 && buffer->room - buffer->len < AT_ONCE + PAST_END) {
        buffer->len -= input->begin;
        input->whole -= input->begin;
        input->chunk -= input->begin;
        memmove(buffer->bytes, buffer->bytes + input->begin, buffer->len);
        input->begin = 0;
    }
    ssize_t count = read(STDIN_FILENO, buffer_end(buffer, AT_ONCE + PAST_END), AT_ONCE);
    buffer->len += count > 0 ? (size_t)count : 0;
    return count > 0;
}

/* Goes on to the end of the next packet, and may number its chunks; false where it is not whole. */
INLINE bool pass_packet(Input *input, bool is_numbered)
{
    for (;;) {
        uint8_t *header = input->buffer.bytes + input->chunk;
        size_t left = input->buffer.len - input->chunk;
        if (left < HEADER || left - HEADER < chunk_len(header))
            return false;
        if (is_numbered)
            header[HEADER - 1] = input->next_id++;
        input->chunk += HEADER + chunk_len(header);
        if (chunk_len(header) < FULL_CHUNK) {
            input->whole = input->chunk;
            return true;
        }
    }
}

static inline void write_all(const uint8_t *bytes, size_t len)
{
    while (len > 0) {
        ssize_t count = write(STDOUT_FILENO, bytes, len);
        if (count <= 0)
            _exit(2);
        bytes += count;
        len -= (size_t)count;
    }
}

/* Writes lines where they are no fewer bytes than this. */
static inline void write_from(Buffer *lines, size_t least)
{
    if (lines->len >= least) {
        write_all(lines->bytes, lines->len);
        lines->len = 0;
    }
}
