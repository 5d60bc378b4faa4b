/*
 * Packets in a stream: chunks of up to 0xffffff bytes, each behind its length and its id. A stream
 * comes by reads, each of which is appended to a receive buffer, where packets are lent.
 */
#pragma once

#include "bytes.h"

enum { HEADER = 4, FULL_CHUNK = 0xffffff, LIMIT = 1 << 26 };

static inline size_t chunk_len(const uint8_t *header)
{
    return load(header, 4) & FULL_CHUNK;
}

static inline void frame_chunk(Buffer *out, uint8_t id, const uint8_t *bytes, size_t len)
{
    uint8_t *to = buffer_end(out, HEADER + len);
    uint32_t header = (uint32_t)(len | (size_t)id << 24);
    memcpy(to, &header, HEADER);
    memcpy(to + HEADER, bytes, len);
    out->len += HEADER + len;
}

/* Frames the payload up to this end from an id on, and gives the next id. For a job's own making,
 * the stream gets longer, and that is all. */
static inline uint8_t frame(Buffer *out, uint8_t id, const uint8_t *payload, const uint8_t *end,
                            bool is_own)
{
    if (is_own) {
        out->len += HEADER + (size_t)(end - payload);
        return id;
    }
    test((size_t)(end - payload) <= LIMIT);
    for (; end - payload >= FULL_CHUNK; payload += FULL_CHUNK)
        frame_chunk(out, id++, payload, FULL_CHUNK);
    frame_chunk(out, id++, payload, (size_t)(end - payload));
    return id;
}

typedef struct {
    const uint8_t *stream; /* what is still to come */
    size_t left;
    size_t step; /* how many bytes come at a read, at most */
    uint8_t *bytes;
    size_t room, begin, end; /* what is unread lies from `begin` to `end` */
    uint8_t next_id;
} Receiver;

enum { READER_STEP = 8192 };

/* A receive buffer at a stream's begin. It is made in a file of its own, so that the compiler knows
 * no bound of a step: it would copy word by word what memcpy copies faster. */
Receiver receiver_of(const Buffer *stream, size_t step);

/* The same by a packet reader, which asks a read for no more than 8,192 bytes. */
static inline Receiver reader_of(const Buffer *stream, size_t step)
{
    return receiver_of(stream, smaller(step, READER_STEP));
}

/* How many bytes come at a read, by turns. */
static inline size_t step_of(size_t turn)
{
    static const size_t steps[] = {1460, 8192, 65536};
    return steps[turn % 3];
}

static inline uint8_t *unread(const Receiver *receiver)
{
    return receiver->bytes + receiver->begin;
}

static inline size_t unread_len(const Receiver *receiver)
{
    return receiver->end - receiver->begin;
}

/* Moves what is unread to the front; where a step has no room then, the buffer grows. */
static inline void make_room(Receiver *receiver)
{
    size_t len = unread_len(receiver);
    memmove(receiver->bytes, unread(receiver), len);
    receiver->begin = 0;
    receiver->end = len;
    if (receiver->room - len < receiver->step) {
        receiver->room *= 2;
        receiver->bytes = realloc(receiver->bytes, receiver->room + PAST_END);
    }
}

/* Reads once; false where nothing is left. */
static inline bool receive(Receiver *receiver)
{
    size_t len = smaller(receiver->left, receiver->step);
    if (receiver->room - receiver->end < len)
        make_room(receiver);
    memcpy(receiver->bytes + receiver->end, receiver->stream, len);
    receiver->stream += len;
    receiver->left -= len;
    receiver->end += len;
    return len > 0;
}

/* Reads until this many bytes are unread; false where they do not come. */
static inline bool receive_at_least(Receiver *receiver, size_t len)
{
    while (unread_len(receiver) < len) {
        if (!receive(receiver))
            return false;
    }
    return true;
}

/* The packet in front, of one chunk, lent until the next read; NULL at the stream's end. */
static inline Text next_packet(Receiver *receiver)
{
    if (!receive_at_least(receiver, HEADER))
        return (Text){0};
    size_t len = chunk_len(unread(receiver));
    test(len <= LIMIT && unread(receiver)[3] == receiver->next_id++);
    receive_at_least(receiver, HEADER + len);
    Text packet = {unread(receiver) + HEADER, len};
    receiver->begin += HEADER + len;
    return packet;
}
