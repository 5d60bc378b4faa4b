/*
 * The digest of a job's results: Fletcher's checksum over words of 64 bits. And an output, of which
 * only the digest is kept.
 */
#pragma once

#include "draws.h"

typedef struct {
    uint64_t sum, sums;
} Digest;

static inline void digest_add(Digest *digest, uint64_t word)
{
    digest->sum += word;
    digest->sums += digest->sum;
}

/* Adds the whole words at the front, of which there are many. */
static inline void digest_words(Digest *digest, const uint8_t *bytes, size_t len)
{
    Digest local = *digest;
    const uint8_t *end = bytes + (len & ~(size_t)7);
#pragma GCC unroll 4
    for (; bytes < end; bytes += 8)
        digest_add(&local, load(bytes, 8));
    *digest = local;
}

/* Adds what comes after the last whole word of some bytes, and how many they are. */
static inline void digest_last(Digest *digest, const uint8_t *bytes, size_t len)
{
    uint64_t last = len;
    for (size_t i = len & ~(size_t)7; i < len; i++)
        last = last * 256 + bytes[i];
    digest_add(digest, last);
}

/* Adds a text, and how long it is. */
static inline void digest_text(Digest *digest, Text text)
{
    Digest local = *digest;
    for (size_t i = 0; i < (text.len & ~(size_t)7); i += 8)
        digest_add(&local, load(text.bytes + i, 8));
    digest_last(&local, text.bytes, text.len);
    *digest = local;
}

/* Adds about as many bytes as a job does, out of the letters, for its own making. */
static inline void digest_like(Digest *digest, const Letters *letters, size_t len)
{
    for (; len > sizeof letters->wide; len -= sizeof letters->wide)
        digest_words(digest, letters->wide, sizeof letters->wide);
    digest_words(digest, letters->wide, len);
}

static inline uint64_t digest_value(const Digest *digest)
{
    return digest->sum ^ digest->sums * 0x9e3779b97f4a7c15;
}

/* What waits to be written, and the digest of what was, in whatever pieces it came. */
typedef struct {
    Buffer pending;
    Digest digest;
    uint8_t rest[8]; /* what came after the last whole word */
    size_t rest_len;
} Output;

static inline void write_bytes(Output *output, const uint8_t *bytes, size_t len)
{
    if (output->rest_len > 0) {
        size_t front = smaller(len, 8 - output->rest_len);
        memcpy(output->rest + output->rest_len, bytes, front);
        output->rest_len += front;
        if (output->rest_len < 8)
            return;
        digest_add(&output->digest, load(output->rest, 8));
        bytes += front;
        len -= front;
    }
    digest_words(&output->digest, bytes, len);
    output->rest_len = len & 7;
    memcpy(output->rest, bytes + (len & ~(size_t)7), output->rest_len);
}

static inline void write_pending(Output *output)
{
    if (output->pending.len > 0)
        write_bytes(output, output->pending.bytes, output->pending.len);
    output->pending.len = 0;
}

/* Writes what waits, and gives the digest of all. */
static inline uint64_t finish(Output *output)
{
    write_pending(output);
    free(output->pending.bytes);
    digest_text(&output->digest, (Text){output->rest, output->rest_len});
    return digest_value(&output->digest);
}
