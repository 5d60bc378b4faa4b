/*
 * A proxy passes streams on: with other ids in place, packet by packet through a writer, and their
 * payloads alone.
 */
#include "jobs.h"
#include "streams.h"

/* Where in a stream a walk over its pieces is. */
typedef struct {
    size_t left; /* how many bytes of the open chunk are to come */
    uint8_t header[HEADER];
    uint8_t came; /* how many bytes came of the next header, which is not whole */
} Walk;

/* Takes the header in front; false where the piece ends before it is whole. */
static inline bool take_header(Walk *walk, const uint8_t **at, const uint8_t *end)
{
    if (walk->came == 0 && end - *at >= HEADER) {
        memcpy(walk->header, *at, HEADER);
        *at += HEADER;
    } else {
        while (walk->came < HEADER && *at < end)
            walk->header[walk->came++] = *(*at)++;
        if (walk->came < HEADER)
            return false;
        walk->came = 0;
    }
    walk->left = chunk_len(walk->header);
    return true;
}

/* Goes on to the chunk's or the piece's end; gives how many bytes these are. */
static inline size_t take_span(Walk *walk, const uint8_t **at, const uint8_t *end)
{
    size_t span = smaller(walk->left, (size_t)(end - *at));
    *at += span;
    walk->left -= span;
    return span;
}

/* Folds how long each span of a piece is, and the id that follows each packet. */
static void look(Walk *walk, const uint8_t *at, size_t len, Digest *digest)
{
    const uint8_t *end = at + len;
    while (at < end) {
        if (walk->left == 0 && !take_header(walk, &at, end))
            return;
        if (walk->left > 0 && at == end)
            return;
        digest_add(digest, take_span(walk, &at, end));
        if (walk->left == 0 && chunk_len(walk->header) < FULL_CHUNK)
            digest_add(digest, (uint8_t)(walk->header[HEADER - 1] + 1));
    }
}

/* Gives the chunks of a piece other ids, and answers the next one. */
static uint8_t renumber(Walk *walk, uint8_t *piece, size_t len, uint8_t id)
{
    const uint8_t *at = piece;
    const uint8_t *end = piece + len;
    while (at < end) {
        if (walk->left == 0) {
            if (!take_header(walk, &at, end))
                return id;
            piece[at - piece - 1] = id++;
        }
        take_span(walk, &at, end);
    }
    return id;
}

/* Looked at in pieces, and sent on with other ids. */
static uint64_t renumbered(const Buffer *stream, size_t step)
{
    Walk seen = {0}, sent = {0};
    uint8_t id = 7;
    Digest digest = {0};
    uint8_t *piece = malloc(step);
    for (size_t at = 0; at < stream->len; at += step) {
        size_t len = smaller(step, stream->len - at);
        memcpy(piece, stream->bytes + at, len);
        look(&seen, piece, len, &digest);
        id = renumber(&sent, piece, len, id);
        digest_words(&digest, piece, len);
        digest_last(&digest, piece, len);
    }
    free(piece);
    return digest_value(&digest);
}

/* Lends what is unread, up to this many bytes. */
static inline Text take_part(Receiver *receiver, size_t most)
{
    Text part = {unread(receiver), smaller(unread_len(receiver), most)};
    receiver->begin += part.len;
    return part;
}

/* Passes on a chunk with its header; what waits is written before a read. */
static inline void relay_chunk(Receiver *receiver, Output *output, size_t left)
{
    for (;;) {
        Text part = take_part(receiver, left);
        buffer_put(&output->pending, part.bytes, part.len);
        left -= part.len;
        if (left == 0)
            return;
        write_pending(output);
        receive(receiver);
    }
}

/* Passed on by a reader and a writer, which writes once for 16 packets. */
static uint64_t relayed(const Buffer *stream, size_t step)
{
    Receiver receiver = reader_of(stream, step);
    Output output = {0};
    uint8_t id = 9;
    size_t count = 0;
    while (receive_at_least(&receiver, HEADER)) {
        size_t len = chunk_len(unread(&receiver));
        unread(&receiver)[HEADER - 1] = id++;
        relay_chunk(&receiver, &output, HEADER + len);
        count += len < FULL_CHUNK;
        if (count % 16 == 0)
            write_pending(&output);
    }
    free(receiver.bytes);
    return finish(&output);
}

/* The payloads alone, written from where they lie. */
static uint64_t copied(const Buffer *stream, size_t step)
{
    Receiver receiver = reader_of(stream, step);
    Output output = {0};
    while (receive_at_least(&receiver, HEADER)) {
        size_t left = chunk_len(unread(&receiver));
        receiver.begin += HEADER;
        while (left > 0) {
            receive_at_least(&receiver, 1);
            Text part = take_part(&receiver, left);
            write_bytes(&output, part.bytes, part.len);
            left -= part.len;
        }
    }
    free(receiver.bytes);
    return finish(&output);
}

/* Passes a stream on by three ways, which digest all of its bytes twice, and then its payloads. */
static void pass(Digest *digest, const Buffer *stream, const Letters *letters, size_t turn,
                 bool is_own)
{
    if (is_own) {
        digest_like(digest, letters, 3 * stream->len);
    } else {
        Digest passed = {0};
        digest_add(&passed, renumbered(stream, step_of(turn)));
        digest_add(&passed, relayed(stream, step_of(turn + 1)));
        digest_add(&passed, copied(stream, step_of(turn + 2)));
        digest_add(digest, digest_value(&passed));
    }
}

/* How many packets of about how many bytes a round's streams have, the last but in one round of
 * four; the first round has one of two full chunks, too. */
enum { SIZES = 4 };
static const size_t sizes[SIZES][2] = {{6000, 16}, {6000, 150}, {6000, 300}, {1, 3000000}};

uint64_t pass_on(Draws *draws, size_t rounds, bool is_own)
{
    Digest digest = {0};
    Buffer stream = {0};
    for (size_t round = 0; round < rounds; round++) {
        for (size_t i = 0; i < (round % 4 == 0 ? SIZES : SIZES - 1); i++) {
            make_stream(&stream, draws, sizes[i][1] / 2, sizes[i][1], sizes[i][0], is_own);
            pass(&digest, &stream, draws->letters, round, is_own);
        }
        if (round == 0) {
            make_stream(&stream, draws, 2 * FULL_CHUNK, 0, 1, is_own);
            pass(&digest, &stream, draws->letters, round, is_own);
        }
    }
    free(stream.bytes);
    return digest_value(&digest);
}
