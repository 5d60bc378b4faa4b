/*
 * Streams of small packets, rows, and large values are shown as lines, and numbered anew.
 */
#include "streams.h"
#include "jobs.h"
#include "lines.h"

enum { SIZES = 4, MUCH = 65536, MOST_HELD_BACK = 8192 };

/* About how many bytes the packets of a stream have, and how many the stream. */
static const size_t sizes[SIZES][2] = {
    {8, 100000}, {60, 600000}, {1000, 6000000}, {300000, 6000000}};

/* The lines of a stream's packets, which are written where there are many. */
static uint64_t shown(const Buffer *stream)
{
    Receiver receiver = receiver_of(stream, READER_STEP);
    Output output = {0};
    for (Text packet; (packet = next_packet(&receiver)).bytes;) {
        uint8_t *to = put_line_head(buffer_end(&output.pending, line_room(packet.len)), packet.len);
        to = put_hex(to, packet.bytes, packet.len);
        buffer_grow(&output.pending, put(to, '\n', 1));
        if (output.pending.len >= MUCH)
            write_pending(&output);
    }
    buffer_put(&output.pending, "rest 0\n", 7);
    free(receiver.bytes);
    return finish(&output);
}

/* The packets framed from id 0 on. */
static uint64_t framed(const Buffer *stream)
{
    Receiver receiver = reader_of(stream, READER_STEP);
    Output output = {0};
    uint8_t id = 0;
    for (Text packet; (packet = next_packet(&receiver)).bytes;) {
        id = frame(&output.pending, id, packet.bytes, packet.bytes + packet.len, false);
        if (output.pending.len >= MOST_HELD_BACK)
            write_pending(&output);
    }
    free(receiver.bytes);
    return finish(&output);
}

uint64_t show_streams(Draws *draws, size_t rounds, bool is_own)
{
    Digest digest = {0};
    Buffer stream = {0};
    fill_line_tables();
    for (size_t round = 0; round < rounds; round++) {
        for (size_t i = 0; i < SIZES; i++) {
            size_t len = sizes[i][0];
            make_stream(&stream, draws, len / 2, len, sizes[i][1] / len, is_own);
            if (is_own) { /* (a line has two digits for a byte) */
                digest_like(&digest, draws->letters, 3 * stream.len);
            } else {
                digest_add(&digest, shown(&stream));
                digest_add(&digest, framed(&stream));
            }
        }
    }
    free(stream.bytes);
    return digest_value(&digest);
}
