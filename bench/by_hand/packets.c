/*
 * `packets unframe` writes a line of hexadecimal digits for each packet of standard input, and
 * `rest N`; `packets reframe` writes its whole packets, numbered from 0. Status 3 where input ends
 * in a packet.
 */
#include "files.h"
#include "lines.h"

/* Writes whole packets where they are no fewer bytes than this. */
static void write_whole(Input *input, size_t least)
{
    if (input->whole - input->begin >= least) {
        write_all(input->buffer.bytes + input->begin, input->whole - input->begin);
        input->begin = input->whole;
    }
}

static void reframe(Input *input)
{
    while (read_more(input)) {
        while (pass_packet(input, true))
            ;
        write_whole(input, AT_ONCE);
    }
    write_whole(input, 0);
}

/* Puts the digits of a chunk, and writes where there are many. */
static inline void put_chunk(Buffer *lines, const uint8_t *bytes, size_t len)
{
    while (len > 0) {
        size_t part = smaller(len, AT_ONCE / 2);
        put_hex(buffer_end(lines, line_room(part)), bytes, part);
        lines->len += 2 * part;
        write_from(lines, AT_ONCE);
        bytes += part;
        len -= part;
    }
}

/* Puts the line of the whole packet in front, and goes on behind it. */
static inline void put_packet(Buffer *lines, Input *input)
{
    size_t raw = input->whole - input->begin;
    size_t len = raw - HEADER * (raw / (HEADER + FULL_CHUNK) + 1);
    buffer_grow(lines, put_line_head(buffer_end(lines, line_room(0)), len));
    while (input->begin < input->whole) {
        const uint8_t *header = input->buffer.bytes + input->begin;
        put_chunk(lines, header + HEADER, chunk_len(header));
        input->begin += HEADER + chunk_len(header);
    }
    buffer_put(lines, "\n", 1);
    write_from(lines, AT_ONCE);
}

static void unframe(Input *input)
{
    Buffer lines = {0};
    fill_line_tables();
    while (read_more(input)) {
        while (pass_packet(input, false))
            put_packet(&lines, input);
    }
    uint8_t *to = PUT(buffer_end(&lines, line_room(0)), "rest ");
    to = put_decimal(to, input->buffer.len - input->begin);
    buffer_grow(&lines, PUT(to, "\n"));
    write_from(&lines, 0);
}

int main(int count, char **words)
{
    Input input = {0};
    if (count == 2 && strcmp(words[1], "reframe") == 0)
        reframe(&input);
    else if (count == 2 && strcmp(words[1], "unframe") == 0)
        unframe(&input);
    else
        return 1;
    return input.buffer.len == input.begin ? 0 : 3;
}
