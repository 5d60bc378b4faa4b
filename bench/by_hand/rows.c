/*
 * `rows` writes the lines that a dump with `--fields` has for the rows of what a server sends, on
 * standard input: a login, and an answer of eight columns.
 */
#include "dump_lines.h"
#include "files.h"

/* Before the rows come a greeting, an ok, the column count, definitions, and an eof. */
enum { COLUMNS = 8, BEFORE_ROWS = 4 + COLUMNS, EOF_MARK = 0xfe };

/* Puts the lines of the packet in front, of one chunk, unless it is an end of rows. */
static inline void put_row_lines(Buffer *lines, const Input *input)
{
    size_t begin = input->begin + HEADER;
    Text packet = {input->buffer.bytes + begin, input->whole - begin};
    if (packet.len < SHORT_PAYLOAD && packet.bytes[0] == EOF_MARK)
        return;
    uint8_t *out = buffer_end(lines, lines_room(packet));
    out = PUT(put_head(out, packet, false), " row");
    out = put_text_fields(out, packet.bytes, COLUMNS, false);
    buffer_grow(lines, put_end(out, false));
    write_from(lines, AT_ONCE);
}

int main(void)
{
    Input input = {0};
    Buffer lines = {0};
    size_t count = 0;
    fill_dump_tables();
    while (read_more(&input)) {
        while (pass_packet(&input, false)) {
            if (count++ >= BEFORE_ROWS)
                put_row_lines(&lines, &input);
            input.begin = input.whole;
        }
    }
    write_from(&lines, 0);
    return 0;
}
