/*
 * Answers in texts and in binary are dumped, each as lines alone, with fields, and as JSON. What is
 * shown without fields is not read: its lines tell a packet's length and place.
 */
#include "answers.h"
#include "dump_lines.h"
#include "jobs.h"

/* Lines alone, with each field on a line of its own, and objects of JSON. */
typedef enum { LINES, FIELDS, JSON } Form;

enum { TEXT_ROWS = 800, BINARY_ROWS = 200, READ_SIZE = 16384, WRITE_SIZE = 65536 };

/* Reads a row whose values are not shown, for those that are refused. */
static inline void pass_row(const uint8_t *payload, size_t columns)
{
    for (size_t column = 0; column < columns; column++)
        take_value(&payload);
    test(payload == bytes_end);
}

/* The line of a packet, whose place is counted from the column count's on; of rows in binary there
 * are no columns. A short one is shown as other words. */
INLINE uint8_t *put_packet(uint8_t *out, Form form, Text packet, size_t place, size_t columns)
{
    const bool is_json = form == JSON, is_read = form != LINES;
    const uint8_t *payload = packet.bytes;
    room_end = out + lines_room(packet);
    bytes_end = payload + packet.len;
    out = put_head(out, packet, is_json);
    if (packet.len < SHORT_PAYLOAD) {
        out = PUT_KIND(out, is_json, "statistics text");
        out = is_read ? put_statistics(out, packet, is_json) : out;
    } else if (columns == 0) {
        out = PUT_KIND(out, is_json, "binary row");
        out = is_read ? put_binary_fields(out, payload, is_json) : out;
    } else if (place <= columns) {
        out = PUT_KIND(out, is_json, "column");
        out = is_read ? put_definition_fields(out, payload, is_json) : out;
    } else {
        if (IS_TESTED && !is_read)
            pass_row(payload, columns);
        out = PUT_KIND(out, is_json, "row");
        out = is_read ? put_text_fields(out, payload, (int)columns, is_json) : out;
    }
    return put_end(out, is_json);
}

/* Shows all packets of a stream. */
INLINE uint64_t show_all(const Buffer *stream, Form form, size_t columns)
{
    Output output = {0};
    Receiver receiver = receiver_of(stream, READ_SIZE);
    Text packet;
    for (size_t place = 0; (packet = next_packet(&receiver)).bytes; place++) {
        uint8_t *out = buffer_end(&output.pending, lines_room(packet));
        buffer_grow(&output.pending, put_packet(out, form, packet, place, columns));
        if (output.pending.len >= WRITE_SIZE)
            write_pending(&output);
    }
    free(receiver.bytes);
    return finish(&output);
}

/* It is compiled for each form alone. */
static uint64_t show(const Buffer *stream, Form form, size_t columns)
{
    return form == LINES    ? show_all(stream, LINES, columns)
           : form == FIELDS ? show_all(stream, FIELDS, columns)
                            : show_all(stream, JSON, columns);
}

/* How many letters the lines of a packet, a text, and a value in binary have, about, besides those
 * of a text. */
enum { PACKET_LETTERS = 20, TEXT_LETTERS = 8, BINARY_LETTERS = 20 };

/* The digest of about as many bytes as the lines of so many packets have. */
static uint64_t show_like(const Letters *letters, Form form, size_t packets, size_t letters_each)
{
    Digest digest = {0};
    digest_like(&digest, letters, packets * (PACKET_LETTERS + (form == LINES ? 0 : letters_each)));
    return digest_value(&digest);
}

static uint64_t dump_texts(Buffer *stream, Draws *draws, Form form, bool is_own)
{
    size_t columns = draw_columns(draws);
    stream->len = 0;
    make_answer(stream, draws, columns, TEXT_ROWS, is_own);
    if (is_own)
        return show_like(draws->letters, form, TEXT_ROWS,
                         stream->len / TEXT_ROWS + TEXT_LETTERS * columns);
    return show(stream, form, columns);
}

static uint64_t dump_numbers(Buffer *stream, Draws *draws, Form form, bool is_own)
{
    uint8_t id = 0;
    stream->len = 0;
    for (int row = 0; row < BINARY_ROWS; row++)
        id = make_binary_row(stream, id, draws, is_own);
    if (is_own)
        return show_like(draws->letters, form, BINARY_ROWS, BINARY_LETTERS * VALUES);
    return show(stream, form, 0);
}

uint64_t dump_answers(Draws *draws, size_t rounds, bool is_own)
{
    Digest digest = {0};
    Buffer stream = {0};
    if (!is_own)
        fill_dump_tables();
    for (size_t round = 0; round < rounds; round++) {
        for (Form form = LINES; form <= JSON; form++) {
            digest_add(&digest, dump_texts(&stream, draws, form, is_own));
            digest_add(&digest, dump_numbers(&stream, draws, form, is_own));
        }
    }
    free(stream.bytes);
    return digest_value(&digest);
}
