/*
 * A client reads answers: of 1 to 8,000 rows by each of four ways, and two of 1,000 columns whose
 * bytes come one at a time.
 */
#include "answers.h"
#include "jobs.h"

enum { WAYS = 4, SIZES = 8, WIDE_COLUMNS = 1000, WIDE_ROWS = 2 };

static const size_t rows_of[SIZES] = {1, 3, 10, 30, 100, 300, 1000, 8000};

/* Each packet is in a block of its own; or read where it lies, and each row whole; or moved into
 * one buffer; or read where it lies. */
typedef enum { OWNED, LENT_ROWS, MOVED, LENT } Way;

/* What an answer's packets are told by, one after another. */
typedef struct {
    size_t columns;
    size_t place; /* how many packets came */
    Digest digest;
    Text *values; /* room for a row */
} Reading;

static inline void fold_value(Digest *digest, Text value)
{
    if (value.bytes)
        digest_text(digest, value);
    else
        digest_add(digest, 1);
}

static inline void fold_definition(Digest *digest, const Definition *definition)
{
    for (int i = 0; i < DEFINITION_NAMES; i++)
        digest_text(digest, definition->names[i]);
    digest_add(digest, definition->column_length);
    digest_add(digest, definition->flags);
}

static inline Definition read_definition(const uint8_t *at)
{
    Definition definition;
    take_text(&at); /* the catalog */
    for (int i = 0; i < DEFINITION_NAMES; i++)
        definition.names[i] = take_text(&at);
    test_bytes(at, bytes_end, 13);
    definition.column_length = (uint32_t)load(at + 3, 4);
    definition.flags = (uint16_t)load(at + 8, 2);
    return definition;
}

/* Folds each value of a row as it is read. */
static inline void fold_values(Reading *reading, Text packet)
{
    Digest digest = reading->digest;
    const uint8_t *at = packet.bytes;
    for (size_t column = 0; column < reading->columns; column++)
        fold_value(&digest, take_value(&at));
    reading->digest = digest;
}

/* Reads a row whole, and then folds its values. */
static inline void fold_row(Reading *reading, Text packet)
{
    const uint8_t *at = packet.bytes;
    for (size_t column = 0; column < reading->columns; column++)
        reading->values[column] = take_value(&at);
    Digest digest = reading->digest;
    for (size_t column = 0; column < reading->columns; column++)
        fold_value(&digest, reading->values[column]);
    reading->digest = digest;
}

INLINE void read_packet(Reading *reading, Way way, Text packet)
{
    bytes_end = packet.bytes + packet.len;
    size_t place = reading->place++;
    if (place == 0 || place == reading->columns + 1 || packet.len == END_LEN) {
        digest_text(&reading->digest, packet);
    } else if (place <= reading->columns) {
        Definition definition = read_definition(packet.bytes);
        fold_definition(&reading->digest, &definition);
    } else if (way == LENT_ROWS) {
        fold_row(reading, packet);
    } else {
        fold_values(reading, packet);
    }
}

INLINE uint64_t read_by(Way way, Receiver receiver, size_t columns)
{
    Reading reading = {.columns = columns, .values = malloc(columns * sizeof(Text))};
    Buffer buffer = {0};
    for (Text packet; (packet = next_packet(&receiver)).bytes; buffer.len = 0) {
        if (way == OWNED)
            buffer = (Buffer){0};
        if (way == OWNED || way == MOVED) {
            buffer_put(&buffer, packet.bytes, packet.len);
            packet.bytes = buffer.bytes;
        }
        read_packet(&reading, way, packet);
        if (way == OWNED)
            free(buffer.bytes);
    }
    if (way != OWNED)
        free(buffer.bytes);
    free(reading.values);
    free(receiver.bytes);
    return digest_value(&reading.digest);
}

static void fold_drawn_row(Digest *digest, Draws *draws, size_t columns)
{
    Digest local = *digest;
    Draws local_draws = *draws;
    for (size_t column = 0; column < columns; column++)
        fold_value(&local, draw_value(&local_draws, column));
    *draws = local_draws;
    *digest = local;
}

/* The digest of an answer that is not made. A row of five empty values, which the job takes for an
 * end, is not told apart. */
static uint64_t fold_drawn(Draws *draws, size_t columns, size_t rows)
{
    Digest digest = {0};
    uint8_t count[9];
    digest_text(&digest, (Text){count, (size_t)(put_lenenc(count, columns) - count)});
    for (size_t column = 0; column < columns; column++) {
        Definition definition = draw_definition(draws);
        fold_definition(&digest, &definition);
    }
    digest_text(&digest, END_OF_ROWS);
    for (size_t row = 0; row < rows; row++)
        fold_drawn_row(&digest, draws, columns);
    digest_text(&digest, END_OF_ROWS);
    return digest_value(&digest);
}

/* Makes an answer in the room of the last one, and reads it. */
static uint64_t read_answer(Buffer *answer, Draws *draws, size_t columns, size_t rows, Way way,
                            size_t step, bool is_own)
{
    if (is_own)
        return fold_drawn(draws, columns, rows);
    answer->len = 0;
    make_answer(answer, draws, columns, rows, false);
    switch (way) {
    case OWNED:
        return read_by(OWNED, reader_of(answer, step), columns);
    case LENT_ROWS:
        return read_by(LENT_ROWS, reader_of(answer, step), columns);
    case MOVED:
        return read_by(MOVED, receiver_of(answer, step), columns);
    default:
        return read_by(LENT, receiver_of(answer, step), columns);
    }
}

uint64_t read_answers(Draws *draws, size_t rounds, bool is_own)
{
    Digest digest = {0};
    Buffer answer = {0};
    for (size_t round = 0; round < rounds; round++) {
        for (size_t i = 0; i < SIZES * WAYS; i++) {
            size_t columns = draw_columns(draws), rows = rows_of[i / WAYS], way = i % WAYS;
            digest_add(&digest, read_answer(&answer, draws, columns, rows, way,
                                            step_of(round + way), is_own));
        }
        for (Way way = MOVED; way >= LENT_ROWS; way--)
            digest_add(&digest,
                       read_answer(&answer, draws, WIDE_COLUMNS, WIDE_ROWS, way, 1, is_own));
    }
    free(answer.bytes);
    return digest_value(&digest);
}
