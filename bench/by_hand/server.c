/*
 * A server writes answers of 0 to 1,000 rows, half of whose rows are made as arrays of values, and
 * the others put value by value. It writes where 16 KiB are framed.
 */
#include "answers.h"
#include "jobs.h"

enum { MUCH = 16384, SIZES = 5 };

static const size_t rows_of[SIZES] = {0, 1, 10, 100, 1000};

/* What is framed, the next id, and the room for a payload. */
typedef struct {
    Output output;
    uint8_t *payload;
    uint8_t next_id;
    bool is_own;
} Server;

/* Queues the payload that ends here. */
static inline void queue(Server *server, const uint8_t *end)
{
    server->next_id = frame(&server->output.pending, server->next_id, server->payload, end,
                            server->is_own);
}

static void write_queued(Server *server, const Letters *letters)
{
    if (server->is_own) {
        digest_like(&server->output.digest, letters, server->output.pending.len);
        server->output.pending.len = 0;
    }
    write_pending(&server->output);
}

/* The last packet of an answer. */
static inline uint8_t *put_done(uint8_t *to, Draws *draws)
{
    Text info = draw_text(draws, PLAIN, 20);
    to = put_lenenc(put(to, 0, 1), draw_byte(draws));
    to = put_lenenc(to, draw_word(draws));
    to = put(put(to, 2, 2), draw_byte(draws), 2);
    return put_text(to, info);
}

/* Makes a short row's values in a block of their own. */
static inline Text *draw_values(Draws *draws, size_t columns)
{
    Draws local = *draws;
    Text *values = malloc(columns * sizeof *values);
    for (size_t column = 0; column < columns; column++)
        values[column] = draw_value(&local, 1);
    *draws = local;
    return values;
}

static inline uint8_t *put_values(uint8_t *to, const Text *values, size_t columns)
{
    for (size_t column = 0; column < columns; column++)
        to = put_value(to, values[column]);
    return to;
}

static void serve_row(Server *server, Draws *draws, size_t columns, size_t place)
{
    if (server->is_own && place % 2 == 0) {
        queue(server, put_row(server->payload, draws, columns, true, true));
    } else if (server->is_own) {
        queue(server, put_row(server->payload, draws, columns, false, true));
    } else if (place % 2 == 0) {
        Text *values = draw_values(draws, columns);
        queue(server, put_values(server->payload, values, columns));
        free(values);
    } else {
        queue(server, put_row(server->payload, draws, columns, false, false));
    }
    if (server->output.pending.len >= MUCH)
        write_queued(server, draws->letters);
}

static void serve(Server *server, Draws *draws, size_t rows)
{
    size_t columns = draw_columns(draws);
    for (size_t column = 0; column < columns; column++) {
        Definition definition = draw_definition(draws);
        queue(server, put_definition(server->payload, &definition));
    }
    for (size_t place = 0; place < rows; place++)
        serve_row(server, draws, columns, place);
    queue(server, put_done(server->payload, draws));
    write_queued(server, draws->letters);
}

uint64_t serve_answers(Draws *draws, size_t rounds, bool is_own)
{
    Digest digest = {0};
    for (size_t round = 0; round < rounds; round++) {
        Server server = {.payload = malloc(row_room(20)), .is_own = is_own};
        room_end = server.payload + row_room(20);
        for (size_t size = 0; size < SIZES; size++)
            serve(&server, draws, rows_of[size]);
        digest_add(&digest, finish(&server.output));
        free(server.payload);
    }
    return digest_value(&digest);
}
