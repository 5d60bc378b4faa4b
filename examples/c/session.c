/*
 * Follows a captured session, and says how it ends: idle, over, or waiting for a packet, and whose.
 * The two files have what the client and what the server sent, as examples/python/pcap.py writes them.
 *
 *     make -C examples/c && examples/c/out/session CLIENT_FILE SERVER_FILE
 *
 * The status is 0 where both files were followed to their ends, and 1 otherwise.
 */
#include "mysql_wire.h"
#include "mysql_wire_constants.h"

#include <stdio.h>
#include <stdlib.h>

#define FULL 16777215 /* the bytes of a chunk that another one follows */
#define HEADER 4

/* What one side sent, and how much of it was followed. */
typedef struct stream {
    uint8_t *bytes;
    size_t len, at;
} stream;

/* A packet: the number and the bytes of its first chunk, and how many it has in all. */
typedef struct packet {
    uint8_t id;
    const uint8_t *front;
    size_t front_len, len, end;
} packet;

/* The next packet of a side. Whether it has come whole. */
static int next_of(const stream *side, packet *next) {
    size_t at = side->at, chunk;
    next->len = 0;
    do {
        if (side->len - at < HEADER) return 0;
        const uint8_t *header = side->bytes + at;
        chunk = header[0] | (size_t)header[1] << 8 | (size_t)header[2] << 16;
        at += HEADER;
        if (side->len - at < chunk) return 0;
        if (next->len == 0) *next = (packet){header[3], side->bytes + at, chunk, 0, 0};
        next->len += chunk;
        at += chunk;
    } while (chunk == FULL);
    next->end = at;
    return 1;
}

/* Whose packet is next: where it may be either's, that of the side which has the next number. */
static int is_next(mysql_wire_session *session, int32_t side, const packet *next) {
    int32_t sender = mysql_wire_session_next_sender(session);
    if (sender != MYSQL_WIRE_SENDER_EITHER) return sender == side;
    return next->id == mysql_wire_session_next_id(session);
}

/* Goes on after a packet by its first chunk, or passes over one that is needed whole and has more. */
static int32_t go_on(mysql_wire_session *session, uint32_t side, const packet *next) {
    uint32_t kind;
    int32_t code = mysql_wire_session_front(session, side, next->id, next->len, next->front,
                                            next->front_len, &kind);
    if (code != MYSQL_WIRE_NEEDS_WHOLE) return code;
    return mysql_wire_session_pass(session, side, next->id, next->len);
}

/* Follows both sides as far as each has the packet that is next. */
static int32_t follow(mysql_wire_session *session, stream sides[2]) {
    for (;;) {
        int side = 0;
        packet next;
        while (side < 2 && !(next_of(&sides[side], &next) && is_next(session, side, &next))) side++;
        if (side == 2) return MYSQL_WIRE_OK;
        int32_t code = go_on(session, (uint32_t)side, &next);
        if (code != MYSQL_WIRE_OK) return code;
        sides[side].at = next.end;
    }
}

/* How it stands with a session. */
static const char *state_of(mysql_wire_session *session) {
    static const char *const waits[] = {"waits for the client", "waits for the server",
                                        "waits for either side"};
    if (mysql_wire_session_is_idle(session) == 1) return "idle";
    if (mysql_wire_session_phase(session) == MYSQL_WIRE_PHASE_CLOSED) return "over";
    return waits[mysql_wire_session_next_sender(session)];
}

static int read_all(const char *name, stream *to) {
    FILE *file = fopen(name, "rb");
    if (file == NULL) return 0;
    fseek(file, 0, SEEK_END);
    long len = ftell(file);
    rewind(file);
    to->bytes = len < 0 ? NULL : malloc((size_t)len + 1);
    if (to->bytes != NULL) to->len = fread(to->bytes, 1, (size_t)len, file);
    fclose(file);
    return to->bytes != NULL;
}

int main(int words, char **word) {
    stream sides[2] = {{NULL, 0, 0}, {NULL, 0, 0}};
    mysql_wire_session session = NULL;
    if (words != 3 || !read_all(word[1], &sides[0]) || !read_all(word[2], &sides[1])) {
        fprintf(stderr, "usage: session CLIENT_FILE SERVER_FILE\n");
        return 1;
    }
    int32_t code = mysql_wire_session_new(&session);
    if (code == MYSQL_WIRE_OK) code = follow(&session, sides);
    if (code == MYSQL_WIRE_OK) puts(state_of(&session));
    mysql_wire_session_free(&session);
    size_t left = sides[0].len - sides[0].at + sides[1].len - sides[1].at;
    if (left > 0) printf("%zu bytes were not followed\n", left);
    free(sides[0].bytes);
    free(sides[1].bytes);
    return code == MYSQL_WIRE_OK && left == 0 ? 0 : 1;
}
