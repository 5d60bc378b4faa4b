/* Connections that move between threads, and ones that are used at once. */
#include "tests.h"
#include <pthread.h>

enum { ROUNDS = 400, THREADS = 4 };

/* Both ends of a conversation, and whose turn it is. A mutex orders the calls. */
typedef struct shared {
    pthread_mutex_t lock;
    mysql_wire_connection ends[2];
    int rounds;
    bool holds;
} shared;

static bool one_round(mysql_wire_connection *from, mysql_wire_connection *to, int round) {
    uint8_t command[4] = {(uint8_t)round, (uint8_t)(round >> 8), 'x', 'y'};
    mysql_wire_view view;
    uint8_t room[16];
    size_t count, len;
    CHECK(mysql_wire_reset(from) == MYSQL_WIRE_OK && mysql_wire_reset(to) == MYSQL_WIRE_OK);
    CHECK(mysql_wire_encode(from, command, 4) == MYSQL_WIRE_OK);
    while ((count = mysql_wire_output(from, room, 3)) > 0)
        CHECK(mysql_wire_feed(to, room, count) == MYSQL_WIRE_OK);
    if (round % 2 == 0) {
        CHECK(mysql_wire_peek(to, &view) == MYSQL_WIRE_PACKET && view.len == 4);
        CHECK(memcmp(view.at, command, 4) == 0 && mysql_wire_take(to) == MYSQL_WIRE_OK);
    } else {
        CHECK(mysql_wire_next(to, room, 16, &len) == MYSQL_WIRE_PACKET && len == 4);
        CHECK(memcmp(room, command, 4) == 0);
    }
    return true;
}

/* Takes turns on the connections of all threads. */
static void *takes_turns(void *given) {
    shared *of = given;
    for (bool ends = false; !ends;) {
        pthread_mutex_lock(&of->lock);
        int round = of->rounds;
        ends = round == 0 || !of->holds;
        if (!ends) {
            of->rounds--;
            of->holds = one_round(&of->ends[round % 2], &of->ends[1 - round % 2], round);
        }
        pthread_mutex_unlock(&of->lock);
    }
    return NULL;
}

static bool connections_move_between_threads(void) {
    shared of = {.ends = {NULL, NULL}, .rounds = ROUNDS, .holds = true};
    pthread_t threads[THREADS];
    CHECK(pthread_mutex_init(&of.lock, NULL) == 0);
    CHECK(mysql_wire_open(16, &of.ends[0]) == MYSQL_WIRE_OK);
    CHECK(mysql_wire_open(16, &of.ends[1]) == MYSQL_WIRE_OK);
    for (size_t i = 0; i < THREADS; i++)
        CHECK(pthread_create(&threads[i], NULL, takes_turns, &of) == 0);
    for (size_t i = 0; i < THREADS; i++) CHECK(pthread_join(threads[i], NULL) == 0);
    mysql_wire_close(&of.ends[0]);
    mysql_wire_close(&of.ends[1]);
    pthread_mutex_destroy(&of.lock);
    return of.holds && of.rounds == 0;
}

/* A conversation with connections of its own. */
static void *talks(void *given) {
    bool *holds = given;
    mysql_wire_connection ends[2] = {NULL, NULL};
    *holds = mysql_wire_open(16, &ends[0]) == MYSQL_WIRE_OK;
    *holds = *holds && mysql_wire_open(16, &ends[1]) == MYSQL_WIRE_OK;
    for (int round = 0; *holds && round < ROUNDS; round++)
        *holds = one_round(&ends[round % 2], &ends[1 - round % 2], round);
    mysql_wire_close(&ends[0]);
    mysql_wire_close(&ends[1]);
    return NULL;
}

static bool connections_are_used_at_once(void) {
    pthread_t threads[THREADS];
    bool holds[THREADS];
    for (size_t i = 0; i < THREADS; i++)
        CHECK(pthread_create(&threads[i], NULL, talks, &holds[i]) == 0);
    for (size_t i = 0; i < THREADS; i++) CHECK(pthread_join(threads[i], NULL) == 0 && holds[i]);
    return true;
}

const test thread_tests[] = {
    {"connections move between threads", connections_move_between_threads},
    {"connections are used at once", connections_are_used_at_once},
    {NULL, NULL},
};
