/* What the tests of the C library share. */
#ifndef MYSQL_WIRE_TESTS_H
#define MYSQL_WIRE_TESTS_H
#include "mysql_wire.h"
#include <stdbool.h>
#include <stdio.h>
#include <stdlib.h>
#include <string.h>

/* A test answers whether all that it looked at was as it has to be. */
typedef struct test {
    const char *name;
    bool (*holds)(void);
} test;

extern const test call_tests[];
extern const test stream_tests[];
extern const test span_tests[];
extern const test memory_tests[];
extern const test field_tests[];
extern const test session_tests[];
extern const test thread_tests[];

/* Says where something is not as it has to be, once for each test, and goes on. */
bool complain(const char *file, int line, const char *what);

#define HOLDS(what) ((what) || complain(__FILE__, __LINE__, #what))

/* A test ends at the first thing that does not hold. */
#define CHECK(what)                \
    do {                           \
        if (!HOLDS(what)) return 0; \
    } while (0)

#define LENGTH(table) (sizeof(table) / sizeof(table)[0])

/* Numbers from a seed (xorshift). */
typedef struct numbers {
    uint64_t state;
} numbers;

uint64_t draw(numbers *from, uint64_t below);

/* The n-th request for memory from now on is refused (1: the next); 0: none is. */
void refuse_request(size_t nth);
/* Whether one was refused since. */
bool was_refused(void);
/* How many requests for memory this thread has made. */
size_t requests_made(void);

#endif
