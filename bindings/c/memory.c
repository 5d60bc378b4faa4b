/* Where the library's memory comes from: the names that its requests go to; and its version. */
#include "mysql_wire.h"
#include <stdlib.h>

/* The version, for who looks into the file: `what` prints it. */
static const char version[] __attribute__((used)) = "@(#)mysql_wire " MYSQL_WIRE_VERSION;

void *mysql_wire_allocate(size_t size);
void *mysql_wire_reallocate(void *block, size_t size);
void mysql_wire_release(void *block);

static void *(*allocate)(size_t) = malloc;
static void *(*reallocate)(void *, size_t) = realloc;
static void (*release)(void *) = free;

void *mysql_wire_allocate(size_t size) { return allocate(size); }

void *mysql_wire_reallocate(void *block, size_t size) { return reallocate(block, size); }

void mysql_wire_release(void *block) { release(block); }

void mysql_wire_set_memory(void *(*allocates)(size_t), void *(*reallocates)(void *, size_t),
                           void (*releases)(void *)) {
    allocate = allocates;
    reallocate = reallocates;
    release = releases;
}
