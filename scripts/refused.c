/* Loaded before the C library into a program, refuses one of its requests for memory: the one whose
 * number REFUSED is, counted from 0 at the first file that it opens. Standard error tells of it. */
#define _GNU_SOURCE
#include <fcntl.h>
#include <stdlib.h>
#include <unistd.h>

void *__libc_malloc(size_t size);
void *__libc_realloc(void *block, size_t size);

/* The requests before the one that is refused; below 0 none is. */
static long before = -1;

int open(const char *name, int flags, ...) {
    static int has_begun;
    const char *number = getenv("REFUSED");
    if (!has_begun && number) {
        before = atol(number);
    }
    has_begun = 1;
    return openat(AT_FDCWD, name, flags);
}

static int is_refused(void) {
    if (before < 0 || before-- > 0) {
        return 0;
    }
    return write(STDERR_FILENO, "refused\n", 8) == 8;
}

void *malloc(size_t size) {
    return is_refused() ? NULL : __libc_malloc(size);
}

void *realloc(void *block, size_t size) {
    return is_refused() ? NULL : __libc_realloc(block, size);
}
