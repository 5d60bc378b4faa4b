/* Loaded before the C library into a program, changes how its reads of standard input, its writes to
 * standard output and its requests for memory go, as numbers in its environment say. They are counted
 * from 0, and errors are those of errno.h:
 *
 * READ_MOST          the most bytes that a read takes
 * READ_FAILS         the read that fails, by READ_ERROR
 * WRITE_INTERRUPTS   how many writes are interrupted before one goes
 * WRITE_FIRST        the most bytes of the first write that goes
 * WRITE_MOST         the most bytes that a write takes
 * WRITE_ROOM         the most bytes that all writes take
 * WRITE_WHOLE        1 where a write with more bytes than it may take takes none
 * WRITE_ERROR        how a write fails that takes none; where it is missing, 0 is answered
 * REFUSED            the request for memory that is refused. Standard error tells of it
 */
#define _GNU_SOURCE
#include <errno.h>
#include <stdint.h>
#include <stdlib.h>
#include <unistd.h>

void *__libc_malloc(size_t size);
void *__libc_realloc(void *block, size_t size);
ssize_t __read(int file, void *bytes, size_t count);
ssize_t __write(int file, const void *bytes, size_t count);

static size_t read_most, reads_before, write_interrupts, write_first, write_most, write_room;
static int read_error, write_error, is_write_whole;
static size_t requests_before = SIZE_MAX;

static size_t number(const char *name, size_t otherwise) {
    const char *digits = getenv(name);
    return digits ? strtoul(digits, NULL, 10) : otherwise;
}

__attribute__((constructor)) static void begin(void) {
    read_most = number("READ_MOST", SIZE_MAX);
    reads_before = number("READ_FAILS", SIZE_MAX);
    read_error = (int)number("READ_ERROR", 0);
    write_interrupts = number("WRITE_INTERRUPTS", 0);
    write_first = number("WRITE_FIRST", SIZE_MAX);
    write_most = number("WRITE_MOST", SIZE_MAX);
    write_room = number("WRITE_ROOM", SIZE_MAX);
    is_write_whole = (int)number("WRITE_WHOLE", 0);
    write_error = (int)number("WRITE_ERROR", 0);
    requests_before = number("REFUSED", SIZE_MAX);
}

static size_t least(size_t one, size_t other) {
    return one < other ? one : other;
}

static ssize_t failed(int error) {
    errno = error;
    return -1;
}

ssize_t read(int file, void *bytes, size_t count) {
    if (file != STDIN_FILENO) {
        return __read(file, bytes, count);
    }
    if (reads_before-- == 0) {
        return failed(read_error);
    }
    return __read(file, bytes, least(count, read_most));
}

/* How many of this many bytes a write takes. */
static size_t taken(size_t count) {
    size_t offered = least(count, write_first);
    size_t room = least(write_most, write_room);
    return is_write_whole && offered > room ? 0 : least(offered, room);
}

ssize_t write(int file, const void *bytes, size_t count) {
    if (file != STDOUT_FILENO) {
        return __write(file, bytes, count);
    }
    if (write_interrupts > 0) {
        write_interrupts--;
        return failed(EINTR);
    }
    size_t length = taken(count);
    if (length == 0) {
        return write_error ? failed(write_error) : 0;
    }
    write_first = SIZE_MAX;
    write_room -= length;
    return __write(file, bytes, length);
}

static int is_refused(void) {
    if (requests_before-- > 0) {
        return 0;
    }
    return __write(STDERR_FILENO, "refused\n", 8) == 8;
}

void *malloc(size_t size) {
    return is_refused() ? NULL : __libc_malloc(size);
}

void *realloc(void *block, size_t size) {
    return is_refused() ? NULL : __libc_realloc(block, size);
}
