/* Runs the tests of the C library, with a word those of threads alone, and prints a line for each:
   "ok NAME" or "FAILED NAME". */
#include "tests.h"

bool complain(const char *file, int line, const char *what) {
    fprintf(stderr, "%s:%d: %s\n", file, line, what);
    return false;
}

uint64_t draw(numbers *from, uint64_t below) {
    from->state ^= from->state << 13;
    from->state ^= from->state >> 7;
    from->state ^= from->state << 17;
    return from->state % below;
}

/* malloc and realloc as the library sees them; the linker puts them in place (--wrap). */
void *__real_malloc(size_t size);
void *__real_realloc(void *block, size_t size);
void *__wrap_malloc(size_t size);
void *__wrap_realloc(void *block, size_t size);

static size_t requests_left;
static bool refused;
static _Thread_local size_t requests;

static bool refuses(void) {
    requests++;
    if (requests_left == 0 || --requests_left != 0) return false;
    refused = true;
    return true;
}

void *__wrap_malloc(size_t size) { return refuses() ? NULL : __real_malloc(size); }

void *__wrap_realloc(void *block, size_t size) {
    return refuses() ? NULL : __real_realloc(block, size);
}

void refuse_request(size_t nth) {
    requests_left = nth;
    refused = false;
}

bool was_refused(void) { return refused; }

size_t requests_made(void) { return requests; }

static int run(const test *tests) {
    int failed = 0;
    for (; tests->name != NULL; tests++) {
        bool holds = tests->holds();
        printf("%s %s\n", holds ? "ok" : "FAILED", tests->name);
        failed += !holds;
    }
    return failed;
}

int main(int words, char **word) {
    (void)word;
    int failed = run(thread_tests);
    if (words == 1)
        failed += run(call_tests) + run(stream_tests) + run(span_tests) + run(memory_tests) +
                  run(field_tests) + run(session_tests);
    return failed == 0 ? EXIT_SUCCESS : EXIT_FAILURE;
}
