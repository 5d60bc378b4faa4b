/*
 * `jobs NAME SEED ROUNDS` prints a job's name and the digest of its results, as the program
 * mysql_wire_workloads does; `jobs own NAME SEED ROUNDS` does the job's own making alone.
 */
#include "jobs.h"

#include <inttypes.h>
#include <stdio.h>

static const struct {
    const char *name;
    Job *job;
} jobs[] = {
    {"answers", read_answers}, {"statements", execute_statements}, {"server", serve_answers},
    {"proxy", pass_on},        {"dump", dump_answers},             {"streams", show_streams},
};

int main(int count, char **words)
{
    static Letters letters;
    bool is_own = count == 5 && strcmp(words[1], "own") == 0;
    if (count != 4 && !is_own)
        return EXIT_FAILURE;
    words += is_own;
    Draws draws = draws_of_seed(strtoull(words[2], NULL, 10));
    draw_letters(&draws, &letters);
    for (size_t i = 0; i < sizeof jobs / sizeof jobs[0]; i++) {
        if (strcmp(words[1], jobs[i].name) == 0) {
            uint64_t value = jobs[i].job(&draws, strtoull(words[3], NULL, 10), is_own);
            printf("%s %016" PRIx64 "\n", words[1], value);
            return EXIT_SUCCESS;
        }
    }
    return EXIT_FAILURE;
}
