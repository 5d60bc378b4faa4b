/*
 * The jobs: each gives the digest of its results. A job's own making is what no library spares: the
 * same numbers are drawn, but no rows of texts put, nothing framed and nothing read. `answers` then
 * digests the same words, and each other job about as many bytes, so that its digest is another.
 * (Definitions and a dump's rows in binary are put all the same, which counts a little too much.)
 */
#pragma once

#include "digest.h"
#include "framing.h"

typedef uint64_t Job(Draws *draws, size_t rounds, bool is_own);

Job read_answers, execute_statements, serve_answers, pass_on, dump_answers, show_streams;
