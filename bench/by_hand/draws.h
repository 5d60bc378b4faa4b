/*
 * What input is made of: drawn numbers, and texts, which are parts of letters that are drawn first.
 * The numbers are those of xoshiro256++ from a state that splitmix64 makes of a seed.
 */
#pragma once

#include "bytes.h"

enum { LETTERS = 24576, LONGEST_TEXT = 4096 };

typedef struct {
    uint8_t plain[LETTERS];
    uint8_t quoted[LETTERS];
    uint8_t wide[3 * LETTERS]; /* Chinese letters, of three bytes each */
} Letters;

typedef enum { PLAIN, QUOTED, WIDE } Script;

typedef struct {
    uint64_t state[4];
    const Letters *letters;
} Draws;

static inline uint64_t rotate_left(uint64_t word, int count)
{
    return word << count | word >> (64 - count);
}

static inline Draws draws_of_seed(uint64_t seed)
{
    Draws draws = {.letters = NULL};
    for (int i = 0; i < 4; i++) {
        seed += 0x9e3779b97f4a7c15;
        uint64_t word = (seed ^ seed >> 30) * 0xbf58476d1ce4e5b9;
        word = (word ^ word >> 27) * 0x94d049bb133111eb;
        draws.state[i] = word ^ word >> 31;
    }
    return draws;
}

static inline uint64_t draw_word(Draws *draws)
{
    uint64_t *state = draws->state;
    uint64_t word = rotate_left(state[0] + state[3], 23) + state[0];
    uint64_t shifted = state[1] << 17;
    state[2] ^= state[0];
    state[3] ^= state[1];
    state[1] ^= state[2];
    state[0] ^= state[3];
    state[2] ^= shifted;
    state[3] = rotate_left(state[3], 45);
    return word;
}

/* A number below `n`, which is below 2^32. */
static inline size_t draw_below(Draws *draws, size_t n)
{
    return (draw_word(draws) >> 32) * n >> 32;
}

static inline uint8_t draw_byte(Draws *draws)
{
    return (uint8_t)draw_word(draws);
}

static inline void draw_letters(Draws *draws, Letters *letters)
{
    static const char plain[] = "ABCDEFGHIJKLMNOPQRSTUVWXYZabcdefghijklmnopqrstuvwxyz0123456789 .";
    static const char quoted[] = "a\"b\\c\nd\te/f'g\x01h\x1f"
                                 "i jklmnopqrstuvwxyz0123456789 .,;:-_ABCDEFGHI\"!?";
    draws->letters = letters;
    for (int i = 0; i < LETTERS; i++) {
        uint64_t word = draw_word(draws);
        letters->plain[i] = (uint8_t)plain[word % 64];
        letters->quoted[i] = (uint8_t)quoted[word / 64 % 64];
        letters->wide[3 * i] = 0xe5;
        letters->wide[3 * i + 1] = (uint8_t)(0x80 + word / 4096 % 64);
        letters->wide[3 * i + 2] = (uint8_t)(0x80 + word / 262144 % 64);
    }
}

/* A text of this many bytes, at most 4,096; of wide letters, as many as are whole. */
static inline Text draw_text(Draws *draws, Script script, size_t len)
{
    size_t start = draw_below(draws, LETTERS - LONGEST_TEXT);
    if (script == WIDE)
        return (Text){draws->letters->wide + 3 * start, len - len % 3};
    return (Text){(script == QUOTED ? draws->letters->quoted : draws->letters->plain) + start, len};
}

/* Passes a text that is drawn and not put, for a job's own making. */
static inline uint8_t *pass_text(uint8_t *to, Text text)
{
    __asm__ volatile("" : : "r"(text.bytes));
    return to + text.len;
}
