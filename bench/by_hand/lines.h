/*
 * What lines are put together of: numbers, texts in quotes with JSON's escapes, and bytes in
 * digits. Each function puts something where there is room for it, and gives the place behind. Up
 * to 32 bytes after that place may be written over, and as many after a text be read.
 */
#pragma once

#include "bytes.h"

#include <tmmintrin.h>

/* A few letters, and how many they are. */
typedef struct {
    char letters[7];
    uint8_t len;
} Few;

enum { SMALL_NUMBERS = 1000 };

/* The digits of numbers below 1,000, without and with zeros in front. */
extern Few small_numbers[SMALL_NUMBERS];
extern char three_digits[SMALL_NUMBERS][4];

/* Fills these tables and that of the escapes; comes before all else. */
void fill_line_tables(void);

/* A text in quotes of which some bytes need escapes or are not of ASCII; else bytes in digits. */
uint8_t *put_other_text(uint8_t *out, Text text, bool is_json);

uint8_t *put_large_number(uint8_t *out, uint64_t number);

/* A literal, whose length is known. */
#define PUT(out, literal) \
    ((uint8_t *)memcpy(out, literal, sizeof(literal) - 1) + sizeof(literal) - 1)

static inline uint8_t *put_few(uint8_t *out, Few few)
{
    memcpy(out, &few, sizeof few);
    return out + few.len;
}

static inline uint8_t *put_decimal(uint8_t *out, uint64_t number)
{
    if (number < SMALL_NUMBERS)
        return put_few(out, small_numbers[number]);
    return put_large_number(out, number);
}

/* Two digits for each byte, 16 bytes at once. */
static inline uint8_t *put_hex(uint8_t *restrict out, const uint8_t *restrict bytes, size_t len)
{
    const __m128i digits = _mm_loadu_si128((const __m128i *)"0123456789abcdef");
    const __m128i low_bits = _mm_set1_epi8(15);
    for (size_t at = 0; at < len; at += 16) {
        __m128i block = _mm_loadu_si128((const __m128i *)(bytes + at));
        __m128i high = _mm_shuffle_epi8(digits, _mm_and_si128(_mm_srli_epi16(block, 4), low_bits));
        __m128i low = _mm_shuffle_epi8(digits, _mm_and_si128(block, low_bits));
        _mm_storeu_si128((__m128i *)(out + 2 * at), _mm_unpacklo_epi8(high, low));
        _mm_storeu_si128((__m128i *)(out + 2 * at + 16), _mm_unpackhi_epi8(high, low));
    }
    return out + 2 * len;
}

/* A packet's line is `LENGTH HEX`, and `-` for no bytes: its begin, and how much room it takes. */
static inline uint8_t *put_line_head(uint8_t *out, size_t len)
{
    out = put(put_decimal(out, len), ' ', 1);
    return len == 0 ? put(out, '-', 1) : out;
}

static inline size_t line_room(size_t len)
{
    return 2 * len + PAST_END + 22;
}

/* Copies 16 letters, and tells by -1 each that needs an escape or is not of ASCII. */
static inline __m128i copy_letters(uint8_t *out, const uint8_t *from)
{
    /* (at the low four bits of either mark, the mark; elsewhere what has other low bits) */
    const __m128i marks = _mm_setr_epi8(1, 0, '"', 0, 0, 0, 0, 0, 0, 0, 0, 0, '\\', 0, 0, 0);
    __m128i letters = _mm_loadu_si128((const __m128i *)from);
    _mm_storeu_si128((__m128i *)out, letters);
    __m128i marked = _mm_cmpeq_epi8(letters, _mm_shuffle_epi8(marks, letters));
    /* (as signed numbers, those that are not of ASCII are below a blank, too) */
    return _mm_or_si128(marked, _mm_cmplt_epi8(letters, _mm_set1_epi8(' ')));
}

/* A bit for each of 16 such letters. */
static inline unsigned copy_and_mark(uint8_t *out, const uint8_t *from)
{
    return (unsigned)_mm_movemask_epi8(copy_letters(out, from));
}

/*
 * Copies a text, and tells whether it has such letters. Whether a short one has 16 is not asked: it
 * is as often so as not. The last 16 of a long one go with some before them.
 */
static inline bool copy_text(uint8_t *out, Text text)
{
    const uint8_t *from = text.bytes;
    if (text.len < 32) {
        unsigned marks = copy_and_mark(out, from) | copy_and_mark(out + 16, from + 16) << 16;
        return marks & ((1u << text.len) - 1);
    }
    __m128i others = copy_letters(out + text.len - 16, from + text.len - 16);
    for (size_t at = 0; at < text.len - 16; at += 16)
        others = _mm_or_si128(others, copy_letters(out + at, from + at));
    return _mm_movemask_epi8(others);
}

/* A text in quotes, or else bytes in digits. */
static inline uint8_t *put_quoted(uint8_t *out, Text text, bool is_json)
{
    if (copy_text(out + 1, text))
        return put_other_text(out, text, is_json);
    out[0] = out[text.len + 1] = '"';
    return out + text.len + 2;
}
