/*
 * Floating-point numbers in the fewest decimal digits that tell them from all others, by the
 * algorithm of "The Schubfach way to render doubles". Its 617 powers of ten, of 128 bits each, are
 * computed at the start.
 */
#include "dump_lines.h"

__extension__ typedef unsigned __int128 Wide;

enum { LEAST_POWER = -292, MOST_POWER = 324, WORDS = 26, SIGNIFICAND_BITS = 52, BIAS = 1075 };

/* Each power of ten times a power of two, from 2^127 on, rounded up. */
static Wide powers[MOST_POWER - LEAST_POWER + 1];

/* Multiplies and divides a number of many words, the lowest first, and halves it once more where
 * the last word, which is above its highest bit, is not 0. */
static void scale(uint32_t *words, uint32_t factor, uint32_t divisor)
{
    uint64_t carry = 0;
    for (int i = 0; i <= WORDS; i++, carry >>= 32) {
        carry += factor * (uint64_t)words[i];
        words[i] = (uint32_t)carry;
    }
    uint64_t rest = 0;
    for (int i = WORDS; i >= 0; i--, rest %= divisor) {
        rest = rest << 32 | words[i];
        words[i] = (uint32_t)(rest / divisor);
    }
    if (words[WORDS] > 0)
        scale(words, 1, 2);
}

/* The highest 128 bits, rounded up. */
static Wide highest_bits(const uint32_t *words)
{
    Wide bits = 0;
    for (int i = WORDS - 1; i >= WORDS - 4; i--)
        bits = bits << 32 | words[i];
    for (int i = 0; i < WORDS - 4; i++) {
        if (words[i] > 0)
            return bits + 1;
    }
    return bits;
}

void fill_powers(void)
{
    uint32_t up[WORDS + 1] = {[WORDS - 1] = 1u << 31}, down[WORDS + 1] = {[WORDS - 1] = 1u << 31};
    for (int power = 0; power <= MOST_POWER; power++, scale(up, 5, 4))
        powers[power - LEAST_POWER] = highest_bits(up);
    for (int power = -1; power >= LEAST_POWER; power--) {
        scale(down, 8, 5);
        powers[power - LEAST_POWER] = highest_bits(down);
    }
}

typedef struct {
    uint64_t digits;
    int power;
} Decimal;

/* The high word of a power's product with a factor, whose last bit tells whether more follows. */
static inline uint64_t round_to_odd(Wide power, uint64_t factor)
{
    uint64_t low = (uint64_t)((Wide)(uint64_t)power * factor >> 64);
    Wide high = (Wide)(uint64_t)(power >> 64) * factor + low;
    return (uint64_t)(high >> 64) | ((uint64_t)high > 1);
}

/* Either of two neighbours that alone lies within the limits, or else the nearer one. */
static inline Decimal nearest(uint64_t fourfold, uint64_t lower, uint64_t upper, int power)
{
    uint64_t digits = fourfold / 4;
    if (digits >= 10) {
        uint64_t tens = digits / 10;
        bool below = lower <= 40 * tens;
        bool above = 40 * tens + 40 <= upper;
        if (below != above)
            return (Decimal){tens + above, power + 1};
    }
    bool below = lower <= 4 * digits;
    bool above = 4 * digits + 4 <= upper;
    if (below != above)
        return (Decimal){digits + above, power};
    uint64_t middle = 4 * digits + 2;
    bool is_up = fourfold > middle || (fourfold == middle && (digits & 1));
    return (Decimal){digits + is_up, power};
}

/* The shortest decimal of `significand` times 2 to the `exponent`. */
static Decimal shortest(uint64_t significand, int exponent, bool is_uneven)
{
    int power = (exponent * 1262611 - (is_uneven ? 524031 : 0)) >> 22;
    int shift = exponent + ((-power * 1741647) >> 19) + 1;
    Wide factor = powers[-power - LEAST_POWER];
    uint64_t fourfold = round_to_odd(factor, 4 * significand << shift);
    uint64_t lower = round_to_odd(factor, (4 * significand - 2 + is_uneven) << shift);
    uint64_t upper = round_to_odd(factor, (4 * significand + 2) << shift);
    bool is_odd = significand & 1;
    return nearest(fourfold, lower + is_odd, upper - is_odd, power);
}

static Decimal decimal_of(uint64_t bits)
{
    uint64_t fraction = bits & ((UINT64_C(1) << SIGNIFICAND_BITS) - 1);
    int biased = (int)(bits >> SIGNIFICAND_BITS);
    if (biased == 0)
        return shortest(fraction, 1 - BIAS, false);
    uint64_t significand = fraction | UINT64_C(1) << SIGNIFICAND_BITS;
    return shortest(significand, biased - BIAS, fraction == 0 && biased > 1);
}

static uint8_t *put_zeros(uint8_t *out, int count)
{
    memset(out, '0', (size_t)count);
    return out + count;
}

/* Digits, of which `point` stand before the point: `12.34`, `1200.0`, `0.0012`, else `1.2e34`. */
static uint8_t *put_pointed(uint8_t *out, const uint8_t *digits, int len, int point)
{
    if (point > 0 && point <= 16) {
        memcpy(out, digits, 20);
        if (point < len) {
            out[point] = '.';
            memcpy(out + point + 1, digits + point, 20);
            return out + len + 1;
        }
        return PUT(put_zeros(out + len, point - len), ".0");
    }
    if (point <= 0 && point > -5) {
        out = put_zeros(PUT(out, "0."), -point);
        memcpy(out, digits, 20);
        return out + len;
    }
    out[0] = digits[0];
    out[1] = '.';
    memcpy(out + 2, digits + 1, 20);
    out += len == 1 ? 1 : len + 1;
    *out++ = 'e';
    if (point < 1)
        *out++ = '-';
    return put_decimal(out, (uint64_t)(point < 1 ? 1 - point : point - 1));
}

uint8_t *put_double(uint8_t *out, uint64_t bits)
{
    uint64_t size = bits & ~(UINT64_C(1) << 63);
    if (size >> SIGNIFICAND_BITS == 0x7ff)
        return PUT(out, "\"NaN\"");
    if (bits != size)
        *out++ = '-';
    Decimal decimal = decimal_of(size);
    for (; decimal.digits % 10 == 0; decimal.power++)
        decimal.digits /= 10;
    uint8_t digits[48];
    int len = (int)(put_decimal(digits, decimal.digits) - digits);
    return put_pointed(out, digits, len, len + decimal.power);
}
