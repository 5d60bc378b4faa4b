/* Numbers and texts with escapes, as lines have them, and their tables. */
#include "lines.h"

Few small_numbers[SMALL_NUMBERS];
char three_digits[SMALL_NUMBERS][4];

/* What stands for a byte of ASCII where it needs an escape. */
static Few escapes[128];

static void fill_numbers(void)
{
    for (unsigned number = 0; number < SMALL_NUMBERS; number++) {
        char *digits = three_digits[number];
        for (unsigned rest = number, i = 3; i-- > 0; rest /= 10)
            digits[i] = (char)('0' + rest % 10);
        uint8_t len = number < 10 ? 1 : number < 100 ? 2 : 3;
        memcpy(small_numbers[number].letters, digits + 3 - len, len);
        small_numbers[number].len = len;
    }
}

static void fill_escapes(void)
{
    static const char named[] = "\b\t\n\f\r\"\\", names[] = "btnfr\"\\";
    for (int byte = 0; byte < ' '; byte++) {
        char low = "0123456789abcdef"[byte % 16];
        escapes[byte] = (Few){{'\\', 'u', '0', '0', (char)('0' + byte / 16), low}, 6};
    }
    for (int i = 0; named[i]; i++)
        escapes[(uint8_t)named[i]] = (Few){{'\\', names[i]}, 2};
}

void fill_line_tables(void)
{
    fill_numbers();
    fill_escapes();
}

/* Three digits at a time, those in front first. */
uint8_t *put_large_number(uint8_t *out, uint64_t number)
{
    out = put_decimal(out, number / 1000);
    memcpy(out, three_digits[number % 1000], 4);
    return out + 3;
}

static uint8_t *put_octets(uint8_t *out, Text bytes, bool is_json)
{
    out = put_hex(is_json ? PUT(out, "{\"hex\":\"") : PUT(out, "x'"), bytes.bytes, bytes.len);
    return is_json ? PUT(out, "\"}") : PUT(out, "'");
}

/* Copies letters that are not of ASCII, up to one that is or to the end; none if there is no UTF-8.
 * Letters of two and of four bytes, which no input has, are taken for none. */
static inline const uint8_t *copy_wide(uint8_t **to, const uint8_t *at, const uint8_t *end)
{
    for (; at < end && *at >= 0x80; at += 3, *to += 3) {
        uint64_t word = load(at, 4), high = word & 0x200f;
        bool is_letter = (word & 0xc0c0f0) == 0x8080e0 && high != 0 && high != 0x200d;
        if (!is_letter || end - at < 3) /* (nor below 800, nor a surrogate) */
            return NULL;
        memcpy(*to, at, 4);
    }
    return at;
}

/* Copies the letters in front that stand as they are, at most 16; the answer is how many. */
static inline long copy_plain(uint8_t *to, const uint8_t *at)
{
    return __builtin_ctz(copy_and_mark(to, at) | 1u << 16);
}

uint8_t *put_other_text(uint8_t *out, Text text, bool is_json)
{
    const uint8_t *at = text.bytes, *end = text.bytes + text.len;
    uint8_t *to = PUT(out, "\"");
    while (at < end) {
        long plain = copy_plain(to, at);
        if (plain >= end - at) {
            to += end - at;
            break;
        }
        at += plain;
        to += plain;
        if (*at >= 0x80) {
            at = copy_wide(&to, at, end);
            if (!at)
                return put_octets(out, text, is_json);
        } else if (plain < 16) {
            to = put_few(to, escapes[*at++]);
        }
    }
    return PUT(to, "\"");
}
