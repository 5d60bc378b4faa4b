/* The tables of a dump's lines, and those of their parts that are rare or long. */
#include "dump_lines.h"

#include <stdio.h>

Words heads[2][256];
Place places[2][MOST_COLUMNS];
Words names[2][NAMES];

static const char *const name_list[NAMES] = {
    "catalog",       "schema",        "table", "org_table", "name",     "org_name",
    "character_set", "column_length", "type",  "flags",     "decimals", "", "statistics"};

enum { TEXTS = 6, CHARACTER_SET = TEXTS, COLUMN_LENGTH, TYPE, FLAGS, DECIMALS };

#define FILL(entry, ...) ((entry).len = (uint8_t)sprintf((entry).letters, __VA_ARGS__))

static const char *first(bool is_first)
{
    return is_first ? ",\"fields\":{" : ",";
}

void fill_dump_tables(void)
{
    fill_line_tables();
    fill_powers();
    for (int id = 0; id < 256; id++) {
        FILL(heads[false][id], "server %d ", id);
        FILL(heads[true][id], "{\"from\":\"server\",\"id\":%d,\"length\":", id);
    }
    for (int place = 0; place < MOST_COLUMNS; place++) {
        FILL(places[false][place], "\n  %d ", place);
        FILL(places[true][place], "%s\"%d\":", first(place == 0), place);
    }
    for (int name = 0; name < NAMES; name++) {
        FILL(names[false][name], "\n  %s ", name_list[name]);
        FILL(names[true][name], "%s\"%s\":", first(name == 0 || name == STATISTICS),
             name_list[name]);
    }
}

static uint8_t *put_named_number(uint8_t *out, int name, uint64_t number, bool is_json)
{
    out = put_words(out, &names[is_json][name]);
    if (name == FLAGS && !is_json) /* in hex digits without zeros in front */
        return out + sprintf((char *)out, "0x%x", (unsigned)number);
    return put_decimal(out, number);
}

uint8_t *put_definition_fields(uint8_t *out, const uint8_t *payload, bool is_json)
{
    for (int name = 0; name < TEXTS; name++) {
        out = put_words(out, &names[is_json][name]);
        out = put_quoted(out, take_text(&payload), is_json);
    }
    out = put_named_number(out, CHARACTER_SET, load(payload + 1, 2), is_json);
    out = put_named_number(out, COLUMN_LENGTH, load(payload + 3, 4), is_json);
    out = put_named_number(out, TYPE, payload[7], is_json);
    out = put_named_number(out, FLAGS, load(payload + 8, 2), is_json);
    return put_named_number(out, DECIMALS, payload[10], is_json);
}

/* Two digits behind a letter. */
static inline uint8_t *put_pair(uint8_t *out, char before, unsigned number)
{
    memcpy(out, three_digits[number], 4);
    *out = (uint8_t)before;
    return out + 3;
}

/* Hours, of which there may be more than 99, minutes and seconds behind a letter. */
static inline uint8_t *put_clock_text(uint8_t *out, char before, unsigned hours, Clock clock)
{
    if (hours < 100)
        out = put_pair(out, before, hours);
    else
        out = put_decimal(put(out, (uint8_t)before, 1), hours);
    return put_pair(put_pair(out, ':', clock.minute), ':', clock.second);
}

static inline uint8_t *put_micros(uint8_t *out, uint32_t micros)
{
    *out = '.';
    memcpy(out + 1, three_digits[micros / 1000], 4);
    memcpy(out + 4, three_digits[micros % 1000], 4);
    return out + 7;
}

uint8_t *put_date_text(uint8_t *out, Date date)
{
    if (date.size == 0)
        return PUT(out, "\"0000-00-00 00:00:00\"");
    out = put_pair(out, '"', date.year / 100);
    memcpy(out, three_digits[date.year % 100] + 1, 2);
    out = put_pair(put_pair(out + 2, '-', date.month), '-', date.day);
    if (date.size > 4)
        out = put_clock_text(out, ' ', date.clock.hour, date.clock);
    if (date.size > 7)
        out = put_micros(out, date.micros);
    return PUT(out, "\"");
}

uint8_t *put_span_text(uint8_t *out, Span span)
{
    unsigned hours = 24 * span.days + span.clock.hour;
    if (span.size == 0)
        return PUT(out, "\"00:00:00\"");
    if (span.sign == 1)
        *out++ = '"';
    out = put_clock_text(out, span.sign == 1 ? '-' : '"', hours, span.clock);
    if (span.size > 8)
        out = put_micros(out, span.micros);
    return PUT(out, "\"");
}
