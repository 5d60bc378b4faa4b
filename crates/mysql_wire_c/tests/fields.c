/* Numbers and texts at a place in bytes. */
#include "tests.h"

static const uint64_t VALUES[] = {
    0, 1, 250, 251, 252, 255, 256, 65535, 65536, 16777215, 16777216, 4294967295u, 4294967296u,
    UINT64_MAX - 1, UINT64_MAX,
};

static uint64_t low(uint64_t value, size_t width) {
    return width == 8 ? value : value & (((uint64_t)1 << (8 * width)) - 1);
}

static bool numbers_of_each_width_come_back(void) {
    for (size_t width = 1; width <= 8; width++) {
        for (size_t i = 0; i < LENGTH(VALUES); i++) {
            uint8_t room[16];
            size_t at = 3;
            uint64_t value = 99;
            memset(room, '.', sizeof room);
            CHECK(mysql_wire_write_int(room, 3 + width, &at, width, VALUES[i]) == MYSQL_WIRE_OK);
            CHECK(at == 3 + width && memcmp(room, "...", 3) == 0 && room[at] == '.');
            for (size_t byte = 0; byte < width; byte++)
                CHECK(room[3 + byte] == (uint8_t)(VALUES[i] >> (8 * byte)));
            at = 3;
            CHECK(mysql_wire_read_int(room, 3 + width, &at, width, &value) == MYSQL_WIRE_OK);
            CHECK(at == 3 + width && value == low(VALUES[i], width));
        }
    }
    return true;
}

static bool numbers_of_no_width_are_refused(void) {
    static const size_t widths[] = {0, 9, 16, SIZE_MAX};
    uint8_t room[32] = {0};
    for (size_t i = 0; i < LENGTH(widths); i++) {
        size_t at = 1;
        uint64_t value = 99;
        CHECK(mysql_wire_read_int(room, 32, &at, widths[i], &value) == MYSQL_WIRE_NOT_A_NUMBER);
        CHECK(mysql_wire_write_int(room, 32, &at, widths[i], 7) == MYSQL_WIRE_NOT_A_NUMBER);
        CHECK(at == 1 && value == 99 && room[1] == 0);
    }
    return true;
}

/* The bytes of a length-encoded integer, from MySQL's page. */
static size_t spelled(uint64_t value, uint8_t *bytes) {
    size_t count = value < 251 ? 0 : value < 65536 ? 2 : value < 16777216 ? 3 : 8;
    bytes[0] = count == 0 ? (uint8_t)value : count == 2 ? 0xfc : count == 3 ? 0xfd : 0xfe;
    for (size_t byte = 0; byte < count; byte++) bytes[1 + byte] = (uint8_t)(value >> (8 * byte));
    return 1 + count;
}

static bool length_encoded_integers_come_back(void) {
    for (size_t i = 0; i < LENGTH(VALUES); i++) {
        uint8_t bytes[9], room[16];
        size_t count = spelled(VALUES[i], bytes);
        for (size_t room_len = 0; room_len <= 2 + count; room_len++) {
            size_t at = 2;
            memset(room, '.', sizeof room);
            int32_t code = mysql_wire_write_lenenc_int(room, room_len, &at, VALUES[i]);
            if (room_len < 2 + count) {
                CHECK(code == MYSQL_WIRE_ROOM_TOO_SMALL && at == 2 && room[2] == '.');
            } else {
                CHECK(code == MYSQL_WIRE_OK && at == 2 + count);
                CHECK(memcmp(room + 2, bytes, count) == 0 && room[at] == '.');
            }
        }
        for (size_t len = 0; len <= 2 + count; len++) {
            size_t at = 2;
            uint64_t value = 99;
            int32_t code = mysql_wire_read_lenenc_int(room, len, &at, &value);
            if (len < 2 + count) {
                CHECK(code == MYSQL_WIRE_MISSING_BYTES && at == 2 && value == 99);
            } else {
                CHECK(code == MYSQL_WIRE_OK && at == len && value == VALUES[i]);
            }
        }
    }
    return true;
}

static bool marks_are_no_numbers(void) {
    static const uint8_t marks[] = {0xfb, 1, 0xff, 1};
    for (size_t i = 0; i < LENGTH(marks); i += 2) {
        size_t at = i;
        uint64_t value = 99;
        mysql_wire_span text = {5, 6};
        CHECK(mysql_wire_read_lenenc_int(marks, 4, &at, &value) == MYSQL_WIRE_NOT_A_NUMBER);
        CHECK(mysql_wire_read_lenenc_bytes(marks, 4, &at, &text) == MYSQL_WIRE_NOT_A_NUMBER);
        CHECK(at == i && value == 99 && text.at == 5 && text.len == 6);
    }
    return true;
}

static bool texts_come_back(void) {
    static const size_t lens[] = {0, 1, 250, 251, 300, 65536};
    static uint8_t text[65536], room[65546];
    for (size_t byte = 0; byte < sizeof text; byte++) text[byte] = (uint8_t)(byte % 255 + 1);
    for (size_t i = 0; i < LENGTH(lens); i++) {
        uint8_t head[9];
        size_t len = lens[i], front = spelled(len, head), at = 1;
        mysql_wire_span span = {5, 6};
        CHECK(mysql_wire_write_lenenc_bytes(room, front + len, &at, text, len) ==
              MYSQL_WIRE_ROOM_TOO_SMALL && at == 1);
        CHECK(mysql_wire_write_lenenc_bytes(room, 1 + front + len, &at, text, len) ==
              MYSQL_WIRE_OK && at == 1 + front + len);
        at = 1;
        CHECK(mysql_wire_read_lenenc_bytes(room, front + len, &at, &span) ==
              MYSQL_WIRE_MISSING_BYTES && at == 1 && span.at == 5);
        CHECK(mysql_wire_read_lenenc_bytes(room, 1 + front + len, &at, &span) == MYSQL_WIRE_OK);
        CHECK(at == 1 + front + len && span.at == 1 + front && span.len == len);
        CHECK(memcmp(room + span.at, text, len) == 0);

        at = 2;
        CHECK(mysql_wire_write_null_bytes(room, 2 + len, &at, text, len) ==
              MYSQL_WIRE_ROOM_TOO_SMALL && at == 2);
        CHECK(mysql_wire_write_null_bytes(room, 3 + len, &at, text, len) == MYSQL_WIRE_OK);
        CHECK(at == 3 + len && room[2 + len] == 0);
        at = 2;
        CHECK(mysql_wire_read_null_bytes(room, 2 + len, &at, &span) ==
              MYSQL_WIRE_MISSING_BYTES && at == 2);
        CHECK(mysql_wire_read_null_bytes(room, 3 + len, &at, &span) == MYSQL_WIRE_OK);
        CHECK(at == 3 + len && span.at == 2 && span.len == len);
    }
    return true;
}

/* What is read, how many bytes are asked for, the code, where the text stands, and where reading
   goes on. */
typedef struct text_row {
    const char *bytes;
    size_t len, at, count;
    int32_t code;
    mysql_wire_span text;
    size_t end;
} text_row;

static const text_row BYTES_ROWS[] = {
    {"abc", 3, 0, 2, MYSQL_WIRE_OK, {0, 2}, 2},
    {"abc", 3, 3, 0, MYSQL_WIRE_OK, {3, 0}, 3},
    {"abc", 3, 1, 3, MYSQL_WIRE_MISSING_BYTES, {7, 7}, 1},
    {"abc", 3, 1, SIZE_MAX, MYSQL_WIRE_MISSING_BYTES, {7, 7}, 1},
    {"abc", 3, 4, 0, MYSQL_WIRE_MISSING_BYTES, {7, 7}, 4},
    {"abc", 3, SIZE_MAX, 2, MYSQL_WIRE_MISSING_BYTES, {7, 7}, SIZE_MAX},
};

static const text_row REST_ROWS[] = {
    {"abc", 3, 1, 0, MYSQL_WIRE_OK, {1, 2}, 3},
    {"abc", 3, 3, 0, MYSQL_WIRE_OK, {3, 0}, 3},
    {"abc", 3, 4, 0, MYSQL_WIRE_MISSING_BYTES, {7, 7}, 4},
    {"", 0, SIZE_MAX, 0, MYSQL_WIRE_MISSING_BYTES, {7, 7}, SIZE_MAX},
};

static const text_row NULLABLE_ROWS[] = {
    {"\3abc", 4, 0, 0, MYSQL_WIRE_OK, {1, 3}, 4},
    {"\0", 1, 0, 0, MYSQL_WIRE_OK, {1, 0}, 1},
    {".\xfb.", 3, 1, 0, MYSQL_WIRE_NULL, {2, 0}, 2},
    {"\xff.", 2, 0, 0, MYSQL_WIRE_NOT_A_NUMBER, {7, 7}, 0},
    {"\3ab", 3, 0, 0, MYSQL_WIRE_MISSING_BYTES, {7, 7}, 0},
    {"\xfc\1", 2, 0, 0, MYSQL_WIRE_MISSING_BYTES, {7, 7}, 0},
    {"\xfb", 1, 1, 0, MYSQL_WIRE_MISSING_BYTES, {7, 7}, 1},
    {"\xfb", 1, SIZE_MAX, 0, MYSQL_WIRE_MISSING_BYTES, {7, 7}, SIZE_MAX},
};

static bool reads_so(const text_row *row, int32_t code, size_t at, mysql_wire_span text) {
    return code == row->code && at == row->end && text.at == row->text.at &&
           text.len == row->text.len;
}

static bool other_texts_are_read(void) {
    for (size_t i = 0; i < LENGTH(BYTES_ROWS); i++) {
        const text_row *row = &BYTES_ROWS[i];
        const uint8_t *bytes = (const uint8_t *)row->bytes;
        mysql_wire_span text = {7, 7};
        size_t at = row->at;
        int32_t code = mysql_wire_read_bytes(bytes, row->len, &at, row->count, &text);
        CHECK(reads_so(row, code, at, text));
        at = row->at;
        CHECK(mysql_wire_skip(bytes, row->len, &at, row->count) == row->code && at == row->end);
    }
    for (size_t i = 0; i < LENGTH(REST_ROWS); i++) {
        const text_row *row = &REST_ROWS[i];
        mysql_wire_span text = {7, 7};
        size_t at = row->at;
        int32_t code = mysql_wire_read_rest((const uint8_t *)row->bytes, row->len, &at, &text);
        CHECK(reads_so(row, code, at, text));
    }
    for (size_t i = 0; i < LENGTH(NULLABLE_ROWS); i++) {
        const text_row *row = &NULLABLE_ROWS[i];
        mysql_wire_span text = {7, 7};
        size_t at = row->at;
        int32_t code =
            mysql_wire_read_nullable_bytes((const uint8_t *)row->bytes, row->len, &at, &text);
        CHECK(reads_so(row, code, at, text));
    }
    return true;
}

static bool a_row_is_read_at_once(void) {
    static const uint8_t row[] = {7, 2, 'a', 'b', 0xfb, 0, 0xfc, 1, 0, 'c', 0xff};
    mysql_wire_span texts[5] = {{7, 7}, {7, 7}, {7, 7}, {7, 7}, {7, 7}};
    size_t at = 1;
    CHECK(mysql_wire_read_row(row, 11, &at, texts, 4) == MYSQL_WIRE_OK && at == 10);
    CHECK(texts[0].at == 2 && texts[0].len == 2);
    CHECK(texts[1].at == SIZE_MAX && texts[1].len == 0);
    CHECK(texts[2].at == 6 && texts[2].len == 0 && texts[3].at == 9 && texts[3].len == 1);
    CHECK(texts[4].at == 7);
    at = 1;
    CHECK(mysql_wire_read_row(row, 11, &at, texts, 5) == MYSQL_WIRE_NOT_A_NUMBER && at == 1);
    CHECK(mysql_wire_read_row(row, 10, &at, texts, 5) == MYSQL_WIRE_MISSING_BYTES && at == 1);
    CHECK(mysql_wire_read_row(row, 3, &at, texts, 1) == MYSQL_WIRE_MISSING_BYTES && at == 1);
    CHECK(texts[4].at == 7);
    at = 12;
    CHECK(mysql_wire_read_row(row, 11, &at, texts, 0) == MYSQL_WIRE_OK && at == 12);
    CHECK(mysql_wire_read_row(row, 11, &at, texts, 1) == MYSQL_WIRE_MISSING_BYTES && at == 12);
    at = 0;
    CHECK(mysql_wire_read_row(NULL, 0, &at, NULL, 0) == MYSQL_WIRE_OK && at == 0);
    return true;
}

static bool hostile_lengths_and_places_are_refused(void) {
    static const uint8_t huge[] = {0xfe, 0xff, 0xff, 0xff, 0xff, 0xff, 0xff, 0xff, 0xff, 'a'};
    static const size_t places[] = {11, SIZE_MAX - 1, SIZE_MAX};
    mysql_wire_span text;
    uint8_t room[10] = {0};
    size_t at = 0;
    uint64_t value;
    CHECK(mysql_wire_read_lenenc_bytes(huge, 10, &at, &text) == MYSQL_WIRE_MISSING_BYTES);
    CHECK(at == 0);
    CHECK(mysql_wire_read_lenenc_int(huge, 10, &at, &value) == MYSQL_WIRE_OK);
    CHECK(at == 9 && value == UINT64_MAX);
    for (size_t i = 0; i < LENGTH(places); i++) {
        at = places[i];
        CHECK(mysql_wire_read_int(huge, 10, &at, 1, &value) == MYSQL_WIRE_MISSING_BYTES);
        CHECK(mysql_wire_read_lenenc_int(huge, 10, &at, &value) == MYSQL_WIRE_MISSING_BYTES);
        CHECK(mysql_wire_read_lenenc_bytes(huge, 10, &at, &text) == MYSQL_WIRE_MISSING_BYTES);
        CHECK(mysql_wire_read_null_bytes(huge, 10, &at, &text) == MYSQL_WIRE_MISSING_BYTES);
        CHECK(mysql_wire_write_int(room, 10, &at, 1, 1) == MYSQL_WIRE_ROOM_TOO_SMALL);
        CHECK(mysql_wire_write_lenenc_int(room, 10, &at, 1) == MYSQL_WIRE_ROOM_TOO_SMALL);
        CHECK(mysql_wire_write_lenenc_bytes(room, 10, &at, huge, 0) == MYSQL_WIRE_ROOM_TOO_SMALL);
        CHECK(mysql_wire_write_null_bytes(room, 10, &at, huge, 0) == MYSQL_WIRE_ROOM_TOO_SMALL);
        CHECK(at == places[i]);
    }
    return true;
}

const test field_tests[] = {
    {"numbers of each width come back", numbers_of_each_width_come_back},
    {"numbers of no width are refused", numbers_of_no_width_are_refused},
    {"length-encoded integers come back", length_encoded_integers_come_back},
    {"marks are no numbers", marks_are_no_numbers},
    {"texts come back", texts_come_back},
    {"other texts are read", other_texts_are_read},
    {"a row is read at once", a_row_is_read_at_once},
    {"hostile lengths and places are refused", hostile_lengths_and_places_are_refused},
    {NULL, NULL},
};
