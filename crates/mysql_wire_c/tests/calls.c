/* Each call and each code of a connection. */
#include "tests.h"

static const uint8_t ONE_TWO_THREE[] = {3, 0, 0, 0, '1', '2', '3'};

/* Whether the view has these bytes. */
static bool shows(mysql_wire_view view, const void *bytes, size_t len) {
    return view.at != NULL && view.len == len && memcmp(view.at, bytes, len) == 0;
}

static mysql_wire_connection opened(size_t limit) {
    mysql_wire_connection connection = NULL;
    if (mysql_wire_open(limit, &connection) != MYSQL_WIRE_OK) abort();
    return connection;
}

static bool a_closed_connection_answers_so(void) {
    mysql_wire_connection none = NULL;
    uint8_t room[5] = "....";
    size_t len = 7;
    mysql_wire_view view = {room, 3};
    CHECK(mysql_wire_feed(&none, room, 4) == MYSQL_WIRE_CLOSED);
    CHECK(mysql_wire_peek(&none, &view) == MYSQL_WIRE_CLOSED && shows(view, "", 0));
    CHECK(mysql_wire_take(&none) == MYSQL_WIRE_CLOSED);
    CHECK(mysql_wire_next(&none, room, 4, &len) == MYSQL_WIRE_CLOSED && len == 0);
    CHECK(mysql_wire_set_limit(&none, 1) == MYSQL_WIRE_CLOSED);
    CHECK(mysql_wire_unread(&none) == 0);
    CHECK(mysql_wire_encode(&none, room, 4) == MYSQL_WIRE_CLOSED);
    CHECK(mysql_wire_output(&none, room, 4) == 0);
    len = 7;
    CHECK(mysql_wire_encode_to(&none, room, 0, room, 4, &len) == MYSQL_WIRE_CLOSED && len == 0);
    CHECK(memcmp(room, "....", 4) == 0);
    view.len = 3;
    len = 7;
    CHECK(mysql_wire_decode(&none, ONE_TWO_THREE, 7, &len, &view) == MYSQL_WIRE_CLOSED);
    CHECK(len == 0 && shows(view, "", 0));
    mysql_wire_span span = {7, 8};
    size_t count = 7;
    len = 7;
    CHECK(mysql_wire_decode_many(&none, ONE_TWO_THREE, 7, &span, 1, &count, &len) ==
          MYSQL_WIRE_CLOSED);
    CHECK(count == 0 && len == 0 && span.at == 7 && span.len == 8);
    CHECK(mysql_wire_encode_header(&none, 1, room) == MYSQL_WIRE_CLOSED);
    CHECK(memcmp(room, "....", 4) == 0);
    view.len = 3;
    mysql_wire_pending(&none, &view);
    CHECK(shows(view, "", 0));
    CHECK(mysql_wire_sent(&none, 4) == 0);
    CHECK(mysql_wire_reset(&none) == MYSQL_WIRE_CLOSED);
    CHECK(mysql_wire_set_sequence_id(&none, 3) == MYSQL_WIRE_CLOSED);
    CHECK(mysql_wire_sequence_id(&none) == MYSQL_WIRE_CLOSED);
    CHECK(mysql_wire_packet_id(&none) == MYSQL_WIRE_CLOSED);
    CHECK(mysql_wire_judge_front(&none) == MYSQL_WIRE_CLOSED);
    mysql_wire_close(&none);
    CHECK(none == NULL);
    return true;
}

static bool an_open_connection_is_not_opened_again(void) {
    mysql_wire_connection one = opened(16), same = one;
    CHECK(mysql_wire_open(16, &one) == MYSQL_WIRE_IS_OPEN && one == same);
    mysql_wire_close(&one);
    CHECK(one == NULL);
    CHECK(mysql_wire_open(16, &one) == MYSQL_WIRE_OK && one != NULL);
    mysql_wire_close(&one);
    mysql_wire_close(&one);
    return true;
}

static bool a_packet_is_lent_until_it_is_taken(void) {
    mysql_wire_connection one = opened(16);
    mysql_wire_view view;
    CHECK(mysql_wire_peek(&one, &view) == MYSQL_WIRE_WAITS && view.len == 0);
    CHECK(mysql_wire_feed(&one, ONE_TWO_THREE, 5) == MYSQL_WIRE_OK);
    CHECK(mysql_wire_peek(&one, &view) == MYSQL_WIRE_WAITS && view.len == 0);
    CHECK(mysql_wire_take(&one) == MYSQL_WIRE_NO_PACKET);
    CHECK(mysql_wire_unread(&one) == 5);
    CHECK(mysql_wire_feed(&one, ONE_TWO_THREE + 5, 2) == MYSQL_WIRE_OK);
    CHECK(mysql_wire_take(&one) == MYSQL_WIRE_NO_PACKET);
    CHECK(mysql_wire_unread(&one) == 7);
    for (int again = 0; again < 3; again++) {
        CHECK(mysql_wire_peek(&one, &view) == MYSQL_WIRE_PACKET && shows(view, "123", 3));
        CHECK(mysql_wire_unread(&one) == (size_t)again);
        CHECK(mysql_wire_feed(&one, ONE_TWO_THREE, 1) == MYSQL_WIRE_OK);
    }
    CHECK(mysql_wire_sequence_id(&one) == 1);
    CHECK(mysql_wire_take(&one) == MYSQL_WIRE_OK);
    CHECK(mysql_wire_take(&one) == MYSQL_WIRE_NO_PACKET);
    CHECK(mysql_wire_sequence_id(&one) == 1 && mysql_wire_unread(&one) == 3);
    CHECK(mysql_wire_peek(&one, &view) == MYSQL_WIRE_WAITS);
    mysql_wire_close(&one);
    return true;
}

/* Two packets that were fed at once lie in one buffer, the second after the header of its own. */
static bool a_packet_is_lent_where_it_came(void) {
    static const uint8_t two[] = {3, 0, 0, 0, '1', '2', '3', 2, 0, 0, 1, 'a', 'b'};
    mysql_wire_connection one = opened(16);
    mysql_wire_view first, again, second;
    CHECK(mysql_wire_feed(&one, two, sizeof two) == MYSQL_WIRE_OK);
    size_t requests = requests_made();
    CHECK(mysql_wire_peek(&one, &first) == MYSQL_WIRE_PACKET && shows(first, "123", 3));
    CHECK(mysql_wire_peek(&one, &again) == MYSQL_WIRE_PACKET && again.at == first.at);
    CHECK(mysql_wire_take(&one) == MYSQL_WIRE_OK);
    CHECK(mysql_wire_peek(&one, &second) == MYSQL_WIRE_PACKET && shows(second, "ab", 2));
    CHECK(second.at == first.at + 3 + 4 && requests_made() == requests);
    mysql_wire_close(&one);
    return true;
}

static bool an_empty_packet_is_a_packet(void) {
    static const uint8_t empty[] = {0, 0, 0, 0};
    mysql_wire_connection one = opened(0);
    mysql_wire_view view;
    CHECK(mysql_wire_feed(&one, empty, 4) == MYSQL_WIRE_OK);
    CHECK(mysql_wire_peek(&one, &view) == MYSQL_WIRE_PACKET && view.at != NULL && view.len == 0);
    CHECK(mysql_wire_take(&one) == MYSQL_WIRE_OK && mysql_wire_unread(&one) == 0);
    mysql_wire_close(&one);
    return true;
}

static bool too_little_room_leaves_the_packet(void) {
    mysql_wire_connection one = opened(16);
    uint8_t room[5] = "....";
    size_t len = 9;
    CHECK(mysql_wire_next(&one, room, 4, &len) == MYSQL_WIRE_WAITS && len == 0);
    CHECK(mysql_wire_feed(&one, ONE_TWO_THREE, 7) == MYSQL_WIRE_OK);
    CHECK(mysql_wire_next(&one, room, 2, &len) == MYSQL_WIRE_ROOM_TOO_SMALL && len == 3);
    CHECK(memcmp(room, "....", 4) == 0);
    CHECK(mysql_wire_next(&one, room, 0, &len) == MYSQL_WIRE_ROOM_TOO_SMALL && len == 3);
    CHECK(mysql_wire_next(&one, room, 4, &len) == MYSQL_WIRE_PACKET && len == 3);
    CHECK(memcmp(room, "123.", 4) == 0);
    CHECK(mysql_wire_next(&one, room, 4, &len) == MYSQL_WIRE_WAITS && len == 0);
    mysql_wire_close(&one);
    return true;
}

static bool packets_are_copied_one_after_another(void) {
    static const uint8_t three[] = {1, 0, 0, 0, 'a', 0, 0, 0, 1, 2, 0, 0, 2, 'b', 'c', 9};
    mysql_wire_connection one = opened(16);
    uint8_t room[4];
    size_t len = 9;
    CHECK(mysql_wire_feed(&one, three, sizeof three) == MYSQL_WIRE_OK);
    CHECK(mysql_wire_next(&one, room, 4, &len) == MYSQL_WIRE_PACKET && len == 1 && room[0] == 'a');
    CHECK(mysql_wire_sequence_id(&one) == 1 && mysql_wire_unread(&one) == 11);
    CHECK(mysql_wire_next(&one, room, 4, &len) == MYSQL_WIRE_PACKET && len == 0);
    CHECK(mysql_wire_next(&one, room, 1, &len) == MYSQL_WIRE_ROOM_TOO_SMALL && len == 2);
    CHECK(mysql_wire_next(&one, room, 2, &len) == MYSQL_WIRE_PACKET && memcmp(room, "bc", 2) == 0);
    CHECK(mysql_wire_next(&one, room, 4, &len) == MYSQL_WIRE_WAITS && len == 0);
    CHECK(mysql_wire_take(&one) == MYSQL_WIRE_NO_PACKET && mysql_wire_unread(&one) == 1);
    mysql_wire_close(&one);
    return true;
}

static bool a_larger_limit_goes_on(void) {
    mysql_wire_connection one = opened(2);
    mysql_wire_view view;
    uint8_t room[4];
    size_t len = 1;
    CHECK(mysql_wire_feed(&one, ONE_TWO_THREE, 4) == MYSQL_WIRE_OK);
    CHECK(mysql_wire_peek(&one, &view) == MYSQL_WIRE_TOO_LARGE && view.len == 0);
    CHECK(mysql_wire_next(&one, room, 4, &len) == MYSQL_WIRE_TOO_LARGE && len == 0);
    CHECK(mysql_wire_unread(&one) == 4);
    CHECK(mysql_wire_set_limit(&one, 1) == MYSQL_WIRE_OK);
    CHECK(mysql_wire_peek(&one, &view) == MYSQL_WIRE_TOO_LARGE);
    CHECK(mysql_wire_set_limit(&one, 3) == MYSQL_WIRE_OK);
    CHECK(mysql_wire_peek(&one, &view) == MYSQL_WIRE_WAITS);
    CHECK(mysql_wire_feed(&one, ONE_TWO_THREE + 4, 3) == MYSQL_WIRE_OK);
    CHECK(mysql_wire_peek(&one, &view) == MYSQL_WIRE_PACKET && shows(view, "123", 3));
    mysql_wire_close(&one);
    return true;
}

static bool a_header_is_judged_once(void) {
    static const uint8_t second[] = {3, 0, 0, 1, 'a', 'b', 'c'};
    mysql_wire_connection one = opened(3);
    mysql_wire_view view;
    /* The fourth byte came under the limit of 3. */
    CHECK(mysql_wire_feed(&one, ONE_TWO_THREE, 4) == MYSQL_WIRE_OK);
    CHECK(mysql_wire_set_limit(&one, 2) == MYSQL_WIRE_OK);
    CHECK(mysql_wire_feed(&one, ONE_TWO_THREE + 4, 3) == MYSQL_WIRE_OK);
    CHECK(mysql_wire_peek(&one, &view) == MYSQL_WIRE_PACKET && shows(view, "123", 3));
    /* No limit is set while it stands. */
    CHECK(mysql_wire_set_limit(&one, 3) == MYSQL_WIRE_PACKET_WAITS);
    CHECK(mysql_wire_take(&one) == MYSQL_WIRE_OK);
    /* Three bytes came under the limit of 3, and the fourth under that of 2. */
    CHECK(mysql_wire_set_limit(&one, 3) == MYSQL_WIRE_OK);
    CHECK(mysql_wire_feed(&one, second, 3) == MYSQL_WIRE_OK);
    CHECK(mysql_wire_set_limit(&one, 2) == MYSQL_WIRE_OK);
    CHECK(mysql_wire_feed(&one, second + 3, 4) == MYSQL_WIRE_OK);
    CHECK(mysql_wire_peek(&one, &view) == MYSQL_WIRE_TOO_LARGE);
    mysql_wire_close(&one);
    return true;
}

static bool a_whole_packet_keeps_the_limit(void) {
    mysql_wire_connection one = opened(3);
    mysql_wire_view view;
    CHECK(mysql_wire_feed(&one, ONE_TWO_THREE, 7) == MYSQL_WIRE_OK);
    CHECK(mysql_wire_set_limit(&one, 8) == MYSQL_WIRE_PACKET_WAITS);
    CHECK(mysql_wire_encode(&one, (const uint8_t *)"four", 4) == MYSQL_WIRE_TOO_LARGE);
    CHECK(mysql_wire_peek(&one, &view) == MYSQL_WIRE_PACKET && shows(view, "123", 3));
    CHECK(mysql_wire_take(&one) == MYSQL_WIRE_OK);
    CHECK(mysql_wire_set_limit(&one, 8) == MYSQL_WIRE_OK);
    CHECK(mysql_wire_encode(&one, (const uint8_t *)"four", 4) == MYSQL_WIRE_OK);
    mysql_wire_close(&one);
    return true;
}

static bool a_lost_connection_stays_lost(void) {
    static const uint8_t other[] = {1, 0, 0, 5, 'x', 0, 0, 0, 0};
    mysql_wire_connection one = opened(16);
    mysql_wire_view view = {other, 1};
    uint8_t room[16];
    size_t len = 1;
    CHECK(mysql_wire_feed(&one, other, 9) == MYSQL_WIRE_OK);
    CHECK(mysql_wire_peek(&one, &view) == MYSQL_WIRE_OUT_OF_SYNC && view.len == 0);
    size_t unread = mysql_wire_unread(&one);
    for (int again = 0; again < 3; again++) {
        CHECK(mysql_wire_peek(&one, &view) == MYSQL_WIRE_OUT_OF_SYNC && view.len == 0);
        CHECK(mysql_wire_next(&one, room, 16, &len) == MYSQL_WIRE_OUT_OF_SYNC && len == 0);
        CHECK(mysql_wire_feed(&one, other, 9) == MYSQL_WIRE_OUT_OF_SYNC);
        CHECK(mysql_wire_take(&one) == MYSQL_WIRE_NO_PACKET);
        CHECK(mysql_wire_set_limit(&one, 3) == MYSQL_WIRE_OUT_OF_SYNC);
        CHECK(mysql_wire_sequence_id(&one) == MYSQL_WIRE_OUT_OF_SYNC);
        CHECK(mysql_wire_unread(&one) == unread);
    }
    CHECK(mysql_wire_reset(&one) == MYSQL_WIRE_OK);
    CHECK(mysql_wire_encode(&one, other, 1) == MYSQL_WIRE_OK);
    CHECK(mysql_wire_output(&one, room, 16) == 5 && memcmp(room, "\1\0\0\0\1", 5) == 0);
    mysql_wire_close(&one);
    return true;
}

static bool a_lost_connection_numbers_on(void) {
    static const uint8_t other[] = {1, 0, 0, 0, 'x', 1, 0, 0, 7, 'y'};
    mysql_wire_connection one = opened(16);
    mysql_wire_view view;
    uint8_t room[16];
    CHECK(mysql_wire_feed(&one, other, sizeof other) == MYSQL_WIRE_OK);
    CHECK(mysql_wire_peek(&one, &view) == MYSQL_WIRE_PACKET);
    CHECK(mysql_wire_take(&one) == MYSQL_WIRE_OK);
    CHECK(mysql_wire_peek(&one, &view) == MYSQL_WIRE_OUT_OF_SYNC);
    /* 1 was expected of the chunk that bore 7. */
    CHECK(mysql_wire_encode(&one, (const uint8_t *)"a", 1) == MYSQL_WIRE_OK);
    CHECK(mysql_wire_encode(&one, (const uint8_t *)"b", 1) == MYSQL_WIRE_OK);
    CHECK(mysql_wire_output(&one, room, 16) == 10);
    CHECK(memcmp(room, "\1\0\0\1a\1\0\0\2b", 10) == 0);
    mysql_wire_close(&one);
    return true;
}

static bool an_address_of_nothing_may_be_null(void) {
    static const uint8_t empty[] = {0, 0, 0, 0};
    mysql_wire_connection one = opened(0);
    mysql_wire_view view;
    uint8_t room[8] = {0};
    size_t len = 1, at = 0;
    mysql_wire_span text;
    uint64_t value;
    CHECK(mysql_wire_feed(&one, NULL, 0) == MYSQL_WIRE_OK && mysql_wire_unread(&one) == 0);
    CHECK(mysql_wire_next(&one, NULL, 0, &len) == MYSQL_WIRE_WAITS && len == 0);
    CHECK(mysql_wire_feed(&one, empty, 4) == MYSQL_WIRE_OK);
    CHECK(mysql_wire_feed(&one, NULL, 0) == MYSQL_WIRE_OK && mysql_wire_unread(&one) == 4);
    CHECK(mysql_wire_next(&one, NULL, 0, &len) == MYSQL_WIRE_PACKET && len == 0);
    CHECK(mysql_wire_encode(&one, NULL, 0) == MYSQL_WIRE_OK);
    CHECK(mysql_wire_output(&one, NULL, 0) == 0);
    mysql_wire_pending(&one, &view);
    CHECK(shows(view, "\0\0\0\1", 4));
    mysql_wire_close(&one);
    CHECK(mysql_wire_read_int(NULL, 0, &at, 1, &value) == MYSQL_WIRE_MISSING_BYTES);
    CHECK(mysql_wire_read_lenenc_int(NULL, 0, &at, &value) == MYSQL_WIRE_MISSING_BYTES);
    CHECK(mysql_wire_read_lenenc_bytes(NULL, 0, &at, &text) == MYSQL_WIRE_MISSING_BYTES);
    CHECK(mysql_wire_read_null_bytes(NULL, 0, &at, &text) == MYSQL_WIRE_MISSING_BYTES);
    CHECK(mysql_wire_write_int(NULL, 0, &at, 1, 1) == MYSQL_WIRE_ROOM_TOO_SMALL);
    CHECK(mysql_wire_write_lenenc_int(NULL, 0, &at, 1) == MYSQL_WIRE_ROOM_TOO_SMALL);
    CHECK(mysql_wire_write_lenenc_bytes(NULL, 0, &at, NULL, 0) == MYSQL_WIRE_ROOM_TOO_SMALL);
    CHECK(mysql_wire_write_null_bytes(NULL, 0, &at, NULL, 0) == MYSQL_WIRE_ROOM_TOO_SMALL);
    CHECK(mysql_wire_write_lenenc_bytes(room, 8, &at, NULL, 0) == MYSQL_WIRE_OK && at == 1);
    CHECK(mysql_wire_write_null_bytes(room, 8, &at, NULL, 0) == MYSQL_WIRE_OK && at == 2);
    return true;
}

static bool what_is_encoded_goes_out_in_parts(void) {
    mysql_wire_connection one = opened(3);
    mysql_wire_view view;
    uint8_t room[8];
    CHECK(mysql_wire_encode(&one, (const uint8_t *)"ab", 2) == MYSQL_WIRE_OK);
    CHECK(mysql_wire_encode(&one, (const uint8_t *)"abcd", 4) == MYSQL_WIRE_TOO_LARGE);
    CHECK(mysql_wire_encode(&one, (const uint8_t *)"", 0) == MYSQL_WIRE_OK);
    CHECK(mysql_wire_sequence_id(&one) == 2);
    mysql_wire_pending(&one, &view);
    CHECK(shows(view, "\2\0\0\0ab\0\0\0\1", 10));
    CHECK(mysql_wire_output(&one, room, 0) == 0);
    CHECK(mysql_wire_output(&one, room, 5) == 5 && memcmp(room, "\2\0\0\0a", 5) == 0);
    CHECK(mysql_wire_sent(&one, 2) == 2);
    mysql_wire_pending(&one, &view);
    CHECK(shows(view, "\0\0\1", 3));
    CHECK(mysql_wire_sent(&one, 100) == 3 && mysql_wire_sent(&one, 1) == 0);
    mysql_wire_pending(&one, &view);
    CHECK(view.len == 0 && mysql_wire_output(&one, room, 8) == 0);
    CHECK(mysql_wire_reset(&one) == MYSQL_WIRE_OK && mysql_wire_sequence_id(&one) == 0);
    mysql_wire_close(&one);
    return true;
}

static bool numbers_go_on_after_a_packet_that_is_lent(void) {
    mysql_wire_connection one = opened(3);
    mysql_wire_view view;
    uint8_t room[8];
    CHECK(mysql_wire_feed(&one, ONE_TWO_THREE, 7) == MYSQL_WIRE_OK);
    CHECK(mysql_wire_peek(&one, &view) == MYSQL_WIRE_PACKET);
    CHECK(mysql_wire_sequence_id(&one) == 1);
    CHECK(mysql_wire_encode(&one, (const uint8_t *)"a", 1) == MYSQL_WIRE_OK);
    CHECK(mysql_wire_output(&one, room, 8) == 5 && memcmp(room, "\1\0\0\1a", 5) == 0);
    CHECK(mysql_wire_reset(&one) == MYSQL_WIRE_OK && mysql_wire_sequence_id(&one) == 0);
    CHECK(mysql_wire_peek(&one, &view) == MYSQL_WIRE_PACKET && shows(view, "123", 3));
    CHECK(mysql_wire_take(&one) == MYSQL_WIRE_OK && mysql_wire_sequence_id(&one) == 0);
    CHECK(mysql_wire_unread(&one) == 0);
    mysql_wire_close(&one);
    return true;
}

static bool the_number_of_a_packet_is_the_one_before(void) {
    static const uint8_t two[] = {1, 0, 0, 5, 'b', 0, 0, 0, 6};
    mysql_wire_connection one = opened(3);
    mysql_wire_view view;
    size_t used;
    CHECK(mysql_wire_packet_id(&one) == 255);
    CHECK(mysql_wire_encode(&one, (const uint8_t *)"", 0) == MYSQL_WIRE_OK);
    CHECK(mysql_wire_packet_id(&one) == 0);
    CHECK(mysql_wire_set_sequence_id(&one, 5) == MYSQL_WIRE_OK);
    CHECK(mysql_wire_feed(&one, two, 7) == MYSQL_WIRE_OK);
    CHECK(mysql_wire_peek(&one, &view) == MYSQL_WIRE_PACKET && mysql_wire_packet_id(&one) == 5);
    CHECK(mysql_wire_sequence_id(&one) == 6);
    CHECK(mysql_wire_take(&one) == MYSQL_WIRE_OK && mysql_wire_packet_id(&one) == 5);
    CHECK(mysql_wire_decode(&one, two + 7, 2, &used, &view) == MYSQL_WIRE_PACKET);
    CHECK(used == 2 && mysql_wire_packet_id(&one) == 6);
    mysql_wire_close(&one);
    return true;
}

/* Feeds these bytes one by one. The answer is how many had come when the front was refused, and 99
   where it never was. */
static int refused_after(const uint8_t *bytes, int len) {
    mysql_wire_connection one = opened(1 << 24);
    mysql_wire_view view;
    int came = 0, refused = 99;
    while (came < len && refused == 99) {
        int32_t code;
        if (mysql_wire_feed(&one, bytes + came++, 1) != MYSQL_WIRE_OK) abort();
        while ((code = mysql_wire_peek(&one, &view)) == MYSQL_WIRE_PACKET) mysql_wire_take(&one);
        if (code == MYSQL_WIRE_WAITS) code = mysql_wire_judge_front(&one);
        if (code == MYSQL_WIRE_OUT_OF_SYNC) refused = came;
    }
    mysql_wire_close(&one);
    return refused;
}

static bool another_number_is_told_at_the_fourth_byte(void) {
    static const uint8_t long_other[] = {0, 0, 0x80, 1, 'a', 'b'};
    static const uint8_t long_expected[] = {0, 0, 0x80, 0, 'a', 'b'};
    static const uint8_t second_other[] = {1, 0, 0, 0, 'a', 2, 0, 0, 2, 'b', 'c'};
    static const uint8_t second_expected[] = {1, 0, 0, 0, 'a', 2, 0, 0, 1, 'b', 'c'};
    static const uint8_t full[] = {0xff, 0xff, 0xff, 9};
    mysql_wire_connection one = opened(1 << 24);
    mysql_wire_view view;
    CHECK(refused_after(long_other, 6) == 4 && refused_after(long_expected, 6) == 99);
    CHECK(refused_after(second_other, 11) == 9 && refused_after(second_expected, 11) == 99);
    CHECK(refused_after(full, 4) == 4);
    /* (nothing changes, and a packet that is lent isn't after the front) */
    CHECK(mysql_wire_judge_front(&one) == MYSQL_WIRE_OK);
    CHECK(mysql_wire_feed(&one, second_other, 10) == MYSQL_WIRE_OK);
    CHECK(mysql_wire_judge_front(&one) == MYSQL_WIRE_OK);
    CHECK(mysql_wire_peek(&one, &view) == MYSQL_WIRE_PACKET && shows(view, "a", 1));
    CHECK(mysql_wire_judge_front(&one) == MYSQL_WIRE_OK);
    CHECK(mysql_wire_take(&one) == MYSQL_WIRE_OK);
    CHECK(mysql_wire_judge_front(&one) == MYSQL_WIRE_OUT_OF_SYNC);
    CHECK(mysql_wire_peek(&one, &view) == MYSQL_WIRE_WAITS && mysql_wire_unread(&one) == 5);
    CHECK(mysql_wire_judge_front(&one) == MYSQL_WIRE_OUT_OF_SYNC);
    CHECK(mysql_wire_set_sequence_id(&one, 2) == MYSQL_WIRE_OK);
    CHECK(mysql_wire_judge_front(&one) == MYSQL_WIRE_OK);
    CHECK(mysql_wire_set_sequence_id(&one, 3) == MYSQL_WIRE_OK);
    CHECK(mysql_wire_feed(&one, second_other + 10, 1) == MYSQL_WIRE_OK);
    CHECK(mysql_wire_peek(&one, &view) == MYSQL_WIRE_OUT_OF_SYNC);
    CHECK(mysql_wire_judge_front(&one) == MYSQL_WIRE_OUT_OF_SYNC);
    CHECK(mysql_wire_packet_id(&one) == MYSQL_WIRE_OUT_OF_SYNC);
    mysql_wire_close(&one);
    return true;
}

static bool the_numbers_are_those_of_the_chunks(void) {
    mysql_wire_connection one = opened(16);
    for (int packets = 0; packets < 600; packets++) {
        CHECK(mysql_wire_sequence_id(&one) == packets % 256);
        CHECK(mysql_wire_encode(&one, ONE_TWO_THREE, (size_t)packets % 3) == MYSQL_WIRE_OK);
    }
    mysql_wire_close(&one);
    return true;
}

static bool the_number_that_is_set_is_the_next(void) {
    mysql_wire_connection one = opened(3);
    mysql_wire_view view;
    uint8_t room[8];
    CHECK(mysql_wire_set_sequence_id(&one, 255) == MYSQL_WIRE_OK);
    CHECK(mysql_wire_sequence_id(&one) == 255);
    CHECK(mysql_wire_encode(&one, (const uint8_t *)"a", 1) == MYSQL_WIRE_OK);
    CHECK(mysql_wire_output(&one, room, 8) == 5 && memcmp(room, "\1\0\0\xff" "a", 5) == 0);
    CHECK(mysql_wire_sequence_id(&one) == 0);
    CHECK(mysql_wire_set_sequence_id(&one, 5) == MYSQL_WIRE_OK);
    CHECK(mysql_wire_feed(&one, (const uint8_t *)"\1\0\0\5b\1\0\0\5c", 10) == MYSQL_WIRE_OK);
    CHECK(mysql_wire_peek(&one, &view) == MYSQL_WIRE_PACKET && shows(view, "b", 1));
    /* Behind the packet that is lent. */
    CHECK(mysql_wire_set_sequence_id(&one, 5) == MYSQL_WIRE_OK);
    CHECK(mysql_wire_peek(&one, &view) == MYSQL_WIRE_PACKET && shows(view, "b", 1));
    CHECK(mysql_wire_take(&one) == MYSQL_WIRE_OK);
    CHECK(mysql_wire_peek(&one, &view) == MYSQL_WIRE_PACKET && shows(view, "c", 1));
    CHECK(mysql_wire_sequence_id(&one) == 6);
    mysql_wire_close(&one);
    return true;
}

static bool framed_lengths_are_counted(void) {
    static const size_t lens[][2] = {
        {0, 4}, {16777214, 16777218}, {16777215, 16777223}, {16777216, 16777224},
        {33554430, 33554442},
    };
    size_t framed = 9;
    for (size_t i = 0; i < LENGTH(lens); i++) {
        CHECK(mysql_wire_framed_len(lens[i][0], &framed) == MYSQL_WIRE_OK);
        CHECK(framed == lens[i][1]);
    }
    CHECK(mysql_wire_framed_len(SIZE_MAX, &framed) == MYSQL_WIRE_TOO_LARGE && framed == 0);
    return true;
}

static bool a_packet_is_framed_into_the_room(void) {
    mysql_wire_connection one = opened(3);
    mysql_wire_view view;
    uint8_t room[9] = "........";
    size_t written = 9;
    CHECK(mysql_wire_encode_to(&one, (const uint8_t *)"abcd", 4, room, 8, &written) ==
          MYSQL_WIRE_TOO_LARGE && written == 0);
    CHECK(mysql_wire_encode_to(&one, (const uint8_t *)"abc", 3, room, 6, &written) ==
          MYSQL_WIRE_ROOM_TOO_SMALL && written == 7);
    CHECK(mysql_wire_encode_to(&one, NULL, 0, NULL, 0, &written) == MYSQL_WIRE_ROOM_TOO_SMALL);
    CHECK(written == 4 && memcmp(room, "........", 8) == 0);
    CHECK(mysql_wire_sequence_id(&one) == 0);
    size_t requests = requests_made();
    CHECK(mysql_wire_encode_to(&one, (const uint8_t *)"abc", 3, room, 8, &written) ==
          MYSQL_WIRE_OK && written == 7);
    CHECK(memcmp(room, "\3\0\0\0abc.", 8) == 0 && mysql_wire_sequence_id(&one) == 1);
    CHECK(mysql_wire_encode_to(&one, NULL, 0, room, 4, &written) == MYSQL_WIRE_OK);
    CHECK(written == 4 && memcmp(room, "\0\0\0\1", 4) == 0 && requests_made() == requests);
    /* Behind a packet that is lent. */
    CHECK(mysql_wire_reset(&one) == MYSQL_WIRE_OK);
    CHECK(mysql_wire_feed(&one, ONE_TWO_THREE, 7) == MYSQL_WIRE_OK);
    CHECK(mysql_wire_peek(&one, &view) == MYSQL_WIRE_PACKET);
    CHECK(mysql_wire_encode_to(&one, (const uint8_t *)"a", 1, room, 8, &written) == MYSQL_WIRE_OK);
    CHECK(written == 5 && memcmp(room, "\1\0\0\1a", 5) == 0);
    CHECK(mysql_wire_peek(&one, &view) == MYSQL_WIRE_PACKET && shows(view, "123", 3));
    mysql_wire_pending(&one, &view);
    CHECK(view.len == 0);
    mysql_wire_close(&one);
    return true;
}

/* Three packets that come whole are lent where they lie, and nothing is asked for. */
static bool packets_are_lent_from_the_bytes(void) {
    static const uint8_t three[] = {1, 0, 0, 0, 'a', 0, 0, 0, 1, 2, 0, 0, 2, 'b', 'c'};
    static const size_t lens[] = {1, 0, 2}, starts[] = {4, 9, 13};
    mysql_wire_connection one = opened(2);
    mysql_wire_view view;
    size_t at = 0, used = 9, requests = requests_made();
    for (size_t i = 0; i < 3; i++) {
        CHECK(mysql_wire_decode(&one, three + at, sizeof three - at, &used, &view) ==
              MYSQL_WIRE_PACKET);
        at += used;
        CHECK(shows(view, three + starts[i], lens[i]) && at == starts[i] + lens[i]);
        CHECK(lens[i] == 0 || view.at == three + starts[i]);
        CHECK(mysql_wire_sequence_id(&one) == (int32_t)i + 1 && mysql_wire_unread(&one) == 0);
        CHECK(mysql_wire_take(&one) == MYSQL_WIRE_NO_PACKET);
    }
    CHECK(mysql_wire_decode(&one, three + at, 0, &used, &view) == MYSQL_WIRE_WAITS);
    CHECK(used == 0 && shows(view, "", 0) && requests_made() == requests);
    mysql_wire_close(&one);
    return true;
}

/* As many as there is place for, then the others; the last is cut. */
static bool many_packets_are_lent_at_once(void) {
    static const uint8_t bytes[] = {1, 0, 0, 0, 'a', 0, 0, 0, 1, 2, 0, 0, 2, 'b', 'c', 1, 0, 0, 3};
    mysql_wire_connection one = opened(2);
    mysql_wire_span spans[3] = {{77, 77}, {77, 77}, {77, 77}};
    mysql_wire_view view;
    size_t count = 9, used = 9, requests = requests_made();
    CHECK(mysql_wire_decode_many(&one, bytes, sizeof bytes, NULL, 0, &count, &used) ==
          MYSQL_WIRE_WAITS && count == 0 && used == 0);
    CHECK(mysql_wire_decode_many(&one, NULL, 0, spans, 3, &count, &used) == MYSQL_WIRE_WAITS);
    CHECK(count == 0 && used == 0 && spans[0].at == 77);
    CHECK(mysql_wire_decode_many(&one, bytes, sizeof bytes, spans, 2, &count, &used) ==
          MYSQL_WIRE_PACKET && count == 2 && used == 9);
    CHECK(spans[0].at == 4 && spans[0].len == 1 && spans[1].at == 9 && spans[1].len == 0);
    CHECK(spans[2].at == 77 && spans[2].len == 77);
    CHECK(mysql_wire_sequence_id(&one) == 2 && mysql_wire_unread(&one) == 0);
    CHECK(mysql_wire_take(&one) == MYSQL_WIRE_NO_PACKET);
    CHECK(mysql_wire_decode_many(&one, bytes + 9, sizeof bytes - 9, spans, 3, &count, &used) ==
          MYSQL_WIRE_PACKET && count == 1 && used == 6);
    CHECK(spans[0].at == 4 && spans[0].len == 2 && spans[1].at == 9);
    CHECK(mysql_wire_decode_many(&one, bytes + 15, 4, spans, 3, &count, &used) ==
          MYSQL_WIRE_WAITS && count == 0 && used == 0 && mysql_wire_unread(&one) == 0);
    CHECK(mysql_wire_sequence_id(&one) == 3 && requests_made() == requests);
    /* It goes on where the bytes were fed. */
    CHECK(mysql_wire_decode(&one, bytes + 15, 4, &used, &view) == MYSQL_WIRE_WAITS && used == 4);
    CHECK(mysql_wire_decode_many(&one, ONE_TWO_THREE, 7, spans, 3, &count, &used) ==
          MYSQL_WIRE_WAITS && count == 0 && used == 0 && mysql_wire_unread(&one) == 4);
    CHECK(mysql_wire_decode(&one, (const uint8_t *)"d", 1, &used, &view) == MYSQL_WIRE_PACKET);
    CHECK(shows(view, "d", 1));
    mysql_wire_close(&one);
    return true;
}

/* It takes a packet that is lent; of one past the limit, or of another number, it says nothing. */
static bool none_is_lent_that_decode_does_not_lend(void) {
    static const uint8_t two[] = {1, 0, 0, 1, 'a', 3, 0, 0, 2, 'b', 'c', 'd'};
    mysql_wire_connection one = opened(3);
    mysql_wire_span spans[3];
    mysql_wire_view view;
    size_t count = 9, used = 9;
    CHECK(mysql_wire_feed(&one, ONE_TWO_THREE, 7) == MYSQL_WIRE_OK);
    CHECK(mysql_wire_decode_many(&one, two, 5, spans, 3, &count, &used) == MYSQL_WIRE_WAITS);
    CHECK(mysql_wire_peek(&one, &view) == MYSQL_WIRE_PACKET && shows(view, "123", 3));
    CHECK(mysql_wire_set_limit(&one, 2) == MYSQL_WIRE_PACKET_WAITS);
    CHECK(mysql_wire_take(&one) == MYSQL_WIRE_OK && mysql_wire_set_limit(&one, 2) == MYSQL_WIRE_OK);
    CHECK(mysql_wire_decode_many(&one, two, sizeof two, spans, 3, &count, &used) ==
          MYSQL_WIRE_PACKET && count == 1 && used == 5);
    CHECK(mysql_wire_decode_many(&one, two + 5, 7, spans, 3, &count, &used) == MYSQL_WIRE_WAITS);
    CHECK(mysql_wire_set_limit(&one, 3) == MYSQL_WIRE_OK);
    CHECK(mysql_wire_decode_many(&one, two + 5, 7, spans, 3, &count, &used) == MYSQL_WIRE_PACKET);
    CHECK(count == 1 && used == 7 && spans[0].len == 3);
    CHECK(mysql_wire_decode_many(&one, two, 5, spans, 3, &count, &used) == MYSQL_WIRE_WAITS);
    CHECK(mysql_wire_sequence_id(&one) == 3);
    CHECK(mysql_wire_decode(&one, two, 5, &used, &view) == MYSQL_WIRE_OUT_OF_SYNC);
    CHECK(mysql_wire_decode_many(&one, two, 5, spans, 3, &count, &used) == MYSQL_WIRE_WAITS);
    CHECK(count == 0 && used == 0 && mysql_wire_sequence_id(&one) == MYSQL_WIRE_OUT_OF_SYNC);
    mysql_wire_close(&one);
    /* (lent in place) */
    one = opened(3);
    CHECK(mysql_wire_feed(&one, ONE_TWO_THREE, 7) == MYSQL_WIRE_OK);
    CHECK(mysql_wire_peek(&one, &view) == MYSQL_WIRE_PACKET);
    CHECK(mysql_wire_decode_many(&one, two, 5, spans, 3, &count, &used) == MYSQL_WIRE_PACKET);
    CHECK(count == 1 && mysql_wire_sequence_id(&one) == 2 && mysql_wire_unread(&one) == 0);
    mysql_wire_close(&one);
    return true;
}

/* Bytes, and how many of them the packet takes that is lent under the number 3 and a limit of 2. */
typedef struct front {
    size_t len;
    const char *bytes;
    size_t used;
} front;

static const front FRONTS[] = {
    {6, "\2\0\0\3ab", 6},
    {8, "\2\0\0\3abc\0", 6},
    {4, "\0\0\0\3", 4},
    {5, "\2\0\0\3a", 0},
    {3, "\2\0\0", 0},
    {6, "\2\0\0\4ab", 0},
    {7, "\3\0\0\3abc", 0},
};

static bool one_is_lent_where_it_is_whole(void) {
    for (size_t i = 0; i < LENGTH(FRONTS); i++) {
        const front *of = &FRONTS[i];
        mysql_wire_connection one = opened(2);
        mysql_wire_span span = {77, 77};
        size_t count = 9, used = 9, wanted = of->used > 0;
        CHECK(mysql_wire_set_sequence_id(&one, 3) == MYSQL_WIRE_OK);
        CHECK(mysql_wire_decode_many(&one, (const uint8_t *)of->bytes, of->len, &span, 1, &count,
                                     &used) == (wanted ? MYSQL_WIRE_PACKET : MYSQL_WIRE_WAITS));
        CHECK(count == wanted && used == of->used);
        CHECK(span.at == (wanted ? 4 : 77) && span.len == (wanted ? used - 4 : 77));
        CHECK(mysql_wire_sequence_id(&one) == (wanted ? 4 : 3));
        mysql_wire_close(&one);
    }
    return true;
}

/* A header alone, and after a packet that is lent. */
static bool a_header_is_that_of_the_framing(void) {
    static const size_t lens[] = {0, 1, 255, 256, 65535, 65536, 16777214};
    mysql_wire_connection one = opened(16777214), other = opened(16777214);
    mysql_wire_view view;
    uint8_t header[5] = "....", *room = malloc(4 + 16777214), *payload = calloc(1, 16777214);
    size_t written = 0, requests = requests_made();
    bool holds = HOLDS(room != NULL && payload != NULL);
    for (size_t i = 0; holds && i < LENGTH(lens); i++) {
        holds = HOLDS(mysql_wire_encode_header(&one, lens[i], header) == MYSQL_WIRE_OK) &&
                HOLDS(mysql_wire_encode_to(&other, payload, lens[i], room, 4 + 16777214,
                                           &written) == MYSQL_WIRE_OK) &&
                HOLDS(written == 4 + lens[i] && memcmp(header, room, 4) == 0) &&
                HOLDS(mysql_wire_sequence_id(&one) == (int32_t)i + 1 && header[4] == 0);
    }
    free(room);
    free(payload);
    CHECK(holds && requests_made() == requests);
    memcpy(header, "....", 4);
    CHECK(mysql_wire_encode_header(&one, 16777215, header) == MYSQL_WIRE_TOO_LARGE);
    CHECK(mysql_wire_set_limit(&one, SIZE_MAX) == MYSQL_WIRE_OK);
    CHECK(mysql_wire_encode_header(&one, 16777215, header) == MYSQL_WIRE_TOO_LARGE);
    CHECK(mysql_wire_set_limit(&one, 3) == MYSQL_WIRE_OK);
    CHECK(mysql_wire_encode_header(&one, 4, header) == MYSQL_WIRE_TOO_LARGE);
    CHECK(memcmp(header, "....", 4) == 0 && mysql_wire_sequence_id(&one) == LENGTH(lens));
    CHECK(mysql_wire_set_sequence_id(&one, 255) == MYSQL_WIRE_OK);
    CHECK(mysql_wire_encode_header(&one, 3, header) == MYSQL_WIRE_OK);
    CHECK(memcmp(header, "\3\0\0\377", 4) == 0 && mysql_wire_sequence_id(&one) == 0);
    CHECK(mysql_wire_feed(&one, ONE_TWO_THREE, 7) == MYSQL_WIRE_OK);
    CHECK(mysql_wire_peek(&one, &view) == MYSQL_WIRE_PACKET);
    refuse_request(1);
    CHECK(mysql_wire_encode_header(&one, 1, header) == MYSQL_WIRE_NO_MEMORY && was_refused());
    CHECK(memcmp(header, "\3\0\0\377", 4) == 0 && mysql_wire_sequence_id(&one) == 1);
    CHECK(mysql_wire_encode_header(&one, 1, header) == MYSQL_WIRE_OK);
    CHECK(memcmp(header, "\1\0\0\1", 4) == 0 && mysql_wire_sequence_id(&one) == 2);
    CHECK(mysql_wire_peek(&one, &view) == MYSQL_WIRE_PACKET && shows(view, "123", 3));
    mysql_wire_close(&one);
    mysql_wire_close(&other);
    return true;
}

/* A packet that is cut is put together, of no byte more than it has; the next is lent from the bytes. */
static bool a_packet_that_is_cut_is_put_together(void) {
    static const uint8_t two[] = {3, 0, 0, 0, '1', '2', '3', 2, 0, 0, 1, 'a', 'b'};
    for (size_t cut = 1; cut < 7; cut++) {
        mysql_wire_connection one = opened(3);
        mysql_wire_view view;
        size_t used = 9;
        CHECK(mysql_wire_decode(&one, two, cut, &used, &view) == MYSQL_WIRE_WAITS);
        CHECK(used == cut && view.len == 0 && mysql_wire_unread(&one) == cut);
        CHECK(mysql_wire_decode(&one, two + cut, sizeof two - cut, &used, &view) ==
              MYSQL_WIRE_PACKET);
        CHECK(used == 7 - cut && shows(view, "123", 3) && mysql_wire_unread(&one) == 0);
        CHECK(mysql_wire_decode(&one, two + 7, 6, &used, &view) == MYSQL_WIRE_PACKET);
        CHECK(used == 6 && view.at == two + 11 && shows(view, "ab", 2));
        mysql_wire_close(&one);
    }
    return true;
}

/* What was fed before comes first, and what is refused stays in the connection. */
static bool decoding_goes_on_after_what_was_fed(void) {
    static const uint8_t other[] = {1, 0, 0, 7, 'x'};
    mysql_wire_connection one = opened(3);
    mysql_wire_view view;
    size_t used = 9;
    CHECK(mysql_wire_feed(&one, ONE_TWO_THREE, 7) == MYSQL_WIRE_OK);
    CHECK(mysql_wire_decode(&one, other, 5, &used, &view) == MYSQL_WIRE_PACKET);
    CHECK(used == 0 && shows(view, "123", 3));
    /* Of a packet that is too large no byte is taken but its header. */
    CHECK(mysql_wire_decode(&one, (const uint8_t *)"\4\0\0", 3, &used, &view) == MYSQL_WIRE_WAITS);
    CHECK(used == 3 && mysql_wire_decode(&one, (const uint8_t *)"\1abcd", 5, &used, &view) ==
                           MYSQL_WIRE_TOO_LARGE && used == 1 && view.len == 0);
    CHECK(mysql_wire_set_limit(&one, 4) == MYSQL_WIRE_OK);
    CHECK(mysql_wire_decode(&one, (const uint8_t *)"abcd", 4, &used, &view) == MYSQL_WIRE_PACKET);
    CHECK(used == 4 && shows(view, "abcd", 4));
    CHECK(mysql_wire_decode(&one, other, 5, &used, &view) == MYSQL_WIRE_OUT_OF_SYNC);
    CHECK(used == 5 && view.len == 0);
    CHECK(mysql_wire_decode(&one, other, 5, &used, &view) == MYSQL_WIRE_OUT_OF_SYNC && used == 0);
    mysql_wire_close(&one);
    return true;
}

typedef struct code_text {
    int32_t code;
    const char *text;
} code_text;

static const code_text TEXTS[] = {
    {MYSQL_WIRE_OK, "done, or more bytes are needed"},
    {MYSQL_WIRE_WAITS, "done, or more bytes are needed"},
    {MYSQL_WIRE_PACKET, "a packet stands whole"},
    {MYSQL_WIRE_SPAN, "bytes of a packet"},
    {MYSQL_WIRE_TOO_LARGE, "the packet is above the limit"},
    {MYSQL_WIRE_OUT_OF_SYNC, "a packet bears another number than the expected one"},
    {MYSQL_WIRE_NO_MEMORY, "out of memory"},
    {MYSQL_WIRE_ROOM_TOO_SMALL, "the room is too small"},
    {MYSQL_WIRE_CLOSED, "the connection, or the session, is closed"},
    {MYSQL_WIRE_IS_OPEN, "the connection, or the session, is open already"},
    {MYSQL_WIRE_PACKET_WAITS, "a packet is to be taken first"},
    {MYSQL_WIRE_NO_PACKET, "there is no packet to take"},
    {MYSQL_WIRE_MISSING_BYTES, "the bytes end inside a field"},
    {MYSQL_WIRE_NOT_A_NUMBER, "no number begins here, or no number has this width"},
    {MYSQL_WIRE_INVALID_STATE, "the record is of no stream"},
    {MYSQL_WIRE_NULL, "the text is NULL"},
    {MYSQL_WIRE_NEEDS_WHOLE, "the whole packet is needed"},
    {MYSQL_WIRE_REFUSED, "the payload is no packet of its kind"},
    {MYSQL_WIRE_NOT_A_SIDE, "no side has this number"},
    {MYSQL_WIRE_NOT_A_FRONT, "these are not the first bytes of a payload, three or more, or all"},
    {MYSQL_WIRE_NO_STATEMENT, "no statement of this number is known"},
    {MYSQL_WIRE_REFUSED + 1, "unknown code"},
    {MYSQL_WIRE_NO_STATEMENT - 1, "unknown code"},
    {INT32_MIN, "unknown code"},
    {INT32_MAX, "unknown code"},
};

static bool each_code_has_its_text(void) {
    for (size_t i = 0; i < LENGTH(TEXTS); i++) {
        mysql_wire_view text = {NULL, 0};
        mysql_wire_message(TEXTS[i].code, &text);
        CHECK(shows(text, TEXTS[i].text, strlen(TEXTS[i].text)) && text.at[text.len] == 0);
    }
    return true;
}

static bool the_version_is_that_of_the_header(void) {
    char text[16];
    snprintf(text, sizeof text, "%d.%d.%d", MYSQL_WIRE_VERSION_MAJOR, MYSQL_WIRE_VERSION_MINOR,
             MYSQL_WIRE_VERSION_PATCH);
    CHECK(strcmp(text, MYSQL_WIRE_VERSION) == 0);
    CHECK(mysql_wire_version() == MYSQL_WIRE_VERSION_NUMBER);
    return true;
}

const test call_tests[] = {
    {"a closed connection answers so", a_closed_connection_answers_so},
    {"an open connection is not opened again", an_open_connection_is_not_opened_again},
    {"a packet is lent until it is taken", a_packet_is_lent_until_it_is_taken},
    {"a packet is lent where it came", a_packet_is_lent_where_it_came},
    {"an empty packet is a packet", an_empty_packet_is_a_packet},
    {"too little room leaves the packet", too_little_room_leaves_the_packet},
    {"packets are copied one after another", packets_are_copied_one_after_another},
    {"a larger limit goes on", a_larger_limit_goes_on},
    {"a header is judged once", a_header_is_judged_once},
    {"a whole packet keeps the limit", a_whole_packet_keeps_the_limit},
    {"a lost connection stays lost", a_lost_connection_stays_lost},
    {"a lost connection numbers on", a_lost_connection_numbers_on},
    {"an address of nothing may be NULL", an_address_of_nothing_may_be_null},
    {"what is encoded goes out in parts", what_is_encoded_goes_out_in_parts},
    {"numbers go on after a packet that is lent", numbers_go_on_after_a_packet_that_is_lent},
    {"the number of a packet is the one before", the_number_of_a_packet_is_the_one_before},
    {"another number is told at the fourth byte", another_number_is_told_at_the_fourth_byte},
    {"the numbers are those of the chunks", the_numbers_are_those_of_the_chunks},
    {"the number that is set is the next", the_number_that_is_set_is_the_next},
    {"framed lengths are counted", framed_lengths_are_counted},
    {"a packet is framed into the room", a_packet_is_framed_into_the_room},
    {"packets are lent from the bytes", packets_are_lent_from_the_bytes},
    {"many packets are lent at once", many_packets_are_lent_at_once},
    {"none is lent that decode does not lend", none_is_lent_that_decode_does_not_lend},
    {"one is lent where it is whole", one_is_lent_where_it_is_whole},
    {"a header is that of the framing", a_header_is_that_of_the_framing},
    {"a packet that is cut is put together", a_packet_that_is_cut_is_put_together},
    {"decoding goes on after what was fed", decoding_goes_on_after_what_was_fed},
    {"each code has its text", each_code_has_its_text},
    {"the version is that of the header", the_version_is_that_of_the_header},
    {NULL, NULL},
};
