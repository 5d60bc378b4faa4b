/* Each request for memory refused in turn: the call that is refused says so, and goes on when it is
   made again. */
#include "tests.h"

static int refusals;

/* Makes a call once more where it was refused memory. */
#define AGAIN(call) (is_refusal(call) ? (call) : last_code)

static int32_t last_code;

static bool is_refusal(int32_t code) {
    last_code = code;
    refusals += code == MYSQL_WIRE_NO_MEMORY;
    return code == MYSQL_WIRE_NO_MEMORY;
}

/* A conversation that asks for memory at each call that may. */
static bool converses(mysql_wire_connection *one) {
    static uint8_t packet[504] = {0xf4, 1, 0, 0};
    mysql_wire_view view;
    memset(packet + 4, 'x', 500);
    CHECK(AGAIN(mysql_wire_open(1000, one)) == MYSQL_WIRE_OK);
    /* A header that was judged under another limit: its packet is copied aside. */
    CHECK(AGAIN(mysql_wire_feed(one, packet, 10)) == MYSQL_WIRE_OK);
    CHECK(AGAIN(mysql_wire_set_limit(one, 100)) == MYSQL_WIRE_OK);
    CHECK(AGAIN(mysql_wire_feed(one, packet + 10, 494)) == MYSQL_WIRE_OK);
    CHECK(AGAIN(mysql_wire_peek(one, &view)) == MYSQL_WIRE_PACKET);
    CHECK(view.len == 500 && memcmp(view.at, packet + 4, 500) == 0);
    CHECK(mysql_wire_take(one) == MYSQL_WIRE_OK);
    CHECK(AGAIN(mysql_wire_set_limit(one, 1000)) == MYSQL_WIRE_OK);
    /* A packet that is lent where it came, and put aside for the numbers to go on. */
    packet[3] = 1;
    CHECK(AGAIN(mysql_wire_feed(one, packet, 504)) == MYSQL_WIRE_OK);
    packet[3] = 0;
    CHECK(AGAIN(mysql_wire_peek(one, &view)) == MYSQL_WIRE_PACKET);
    CHECK(AGAIN(mysql_wire_reset(one)) == MYSQL_WIRE_OK);
    CHECK(AGAIN(mysql_wire_encode(one, packet + 4, 500)) == MYSQL_WIRE_OK);
    CHECK(AGAIN(mysql_wire_peek(one, &view)) == MYSQL_WIRE_PACKET);
    CHECK(view.len == 500 && memcmp(view.at, packet + 4, 500) == 0);
    mysql_wire_pending(one, &view);
    CHECK(view.len == 504 && memcmp(view.at, packet, 504) == 0);
    CHECK(mysql_wire_sequence_id(one) == 1 && mysql_wire_unread(one) == 0);
    return true;
}

static bool each_refusal_is_gone_on_from(void) {
    for (size_t nth = 1; nth < 100; nth++) {
        mysql_wire_connection one = NULL;
        refusals = 0;
        refuse_request(nth);
        bool holds = converses(&one);
        bool refused = was_refused();
        refuse_request(0);
        mysql_wire_close(&one);
        CHECK(holds);
        CHECK(refusals == (refused ? 1 : 0));
        if (!refused) return nth > 4;
    }
    return false;
}

/* Where a copy is needed and refused, nothing goes to the room. */
static bool a_refused_copy_leaves_the_room(void) {
    static const uint8_t packet[] = {3, 0, 0, 0, '1', '2', '3'};
    mysql_wire_connection one = NULL;
    uint8_t room[5] = "....";
    size_t len = 9;
    CHECK(mysql_wire_open(16, &one) == MYSQL_WIRE_OK);
    CHECK(mysql_wire_feed(&one, packet, 4) == MYSQL_WIRE_OK);
    CHECK(mysql_wire_set_limit(&one, 2) == MYSQL_WIRE_OK);
    CHECK(mysql_wire_feed(&one, packet + 4, 3) == MYSQL_WIRE_OK);
    refuse_request(1);
    CHECK(mysql_wire_next(&one, room, 4, &len) == MYSQL_WIRE_NO_MEMORY);
    CHECK(was_refused() && len == 0 && memcmp(room, "....", 4) == 0);
    CHECK(mysql_wire_next(&one, room, 4, &len) == MYSQL_WIRE_PACKET && len == 3);
    CHECK(memcmp(room, "123.", 4) == 0);
    mysql_wire_close(&one);
    return true;
}

/* What needs no memory isn't refused where there is none. */
static bool what_needs_no_memory_is_not_refused(void) {
    static const uint8_t two[] = {1, 0, 0, 0, 'a', 1, 0, 0, 1, 'b'};
    mysql_wire_connection one = NULL;
    mysql_wire_view view;
    uint8_t room[4];
    size_t len;
    CHECK(mysql_wire_open(16, &one) == MYSQL_WIRE_OK);
    CHECK(mysql_wire_feed(&one, two, sizeof two) == MYSQL_WIRE_OK);
    refuse_request(1);
    CHECK(mysql_wire_open(16, &one) == MYSQL_WIRE_IS_OPEN);
    CHECK(mysql_wire_peek(&one, &view) == MYSQL_WIRE_PACKET && view.at[0] == 'a');
    CHECK(mysql_wire_set_limit(&one, 1) == MYSQL_WIRE_PACKET_WAITS);
    CHECK(mysql_wire_take(&one) == MYSQL_WIRE_OK);
    CHECK(mysql_wire_next(&one, room, 4, &len) == MYSQL_WIRE_PACKET && room[0] == 'b');
    CHECK(mysql_wire_set_limit(&one, 1) == MYSQL_WIRE_OK);
    CHECK(mysql_wire_reset(&one) == MYSQL_WIRE_OK && mysql_wire_sequence_id(&one) == 0);
    CHECK(!was_refused());
    refuse_request(0);
    mysql_wire_close(&one);
    return true;
}

const test memory_tests[] = {
    {"each refusal of memory is gone on from", each_refusal_is_gone_on_from},
    {"a refused copy leaves the room", a_refused_copy_leaves_the_room},
    {"what needs no memory is not refused", what_needs_no_memory_is_not_refused},
    {NULL, NULL},
};
