/*
 * Gives the library memory of the program's own, out of one array, and takes all of it back. It is
 * linked so that calls of malloc, realloc and free come here: there are to be none. The status is 0
 * where all is well, and else says what is not.
 */
#include <mysql_wire.h>
#include <stdlib.h>
#include <string.h>

static unsigned char room[1 << 16];
static size_t used;
static int blocks;
static int others;

static void *take(size_t size) {
    void *block = room + used;
    size_t taken = (size + 15) & ~(size_t)15;
    if (taken > sizeof room - used) return NULL;
    used += taken;
    blocks++;
    return block;
}

static void *grow(void *block, size_t size) {
    unsigned char *grown = take(size);
    size_t before = (size_t)(grown - (unsigned char *)block);
    if (grown == NULL) return NULL;
    memcpy(grown, block, size < before ? size : before);
    blocks--;
    return grown;
}

static void give(void *block) { blocks -= block != NULL; }

void *__wrap_malloc(size_t size) { return others++, (void)size, NULL; }

void *__wrap_realloc(void *block, size_t size) { return others++, (void)size, block; }

void __wrap_free(void *block) { others++, (void)block; }

int main(void) {
    mysql_wire_connection connection = NULL;
    mysql_wire_view view;
    uint8_t packet[1004] = {0xe8, 3};
    mysql_wire_set_memory(take, grow, give);
    if (mysql_wire_open(1000, &connection) != MYSQL_WIRE_OK || blocks != 1) return 1;
    for (int i = 0; i < 5; i++, packet[3]++) {
        if (mysql_wire_feed(&connection, packet, sizeof packet) != MYSQL_WIRE_OK) return 2;
    }
    for (int i = 0; i < 5; i++) {
        int32_t code = mysql_wire_peek(&connection, &view);
        if (code != MYSQL_WIRE_PACKET || view.len != 1000) return 3;
        if (mysql_wire_take(&connection) != MYSQL_WIRE_OK) return 4;
    }
    mysql_wire_close(&connection);
    return blocks != 0 ? 5 : others != 0 ? 6 : 0;
}
