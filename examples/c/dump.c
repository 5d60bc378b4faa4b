/*
 * Prints each packet of a stream on standard input: its number in the stream, its length, and its
 * first bytes in hexadecimal and as text. The packets are numbered on from 0, as those of one
 * command are.
 *
 *     make -C examples/c && examples/c/out/dump < STREAM
 *
 * The status is 0 where the stream ends between two packets, and 1 otherwise.
 */
#include "mysql_wire.h"

#include <stdio.h>

#define LIMIT ((size_t)1 << 30) /* the most bytes of a packet */
#define SHOWN 16                /* how many bytes of a packet are shown */

static void show(size_t number, mysql_wire_view packet) {
    size_t shown = packet.len < SHOWN ? packet.len : SHOWN;
    printf("%zu %zu ", number, packet.len);
    for (size_t i = 0; i < shown; i++) printf("%02x", packet.at[i]);
    putchar(' ');
    for (size_t i = 0; i < shown; i++) {
        uint8_t byte = packet.at[i];
        putchar(byte >= 0x20 && byte < 0x7f ? byte : '.');
    }
    putchar('\n');
}

/* Prints the packets that stand whole. The answer is why there is no more. */
static int32_t show_whole(mysql_wire_connection *connection, size_t *number) {
    mysql_wire_view packet;
    int32_t code;
    while ((code = mysql_wire_peek(connection, &packet)) == MYSQL_WIRE_PACKET) {
        show((*number)++, packet);
        mysql_wire_take(connection);
    }
    return code;
}

/* Prints all packets of standard input. The answer is WAITS where it came to the end. */
static int32_t dump(mysql_wire_connection *connection) {
    static uint8_t room[1 << 16];
    size_t number = 0, count;
    int32_t code = MYSQL_WIRE_WAITS;
    while (code == MYSQL_WIRE_WAITS && (count = fread(room, 1, sizeof room, stdin)) > 0) {
        code = mysql_wire_feed(connection, room, count);
        if (code == MYSQL_WIRE_OK) code = show_whole(connection, &number);
    }
    return code;
}

static int complain(int32_t code) {
    mysql_wire_view text;
    mysql_wire_message(code, &text);
    printf("%s\n", (const char *)text.at);
    return 1;
}

int main(void) {
    mysql_wire_connection connection = NULL;
    int32_t code = mysql_wire_open(LIMIT, &connection);
    int status = 0;
    if (code == MYSQL_WIRE_OK) code = dump(&connection);
    if (code != MYSQL_WIRE_WAITS) {
        status = complain(code);
    } else if (mysql_wire_unread(&connection) > 0) {
        printf("%zu bytes of an unfinished packet\n", mysql_wire_unread(&connection));
        status = 1;
    }
    mysql_wire_close(&connection);
    return status;
}
