/*
 * Logs in without a password, sends a statement, and prints the rows of the answer, a line each: the
 * columns are texts with a tab between two, and NULL is NULL.
 *
 *     client PORT USER STATEMENT
 *
 * The server is on this machine, and may not ask for a password. The status is 0 where the statement
 * succeeded.
 */
#include "mysql_wire.h"
#include "mysql_wire_constants.h"

#include <arpa/inet.h>
#include <stdio.h>
#include <stdlib.h>
#include <string.h>
#include <sys/socket.h>
#include <unistd.h>

#define LIMIT ((size_t)1 << 24) /* the most bytes of a packet */

enum { OK = 0x00, QUERY = 0x03, LOCAL_INFILE = 0xfb, END = 0xfe, FAILED = 0xff };

static const char method[] = "mysql_native_password";

typedef struct client {
    int socket;
    mysql_wire_connection wire;
} client;

static int complain(const char *text) {
    fprintf(stderr, "client: %s\n", text);
    return 0;
}

static int complain_of(int32_t code) {
    mysql_wire_view text;
    mysql_wire_message(code, &text);
    return complain((const char *)text.at);
}

/* Sends what is pending. */
static int send_pending(client *c) {
    mysql_wire_view bytes;
    for (mysql_wire_pending(&c->wire, &bytes); bytes.len > 0; mysql_wire_pending(&c->wire, &bytes)) {
        ssize_t count = write(c->socket, bytes.at, bytes.len);
        if (count <= 0) return complain("the server is gone");
        mysql_wire_sent(&c->wire, (size_t)count);
    }
    return 1;
}

/* Tells the error of a packet: its number, its SQL state where it has one, and its text. */
static int complain_as(mysql_wire_view packet) {
    const char *text = (const char *)packet.at;
    uint64_t number = 0;
    size_t at = 1;
    mysql_wire_read_int(packet.at, packet.len, &at, 2, &number);
    fprintf(stderr, "client: ERROR %d", (int)number);
    if (packet.len - at >= 6 && text[at] == '#') {
        fprintf(stderr, " (%.5s)", text + at + 1);
        at += 6;
    }
    fprintf(stderr, ": %.*s\n", (int)(packet.len - at), text + at);
    return 0;
}

/* The next packet, which is lent until it is taken. */
static int receive(client *c, mysql_wire_view *packet) {
    static uint8_t room[1 << 16];
    int32_t code;
    while ((code = mysql_wire_peek(&c->wire, packet)) == MYSQL_WIRE_WAITS) {
        if ((code = mysql_wire_judge_front(&c->wire)) != MYSQL_WIRE_OK) return complain_of(code);
        ssize_t count = read(c->socket, room, sizeof room);
        if (count <= 0) return complain("the server is gone");
        code = mysql_wire_feed(&c->wire, room, (size_t)count);
        if (code != MYSQL_WIRE_OK) return complain_of(code);
    }
    if (code != MYSQL_WIRE_PACKET) return complain_of(code);
    return packet->len > 0 && packet->at[0] == FAILED ? complain_as(*packet) : 1;
}

static int skip(client *c) {
    mysql_wire_view packet;
    return receive(c, &packet) && mysql_wire_take(&c->wire) == MYSQL_WIRE_OK;
}

static int send_packet(client *c, const uint8_t *payload, size_t len) {
    int32_t code = mysql_wire_encode(&c->wire, payload, len);
    return code == MYSQL_WIRE_OK ? send_pending(c) : complain_of(code);
}

static int log_in(client *c, const char *user) {
    uint8_t login[512] = {0};
    size_t at = 0;
    uint64_t flags = MYSQL_WIRE_CLIENT_PROTOCOL_41 | MYSQL_WIRE_CLIENT_TRANSACTIONS |
                     MYSQL_WIRE_CLIENT_SECURE_CONNECTION | MYSQL_WIRE_CLIENT_PLUGIN_AUTH;
    int32_t code = mysql_wire_write_int(login, sizeof login, &at, 4, flags);
    if (code == MYSQL_WIRE_OK) code = mysql_wire_write_int(login, sizeof login, &at, 4, LIMIT);
    if (code == MYSQL_WIRE_OK)
        code = mysql_wire_write_int(login, sizeof login, &at, 1, MYSQL_WIRE_UTF8MB4_GENERAL_CI);
    at += 23; /* zeros */
    if (code == MYSQL_WIRE_OK)
        code = mysql_wire_write_null_bytes(login, sizeof login, &at, (const uint8_t *)user,
                                           strlen(user));
    if (code == MYSQL_WIRE_OK) code = mysql_wire_write_int(login, sizeof login, &at, 1, 0);
    if (code == MYSQL_WIRE_OK)
        code = mysql_wire_write_null_bytes(login, sizeof login, &at, (const uint8_t *)method,
                                           sizeof method - 1);
    if (code != MYSQL_WIRE_OK) return complain_of(code);
    return skip(c) && send_packet(c, login, at) && skip(c);
}

/* Prints a column, and goes past it. NULL is one byte, where a length would stand. */
static int print_column(mysql_wire_view row, size_t *at) {
    mysql_wire_span text;
    int32_t code;
    if (*at < row.len && row.at[*at] == 0xfb) {
        (*at)++;
        fputs("NULL", stdout);
        return 1;
    }
    code = mysql_wire_read_lenenc_bytes(row.at, row.len, at, &text);
    if (code != MYSQL_WIRE_OK) return complain_of(code);
    fwrite(row.at + text.at, 1, text.len, stdout);
    return 1;
}

static int print_row(mysql_wire_view row, uint64_t columns) {
    size_t at = 0;
    uint64_t i;
    for (i = 0; i < columns; i++) {
        if (i > 0) putchar('\t');
        if (!print_column(row, &at)) return 0;
    }
    putchar('\n');
    return 1;
}

/* A row may begin as the end of rows does, but is longer then. */
static int ends_rows(mysql_wire_view packet) {
    return packet.len > 0 && packet.len < 9 && packet.at[0] == END;
}

static int print_rows(client *c, uint64_t columns) {
    mysql_wire_view packet;
    uint64_t i;
    for (i = 0; i <= columns; i++) /* the definitions, and the packet after them */
        if (!skip(c)) return 0;
    while (receive(c, &packet)) {
        if (ends_rows(packet)) return 1;
        if (!print_row(packet, columns)) return 0;
        mysql_wire_take(&c->wire);
    }
    return 0;
}

static int query(client *c, const char *statement) {
    size_t len = strlen(statement), at = 0;
    uint8_t *command = (uint8_t *)malloc(len + 1);
    mysql_wire_view first;
    uint64_t columns;
    int sent;
    if (command == NULL) return complain("there is no memory");
    command[0] = QUERY;
    memcpy(command + 1, statement, len);
    sent = mysql_wire_reset(&c->wire) == MYSQL_WIRE_OK && send_packet(c, command, len + 1);
    free(command);
    if (!sent || !receive(c, &first)) return 0;
    if (first.len > 0 && first.at[0] == OK) return 1;
    if (first.len > 0 && first.at[0] == LOCAL_INFILE) return complain("it asks for a file");
    if (mysql_wire_read_lenenc_int(first.at, first.len, &at, &columns) != MYSQL_WIRE_OK)
        return complain("this is no answer to a query");
    mysql_wire_take(&c->wire);
    return print_rows(c, columns);
}

static int connect_to(client *c, const char *port) {
    struct sockaddr_in address;
    memset(&address, 0, sizeof address);
    address.sin_family = AF_INET;
    address.sin_port = htons((uint16_t)atoi(port));
    address.sin_addr.s_addr = htonl(INADDR_LOOPBACK);
    c->socket = socket(AF_INET, SOCK_STREAM, 0);
    if (connect(c->socket, (struct sockaddr *)&address, sizeof address) != 0)
        return complain("no server answers");
    return mysql_wire_open(LIMIT, &c->wire) == MYSQL_WIRE_OK || complain("there is no memory");
}

int main(int count, char **words) {
    client c = {-1, NULL};
    int ok;
    if (count != 4) {
        fprintf(stderr, "usage: client PORT USER STATEMENT\n");
        return 2;
    }
    ok = connect_to(&c, words[1]) && log_in(&c, words[2]) && query(&c, words[3]);
    mysql_wire_close(&c.wire);
    if (c.socket >= 0) close(c.socket);
    return ok ? 0 : 1;
}
