// The header is one of C++ too.
#include "mysql_wire.h"

int main() {
    mysql_wire_connection connection = nullptr;
    if (mysql_wire_open(16, &connection) != MYSQL_WIRE_OK) return 1;
    mysql_wire_close(&connection);
    return connection == nullptr ? 0 : 1;
}
