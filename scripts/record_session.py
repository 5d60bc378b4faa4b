#!/usr/bin/env python3
"""Records a session with MariaDB, as scripts/recordings.py reads it.

    scripts/record_session.py SOCKET USER tracked > FOLDER/tracked.jsonl
    scripts/record_session.py SOCKET USER procedure > FOLDER/procedure.jsonl

`tracked` is of capabilities that few clients use: CLIENT_SESSION_TRACK, CLIENT_DEPRECATE_EOF,
MariaDB's extended metadata, columns that are told once, and reports of progress. `procedure`, under
capabilities that most clients use, calls a stored procedure that selects inside an open cursor of its
own, as a query and as a prepared statement, with a cursor for the client and without.

SOCKET is the server's, USER a user without a password who may make databases.
"""

import json
import socket
import sys

LONG_FLAG, WITH_DB, LOCAL_FILES, PROTOCOL_41 = 1 << 2, 1 << 3, 1 << 7, 1 << 9
TRANSACTIONS, SECURE, STATEMENTS, RESULTS = 1 << 13, 1 << 15, 1 << 16, 1 << 17
STATEMENT_RESULTS, PLUGINS, TRACK, NO_EOF = 1 << 18, 1 << 19, 1 << 23, 1 << 24
USUAL = (LONG_FLAG | LOCAL_FILES | PROTOCOL_41 | TRANSACTIONS | SECURE | STATEMENTS | RESULTS
         | STATEMENT_RESULTS | PLUGINS)
PROGRESS, METADATA, TOLD_ONCE = 1 << 0, 1 << 3, 1 << 4
MORE_RESULTS, CURSOR_EXISTS = 0x08, 0x40


def lenenc(data, at):
    """A length-encoded integer, and the place after it."""
    width = {0xFC: 2, 0xFD: 3, 0xFE: 8}.get(data[at], 0)
    if not width:
        return data[at], at + 1
    return int.from_bytes(data[at + 1 : at + 1 + width], "little"), at + 1 + width


class Session:
    """A connection whose payloads are printed."""

    def __init__(self, path, user, capabilities, mariadb):
        self.has_eof = not capabilities & NO_EOF
        self.stream = socket.socket(socket.AF_UNIX)
        self.stream.connect(path)
        self.number = 0
        self.receive()
        login = capabilities.to_bytes(4, "little") + (1 << 24).to_bytes(4, "little") + bytes([45])
        login += bytes(19) + mariadb.to_bytes(4, "little")
        self.send(login + user.encode() + b"\0\0mysql_native_password\0")
        if self.receive()[0] == 0xFE:
            self.send(b"")
            self.receive()

    def read(self, count):
        data = b""
        while len(data) < count:
            data += self.stream.recv(count - len(data)) or sys.exit("the server ended the session")
        return data

    def receive(self):
        header = self.read(4)
        payload = self.read(int.from_bytes(header[:3], "little"))
        self.number = (header[3] + 1) % 256
        print(json.dumps({"from": "server", "payload": payload.hex()}))
        return payload

    def send(self, payload):
        header = len(payload).to_bytes(3, "little") + bytes([self.number])
        self.stream.sendall(header + payload)
        print(json.dumps({"from": "client", "payload": payload.hex()}))

    def begin(self, command):
        self.number = 0
        print(json.dumps({"reset": True}))
        self.send(command)

    def status(self, payload):
        """The status of an OK packet, or of an EOF."""
        if payload[0] == 0xFE and self.has_eof:
            return int.from_bytes(payload[3:5], "little")
        at = lenenc(payload, lenenc(payload, 1)[1])[1]
        return int.from_bytes(payload[at : at + 2], "little")

    def rows(self):
        """Takes rows, and what ends them: its status."""
        while True:
            payload = self.receive()
            if payload[0] == 0xFE and len(payload) < (9 if self.has_eof else 0xFFFFFF):
                return self.status(payload)
            if payload[0] == 0xFF and payload[1:3] != b"\xff\xff":
                return 0

    def answer(self, wants_cursor=False):
        """Takes an answer, with each that follows it."""
        status = MORE_RESULTS
        while status & MORE_RESULTS:
            first = self.receive()
            if first[:3] == b"\xff\xff\xff":
                continue  # a progress report
            if first[0] == 0xFF:
                return
            if first[0] == 0:
                status = self.status(first)
                continue
            count, at = lenenc(first, 0)
            for _ in range(0 if first[at:] == b"\0" else count):
                self.receive()
            if self.has_eof:
                status = self.status(self.receive())
                if wants_cursor and status & (CURSOR_EXISTS | MORE_RESULTS) == CURSOR_EXISTS:
                    return
            status = self.rows()

    def query(self, text):
        self.begin(b"\x03" + text.encode())
        self.answer()

    def prepare(self, text):
        """The statement's number."""
        self.begin(b"\x16" + text.encode())
        first = self.receive()
        columns, params = (int.from_bytes(first[at : at + 2], "little") for at in (5, 7))
        for _ in range(columns + params + (self.has_eof and (columns > 0) + (params > 0))):
            self.receive()
        return first[1:5]

    def execute(self, statement, flags=0, params=b""):
        self.begin(b"\x17" + statement + bytes([flags]) + (1).to_bytes(4, "little") + params)
        self.answer(wants_cursor=flags & 1)

    def fetch(self, statement, count):
        self.begin(b"\x1c" + statement + count.to_bytes(4, "little"))
        self.rows()

    def reset(self, statement):
        self.begin(b"\x1a" + statement)
        self.receive()

    def close(self, statement):
        self.begin(b"\x19" + statement)


SET_UP = (
    "SET SESSION session_track_system_variables = '*', session_track_state_change = 1",
    "SET SESSION session_track_transaction_info = 'CHARACTERISTICS'",
    "CREATE DATABASE IF NOT EXISTS tracked",
    "USE tracked",
    "CREATE OR REPLACE TABLE things (id INT AUTO_INCREMENT PRIMARY KEY, doc JSON, place POINT,"
    " address INET6, at TIME(3), day DATE, seen DATETIME(6), amount DECIMAL(9,2), ratio DOUBLE,"
    " part FLOAT, year YEAR, tag UUID)",
)
CHANGES = (
    "SET NAMES latin1",
    "SET autocommit = 0",
    "START TRANSACTION READ WRITE",
    "INSERT INTO things (doc, place, address, at, day, seen, amount, ratio, part, year, tag) VALUES"
    " ('{\"a\": 1}', POINT(1, 2), '::1', '-101:02:03.045', '2026-02-03',"
    " '2026-02-03 04:05:06.000007', -12.50, 0.1, 1.5, 2026,"
    " '123e4567-e89b-12d3-a456-426655440000'), (NULL, NULL, NULL, '00:00:00', '2000-01-01',"
    " '2000-01-01 00:00:00', 0, -2.5e300, -0.25, 1999, NULL)",
    "COMMIT",
    "SET autocommit = 1, sql_mode = 'ANSI_QUOTES'",
    "UPDATE things SET amount = amount + 1",
    "SELECT * FROM things",
    "SELECT 1; SELECT 2",
    "USE nowhere",
)
# (an ALTER TABLE that takes a second or two is reported on)
LONG = (
    "SET SESSION progress_report_time = 1",
    "CREATE OR REPLACE TABLE many (a INT, b CHAR(200)) ENGINE = InnoDB",
    "INSERT INTO many SELECT seq, 'x' FROM seq_1_to_400000",
    "ALTER TABLE many ADD COLUMN c INT, ADD INDEX (b), ALGORITHM = COPY",
    "DROP DATABASE tracked",
)


# (the EOF after a result's columns has SERVER_STATUS_CURSOR_EXISTS there, and its rows follow)
PROCEDURE = (
    "CREATE OR REPLACE DATABASE called",
    "USE called",
    "CREATE TABLE things (id INT PRIMARY KEY, name VARCHAR(20))",
    "INSERT INTO things VALUES (1, 'one'), (2, 'two')",
    "CREATE PROCEDURE each_thing() BEGIN DECLARE found INT; DECLARE is_last INT DEFAULT 0;"
    " DECLARE ids CURSOR FOR SELECT id FROM things ORDER BY id;"
    " DECLARE CONTINUE HANDLER FOR NOT FOUND SET is_last = 1; OPEN ids; FETCH ids INTO found;"
    " WHILE is_last = 0 DO SELECT id, name FROM things WHERE id = found; FETCH ids INTO found;"
    " END WHILE;"
    " CLOSE ids; END",
)


def record_tracked(path, user):
    session = Session(path, user, USUAL | TRACK | NO_EOF, PROGRESS | METADATA | TOLD_ONCE)
    for statement in SET_UP + CHANGES:
        session.query(statement)
    listed = session.prepare("SELECT id, doc, at, seen, ratio, part, year FROM things WHERE id > ?")
    # (a NULL bitmap, types that are new, a LONGLONG, and its value)
    session.execute(listed, params=b"\0\x01\x08\0" + bytes(8))
    session.execute(listed, params=b"\0\0" + bytes(8))
    session.execute(listed, flags=1, params=b"\0\0" + bytes(8))
    session.fetch(listed, 1)
    session.fetch(listed, 5)
    session.reset(listed)
    session.close(listed)
    for statement in LONG:
        session.query(statement)
    session.begin(b"\x01")


def record_procedure(path, user):
    session = Session(path, user, USUAL, 0)
    for statement in PROCEDURE + ("CALL each_thing()", "CALL each_thing()", "SELECT 1"):
        session.query(statement)
    called = session.prepare("CALL each_thing()")
    session.execute(called)
    session.execute(called, flags=1)
    listed = session.prepare("SELECT id, name FROM things ORDER BY id")
    session.execute(listed, flags=1)
    session.fetch(listed, 1)
    session.fetch(listed, 5)
    session.execute(listed)
    for statement in called, listed:
        session.close(statement)
    session.query("DROP DATABASE called")
    session.begin(b"\x01")


RECORDED = {"tracked": record_tracked, "procedure": record_procedure}


def main():
    if len(sys.argv) != 4 or sys.argv[3] not in RECORDED:
        sys.exit(__doc__.strip())
    RECORDED[sys.argv[3]](sys.argv[1], sys.argv[2])


if __name__ == "__main__":
    main()
