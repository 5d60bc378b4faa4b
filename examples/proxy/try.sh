#!/usr/bin/env bash
# Runs the proxy between MariaDB's or MySQL's own client and server, and compares what the client
# prints with what it prints without the proxy. It prints a line for each check, and ends
# 'N passed, M failed'.
#
# It installs nothing. On Debian, mariadb-server and mariadb-client bring both programs. The server
# runs in a folder of its own, which is removed in the end, and listens on a free loopback port.
# KEEP_LOG=FILE keeps the proxy's log.
set -u
PATH=$PATH:/usr/sbin
top=$(cd "$(dirname "$0")/../.." && pwd)
source "$top/scripts/checks.sh" || exit 1
work=$(mktemp -d)
started=()

# Stops what was started, and ends.
end() {
    for id in "${started[@]}"; do
        kill "$id" 2> "$work/errors" && wait "$id" 2> "$work/errors"
    done
    rm -rf "$work"
    finish
}

# first_of NAME..: the first of these programs that is there.
first_of() {
    local name
    for name in "$@"; do
        command -v "$name" && return
    done
}

# until_it COMMAND..: tries a command for at most 20 seconds.
until_it() {
    local tries
    for tries in {1..200}; do
        "$@" > "$work/until" 2>&1 && return
        sleep 0.1
    done
    return 1
}

# free_port: a port of 127.0.0.1 at which nobody listens.
free_port() {
    local port
    while port=$((20000 + RANDOM % 30000)); (: < "/dev/tcp/127.0.0.1/$port") 2> "$work/errors"; do
        :
    done
    echo "$port"
}

# start_server: makes a data folder, and starts a server in it.
start_server() {
    local user setup
    user=$(id -un)
    if [ "$user" = root ]; then
        user=nobody
        chown nobody "$work"
    fi
    setup=$(first_of mariadb-install-db mysql_install_db)
    if [ -n "$setup" ]; then
        "$setup" --no-defaults --datadir="$work/data" --user="$user" \
            --auth-root-authentication-method=normal > "$work/setup.log" 2>&1
    else
        "$server" --no-defaults --datadir="$work/data" --user="$user" \
            --initialize-insecure > "$work/setup.log" 2>&1
    fi
    server_port=$(free_port)
    "$server" --no-defaults --datadir="$work/data" --user="$user" --socket="$work/socket" \
        --pid-file="$work/pid" --bind-address=127.0.0.1 --port="$server_port" \
        --skip-networking=0 --max-allowed-packet=64M --local-infile=1 \
        > "$work/server.log" 2>&1 &
    started+=($!)
    until_it as_root 'SELECT 1'
}

as_root() {
    "$client" --no-defaults --socket="$work/socket" --user=root --batch --execute="$1"
}

# start_proxy NAME WORDS [COMMAND..]: starts a proxy in front of the server, by this command. Its log
# is NAME.log, NAME_port its port, and NAME_id its process.
start_proxy() {
    local name=$1 words=$2
    shift 2
    "$@" "$work/proxy" --statements $words 127.0.0.1:0 "127.0.0.1:$server_port" \
        > "$work/$name.log" &
    started+=($!)
    printf -v "${name}_id" '%s' $!
    until_it grep -q 'listens on' "$work/$name.log"
    printf -v "${name}_port" '%s' \
        "$(sed -n 's/.*listens on .*:\([0-9]*\)$/\1/p' "$work/$name.log")"
}

# ask PORT OPTIONS..: runs the client's program, with its statements on standard input.
ask() {
    local port=$1
    shift
    "$client" --no-defaults --protocol=tcp --host=127.0.0.1 --port="$port" --user=probe \
        --password=sesame --database=probe --max-allowed-packet=64M --local-infile=1 --batch \
        --skip-column-names "$@"
}

# same_at PORT OPTIONS..: the statements on standard input print the same at this port as at the
# server's.
same_at() {
    local port=$1
    shift
    cat > "$work/statements"
    ask "$server_port" "$@" < "$work/statements" > "$work/direct" 2>&1
    ask "$port" "$@" < "$work/statements" > "$work/relayed" 2>&1
    [ -s "$work/direct" ] && cmp "$work/direct" "$work/relayed"
}

# same OPTIONS..: the same with the proxy and without.
same() {
    same_at "$proxy_port" "$@"
}

# memory FIELD: this of the wide proxy's memory, in KiB. VmRSS is what it has, VmHWM the most it had.
memory() {
    sed -n "s/^$1:[^0-9]*\([0-9]*\) kB/\1/p" "/proc/$wide_id/status"
}

# in_little_memory: the statements on standard input print the same, and the wide proxy has at most
# 1 MiB more meanwhile than before.
in_little_memory() {
    local before
    before=$(memory VmRSS)
    # This makes the peak what it has now.
    echo 5 > "/proc/$wide_id/clear_refs"
    same_at "$wide_port" && (($(memory VmHWM) < before + 1024))
}

# logged LOG PATTERN: the proxy wrote such a line, soon.
logged() {
    until_it grep -q -- "$2" "$work/$1.log"
}

# says PORT PATTERN: the statements on standard input make the client print such a line.
says() {
    ask "$1" > "$work/said" 2>&1
    grep -q -- "$2" "$work/said"
}

# side_by_side: a quick client is done before a slow one, and both get their rows.
side_by_side() {
    ask "$proxy_port" <<< "SELECT SLEEP(2), 'slow'" > "$work/slow" &
    local slow=$!
    until_it grep -q 'COM_QUERY SELECT SLEEP' "$work/proxy.log"
    ask "$proxy_port" <<< "SELECT 'quick'" > "$work/quick"
    [ "$(< "$work/quick")" = quick ] && [ ! -s "$work/slow" ] && wait "$slow" &&
        [ "$(< "$work/slow")" = $'0\tslow' ]
}

# goes_away: a client that sends seven bytes of a longer packet. The server's side is closed.
goes_away() {
    exec 3<> "/dev/tcp/127.0.0.1/$proxy_port"
    until_it grep -q "server.*" "$work/proxy.log"
    printf '\x20\x00\x00\x01abc' >&3
    sleep 0.2
    exec 3>&-
    logged proxy 'client went away inside a packet' && until_it alone
}

# refused_early: a packet above 64 KiB is refused before a login.
refused_early() {
    exec 3<> "/dev/tcp/127.0.0.1/$proxy_port"
    printf '\x01\x00\x01\x01' >&3
    timeout 10 grep -q -a "08S01Got a packet bigger than 'max_allowed_packet' bytes" <&3
    local status=$?
    exec 3>&-
    return "$status"
}

# same_statements PORT OPTIONS..: the client in Python prints the same at this port as at the
# server's.
same_statements() {
    local statements=$top/examples/python/statements.py port=$1
    shift
    local -x PYTHONPATH=$top/bindings/python MYSQL_WIRE_LIBRARY
    MYSQL_WIRE_LIBRARY=$(ls "$top"/bindings/c/out/libmysql_wire.so.*.*.*)
    python3 -B "$statements" "$server_port" plain probe "$@" > "$work/direct" 2>&1
    python3 -B "$statements" "$port" plain probe "$@" > "$work/relayed" 2>&1
    tail -n 1 "$work/direct" | grep -q '^    ' && diff "$work/direct" "$work/relayed"
}

# unoffered PORT FLAGS MARIADB: what a raw client gets that logs in with these flags.
unoffered() {
    python3 -B "$top/examples/proxy/unoffered.py" "$@" 2>&1
}

# not_plain: a login that asks for compression, TLS or compression by zstd gets an error.
not_plain() {
    local flag
    for flag in 20 800 4000000; do
        unoffered "$proxy_port" "$flag" 0 > "$work/said"
        [ "$(wc -l < "$work/said")" = 1 ] && grep -q '^2 ff .*Bad handshake' "$work/said" || return
    done
}

# cleared: a login that asks for all else that isn't offered, such as to leave out definitions that
# were sent before, is answered as one that doesn't ask.
cleared() {
    unoffered "$server_port" 0 0 > "$work/direct"
    unoffered "$proxy_port" da000000 fffffff0 > "$work/relayed"
    [ "$(wc -l < "$work/direct")" = 14 ] && cmp "$work/direct" "$work/relayed"
}

# start_pieces NAME PORT: forwards to this port in pieces of a few bytes, from NAME_port.
start_pieces() {
    python3 -B "$top/examples/proxy/pieces.py" "$2" > "$work/$1.port" &
    started+=($!)
    until_it test -s "$work/$1.port"
    printf -v "$1_port" '%s' "$(< "$work/$1.port")"
}

# same_load: mariadb-slap's clients get all their answers.
same_load() {
    "$slap" --no-defaults --protocol=tcp --host=127.0.0.1 --port="$proxy_port" --user=probe \
        --password=sesame --auto-generate-sql --concurrency=8 --number-of-queries=800 \
        > "$work/slap.log" 2>&1
}

# killed_asleep PORT LOG SECONDS: a client that is killed while it waits for its rows.
killed_asleep() {
    "$client" --no-defaults --protocol=tcp --host=127.0.0.1 --port="$1" --user=probe \
        --password=sesame --execute="SELECT SLEEP($3)" > "$work/killed" 2>&1 &
    local waits=$!
    logged "$2" "COM_QUERY SELECT SLEEP($3)"
    kill -9 "$waits"
    wait "$waits" 2> "$work/errors"
}

# leaves_early: a client that is killed while it waits for its rows. The server's side is closed.
leaves_early() {
    local number
    killed_asleep "$narrow_port" narrow 8
    number=$(sed -n 's/^[^ ]* \([0-9]*\) .* COM_QUERY SELECT SLEEP.*/\1/p' "$work/narrow.log")
    logged narrow "^[^ ]* $number .* the client hung up before its answer"
}

# stops_work: the server gives up a statement whose client was killed.
stops_work() {
    killed_asleep "$proxy_port" proxy 40
    until_it alone
}

# one_too_many: a second client at a proxy for one, and the next one behind the first.
one_too_many() {
    ask "$lone_port" <<< 'SELECT SLEEP(1)' > "$work/slow" &
    local slow=$!
    logged lone 'COM_QUERY SELECT SLEEP' &&
        says "$lone_port" '1040.*Too many connections' <<< 'SELECT 7' && wait "$slow" &&
        logged lone 'the client hung up' && says "$lone_port" '^7$' <<< 'SELECT 7'
}

# no_descriptor: a proxy without a free descriptor says so, and goes on once it may have more.
no_descriptor() {
    says "$scarce_port" '1040.*Too many connections' <<< 'SELECT 7' &&
        logged scarce "isn't served: Too many open files" &&
        prlimit --pid="$scarce_id" --nofile=64 && says "$scarce_port" '^7$' <<< 'SELECT 7'
}

# no_thread: a proxy without a free thread says so, and goes on once it may have more.
no_thread() {
    says "$threadless_port" '1040.*Too many connections' <<< 'SELECT 7' &&
        logged threadless "isn't served: Resource temporarily unavailable" &&
        "${as_other[@]}" prlimit --pid="$threadless_id" --nproc=64 && says "$threadless_port" '^7$' <<< 'SELECT 7'
}

# alone: no other client is connected to the server.
alone() {
    [ "$(as_root "SELECT COUNT(*) FROM information_schema.processlist WHERE Command != 'Daemon'" |
        tail -n 1)" = 1 ]
}

server=$(first_of mariadbd mysqld)
client=$(first_of mariadb mysql)
if [ -z "$server" ] || [ -z "$client" ]; then
    echo 'there is no MariaDB or MySQL server and client here'
    end
fi
if ! make -s -C "$top/bindings/c" > "$work/log" 2>&1 ||
    ! RUSTFLAGS='-D warnings' MYSQL_WIRE_LIB_DIR=$top/bindings/c/out cargo build -q --offline \
        --release --manifest-path "$top/examples/proxy/Cargo.toml" --target-dir "$work/target" ||
    ! cp "$work/target/release/proxy" "$work/proxy"; then
    check 'the proxy is built' false
    end
fi
if ! start_server; then
    tail "$work/setup.log" "$work/server.log"
    check 'the server starts' false
    end
fi
as_root "CREATE DATABASE probe; CREATE USER probe@'127.0.0.1' IDENTIFIED BY 'sesame';
    GRANT ALL ON *.* TO probe@'127.0.0.1'; CREATE USER plain@'127.0.0.1';
    GRANT ALL ON probe.* TO plain@'127.0.0.1';"
start_proxy proxy "--limit $((32 << 20))"
start_proxy narrow "--limit $((1 << 20)) --stalled 2"
start_proxy wide "--limit $((1 << 30))"
start_proxy middle '--limit 20000000'

check 'a login with a password' same <<< 'SELECT USER()'
check 'a login with a wrong password' same --password=wrong <<< 'SELECT 1'
check 'a client that would compress' same --compress <<< 'SELECT 1'
check 'rows of every type' same << 'END'
CREATE OR REPLACE TABLE kinds (i INT, u BIGINT UNSIGNED, d DECIMAL(20, 5), f DOUBLE, b BIT(9),
    day DATE, at DATETIME(6), t TIME, y YEAR, c CHAR(9), v VARCHAR(300), x BLOB, e ENUM('a', 'b'),
    s SET('a', 'b'), p POINT);
INSERT INTO kinds VALUES (-1, 18446744073709551615, 1.5, 1e300, 257, '2024-02-29',
    '2024-02-29 12:00:00.5', '-838:59:59', 2024, 'c', REPEAT('v', 300), x'00ff', 'b', 'a,b',
    POINT(1, 2));
INSERT INTO kinds (i) VALUES (NULL), (7);
SELECT i, u, d, f, b + 0, day, at, t, y, c, v, HEX(x), e, s, ST_AsText(p) FROM kinds;
SELECT * FROM kinds WHERE i = 8;
SELECT '', NULL, REPEAT('a', 250), REPEAT('b', 251), REPEAT('c', 70000);
END
check 'many rows' same <<< "WITH RECURSIVE n AS (SELECT 1 AS i UNION ALL SELECT i + 1 FROM n
    WHERE i < 900) SELECT a.i, b.i FROM n AS a, n AS b WHERE b.i < 100"
check 'statements prepared by SQL' same << 'END'
PREPARE add_up FROM 'SELECT ? + ?, ?';
SET @a = 1, @b = 2, @c = 'text';
EXECUTE add_up USING @a, @b, @c;
EXECUTE add_up USING @b, @b, @a;
DEALLOCATE PREPARE add_up;
END
check 'several results of one command' same --delimiter=// << 'END'
CREATE OR REPLACE PROCEDURE two() BEGIN SELECT 1; SELECT 2, 3; INSERT INTO kinds (i) VALUES (8);
END//
CALL two()//
SELECT 4; SELECT 5; DO 1; SELECT 6//
END
check 'results inside an open cursor of a procedure' same --delimiter=// << 'END'
CREATE OR REPLACE PROCEDURE each_one() BEGIN DECLARE found INT; DECLARE is_last INT DEFAULT 0;
DECLARE ids CURSOR FOR SELECT 7 UNION SELECT 8;
DECLARE CONTINUE HANDLER FOR NOT FOUND SET is_last = 1;
OPEN ids; FETCH ids INTO found;
WHILE is_last = 0 DO SELECT found, 'a'; FETCH ids INTO found; END WHILE;
CLOSE ids; END//
CALL each_one()//
CALL each_one()//
SELECT 1//
END
seq 1 20000 > "$work/numbers"
check 'a file of the client' same << END
CREATE OR REPLACE TABLE numbers (n INT);
LOAD DATA LOCAL INFILE '$work/numbers' INTO TABLE numbers;
SELECT COUNT(*), SUM(n) FROM numbers;
LOAD DATA LOCAL INFILE '$work/missing' INTO TABLE numbers;
END
check 'statements that fail' same --force << 'END'
SELEC 1;
SELECT 1;
SELECT * FROM missing;
SELECT 2;
END
check 'a result of 17000000 bytes' same <<< "SELECT REPEAT('a', 17000000)"
check 'results of 16777210 to 16777216 bytes' same << 'END'
SELECT REPEAT('a', 16777210);
SELECT REPEAT('a', 16777211);
SELECT REPEAT('a', 16777212);
SELECT REPEAT('a', 16777216);
END
printf "SELECT LENGTH('%0*d')" 17000000 0 > "$work/long"
check 'a statement of 17000000 bytes' same < "$work/long"
check 'a result of 60000000 bytes in little memory' in_little_memory <<< \
    "SELECT REPEAT('a', 60000000)"
printf "SELECT LENGTH('%0*d')" 60000000 0 > "$work/long"
check 'a statement of 60000000 bytes in little memory' in_little_memory < "$work/long"
check 'many results in little memory' in_little_memory <<< "WITH RECURSIVE n AS (SELECT 1 AS i
    UNION ALL SELECT i + 1 FROM n WHERE i < 30) SELECT i, REPEAT('a', 1000000) FROM n"
check 'several clients side by side' side_by_side
slap=$(first_of mariadb-slap mysqlslap)
[ -n "$slap" ] && check 'eight clients with 800 statements' same_load
if command -v python3 > "$work/errors"; then
    check 'prepared statements, cursors, commands without answers' same_statements "$proxy_port"
    check 'the same under CLIENT_DEPRECATE_EOF' same_statements "$proxy_port" deprecate-eof
    # Pieces of the server's packets, a proxy, and pieces of the client's.
    direct_port=$server_port
    start_pieces far "$server_port"
    server_port=$far_port
    start_proxy between "--limit $((32 << 20))"
    server_port=$direct_port
    start_pieces near "$between_port"
    check 'the same cut into pieces' same_statements "$near_port"
    check 'cut under CLIENT_DEPRECATE_EOF' same_statements "$near_port" deprecate-eof
    check 'long rows cut into pieces' same_at "$near_port" << 'END'
SELECT REPEAT('a', 16777211);
SELECT REPEAT('b', 17000000);
END
    check 'a login that asks for TLS or compression' not_plain
    check 'a login that asks for what else is not offered' cleared
fi
check 'a client that goes away inside a packet' goes_away
printf "SELECT LENGTH('%0*d')" 2000000 0 > "$work/long"
check 'a long packet before the login' refused_early
check 'a statement above the limit' says "$narrow_port" 'ERROR 1153.*bigger' < "$work/long"
check 'a result above the limit' says "$narrow_port" 'ERROR 1153' <<< "SELECT REPEAT('a', 2000000)"
printf "SELECT LENGTH('%0*d')" 30000000 0 > "$work/long"
check 'a statement above the limit in its second chunk' says "$middle_port" 'ERROR 1153' \
    < "$work/long"
check 'a result above the limit in its second chunk' says "$middle_port" 'ERROR 2013' <<< \
    "SELECT REPEAT('a', 30000000)"
check 'the next client after these' says "$narrow_port" '^7$' <<< 'SELECT 7'
check 'a client that goes away while it waits' leaves_early
check 'what it waited for ends too' stops_work
start_proxy lone '--clients 1'
check 'one client too many' one_too_many
if command -v prlimit > "$work/errors"; then
    start_proxy scarce '' prlimit --nofile=8:
    check 'no descriptor for a client' no_descriptor
fi
# Root has all the threads that it wants, so a user runs it who runs nothing else.
as_other=(setpriv --reuid=54321 --clear-groups)
if [ "$(id -u)" = 0 ] && "${as_other[@]}" prlimit > "$work/errors" 2>&1; then
    chmod a+x "$work"
    start_proxy threadless '' "${as_other[@]}" prlimit --nproc=2:
    check 'no thread for a client' no_thread
fi
check 'the server is left by all' until_it alone

check 'the log has the statements' logged proxy 'COM_QUERY PREPARE add_up FROM'
check 'the log has the rows' logged proxy '  89100 rows'
check 'the log has the prepared statements' logged proxy '  statement .*: 2 parameters, 2 columns'
check 'the log has the errors' logged proxy '  error 1064'
check 'the log has what was too large' logged narrow 'client: .*limit'
[ -n "${KEEP_LOG:-}" ] && cat "$work/proxy.log" > "$KEEP_LOG"
end
