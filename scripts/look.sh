#!/usr/bin/env bash
# A first look, in half a minute: frames three bytes, shows such a chunk, takes two packets out of a
# stream, and dumps the front of a recorded session. Nothing is proved here: `rt try` runs each
# program as it stands, unproved. Needs python3, which cuts the session out of the recordings.
set -e
top=$(cd "$(dirname "$0")/.." && pwd)
source "$top/scripts/start.sh"
work=$(mktemp -d)
declare -A tried
trap 'kill "${tried[@]}" 2> "$work/gone" || true; wait; rm -rf "$work"' EXIT

(cd "$top/scripts" && python3 - "$work") << 'END'
import pathlib
import sys
from dump_recordings import framed, sessions
from recordings import CRATE
_, packets = next(sessions((CRATE / "stdin").read_bytes()))
for side in ("client", "server"):
    (pathlib.Path(sys.argv[1]) / side).write_bytes(framed(packets, side))
END

mkdir "$work/cases"
printf 123 > "$work/cases/frame"
printf 'frame\n0\n' > "$work/cases/frame.args"
printf '\3\0\0\000123' > "$work/cases/chunk"
printf 'chunk\n' > "$work/cases/chunk.args"
printf '\1\0\0\0a\0\0\0\1' > "$work/cases/unframe"
printf 'unframe\n8192\n100\n' > "$work/cases/unframe.args"

# Begins to try a crate's program on these words. `rt try` ends a while after the program has written.
try() {
    local crate=$1
    shift
    : > "$work/$crate"
    (cd "$top/crates/$crate" && exec rt try --steps 1000 "$@") < /dev/null > "$work/$crate" \
        2> "$work/log.$crate" & tried[$crate]=$!
}

# written CRATE LINES: waits until its program has written so many lines. Shows its log where it ends
# without them.
written() {
    local goes=yes
    until [ "$(wc -l < "$work/$1")" -ge "$2" ]; do
        if [ -z "$goes" ]; then
            tail -n 3 "$work/log.$1" >&2
            exit 1
        fi
        sleep 0.1
        kill -0 "${tried[$1]}" 2> "$work/gone" || goes=
    done
}

# What the tool wrote in a case.
of_case() {
    sed -n "/^== $1\$/,/^== /{/^== /d;p}" "$work/mysql_wire_tool"
}

try mysql_wire_dump --data "client=$work/client" --data "server=$work/server" \
    -- client client server server
try mysql_wire_tool --cases "$work/cases"

written mysql_wire_tool 9
echo 'frame 0, of the bytes 123:'
of_case frame | head -c 7 | od -An -tx1
echo 'chunk, of these:'
of_case chunk
echo 'unframe 8192 100, of two packets:'
of_case unframe
written mysql_wire_dump 3
echo 'mysql_wire_dump, of a recorded session, its first lines:'
head -n 3 "$work/mysql_wire_dump"
