#!/usr/bin/env bash
# Proves and builds the program, whose output goes to a log, and then frames three bytes and shows
# the chunk again.
set -e
top=$(cd "$(dirname "$0")/.." && pwd)
source "$top/scripts/start.sh"
cd "$top/crates/mysql_wire_tool"
mkdir -p out
rt run -- chunk < /dev/null > out/build.log 2>&1 || {
    tail out/build.log >&2
    exit 1
}
printf 123 | out/mysql_wire_tool frame 0 | out/mysql_wire_tool chunk
