#!/usr/bin/env bash
# Runs the built program on pipes, on a full device, on an input that is a folder or closed, and in a
# bounded address space, and compares its status, what it wrote and what it said on standard error.
# Each other status is shown by tool_lines.py. The last line is 'N passed, M failed'.
set -u
top=$(cd "$(dirname "$0")/.." && pwd)
source "$top/scripts/start.sh"
source "$top/scripts/checks.sh"
folder=$top/crates/mysql_wire_tool
program=$folder/out/mysql_wire_tool
[ -x "$program" ] || (cd "$folder" && rt run -- chunk < /dev/null > /dev/null 2>&1)
errors=$(mktemp)
trap 'rm -f "$errors"' EXIT

# judge STATUS OUTPUT ERROR GOT NAME: compares what came with what is wanted.
judge() {
    if [ "$4" = "$2status $1" ] && [ "$(cat "$errors")" = "$3" ]; then
        pass "status $1: $5"
    else
        fail "status $1 of '$5': got $4, and on standard error $(cat "$errors")"
    fi
}

line=$'\n'
judge 0 "1 61${line}0 -${line}rest 0${line}" '' "$(printf '\1\0\0\0a\0\0\0\1' | "$program" reframe 1 2> "$errors" | "$program" unframe 1 1; echo "status $?")" 'reframe 1'
judge 0 "last 7 2 6162${line}rest 0${line}" '' "$(printf ab | "$program" frame 7 2> "$errors" | "$program" chunk; echo "status $?")" 'frame 7'

# A full device, and an input that is a folder or closed.
judge 2 '' 'input or output failed' "$("$program" frame 0 2> "$errors" < /dev/null > /dev/full; echo "status $?")" 'frame 0 > /dev/full'
judge 2 '' 'input or output failed' "$("$program" chunk 2> "$errors" < /; echo "status $?")" 'chunk < /'
judge 2 '' 'input or output failed' "$("$program" unframe 1 1 2> "$errors" <&-; echo "status $?")" 'unframe 1 1 <&-'

# A bounded address space, in KiB, and an input that doesn't fit.
judge 6 '' 'out of memory' "$(head -c 200000000 /dev/zero | (ulimit -v 100000; "$program" frame 0 2> "$errors" | wc -c | grep -v '^0$'; echo "status ${PIPESTATUS[0]}"))" 'frame 0 in 100 MB'

finish
