#!/usr/bin/env bash
# Builds the examples of examples/, and compares what the two packet dumps, in C and in Python,
# print of small streams. It prints a line for each check; the last line is 'N passed, M failed'.
set -u
top=$(cd "$(dirname "$0")/.." && pwd)
source "$top/scripts/start.sh"
source "$top/scripts/checks.sh"
libraries=$top/bindings/c/out
work=$(mktemp -d)
trap 'rm -rf "$work"' EXIT

build_dump() {
    gcc -std=c11 -Wall -Wextra -Werror -I"$top/crates/mysql_wire_c/include" -o "$work/dump" \
        "$top/examples/c/dump.c" "$libraries/libmysql_wire.a"
}

build_proxy() {
    RUSTFLAGS='-D warnings' MYSQL_WIRE_LIB_DIR=$libraries quiet cargo build --offline --release \
        --manifest-path "$top/examples/proxy/Cargo.toml" --target-dir "$work/target"
}

# The streams: each is a name, and its bytes as printf has them.
streams=(
    'no packet' ''
    'two packets' '\x03\x00\x00\x00123\x02\x00\x00\x01\x01\xff'
    'an empty packet' '\x00\x00\x00\x00'
    'a longer packet' '\x14\x00\x00\x00abcdefghijklmnopqrst'
    'an unfinished packet' '\x03\x00\x00\x00123\x05\x00\x00\x01ab'
    'an unfinished header' '\x03\x00'
    'another number' '\x03\x00\x00\x00123\x03\x00\x00\x05456'
)

# expected NAME: what both dumps print of a stream, and the status.
expected() {
    case $1 in
        'no packet') echo 'status 0' ;;
        'two packets') printf '%s\n' '0 3 313233 123' '1 2 01ff ..' 'status 0' ;;
        'an empty packet') printf '%s\n' '0 0  ' 'status 0' ;;
        'a longer packet')
            printf '%s\n' '0 20 6162636465666768696a6b6c6d6e6f70 abcdefghijklmnop' 'status 0' ;;
        'an unfinished packet')
            printf '%s\n' '0 3 313233 123' '6 bytes of an unfinished packet' 'status 1' ;;
        'an unfinished header') printf '%s\n' '2 bytes of an unfinished packet' 'status 1' ;;
        'another number')
            printf '%s\n' '0 3 313233 123' 'a packet bears another number than the expected one' \
                'status 1' ;;
    esac
}

# prints NAME PROGRAM..: the program prints what is expected of the stream in $work/stream.
prints() {
    local name=$1
    shift
    { "$@" < "$work/stream"; echo "status $?"; } > "$work/printed" 2>&1
    diff <(expected "$name") "$work/printed"
}

# long_streams_agree: both dumps print the same of packets of more than one chunk.
long_streams_agree() {
    {
        printf '\xff\xff\xff\0'; head -c 16777215 /dev/zero
        printf '\x02\0\0\x01ab\xff\xff\xff\x02'; head -c 16777215 /dev/zero
        printf '\0\0\0\x03'
    } > "$work/stream"
    "$work/dump" < "$work/stream" > "$work/from_c"
    "${python[@]}" < "$work/stream" > "$work/from_python"
    grep -q '^0 16777217 ' "$work/from_c" && grep -q '^1 16777215 ' "$work/from_c" &&
        cmp "$work/from_c" "$work/from_python"
}

check 'the libraries are made' quiet make -C "$top/bindings/c" || finish
check 'the dump in C is built' build_dump
check 'the proxy is built' build_proxy
export PYTHONDONTWRITEBYTECODE=1 PYTHONPATH=$top/bindings/python MYSQL_WIRE_LIBRARY
MYSQL_WIRE_LIBRARY=$(ls "$libraries"/libmysql_wire.so.*.*.*)
python=(python3 "$top/examples/python/dump.py")
for ((i = 0; i < ${#streams[@]}; i += 2)); do
    name=${streams[i]}
    printf "${streams[i + 1]}" > "$work/stream"
    check "$name, in C" prints "$name" "$work/dump"
    check "$name, in Python" prints "$name" "${python[@]}"
done
check 'packets of more than one chunk' long_streams_agree
finish
