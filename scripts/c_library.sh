#!/usr/bin/env bash
# Builds the C library where it isn't there, and compiles and runs its tests with each C compiler
# that there is, plainly, under the address and undefined behaviour sanitizers, and, those with
# threads, under the thread sanitizer. It prints a line for each check. The last line is
# 'N passed, M failed'.
set -u
top=$(cd "$(dirname "$0")/.." && pwd)
source "$top/scripts/start.sh"
source "$top/scripts/checks.sh"
source "$top/scripts/c_archive.sh"
work=$(mktemp -d)
trap 'rm -rf "$work"' EXIT

# run COMPILER MODE WORDS OPTIONS..: compiles the tests and runs them with these words, each test a
# check.
run() {
    local compiler=$1 name="$1, $2" words=$3 line status
    shift 3
    if ! "$compiler" -Wall -Wextra -Werror -std=c11 -O1 -g -pthread "$@" -I"$folder/include" \
        "$folder"/tests/*.c -Wl,--wrap=malloc,--wrap=realloc -o "$work/tests" \
        "$archive" "$kit/c/liblibc_c.a"; then
        fail "$name: the tests compile"
        return
    fi
    (ulimit -c 0; "$work/tests" $words > "$work/lines" 2> "$work/errors")
    status=$?
    while read -r line; do
        case $line in
            "ok "*) pass "$name: ${line#ok }" ;;
            *) fail "$name: ${line#FAILED }" ;;
        esac
    done < "$work/lines"
    if [ "$status" -eq 0 ] && [ ! -s "$work/errors" ]; then
        pass "$name: the program ends well"
    else
        fail "$name: the program ends with status $status"
        cat "$work/errors"
    fi
}

# sanitized COMPILER SANITIZERS WORDS: runs the tests under them, where the compiler has them here.
sanitized() {
    local options=("-fsanitize=$2" -fno-sanitize-recover=all)
    echo 'int main(void) { return 0; }' > "$work/empty.c"
    if "$1" "${options[@]}" -o "$work/empty" "$work/empty.c" 2> "$work/errors" &&
        "$work/empty" 2> "$work/errors"; then
        run "$1" "$2 sanitized" "$3" "${options[@]}"
    else
        echo "$1 has no such sanitizer here: $2"
    fi
}

# header COMPILER: the header is one of C++.
header() {
    if "$1" -Wall -Wextra -Werror -std=c++11 -I"$folder/include" "$folder/tests/header.cpp" \
        -o "$work/header" "$archive" "$kit/c/liblibc_c.a" && "$work/header"; then
        pass "$1: the header in C++"
    else
        fail "$1: the header in C++"
    fi
}

compilers=()
for compiler in gcc clang; do
    command -v "$compiler" > /dev/null && compilers+=("$compiler")
done
if [ "${#compilers[@]}" -eq 0 ]; then
    echo 'there is no C compiler (gcc or clang) here'
    finish
fi

if ! (build_archive mysql_wire_c) > "$work/log" 2>&1; then
    tail "$work/log"
    fail 'the library is built'
    finish
fi

for compiler in "${compilers[@]}"; do
    run "$compiler" plain ''
    sanitized "$compiler" address,undefined ''
    sanitized "$compiler" thread threads
done
for compiler in g++ clang++; do
    command -v "$compiler" > /dev/null && header "$compiler"
done
finish
