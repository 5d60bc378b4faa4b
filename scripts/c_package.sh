#!/usr/bin/env bash
# Makes the package of the C library, installs it into a folder of its own and out of the unpacked
# release without the kit, and builds and runs programs against both: with pkg-config, with CMake
# where it is there, against the archive and the shared library; runs the installed mysql_wire_dump and
# mysql_wire_tool in an empty folder, without the kit; and looks at what the release has and says. It
# prints a line for each check. The last line is 'N passed, M failed'.
set -u
top=$(cd "$(dirname "$0")/.." && pwd)
source "$top/scripts/start.sh"
source "$top/scripts/checks.sh"
source "$top/scripts/release.sh"
package=$top/bindings/c
tests=$top/crates/mysql_wire_c/tests
work=$(mktemp -d)
trap 'rm -rf "$work"' EXIT
if ! command -v gcc > /dev/null || ! command -v make > /dev/null; then
    echo 'there is no gcc or no make here'
    finish
fi

# The packet dump prints what it must of a stream of two packets.
dumps() {
    printf '\x03\0\0\x00123\x02\0\0\x01\x01\xff' | "$@" > "$work/printed"
    printf '%s\n' '0 3 313233 123' '1 2 01ff ..' | diff - "$work/printed"
}

# built ROOT LIBRARY..: the dump, by the flags that are installed below this folder.
built() {
    local root=$1 flags
    shift
    flags=$(PKG_CONFIG_PATH="$root/lib/pkgconfig" pkg-config --cflags --libs mysql_wire) &&
        quiet gcc -std=c11 -o "$work/dump" "$top/examples/c/dump.c" $flags "$@"
}

# The tests of the library, with the archive that is installed below this folder.
tested() {
    quiet gcc -std=c11 -O1 -pthread -I"$1/include" -o "$work/tests" "$tests"/*.c \
        -Wl,--wrap=malloc,--wrap=realloc "$1/lib/libmysql_wire.a" && quiet "$work/tests"
}

# A project of CMake that asks for the package below this folder.
cmake_finds() {
    mkdir -p "$work/project" && cat > "$work/project/CMakeLists.txt" << EOF
cmake_minimum_required(VERSION 3.13)
project(dump C)
find_package(mysql_wire ${version%.*} REQUIRED)
add_executable(dump $top/examples/c/dump.c)
target_link_libraries(dump mysql_wire::mysql_wire)
add_executable(static_dump $top/examples/c/dump.c)
target_link_libraries(static_dump mysql_wire::static)
EOF
    quiet cmake -S "$work/project" -B "$work/built" -DCMAKE_PREFIX_PATH="$1" &&
        quiet cmake --build "$work/built" && dumps "$work/built/dump" &&
        dumps "$work/built/static_dump"
}

# The release is installed, also after what was made there was removed.
installed() {
    quiet without_kit make check && quiet without_kit make clean &&
        quiet without_kit make install PREFIX="$work/other" && sums_agree
}

# Each file of the release, and the release itself, has the sum that is told.
sums_agree() {
    quiet without_kit sha256sum --strict -c SHA256SUMS &&
        (cd "$package/out" && quiet sha256sum --strict -c SHA256SUMS) &&
        [ -z "$(cd "$release" && find . -type f ! -name SHA256SUMS | sed 's|^\./||' | sort |
            comm -3 - <(sed 's/^[^ ]* *//' SHA256SUMS | sort))" ]
}

# A library and its files in a folder of another name, below DESTDIR.
other_folders() {
    local lib=/usr/lib/x86_64-linux-gnu root=$work/destination
    quiet without_kit make install DESTDIR="$root" PREFIX=/usr LIBDIR="$lib" &&
        [ -f "$root$lib/libmysql_wire.a" ] && [ -f "$root/usr/share/man/man3/mysql_wire.3" ] &&
        [ -f "$root/usr/share/man/man1/mysql_wire_dump.1" ] && [ -x "$root/usr/bin/mysql_wire_tool" ] &&
        grep -qx "libdir=$lib" "$root$lib/pkgconfig/mysql_wire.pc" &&
        { ! command -v cmake > "$work/which" || cmake_finds "$root/usr"; } &&
        quiet without_kit make uninstall DESTDIR="$root" PREFIX=/usr LIBDIR="$lib" &&
        [ -z "$(find "$root" ! -type d)" ]
}

nothing_left() {
    quiet make -C "$package" uninstall PREFIX="$work/root" &&
        [ -z "$(find "$work/root" ! -type d)" ]
}

# names_are_there: what the release's pages name is in it: each target of a link, and each path of
# the repository.
names_are_there() {
    local page name missing=0
    while read -r page; do
        while read -r name; do
            if [ ! -e "$(dirname "$page")/$name" ] && [ ! -e "$release/$name" ]; then
                echo "$(basename "$(dirname "$page")")/$(basename "$page") names $name"
                missing=1
            fi
        done < <({ grep -oE '\]\([^)#:]+' "$page" | sed 's/^](//'
            grep -oP '(?<![/\w.-])(bindings|crates|docs|examples|scripts)/[\w./-]*\w' "$page"
            } | grep -v '/out\b' | sort -u)
    done < <(find "$release" -name '*.md')
    return "$missing"
}

# The release's page says in ten lines what is proved, how to check it, and for which systems it is.
page_begins_well() {
    local word
    for word in '# mysql_wire' Proved .ci/run kit SHA256SUMS x86-64 'glibc 2.14' musl ARM macOS Windows; do
        head -n 10 "$release/README.md" | grep -qF "$word" || { echo "no word of $word"; return 1; }
    done
}

# The examples by their own Makefile.
examples_run() {
    quiet without_kit make -C examples/c &&
        dumps "$release/examples/c/out/dump" && follows "$release/examples/c/out/session" &&
        quiet without_kit make -C examples/c check &&
        quiet without_kit make -C examples/c clean
}

# reads_well PAGE: `man` finds nothing wrong with a page, where it is there; its text is $work/page.
reads_well() {
    ! command -v man > "$work/which" ||
        [ -z "$(man -l --warnings=mac,syntax "$1" 2>&1 > "$work/page")" ]
}

# The man page names each call.
man_page_is_whole() {
    grep -oE 'mysql_wire_[a-z_]+' "$package/mysql_wire.3" | sort -u |
        comm -13 - "$package/out/calls" | diff - <(:) && reads_well "$package/mysql_wire.3"
}

# in_empty_folder COMMAND..: runs a command in a folder with nothing but what is asked for there, on the
# system's programs and those that are installed.
in_empty_folder() {
    mkdir -p "$work/captured" && env -i -C "$work/captured" LC_ALL=C.UTF-8 \
        PATH="$work/other/bin:/usr/bin:/bin" "$@"
}

# program_page_is_whole NAME USAGE: the installed man page of a program has each word of its usage line.
program_page_is_whole() {
    local page=$work/other/share/man/man1/$1.1 word
    reads_well "$page" || return
    for word in $(grep -oE '[a-z_-]+' <<< "${2#usage: }" | sort -u); do
        grep -qE -e "(^|[^a-z])${word#--}([^a-z]|\$)" "$page" || { echo "no word of $word"; return 1; }
    done
}

# Both programs ask for no library but the C library, no newer than the release's page says.
programs_need_little() {
    local name most
    for name in mysql_wire_dump mysql_wire_tool; do
        objdump -p "$release/bin/$name" | sed -n 's/^ *NEEDED *//p' | diff <(echo libc.so.6) - &&
            objdump -T "$release/bin/$name" | grep -oE 'GLIBC_[0-9.]+' | sed 's/GLIBC_//' | sort -V |
            tail -n 1 | { read -r most && printf '%s\n' "$most" 2.34 | sort -V -C; } || return
    done
}

# The installed dump shows the first of the recorded sessions, out of two files, and says where they end.
dump_shows_session() {
    mkdir -p "$work/captured" && (cd "$top/scripts" && python3 -B - "$work/captured") << 'END' || return
import pathlib
import sys
from dump_recordings import framed, sessions
from recordings import CRATE
_, packets = next(sessions((CRATE / "stdin").read_bytes()))
for side in ("client", "server"):
    (pathlib.Path(sys.argv[1]) / side).write_bytes(framed(packets, side))
END
    in_empty_folder mysql_wire_dump client client server server > "$work/printed" &&
        head -n 3 "$work/printed" |
        diff <(printf '%s\n' 'server 0 100 greeting' 'client 1 141 login' 'server 2 7 ok') - &&
        grep -E '^(client|server) end at' "$work/printed" | sort |
        diff <(cd "$work/captured" && wc -c client server | sed -n 's/^ *\([0-9]*\) \([cs].*\)/\2 end at \1/p') -
}

# The installed tool frames three bytes, and shows the chunk.
tool_shows_chunk() {
    printf 123 | in_empty_folder mysql_wire_tool frame 0 | in_empty_folder mysql_wire_tool chunk |
        diff <(printf '%s\n' 'last 0 3 313233' 'rest 0') -
}

# Both programs say how they are called where nothing is asked of them.
pages_have_options() {
    local name usage
    for name in mysql_wire_dump mysql_wire_tool; do
        usage=$(in_empty_folder "$name" 2>&1 > "$work/printed")
        [ $? -eq 1 ] && program_page_is_whole "$name" "$usage" || return
    done
}

# The shared library asks for no newer C library than 2.14, and for nothing else.
runs_with_old_libraries() {
    local shared=$package/out/libmysql_wire.so.$version
    objdump -T "$shared" | grep -oE 'GLIBC_[0-9.]+' | sed 's/GLIBC_//' | sort -V | tail -n 1 |
        diff <(echo 2.14) - &&
        objdump -p "$shared" | sed -n 's/^ *NEEDED *//p' | diff <(echo libc.so.6) -
}

# The archive with musl's C library.
musl_links() {
    quiet musl-gcc -static -std=c11 -I"$release/include" -o "$work/dump" "$release/examples/c/dump.c" \
        "$release/lib/libmysql_wire.a" && dumps "$work/dump"
}

# A program in C and one in C++ with the constants.
constants_compile() {
    printf '%s\n' '#include <mysql_wire_constants.h>' \
        'int main(void) { return MYSQL_WIRE_COM_QUERY - 3 + MYSQL_WIRE_CLIENT_PROTOCOL_41 - 512u; }' \
        > "$work/constants.c"
    quiet gcc -std=c11 -Wall -Wextra -Werror -I"$1/include" -o "$work/constants" \
        "$work/constants.c" && "$work/constants" &&
        quiet gcc -x c++ -std=c++11 -Wall -Werror -fsyntax-only -I"$1/include" "$work/constants.c"
}

# client_compiles ROOT: the client in C99 and in C++17, with all warnings.
client_compiles() {
    local warnings=(-Wall -Wextra -Wpedantic -Werror "-I$1/include")
    quiet gcc -std=c99 -D_POSIX_C_SOURCE=200809L "${warnings[@]}" -o "$work/client" \
        "$top/examples/c/client.c" "$1/lib/libmysql_wire.a" &&
        quiet gcc -x c++ -std=c++17 "${warnings[@]}" -fsyntax-only "$top/examples/c/client.c"
}

# ended ID: ends a process of this script, and waits for it.
ended() {
    kill "$1"
    wait "$1" 2> "$work/log"
}

# The client prints what it must, beside the server of the proxy's tests.
client_asks() {
    local port
    coproc server { exec python3 -B "$top/examples/proxy/server.py"; }
    read -r port <&"${server[0]}"
    {
        "$work/client" "$port" user 'select 1'
        "$work/client" "$port" user nulls
        "$work/client" "$port" user 'wait 0'
        "$work/client" "$port" user 'half 16' 2>&1
        echo "status $?"
    } > "$work/printed"
    ended "$server_PID"
    printf '%s\n' 'select 1' NULL '' 'client: the server is gone' 'status 1' |
        diff - "$work/printed"
}

# The client tells the errors of the server of the tests of bindings/python.
client_tells_errors() {
    local port
    coproc refuser { exec env PYTHONPATH="$top/bindings/python:$top/bindings/python/tests" \
        MYSQL_WIRE_LIBRARY="$package/out/libmysql_wire.so.$version" python3 -B -c '
import asyncio, test_client
async def run():
    server = await asyncio.start_server(test_client.serve, "127.0.0.1", 0)
    print(server.sockets[0].getsockname()[1], flush=True)
    await server.serve_forever()
asyncio.run(run())'; }
    read -r port <&"${refuser[0]}"
    { "$work/client" "$port" user SELEC; "$work/client" "$port" user '?'; } > "$work/printed" 2>&1
    ended "$refuser_PID"
    printf 'client: ERROR 1064%s: no such statement\n' ' (42000)' '' | diff - "$work/printed"
}

# A program whose own functions are asked for all memory, with the archive: malloc, realloc and free
# are never called.
memory_is_set() {
    quiet gcc -std=c11 -Wall -Wextra -Werror -I"$1/include" -o "$work/own_memory" \
        "$tests/programs/own_memory.c" -Wl,--wrap=malloc,--wrap=realloc,--wrap=free \
        "$1/lib/libmysql_wire.a" && "$work/own_memory"
}

check 'the constants are those of wire_const' "$top/scripts/c_constants.py" --check
check 'all packages have one version' "$top/scripts/versions.py" --check
version=$(cat "$top/VERSION")
check 'the libraries are made' quiet make -C "$package" || finish
check 'their symbols are the calls of the header' quiet make -C "$package" check
check 'it is installed' quiet make -C "$package" install PREFIX="$work/root"
check 'the tests pass with the archive' tested "$work/root"
check 'the constants are compiled' constants_compile "$work/root"
check 'the client is compiled' client_compiles "$work/root"
if command -v python3 > "$work/which"; then
    check 'the client asks a server' client_asks
    check 'the client tells errors' client_tells_errors
fi
check 'memory comes from where a program says' memory_is_set "$work/root"
if command -v pkg-config > /dev/null; then
    check 'a program is built by pkg-config' built "$work/root" "-Wl,-rpath,$work/root/lib"
    check 'it runs with the shared library' dumps "$work/dump"
fi
if command -v cmake > /dev/null; then
    check 'CMake finds both libraries' cmake_finds "$work/root"
fi
check 'the man page has the calls' man_page_is_whole
if command -v objdump > "$work/which"; then
    check 'the shared library is for glibc 2.14 and later' runs_with_old_libraries
fi
check 'the release is packed' unpack_release || finish
check 'the release has the sums that it tells' sums_agree
check 'its page begins with what one wants to know' page_begins_well
check 'its pages name what is in it' names_are_there
check 'it is installed without the kit, and its libraries stay' installed
check 'the installed tool frames and shows a chunk' tool_shows_chunk
if command -v python3 > "$work/which"; then
    check 'the installed dump shows a recorded session' dump_shows_session
fi
check 'the man pages of the programs have their command lines' pages_have_options
if command -v objdump > "$work/which"; then
    check 'the programs need glibc 2.34 and nothing else' programs_need_little
fi
check 'the tests pass with what was packed' tested "$work/other"
check 'it is installed into other folders' other_folders
check 'its examples are built and run' examples_run
if command -v musl-gcc > "$work/which"; then
    check 'its archive is linked with musl' musl_links
else
    echo 'there is no musl-gcc here'
fi
check 'it is uninstalled' nothing_left
finish
