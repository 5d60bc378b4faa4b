#!/usr/bin/env bash
# Builds the wheel of bindings/python out of the unpacked release, with no network and no kit, installs
# it into a folder of its own, and runs its tests there; looks at what the wheel and the archive of its
# source have, and at the types of the module. It prints a line for each check. The last line is
# 'N passed, M failed'.
set -u
top=$(cd "$(dirname "$0")/.." && pwd)
source "$top/scripts/start.sh"
source "$top/scripts/checks.sh"
source "$top/scripts/release.sh"
work=$(mktemp -d)
trap 'rm -rf "$work"' EXIT
export PYTHONDONTWRITEBYTECODE=1
python=$(command -v python3)
if [ -n "$python" ]; then
    check 'a capture is split into its two directions' quiet env -C "$top/examples/python" \
        python3 -B -m unittest test_pcap
fi
if ! python3 -m pip --version > "$work/log" 2>&1 || ! make --version > "$work/log" 2>&1; then
    echo 'there is no python3 with pip, or no make here'
    finish
fi

pip() {
    without_kit "$python" -m pip --disable-pip-version-check "$@"
}

# The archive of the source, as a frontend of packages asks for it.
source_archive() {
    quiet without_kit -C "$release/bindings/python" "$python" -c "import sys
sys.path.append('build_backend')
import wheel_of_library
print(wheel_of_library.build_sdist('$work'))" && tar -C "$work" -xzf "$work"/mysql_wire-*.tar.gz
}

# The source alone says what it lacks, and is built where that is named.
source_says_what_it_needs() {
    local unpacked
    unpacked=$(echo "$work"/mysql_wire-*/)
    grep -q '^Requires-External: libmysql_wire' "$unpacked/PKG-INFO" || return
    if pip wheel --no-index --no-deps -w "$work/none" "$unpacked" > "$work/said" 2>&1; then
        return 1
    fi
    grep -q 'shared library of mysql_wire .* is missing. Unpack its release' "$work/said" &&
        without_kit MYSQL_WIRE_LIBRARY="$(ls "$release"/lib/libmysql_wire.so.*)" "$python" -m pip \
            --disable-pip-version-check wheel --no-index --no-deps -w "$work/named" "$unpacked" \
            > "$work/said" 2>&1
}

# What PyPI asks of a wheel with this tag: nothing but manylinux2014's libraries, in versions that it
# has, as PEP 599 lists them; and auditwheel's own verdict where it is there.
tag_holds() {
    local shared=$work/site/mysql_wire/libmysql_wire.so.0
    ls "$work"/mysql_wire-*-py3-none-manylinux2014_x86_64.whl > "$work/log" &&
        objdump -p "$shared" | sed -n 's/^ *NEEDED *//p' | diff <(echo libc.so.6) - &&
        objdump -T "$shared" | grep -oE 'GLIBC_[0-9.]+' | sed 's/GLIBC_//' | sort -V |
        tail -n 1 | { read -r most && printf '%s\n' "$most" 2.17 | sort -V -C; } || return
    if command -v auditwheel > "$work/which"; then
        quiet auditwheel show "$work"/mysql_wire-*.whl
    else
        echo 'there is no auditwheel here'
    fi
}

# The wheel has what is to be published.
wheel_is_whole() {
    local info
    info=$(echo "$work"/site/mysql_wire-*.dist-info)
    [ -f "$info/LICENSE" ] && [ -f "$info/CHANGELOG.md" ] && grep -q '^Classifier: License :: OSI' "$info/METADATA" &&
        grep -q '^# mysql-wire for Python' "$info/METADATA" && [ -f "$work/site/mysql_wire/py.typed" ]
}

# in_site COMMAND..: runs the module that is installed, away from its source.
in_site() {
    without_kit -C "$work" PYTHONPATH="$work/site" "$@"
}

check 'the release is unpacked' unpack_release || finish
check 'the wheel is built' quiet pip wheel --no-index --no-deps -w "$work" ./bindings/python || finish
check 'it is installed' quiet pip install --no-index --no-deps --target "$work/site" "$work"/*.whl
check 'it has what is to be published' wheel_is_whole
if command -v objdump > "$work/which"; then
    check 'its tag holds' tag_holds
fi
mkdir "$work/tests" && cp "$release"/bindings/python/tests/*.py "$work/tests"
check 'its tests pass in an empty folder' quiet in_site "$python" -m unittest discover "$work/tests"
check 'they pass with the examples' quiet in_site "$python" -m unittest discover \
    "$release/bindings/python/tests"
check 'an example follows a session' follows in_site "$python" \
    "$release/examples/python/session.py"
check 'the source is packed' source_archive
check 'it says what it needs' source_says_what_it_needs
module=$release/bindings/python/mysql_wire
if command -v mypy > "$work/which"; then
    check 'mypy believes its types' quiet mypy --strict --cache-dir "$work/mypy" "$module"
else
    echo 'there is no mypy here'
fi
if command -v pyright > "$work/which"; then
    check 'pyright believes its types' quiet pyright "$module"
else
    echo 'there is no pyright here'
fi
finish
