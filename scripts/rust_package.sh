#!/usr/bin/env bash
# Compares the declarations of bindings/rust with the header of the C library; then builds the crates
# and the proxy that stands on them, out of the unpacked release, and runs their tests, with no network
# and no kit; and tries which libraries the crates take. It prints a line for each check. The last line
# is 'N passed, M failed'.
set -u
top=$(cd "$(dirname "$0")/.." && pwd)
source "$top/scripts/start.sh"
source "$top/scripts/checks.sh"
source "$top/scripts/release.sh"
work=$(mktemp -d)
trap 'rm -rf "$work"' EXIT
if ! cargo --version > "$work/log" 2>&1 || ! make --version > "$work/log" 2>&1; then
    echo 'there is no cargo or no make here'
    finish
fi

declared() {
    grep -oE 'pub fn mysql_wire_[a-z_]+' "$top/bindings/rust/mysql-wire-sys/src/lib.rs" |
        sed 's/pub fn //' | sort | diff "$top/bindings/c/out/calls" -
}

# in_release [NAME=VALUE..] COMMAND..: runs cargo or a program in the release.
in_release() {
    without_kit CARGO_HOME="$work/cargo" CARGO_TARGET_DIR="$work/target" CARGO_NET_OFFLINE=true \
        RUSTFLAGS='-D warnings' RUSTDOCFLAGS='-D warnings' "$@"
}

# packages CRATE [OPTION..]: the files that cargo would publish, and what it would say of them, have
# what a reader wants.
packages() {
    local manifest=bindings/rust/$1/Cargo.toml word listed
    shift
    listed=$(in_release cargo package --list --allow-dirty "$@" --manifest-path "$manifest" \
        2> "$work/log") || return
    for word in CHANGELOG.md Cargo.toml LICENSE README.md src/lib.rs; do
        grep -qx "$word" <<< "$listed" || return
    done
    listed=$(in_release cargo read-manifest --manifest-path "$manifest" 2> "$work/log") || return
    for word in '"rust_version":"1' '"license":"MIT"' '"keywords":\["' '"categories":\["' \
        '"description":"'; do
        grep -q "$word" <<< "$listed" || return
    done
}

# builds [NAME=VALUE..]: builds mysql-wire-sys, and leaves what cargo said in $work/said.
builds() {
    in_release "$@" cargo build --manifest-path bindings/rust/mysql-wire-sys/Cargo.toml \
        > "$work/said" 2>&1
}

# refuses TEXT [NAME=VALUE..]: it isn't built, and cargo says so.
refuses() {
    local text=$1
    shift
    ! builds "$@" && grep -q "$text" "$work/said"
}

# An archive that is replaced by junk is looked at again, and so is one of another version.
archive_is_watched() {
    local folder=$work/lib
    mkdir -p "$folder" && cp "$release/lib/libmysql_wire.a" "$folder" &&
        builds MYSQL_WIRE_LIB_DIR="$folder" || return
    echo junk > "$folder/libmysql_wire.a"
    refuses "$folder/libmysql_wire.a is no archive of mysql_wire" MYSQL_WIRE_LIB_DIR="$folder" ||
        return
    sed 's/@(#)mysql_wire 0\.[0-9]*/@(#)mysql_wire 0.0/' "$release/lib/libmysql_wire.a" \
        > "$folder/libmysql_wire.a"
    refuses 'is of version 0\.0\.' MYSQL_WIRE_LIB_DIR="$folder" || return
    cp "$release/lib/libmysql_wire.a" "$folder" && builds MYSQL_WIRE_LIB_DIR="$folder"
}

folder_without_library() {
    mkdir -p "$work/nothing" &&
        refuses "MYSQL_WIRE_LIB_DIR names $work/nothing, which has no libmysql_wire.a" \
            MYSQL_WIRE_LIB_DIR="$work/nothing" && grep -q 'Unpack the release' "$work/said"
}

# Another PKG_CONFIG_PATH is looked at: one of an installed library, and one of a file that names
# nothing.
pkg_config_is_asked() {
    local config=$work/installed/lib/pkgconfig
    quiet without_kit make install PREFIX="$work/installed" &&
        builds PKG_CONFIG_PATH="$config" || return
    mkdir -p "$work/other" &&
        sed "s|^libdir=.*|libdir=$work/nowhere|" "$config/mysql_wire.pc" > "$work/other/mysql_wire.pc"
    refuses "pkg-config answers $work/nowhere, which has no" PKG_CONFIG_PATH="$work/other" &&
        builds PKG_CONFIG_PATH="$config"
}

check 'the library is made' quiet make -C "$top/bindings/c" || finish
check 'the declarations are the calls of the header' declared
check 'the release is unpacked' unpack_release || finish
check 'the crates and their tests pass' quiet in_release cargo test --manifest-path \
    bindings/rust/Cargo.toml
check 'their documentation is made' quiet in_release cargo doc --no-deps --manifest-path \
    bindings/rust/Cargo.toml
check 'mysql-wire-sys has what is to be published' packages mysql-wire-sys
check 'mysql-wire has what is to be published' packages mysql-wire
check 'a folder without a library is named' folder_without_library
check 'a library that changes is looked at' archive_is_watched
if command -v pkg-config > "$work/log"; then
    check 'pkg-config is asked' pkg_config_is_asked
fi
check 'the proxy is built on them' quiet in_release cargo build --release --manifest-path \
    examples/proxy/Cargo.toml || finish
registry=/usr/share/cargo/registry
debian=(--config 'source.crates-io.replace-with="debian"'
    --config "source.debian.directory=\"$registry\"")
if ls -d "$registry"/bytes-1.* > "$work/log" 2>&1; then
    check 'the crate over bytes passes its tests' quiet in_release cargo test "${debian[@]}" \
        --manifest-path bindings/rust/mysql-wire-bytes/Cargo.toml
    check 'it has what is to be published' packages mysql-wire-bytes "${debian[@]}"
    check 'its documentation is made' quiet in_release cargo doc --no-deps "${debian[@]}" \
        --manifest-path bindings/rust/mysql-wire-bytes/Cargo.toml
else
    echo 'there is no crate bytes here'
fi
if ls -d "$registry"/tokio-1.* "$registry"/tokio-util-0.* > "$work/log" 2>&1; then
    check 'tokio reads and writes packets by it' quiet in_release cargo test "${debian[@]}" \
        --manifest-path bindings/rust/mysql-wire-bytes/examples/tokio/Cargo.toml
else
    echo 'there are no crates tokio and tokio-util here'
fi
if python3 --version > "$work/log" 2>&1; then
    check "the proxy's tests pass" quiet without_kit PROXY="$work/target/release/proxy" \
        "$(command -v python3)" -B -m unittest discover -s examples/proxy
fi
finish
