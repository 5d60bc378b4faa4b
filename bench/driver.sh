# For bench/run and bench/rows, which begin with scripts/start.sh and scripts/c_archive.sh, in the
# repository's folder: the driver, by rustc out of bench/src.
libraries=(mysql_wire_bench mysql_wire_c)

# libraries_of CHECKOUT: sets those that the driver is linked with there. Up to 2026-12-01 the sessions'
# workloads had a library of their own.
libraries_of() {
    libraries=(mysql_wire_bench mysql_wire_c)
    if [ -d "$1/crates/mysql_wire_session_bench" ]; then
        libraries+=(mysql_wire_session_bench)
    fi
}

mkdir -p bench/out
bytes=${BYTES:-$(ls -d /usr/share/cargo/registry/bytes-1.* 2> bench/out/bytes.log | tail -n 1)}
flags=(-C opt-level=3 -C target-cpu=x86-64-v2 -C codegen-units=1 -C llvm-args=-align-all-functions=6
    -L dependency=bench/out)

# A crate of bindings/rust, which the driver and the crates below it may name.
bound() {
    local name=${1//-/_}
    rustc "${flags[@]}" --edition 2021 --crate-type rlib --crate-name "$name" \
        --out-dir bench/out "bindings/rust/$1/src/lib.rs"
    flags+=(--extern "$name=bench/out/lib$name.rlib")
}

# The crates below the driver.
build_below() {
    bound mysql-wire-sys
    if [ -n "$bytes" ]; then
        rustc "${flags[@]}" --edition 2018 --crate-type rlib --crate-name bytes --cap-lints allow \
            --cfg 'feature="std"' --cfg 'feature="default"' --out-dir bench/out "$bytes/src/lib.rs"
        flags+=(--extern bytes=bench/out/libbytes.rlib)
        bound mysql-wire
        bound mysql-wire-bytes
        flags+=(--cfg with_bytes)
    else
        echo 'without the crate bytes, nothing is measured beside Rust' >&2
    fi
}

# build_driver ARGUMENTS: the driver, with more arguments of rustc: where it goes, and where the
# libraries are.
build_driver() {
    rustc "${flags[@]}" -C lto=fat --edition 2024 --check-cfg 'cfg(with_bytes)' "$@" \
        bench/src/main.rs -L native="$kit/c" "${libraries[@]/#/-lstatic=}" -l static=libc_c
}
