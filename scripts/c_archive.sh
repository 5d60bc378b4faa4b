# For scripts that need the C library, or another static library: where it stands, and how it is built.
# `top` is the repository.
crates=$top/crates
folder=$crates/mysql_wire_c
archive=$folder/out/libmysql_wire_c.a
kit=$(dirname "$(rt doc)")

# named NAME: what crates.txt says that a crate names.
named() {
    sed -n "s/^$1\( staticlib\)\{0,1\}: //p" "$top/crates.txt"
}

# below NAME: the crates of this repository that it stands on.
below() {
    local found=' ' waiting=("$1") name
    while [ "${#waiting[@]}" -gt 0 ]; do
        for name in $(named "${waiting[0]}"); do
            if [ -d "$crates/$name" ] && [[ $found != *" $name "* ]]; then
                found+="$name "
                waiting+=("$name")
            fi
        done
        waiting=("${waiting[@]:1}")
    done
    echo "$found"
}

# left_by_gate NAME: whether the crates below stand as `rt ci` leaves them, which has just proved them.
# `rt lib` would prove its own, since they bear no stamp.
left_by_gate() {
    local layer built
    for layer in $(below "$1"); do
        built=$crates/$layer/out/rlib/$layer.rlib
        if [ ! -d "$built" ] || [ -e "$crates/$layer/out/rlib/stamp" ] ||
            is_older "$built" "$crates/$layer"; then
            return 1
        fi
    done
}

# is_older FILE FOLDER: whether a crate's sources in this folder have changed since.
is_older() {
    local part parts=()
    for part in src specs proofs; do
        [ -d "$2/$part" ] && parts+=("$2/$part")
    done
    [ -n "$(find "${parts[@]}" -type f -newer "$1" -print -quit)" ]
}

# is_newest NAME: whether its archive is newer than its sources and the crates below.
is_newest() {
    local built=$crates/$1/out/lib$1.a layer
    [ -f "$built" ] || return 1
    is_older "$built" "$crates/$1" && return 1
    for layer in $(below "$1"); do
        [ "$crates/$layer/out/rlib/$layer.rlib" -nt "$built" ] && return 1
    done
    return 0
}

# build_over_gate NAME: proves and builds it over those crates.
build_over_gate() {
    local name found=(--extern "std=$kit/rlibs/std.rlib")
    for name in $(named "$1"); do
        if [ -d "$crates/$name" ]; then
            found+=(--extern "$name=$crates/$name/out/rlib/$name.rlib")
        else
            found+=(--extern "$name=$kit/rlibs/$name.rlib")
        fi
    done
    for name in $(below "$1"); do
        found+=(-L "dependency=$crates/$name/out/rlib")
    done
    cd "$crates/$1" && mkdir -p out && "$kit/bin/rattle" build --crate-name "$1" src/lib.rt \
        --crate-type staticlib --links "$1=" --jobs "$(nproc)" "${found[@]}" \
        -L "dependency=$kit/rlibs" --logic-built "$kit/logic_built" \
        --antt-project "$kit/rattle/logic/antt-project.json" --toolchain "$kit/toolchain" \
        --backend llvm -o "out/lib$1.a"
}

# build_archive NAME: proves and builds it, where it isn't built.
build_archive() {
    if ! left_by_gate "$1"; then
        cd "$crates/$1" && rt lib
    elif ! is_newest "$1"; then
        build_over_gate "$1"
    fi
}
