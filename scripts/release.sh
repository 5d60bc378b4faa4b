# For scripts that try the release: it, unpacked in an empty folder, commands that don't see the kit,
# and a session for the examples. `top` is the repository, `work` a folder of the script's own.
release=

# Packs the release, and unpacks it. Its folder is `release`.
unpack_release() {
    local packed
    quiet make -C "$top/bindings/c" dist || return
    packed=$(ls "$top"/bindings/c/out/mysql_wire-*.tar.gz)
    mkdir -p "$work/empty" && tar -C "$work/empty" -xzf "$packed" || return
    release=$work/empty/$(basename "$packed" .tar.gz)
}

# without_kit [-C FOLDER] [NAME=VALUE..] COMMAND..: runs a command in the unpacked release, or in this
# folder, with no variable set but these, and on a PATH of the system's programs and of cargo alone.
without_kit() {
    local path=/usr/bin:/bin folder=$release
    command -v cargo > "$work/which" && path=$(dirname "$(command -v cargo)"):$path
    if [ "$1" = -C ]; then
        folder=$2
        shift 2
    fi
    env -i -C "$folder" PATH="$path" HOME="$HOME" LC_ALL=C.UTF-8 PYTHONDONTWRITEBYTECODE=1 "$@"
}

# follows COMMAND..: a program that follows a session says of its two directions that it is idle, and,
# once the client has sent one more command, that it waits for the server.
follows() {
    {
        printf '\x2f\0\0\0\x0a8\0'; head -c 13 /dev/zero
        printf '\0\x82\x2d\x02'; head -c 27 /dev/zero
        printf '\x07\0\0\x02\0\0\0\x02\0\0\0'
    } > "$work/from_server"
    {
        printf '\x26\0\0\x01\0\x82'; head -c 30 /dev/zero
        printf 'root\0\0'
    } > "$work/from_client"
    "$@" "$work/from_client" "$work/from_server" > "$work/printed" || return
    printf '\x01\0\0\0\x0e' >> "$work/from_client"
    "$@" "$work/from_client" "$work/from_server" >> "$work/printed" || return
    printf '\x01\0\0\x01' >> "$work/from_server"
    if "$@" "$work/from_client" "$work/from_server" >> "$work/printed"; then
        return 1
    fi
    printf '%s\n' idle 'waits for the server' 'waits for the server' '4 bytes were not followed' |
        diff - "$work/printed"
}
