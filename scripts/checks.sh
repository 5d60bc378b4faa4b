# For scripts that check: a line for each check, and 'N passed, M failed' as the last one.
passed=0
failed=0

pass() {
    passed=$((passed + 1))
    echo "ok $1"
}

fail() {
    failed=$((failed + 1))
    echo "FAILED $1"
}

# check NAME COMMAND..: a check, which passes where the command does.
check() {
    local name=$1
    shift
    if "$@"; then
        pass "$name"
    else
        fail "$name"
        return 1
    fi
}

# quiet COMMAND..: runs it, and shows the end of what it said where it fails.
quiet() {
    local said
    said=$("$@" 2>&1) || { tail <<< "$said"; return 1; }
}

# Prints the last line, and ends the script.
finish() {
    echo "$passed passed, $failed failed"
    [ "$failed" -eq 0 ]
    exit
}
