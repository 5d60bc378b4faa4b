#!/usr/bin/env bash
# A text that is read borrows from its payload, by a buffer's call or as a value that parse_packet
# reads. The first file of docs/must_not_compile keeps both longer than that, and must be refused by
# the borrow checker at each; the second does not, and must be proved, which shows that the first is
# refused for this reason alone. It prints a line for each check; the last line is 'N passed, M
# failed'.
set -u
top=$(cd "$(dirname "$0")/.." && pwd)
source "$top/scripts/start.sh"
source "$top/scripts/checks.sh"
source "$top/scripts/c_archive.sh"
work=$(mktemp -d)
trap 'rm -rf "$work"' EXIT

# proves FILE: checks a file as a crate that uses wire_buf, wire_repr, wire_forms and wire_values.
proves() {
    local found=() layer
    for layer in wire_buf wire_ext wire_repr wire_forms wire_values; do
        found+=(-L "dependency=$crates/$layer/out/rlib")
    done
    for layer in wire_buf wire_repr wire_forms wire_values; do
        found+=(--extern "$layer=$crates/$layer/out/rlib/$layer.rlib")
    done
    mkdir -p "$work/src" "$work/specs" && : > "$work/specs/Lib.antt"
    cp "$top/docs/must_not_compile/$1.txt" "$work/src/lib.rt"
    cd "$work" && "$kit/bin/rattle" check --crate-name outlives src/lib.rt --jobs 2 \
        --extern "std=$kit/rlibs/std.rlib" "${found[@]}" -L "dependency=$kit/rlibs" \
        --logic-built "$kit/logic_built" --antt-project "$kit/rattle/logic/antt-project.json" \
        > "$work/log" 2>&1
}

# is_refused NAME: the borrow checker refused this text in the last check.
is_refused() {
    grep -q "error\[borrow-e0597\]: \`$1\` does not live long enough" "$work/log"
}

for layer in wire_forms wire_values; do
    [ -d "$crates/$layer/out/rlib" ] || (cd "$crates/$layer" && rt lib) > "$work/log" 2>&1
done
check 'a text within its payload is proved' proves text_within_payload || tail "$work/log"
proves text_outlives_payload
check 'a text from a buffer does not outlive its payload' is_refused payload
check 'a text from parse_packet does not outlive its payload' is_refused packet
finish
