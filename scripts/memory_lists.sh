#!/usr/bin/env bash
# Compares the public functions of the layers with the tables and the lists of test_support, in
# both directions. Each function stands in the lists of its kind, and in no list of another:
#
# - An allocator is within its reach: in a table that is run. That is one of the functions that take
#   memory (each request refused in turn), the one of those that ask for none, or both where it
#   depends on what the function is called with.
# - It names `Global`, which no test can refuse: in global.txt, with the call that is its whole
#   body. That call is in a table that is run, or is in global.txt itself, and its own call is.
# - It names neither, so that it can't ask: in no_allocator.txt. Its signature, its body and the
#   head of its impl or trait are free of allocators and of types that own memory, or its body is
#   empty. (An allocator is a value that a caller hands in; there is no other way to memory.)
#
# A public function is a `pub fn` of an impl; one that stands by itself, where a user can name it
# (each module above it is public, or a `pub use` names it); a method of a public trait, by the
# trait's name, in each impl of it; a method that an impl of ours writes by hand for a trait from
# elsewhere, by its type; and a copy that a derive makes. What a caller's own reader, writer,
# visitor or field asks for is the caller's.
#
# scripts/public_functions.py finds them. The last line is 'N passed, M failed'.
set -u
export LC_ALL=C
cd "$(dirname "$0")/.." || exit 1
source scripts/checks.sh
layers=(wire_const wire_buf wire_ext wire_streams wire_repr wire_forms wire_field wire_values wire_list wire_laws wire_codec wire_span wire_packet_io mysql_wire)
tests=crates/test_support/src/requests
lists=crates/test_support

# Prints the names in the tables of these modules.
in_tables() {
    for module in "$@"; do
        sed -n '/^\(pub \)\?const ROWS/,/^];/p' "$tests/$module.rt"
    done | grep -oE '(^|[^b])"([A-Z][A-Za-z0-9]*::)?[a-z_0-9]+(\([^"]*\))?"' |
        sed -E 's/^[^"]*"(.*)"$/\1/' | sort -u
}

# A check, which holds where its input has no lines; they are printed.
holds_for_none() {
    local wrong
    wrong=$(cat)
    if [ -z "$wrong" ]; then
        pass "none: $1"
    else
        fail "$1:"
        echo "$wrong"
    fi
}

# Prints the lines of global.txt whose call, or the one that this passes its work to, isn't run.
not_run() {
    awk -F ': ' '
        FILENAME ~ /tables$/ { is_run[$1] = 1; next }
        { call[$1] = $2 }
        END {
            for (name in call) {
                at = call[name]
                for (steps = 0; at in call && steps < 9; steps++) at = call[at]
                if (!(at in is_run)) print name ": " call[name]
            }
        }
    ' "$work/tables" "$work/global.list"
}

work=$(mktemp -d)
trap 'rm -rf "$work"' EXIT
# (append.rt, read.rt and write.rt of wire_values are for the layers above alone: the facade passes
# on no function of theirs)
mapfile -t sources < <(cd crates && find "${layers[@]/%//src}" -name '*.rt' ! -name append.rt ! -path 'wire_values/src/[rw]*.rt' | sort)
(cd crates && ../scripts/public_functions.py "${sources[@]}") >"$work/functions" || exit 1
for kind in within global none twice unread; do
    sed -n "s/^$kind //p" "$work/functions" | sort >"$work/$kind"
done
in_tables writers copies codec silent >"$work/tables"
for list in global no_allocator; do
    sort "$lists/$list.txt" >"$work/$list.list"
done
sed 's/: .*//' "$work/global.list" >"$work/global_names"

holds_for_none 'a name of two functions' <"$work/twice"
holds_for_none 'a function that public_functions.py cannot read' <"$work/unread"
holds_for_none 'an allocator is within reach, and no table has it' \
    < <(comm -23 "$work/within" "$work/tables")
holds_for_none 'in a table, and no function with an allocator within reach' \
    < <(comm -13 "$work/within" "$work/tables")
holds_for_none 'names Global, and global.txt has no such line' \
    < <(comm -23 "$work/global" "$work/global.list")
holds_for_none 'in global.txt, and no function of Global alone, or not by this call' \
    < <(comm -13 "$work/global" "$work/global.list")
holds_for_none 'passes its work to what no table has' < <(not_run)
holds_for_none 'names no allocator, and no_allocator.txt lacks it' \
    < <(comm -23 "$work/none" "$work/no_allocator.list")
holds_for_none 'in no_allocator.txt, and no function without an allocator within reach' \
    < <(comm -13 "$work/none" "$work/no_allocator.list")
holds_for_none 'in lists of two kinds, or twice in one' \
    < <(sort "$work/tables" "$work/global_names" "$work/no_allocator.list" | uniq -d)
holds_for_none 'not sorted by bytes' \
    < <(for list in global no_allocator; do
        cmp -s "$lists/$list.txt" "$work/$list.list" || echo "$list.txt"
    done)
echo "public functions: $(wc -l <"$work/within") within reach of an allocator," \
    "$(wc -l <"$work/global") of Global alone, $(wc -l <"$work/none") that name none"
finish
