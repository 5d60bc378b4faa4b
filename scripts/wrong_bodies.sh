#!/usr/bin/env bash
# Tries the wrong bodies of wrong-bodies/, which stand beside the gate's own edits: the prover must
# refuse each. Words are crates, or single edits as CRATE/NAME; with none, all are tried; with
# `--changed SINCE` those of the crates that differ from the commit SINCE. It works on a copy of the
# repository, on as many processors as there are, four at most, or on JOBS. It says of each what
# refuses it; the line before the last has the sums by what refused them, the last line is
# 'N refused, M not'. What it tried it keeps in ~/.cache/mysql_wire/wrong_bodies by the checksums of
# what it read, so that a run that was stopped goes on where it was.
set -eu
top=$(cd "$(dirname "$0")/.." && pwd)
source "$top/scripts/start.sh"
work=$(mktemp -d)
trap 'rm -rf "$work"' EXIT

cd "$top/wrong-bodies"
if [ "${1:-}" = --changed ]; then
    since=$(git -C "$top" rev-parse --verify "$2^{commit}")
    mapfile -t changed < <(git -C "$top" diff --name-only "$since" -- crates wrong-bodies |
        cut -d/ -f2 | sort -u)
    set --
    for crate in "${changed[@]}"; do
        [ ! -d "$crate" ] || set -- "$@" "$crate"
    done
    if [ $# -eq 0 ]; then
        echo '0 refused, 0 not'
        exit
    fi
fi
[ $# -gt 0 ] || set -- */
tried=()
for word in "$@"; do
    edits=("${word%/}"/*.edit)
    case $word in */?*) edits=("$word.edit") ;; esac
    for edit in "${edits[@]}"; do
        [ ! -f "$edit" ] || tried+=("${edit%.edit}")
    done
done
processors=$(nproc)
kept=${XDG_CACHE_HOME:-$HOME/.cache}/mysql_wire/wrong_bodies
python3 "$top/scripts/wrong_bodies.py" "$top" "$work" "$kept" \
    "${JOBS:-$((processors < 4 ? processors : 4))}" "${tried[@]}"
