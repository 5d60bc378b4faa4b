#!/usr/bin/env bash
# Runs the gate, and prints a table of its crates: functions, tests, must-fail edits, and the
# processor seconds of the proof, of the tests' proof and of the edits. They are read once a second
# off the checks that run, so that each may miss a second. After the table stand the sums, and the
# longest chain of jobs that wait for one another: by the clock, from the first check of a job to the
# end of its last one, and in processor seconds; and all seconds at one speed of the host, which is
# measured every ten seconds by a loop of awk, with the minutes that docs/GATE.md counts. The gate's
# own output goes to the file that is named (gate.log at the top, if none is).
#
#   scripts/gate_times.sh [--large-pages] [LOG]
#
# With --large-pages the kernel gives every program of the machine large pages while the gate runs, in
# which the prover takes a twentieth less. Only root may set that; what was set before is set again at
# the end, also where this script is interrupted or terminated.
set -u
top=$(cd "$(dirname "$0")/.." && pwd)
source "$top/scripts/start.sh"
cd "$top" || exit 1
pages=/sys/kernel/mm/transparent_hugepage/enabled
pages_before=
samples=$(mktemp)
at_end() {
    rm -f "$samples"
    if [ -n "$pages_before" ]; then
        echo "$pages_before" > "$pages" && echo "large pages are as before: $pages_before"
    fi
}
trap at_end EXIT
trap 'exit 130' INT
trap 'exit 143' TERM HUP
if [ "${1:-}" = --large-pages ]; then
    shift
    before=$(sed 's/.*\[\(.*\)\].*/\1/' "$pages" 2> /dev/null)
    if [ -z "$before" ] || ! [ -w "$pages" ]; then
        echo "--large-pages: $pages cannot be set here" >&2
        exit 2
    fi
    pages_before=$before
    echo always > "$pages" || exit
    echo "large pages: always, for the whole machine, until this ends; $pages_before before"
fi
log=${1:-gate.log}

# The seconds of a processor that a loop takes.
loop_seconds() {
    local TIMEFORMAT=%U
    { time awk 'BEGIN { for (i = 0; i < 3000000; i++) sum += i }'; } 2>&1
}

# A line for each check that runs: what it checks, its process, its seconds so far, the second of the
# run, and the seconds of the loop.
sample() {
    ps -eo pid=,cputimes=,args= | grep '[/]rattle [a-z]* --crate-name ' | while read -r pid seconds args; do
        # (the C library's archive is built after the gate's own checks)
        case $args in *'/rattle build '*' staticlib'*) continue ;; esac
        crate=${args#*--crate-name }
        case $(readlink "/proc/$pid/cwd") in
            "$PWD"/crates/*) kind=proof ;;
            */rt-edit-*) kind=edits ;;
            *) continue ;;
        esac
        [ "$kind" = proof ] && case $args in *' --test'*) kind=tests ;; esac
        echo "${crate%% *} $kind $pid $seconds $((SECONDS - begun)) $loop"
    done
}

begun=$SECONDS
.ci/run > "$log" 2>&1 &
gate=$!
measured=-10
while kill -0 "$gate" 2> /dev/null; do
    if [ $((SECONDS - measured)) -ge 10 ]; then
        measured=$SECONDS
        loop=$(loop_seconds)
    fi
    sample >> "$samples"
    sleep 1
done
wait "$gate"
status=$?

row='%-26s %9s %6s %6s %9s %9s %9s\n'
printf "$row" crate functions tests edits 'proof, s' 'tests, s' 'edits, s'
awk -v log_file="$log" -v row="$row" '
    BEGIN {
        while ((getline line < log_file) > 0) {
            if (line ~ /^== /) { split(line, part, /[ :]+/); crate = part[2]; of_tests = line ~ /its tests/ }
            if (line ~ /^logic=proved/ && match(line, /functions=[0-9]+/)) {
                if (!of_tests) functions[crate] = substr(line, RSTART + 10, RLENGTH - 10)
            }
        }
    }
    { if ($4 > most[$1 " " $2 " " $3]) most[$1 " " $2 " " $3] = $4; crates[$1] = 1 }
    END {
        for (key in most) { split(key, part, " "); sum[part[1] " " part[2]] += most[key] }
        for (crate in crates) {
            edits = tests = 0
            ("ls crates/" crate "/must-fail 2> /dev/null | grep -c edit$") | getline edits
            ("grep -rho \"#.test.\" crates/" crate "/src | wc -l") | getline tests
            printf row, crate, functions[crate], tests, edits, int(sum[crate " proof"]), \
                int(sum[crate " tests"]), int(sum[crate " edits"])
        }
    }' "$samples" | sort
awk '{ if ($4 > most[$2 " " $3]) most[$2 " " $3] = $4 }
    END { for (key in most) { split(key, part, " "); sum[part[1]] += most[key] }
        printf "all: proof %d s, tests %d s, edits %d s of processor time\n", sum["proof"], sum["tests"], sum["edits"] }' "$samples"
# The longest chain of jobs, by the clock or by the processor: a proof or a proof of tests waits for
# the proofs of the crates below, the edits of a crate for both of its own.
longest_chain() {
    awk -v by="$1" '
        FNR == NR {
            if ($4 > most[$1 " " $2 " " $3]) most[$1 " " $2 " " $3] = $4
            job = $1 " " $2
            if (!(job in first)) first[job] = $5
            last[job] = $5
            next
        }
        FNR == 1 {
            for (key in most) { split(key, part, " "); seconds[part[1] " " part[2]] += most[key] }
            if (by == "clock") for (job in first) seconds[job] = last[job] - first[job] + 1
        }
        /^[a-z_]+[ a-z]*:/ { sub(/ [a-z]*:/, ":"); crate = $1; sub(/:/, "", crate); order[++crates] = crate; $1 = ""; below[crate] = $0 }
        function reach(end, more, name) {
            if (end + more > longest) { longest = end + more; way_to = name " " more }
            return end + more
        }
        END {
            for (i = 1; i <= crates; i++) {
                crate = order[i]; before = 0; way = ""
                n = split(below[crate], names, " ")
                for (j = 1; j <= n; j++) if (done[names[j]] > before) { before = done[names[j]]; way = way_of[names[j]] }
                way = way " " crate
                proof = seconds[crate " proof"] + 0; tests = seconds[crate " tests"] + 0
                done[crate] = reach(before, proof, way)
                way_of[crate] = way " " proof ","
                if (tests) reach(before, tests, way "'"'s"' tests")
                if (tests > proof) reach(before + tests, seconds[crate " edits"] + 0, way "'"'s"' tests " tests ", its edits")
                else reach(done[crate], seconds[crate " edits"] + 0, way_of[crate] " its edits")
            }
            printf "longest chain: %d s by the %s:%s\n", longest, by, way_to
        }' "$samples" crates.txt
}
longest_chain clock
longest_chain processor
# A second counts by how much faster the loop was then than at the end.
awk '{ key = $1 " " $2 " " $3; at_one_speed[$1] += ($4 - seconds[key]) / $6; seconds[key] = $4; loop = $6 }
    END {
        for (crate in at_one_speed) all += at_one_speed[crate] * loop
        yardstick = (at_one_speed["wire_const"] + at_one_speed["wire_span"] + at_one_speed["refusing_allocator"]) * loop
        printf "at one speed: %d s, of them the yardstick %d s", all, yardstick
        if (yardstick > 0) printf ": %.1f minutes", all * 174 / yardstick / 60
        printf "\n"
    }' "$samples"
echo "$((SECONDS - begun)) s; $(tail -n 1 "$log")"
exit $status
