#!/bin/sh
# cost.sh PROGRAM
# Shows how PROGRAM's time grows: with the modes of a transition, the bytes of
# its terms, its arcs, the claims, the cells and the rows of bag operations,
# with the length of a file that is read, and with the commands of a trace.
# Prints for each case its numbers and the user time of one run, in
# milliseconds, as the best of three.
. "$(dirname "$0")/setup.sh"
"$target/release/relaygen" --cost "$work/cases" >"$work/list"

# spent RUNS: prints the user time of so many runs in the current folder, in
# milliseconds. The shell's `times` gives that of its children last.
spent() {
    (
        left=$1
        while [ "$left" -gt 0 ]; do
            "$program" >"$work/report.txt"
            left=$((left - 1))
        done
        times
    ) | awk 'NR == 2 { split($1, part, /[ms]/); printf "%.0f", part[1] * 60000 + part[2] * 1000 }'
}

status=0
last=
while read -r name runs group numbers; do
    cd "$work/cases/$name"
    best=
    for run in 1 2 3; do
        now=$(spent "$runs")
        if [ -z "$best" ] || [ "$now" -lt "$best" ]; then
            best=$now
        fi
    done
    # a claim that is broken, a fault or a stopped trace would be another cost
    if grep -qE 'broken|fault|stopped' "$work/report.txt"; then
        echo "$name: not the report that was meant" >&2
        status=1
    fi
    if [ "$group" != "$last" ]; then
        echo "$group"
        last=$group
    fi
    echo "$best $runs" | awk -v numbers="$numbers" '{ printf "    %-48s %10.2f ms\n", numbers, $1 / $2 }'
done <"$work/list"
exit $status
