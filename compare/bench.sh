#!/bin/sh
# bench.sh PROGRAM
# Runs PROGRAM and relayref on four large cases, three times each in turn, and
# prints the least user time and the largest peak memory of each.
. "$(dirname "$0")/setup.sh"
reference=$(readlink -f "$target/release/relayref")
"$target/release/relaygen" --bench "$work/cases"

# measure OUTPUT PROGRAM: prints user seconds and peak memory in KiB.
if [ -x /usr/bin/time ]; then
    measure() {
        /usr/bin/time -q -o "$work/time" -f '%U %M' "$2" >"$1"
        cat "$work/time"
    }
else
    measure() {
        python3 - "$1" "$2" <<'PYTHON'
import resource, subprocess, sys
with open(sys.argv[1], "wb") as output:
    subprocess.run([sys.argv[2]], stdout=output, check=True)
usage = resource.getrusage(resource.RUSAGE_CHILDREN)
print("%.2f %d" % (usage.ru_utime, usage.ru_maxrss))
PYTHON
    }
fi

printf '%-8s %12s %12s %8s %14s %14s\n' \
    case 'program s' 'relayref s' ratio 'program KiB' 'relayref KiB'
status=0
for name in modes wide deep trace; do
    cd "$work/cases/$name"
    : >"$work/figures"
    for run in 1 2 3; do
        echo "$(measure "$work/program.txt" "$program")" \
            "$(measure "$work/reference.txt" "$reference")" >>"$work/figures"
        if ! cmp -s "$work/program.txt" "$work/reference.txt"; then
            echo "$name: the reports differ" >&2
            status=1
        fi
    done
    awk -v name="$name" '
        NR == 1 || $1 < mine { mine = $1 }
        NR == 1 || $3 < other { other = $3 }
        $2 > my_peak { my_peak = $2 }
        $4 > other_peak { other_peak = $4 }
        END {
            ratio = other > 0 ? sprintf("%.2f", mine / other) : "-"
            printf "%-8s %12.2f %12.2f %8s %14d %14d\n",
                name, mine, other, ratio, my_peak, other_peak
        }' "$work/figures"
done
exit $status
