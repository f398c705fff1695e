#!/bin/sh
# Each program of refused/ must be refused by the compiler, in the words of its first line, over the proved crate `trace`.
# A must-fail edit cannot show this: it has to reach the prover. Run `rt check` in crates/trace first: what is kept in
# the out/ folders is not proved again here.
set -u
here=$(cd "$(dirname "$0")/.." && pwd)
work=$(mktemp -d)
trap 'rm -rf "$work"' EXIT
below=$(sed -n 's/^trace: *//p' "$here/crates.txt")
mkdir -p "$work/crates/wrong/src"
# the crates of crates.txt up to `trace`, with what is kept of their proofs
while IFS=: read -r crate deps; do
    case " $below trace " in *" $crate "*) ;; *) continue ;; esac
    echo "$crate:$deps" >> "$work/crates.txt"
    cp -r "$here/crates/$crate" "$work/crates/"
done < "$here/crates.txt"
echo "wrong: trace $below" >> "$work/crates.txt"
bad=0
for file in "$here"/refused/*.txt; do
    words=$(sed -n '1s/^expect: //p' "$file")
    { echo '#![tactic(auto)]'; echo; sed 1d "$file"; } > "$work/crates/wrong/src/lib.rt"
    said=$(cd "$work/crates/wrong" && rt check 2>&1)
    if [ -n "$words" ] && printf '%s' "$said" | grep -aqF "$words"; then
        echo "$(basename "$file"): refused: $(printf '%s' "$said" | grep -aF "$words" | head -1 | sed 's/.*error/error/' | cut -c1-150)"
    else
        echo "$(basename "$file"): NOT REFUSED in these words: $words"
        printf '%s\n' "$said" | tail -3
        bad=1
    fi
done
exit $bad
