#!/bin/sh
# run.sh PROGRAM SEED COUNT
# Compares PROGRAM with relayref on COUNT random pairs of files. Prints
# "runs N differences D" at the end and fails if there is a difference.
set -eu

if [ $# -ne 3 ]; then
    echo "usage: run.sh PROGRAM SEED COUNT" >&2
    exit 2
fi
here=$(cd "$(dirname "$0")" && pwd)
work=$(mktemp -d "${TMPDIR:-/tmp}/compare.XXXXXX")
target=${CARGO_TARGET_DIR:-$work/target}
trap 'rm -rf "$work/target"; rmdir "$work/pairs" "$work" 2>/dev/null || true' EXIT

cargo build --quiet --release --offline --manifest-path "$here/Cargo.toml" --target-dir "$target"
# Folders that differ are kept there, with expected.txt and printed.txt.
mkdir "$work/pairs"
"$target/release/relaydrive" "$1" "$2" "$3" "$work/pairs"
