# Read by bench.sh and cost.sh, which each take PROGRAM alone: sets program, here, work (removed at the end) and target, and
# builds the programs of this folder.
set -eu

if [ $# -ne 1 ]; then
    echo "usage: $(basename "$0") PROGRAM" >&2
    exit 2
fi
program=$(readlink -f "$1")
here=$(cd "$(dirname "$0")" && pwd)
work=$(mktemp -d "${TMPDIR:-/tmp}/compare.XXXXXX")
target=${CARGO_TARGET_DIR:-$work/target}
trap 'rm -rf "$work"' EXIT

cargo build --quiet --release --offline --manifest-path "$here/Cargo.toml" --target-dir "$target"
