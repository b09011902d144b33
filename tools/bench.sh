#!/usr/bin/env bash
# Times the bank beside the original map and std's, on the same keys, in one run.
#   tools/bench.sh FOLDER [ROUNDS]
# FOLDER is as for compare.sh. Prints the nanoseconds of each call (of the shortest round) and the ratios: below 1 the bank is the faster one.
set -euo pipefail
here=$(cd "$(dirname "$0")" && pwd)
source "$here/build_original.sh"
rounds=${2:-9}
work=$(mktemp -d)
trap 'rm -rf "$work"' EXIT
build_original "${1:?the folder of the published source}" "$work" bench
(cd "$here/../crates/bench" && rt run > /dev/null 2>&1)
"$work/original/target/release/bench" "$rounds" > "$work/theirs"
"$here/../crates/bench/out/bench" "$rounds" | sed 's/^/bank /' > "$work/ours"
python3 - "$work/theirs" "$work/ours" <<'PY'
import sys

times = {}
for path in sys.argv[1:]:
    for line in open(path):
        who, order, call, nanos = line.split()
        times[order, call, who] = int(nanos)
print(f"{'':16}{'bank ns':>12}{'original ns':>14}{'std ns':>12}{'bank/original':>16}{'bank/std':>12}")
for order in ("mixed", "rising"):
    for call in ("insert", "lookup", "cut", "walk", "release"):
        ours, theirs, std = (times[order, call, who] for who in ("bank", "original", "std"))
        print(f"{order + ' ' + call:16}{ours:12}{theirs:14}{std:12}{ours / theirs:16.2f}{ours / std:12.2f}")
PY
