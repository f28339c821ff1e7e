#!/bin/bash
# Times of building trees and of reckoning over them: the proved program (crate times) beside the plain Rust of bench/, in one
# run, and the ratios of the two.
#
#   tools/bench.sh [RUNS]     the least of so many runs of the proved program; 2000 where no number is given
set -eu
root=$(cd "$(dirname "$0")/.." && pwd)
runs=${1:-2000}
(cd "$root/bench" && cargo build --release --quiet)
(cd "$root/crates/times" && rt run -- 1 data/small >/dev/null 2>&1)

work=$(mktemp -d)
trap 'rm -rf "$work"' EXIT
"$root/bench/target/release/bench_plain" >"$work/plain"
(cd "$root/crates/times/data" && "$root/crates/times/out/times" "$runs" small six-cards thirteen eight 2>"$work/proved" >/dev/null)

awk '
    FILENAME == ARGV[1] { build[$1] = $2; reckon[$1] = $3; next }
    FNR == 1 {
        printf "%-12s%8s%14s%14s%8s%14s%14s%8s\n", "game", "places", "build plain", "proved", "ratio", "reckon plain", "proved", "ratio"
    }
    {
        printf "%-12s%8d%11d ns%11d ns%8.2f%11d ns%11d ns%8.2f\n", $1, $2, $4, build[$1], build[$1] / $4, $5, reckon[$1], reckon[$1] / $5
    }
' "$work/proved" "$work/plain"
