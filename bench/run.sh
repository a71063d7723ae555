#!/usr/bin/env bash
# Times the proved machine, reader, compiler and checker; the first three beside the same things in plain
# Rust (plain.rs), both built for release, turn about in one run. The best of five turns counts.
set -eu
cd "$(dirname "$0")/.."
(cd crates/speed && rt run >/dev/null 2>&1)
speed=crates/speed/out/speed
work=$(mktemp -d)
trap 'rm -rf "$work"' EXIT
rustc --edition 2024 -C opt-level=3 -o "$work/plain" bench/plain.rs
python3 bench/texts.py "$work"

# The fewest nanoseconds of five turns: proved, then plain.
versus() {
  local best_proved= best_plain= n
  for _ in 1 2 3 4 5; do
    n=$("$speed" "$@" | awk 'NR == 1 { print $3 / $2 }')
    best_proved=$(printf '%s\n' $best_proved "$n" | sort -g | head -n 1)
    n=$("$work/plain" "$@" | awk 'NR == 1 { print $3 / $2 }')
    best_plain=$(printf '%s\n' $best_plain "$n" | sort -g | head -n 1)
  done
  awk -v what="$1" -v a="$best_proved" -v b="$best_plain" \
    'BEGIN { printf "%-8s proved %10.1f ns, plain %10.1f ns, ratio %.2f\n", what, a, b, a / b }'
}

echo 'One step of a compiled loop; one reading of 8,192 bytes; one compiling of the largest plan:'
versus machine bench/loop.plan
versus read "$work/read.plan" 2000
versus compile "$work/largest.plan" 2000
echo 'One check of a block, by its number of instructions:'
"$speed" check | awk '{ printf "%5d %-8s %8.1f us\n", $1, $2, $4 / $3 / 1000 }'
