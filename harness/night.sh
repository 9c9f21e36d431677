#!/bin/bash
# Compares port and Rust for a given time, on other runs each day; then, for each of its minutes, 1,000,000 values
# of each leaf, 10,000,000 words of keys, 10,000 printed trees and 2,000 archives.
#   harness/night.sh MINUTES [SEED]
# KRCF_SRC as for run.sh. Needs cargo, the Rust and rt. Without a SEED it is the day's date.
set -euo pipefail

minutes=${1:?usage: harness/night.sh MINUTES [SEED]}
seed=${2:-$(date -u +%Y%m%d)}
root=$(cd "$(dirname "$0")/.." && pwd)
cd "$root"
harness/copy_given.sh "${KRCF_SRC:-../shared/docs/src}"
harness/made.sh run leaves treelist
regrown=
if grep -q '^regrow:' crates.txt; then
  regrown=yes
  harness/made.sh regrow
fi

compared() {
  cargo run --quiet --offline --locked --manifest-path harness/Cargo.toml --package "$1" -- "${@:2}"
}
echo "night: $minutes minutes with the seed $seed"
compared compare "$((60 * minutes))s" "$seed"
compared compare_leaves "$((1000000 * minutes))" "$seed"
compared compare_words "$((10000000 * minutes))" "$seed"
compared compare_texts "$((10000 * minutes))" "$seed"
if [ -n "$regrown" ]; then
  compared compare_archives "$((2000 * minutes))" "$seed"
fi
