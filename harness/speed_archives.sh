#!/bin/bash
# Times the program regrow on archives and prints Markdown tables; writes nothing into the project.
#   harness/speed_archives.sh [SCALE [REPETITIONS]]
# First one archive after another on one core: 20,000 arrivals at capacity 256, which bring 5 million words, a million
# at capacity 8 and half a million at 16; and behind each the same with keyed arrivals, a fifth of a million where there are
# more, which stand for 256 words each beside that of the starting chance. Then 8 archives of a folder, one at a time and two
# at a time. SCALE divides all numbers of arrivals, 1 if not given; each time is the least of 3 repetitions if not told
# otherwise. REGROW names the program, crates/regrow/out/regrow if unset. KRCF_SRC as for run.sh. Needs cargo and the Rust; about 400
# MB of disk.
set -euo pipefail

root=$(cd "$(dirname "$0")/.." && pwd)
cd "$root"
scale=${1:-1}
repetitions=${2:-3}
regrow=$(readlink -f "${REGROW:-crates/regrow/out/regrow}")
[ -x "$regrow" ] || { echo "speed: the program $regrow is not there"; exit 1; }
harness/copy_given.sh "${KRCF_SRC:-../shared/docs/src}"
cargo build --quiet --offline --locked --manifest-path harness/Cargo.toml --profile timed --package archives --bin make_archive
made=harness/target/timed/make_archive
folder=$(mktemp -d)
trap 'rm -rf "$folder"' EXIT
pinned=()
if command -v taskset >/dev/null; then pinned=(taskset -c 0); fi

now() {
  date +%s%N
}
# the least nanoseconds of all repetitions of a command
least() {
  local least= from spent
  for _ in $(seq "$repetitions"); do
    from=$(now)
    "$@"
    spent=$(($(now) - from))
    if [ -z "$least" ] || [ "$spent" -lt "$least" ]; then least=$spent; fi
  done
  echo "$least"
}
alone() {
  "${pinned[@]}" "$regrow" <"$1" >"$folder/printed"
}
# all archives of the folder, so many at a time
together() {
  find "$folder/many" -name '*.txt' -print0 | xargs -0 -P "$1" -I{} sh -c '"$1" <"$2" >"$2.printed"' sh "$regrow" {}
}
per_second() {
  awk -v n="$1" -v ns="$2" 'BEGIN { printf "%.0f", n * 1e9 / ns }'
}
seconds() {
  awk -v ns="$1" 'BEGIN { printf "%.3f", ns / 1e9 }'
}

echo "$(sed -n 's/^model name[^:]*: //p' /proc/cpuinfo | head -n 1), $(date -u +%F), least of $repetitions repetitions"
echo
echo "| Capacity | Words are | Rows | Words | Bytes | Seconds | Words a second | Rows a second | MB a second |"
echo "|---|---|---|---|---|---|---|---|---|"
# timed_row CAPACITY WHAT WORDS, WORDS being those of an arrival
timed_row() {
  local archive=$folder/one.txt rows words bytes ns
  rows=$(($(wc -l <"$archive") - 3))
  words=$(($(grep -c '^3 ' "$archive") * $3))
  bytes=$(stat -c %s "$archive")
  ns=$(least alone "$archive")
  if grep -q '^refused 17' "$folder/printed"; then echo "speed: the archive is out of form"; exit 1; fi
  echo "| $1 | $2 | $rows | $words | $bytes | $(seconds "$ns") | $(per_second "$words" "$ns") | $(per_second "$rows" "$ns") | $(per_second "$bytes" "$ns" | awk '{ printf "%.1f", $1 / 1e6 }') |"
}
for shape in "256 $((20000 / scale))" "8 $((1000000 / scale))" "16 $((500000 / scale))"; do
  read -r capacity arrivals <<<"$shape"
  "$made" "$capacity" "$arrivals" >"$folder/one.txt"
  timed_row "$capacity" written "$capacity"
  most=$((200000 / scale))
  "$made" --keyed "$capacity" "$((arrivals < most ? arrivals : most))" >"$folder/one.txt"
  timed_row "$capacity" "a key's" 256
done
rm -f "$folder/one.txt"

mkdir "$folder/many"
for seed in 1 2 3 4 5 6 7 8; do
  "$made" 16 "$((100000 / scale))" "$seed" >"$folder/many/$seed.txt"
done
rows=$(($(cat "$folder"/many/*.txt | wc -l) - 24))
echo
echo "| At a time | Archives | Rows | Seconds | Rows a second | Times as fast |"
echo "|---|---|---|---|---|---|"
first=
for at_a_time in 1 2; do
  ns=$(least together "$at_a_time")
  first=${first:-$ns}
  faster=$(awk -v one="$first" -v now="$ns" 'BEGIN { printf "%.2f", one / now }')
  echo "| $at_a_time | 8 | $rows | $(seconds "$ns") | $(per_second "$rows" "$ns") | $faster |"
done
