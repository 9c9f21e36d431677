#!/bin/bash
# Times the Rust and the port and prints Markdown tables for docs/BENCHMARK.md; writes nothing there.
#   harness/bench.sh [OPERATIONS [REPETITIONS]]      adds and deletes, arrivals, reports, words from a key
#   harness/bench.sh --only WORD [OPERATIONS ..]     those tables alone with that word in their name, as reports or words
#   harness/bench.sh --growth [MOST [REPETITIONS]]   by capacity and calls of a run, up to a million if MOST is
#                                                    not given: that takes 4 gigabytes and some minutes
#   harness/bench.sh --beside BEFORE.a [NOW.a] [--only WORD] [OPERATIONS ..]
#                                                    two static libraries of the port in turn, now target/staticlib/librun.a if it is
#                                                    not given; a library that refuses a making has no number there
# KRCF_SRC as for run.sh. Needs cargo, the Rust and rt.
set -euo pipefail

root=$(cd "$(dirname "$0")/.." && pwd)
cd "$root"
harness/copy_given.sh "${KRCF_SRC:-../shared/docs/src}"
# a shared library of the static one, below harness/target
shared() {
  local made="harness/target/beside/$2.so"
  mkdir -p harness/target/beside
  cc -shared -o "$made" -Wl,--whole-archive "$1" -Wl,--no-whole-archive
  printf '%s/%s' "$root" "$made"
}
beside=()
if [ "${1:-}" = --beside ]; then
  before=${2:?usage: harness/bench.sh --beside BEFORE.a [NOW.a]}
  shift 2
  now=target/staticlib/librun.a
  case ${1:-} in *.a) now=$1; shift ;; *) harness/made.sh run >&2 ;; esac
  beside=(--beside "$(shared "$before" before)" "$(shared "$now" now)")
  export SICKLEPHLOX_LIB=$root/$now
  case $now in /*) SICKLEPHLOX_LIB=$now ;; esac
else
  harness/made.sh run >&2
fi

echo "$(sed -n 's/^model name[^:]*: //p' /proc/cpuinfo | head -n 1), $(date -u +%F), $(rustc --version)"
echo
cargo run --quiet --offline --locked --manifest-path harness/Cargo.toml --profile timed --package bench -- "${beside[@]}" "$@"
