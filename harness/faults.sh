#!/bin/bash
# Shows that the generated runs notice small faults in the Rust's sampler and reports (faults/src/list.rs): a copy of the
# Rust that has all of them, each asked for by a number, answers runs that the unchanged Rust has answered.
#   harness/faults.sh
# KRCF_SRC as for run.sh. Needs cargo and the Rust. The copy lies below harness/target.
set -euo pipefail

root=$(cd "$(dirname "$0")/.." && pwd)
cd "$root"
harness/copy_given.sh "${KRCF_SRC:-../shared/docs/src}"

faults() {
  cargo run --quiet --offline --locked --manifest-path harness/Cargo.toml --package faults -- "$@"
}
copy=harness/target/faults
mkdir -p "$copy"
faults write "$copy/answered"
faults edit harness/rcflib "$copy/rcflib"
for crate in standins oracle runs command faults; do
  rm -rf "${copy:?}/$crate"
  cp -rp "harness/$crate" "$copy/$crate"
done
# the same profile as the harness's own
{
  printf '[workspace]\nresolver = "2"\nmembers = ["faults"]\n\n'
  sed -n '/^\[profile.dev\]/,/^$/p' harness/Cargo.toml
} >"$copy/Cargo.toml"
cargo build --quiet --offline --manifest-path "$copy/Cargo.toml"
faults noticed "$copy/target/debug/faults" "$copy/answered"
