#!/bin/bash
# Holds the rules of docs/ARCHIVE.md against the recorded answers, the oracle against document 01, the recorded
# answers against the Rust, the generated runs against faults in the Rust, the port, its leaves and the
# programs treelist and regrow against the Rust, and the port's words of a key against RFC 8439.
#   harness/run.sh [--rust | --port [--after-ci]] [--digests]
# --rust does what needs no port, --port the rest; without either both are done. --after-ci: `rt ci` has just passed here, and
# what it built is taken (made.sh).
# KRCF_SRC names the folder that holds crates/rcflib/src, seen from the project's root; the default
# is ../shared/docs/src. COMPARE says for how long the port is compared, 30s if unset, LEAVES on how many
# values each leaf is, 1000000 if unset, WORDS on how many words of keys it is, 1000000 if unset, TEXTS on how many
# texts treelist is, 2000 if unset, ARCHIVES on how many archives regrow is, 1000 if unset. Where the Rust is not at
# hand, one line says so and all is well. Where it is but cargo or rt is not, one line says which and the run fails, so that nothing that could be
# compared is left out unseen. Where crates.txt has no treelist, no texts are compared, where it has no regrow,
# no archives. Where python3 is not at hand, a line says so and the rules of the page are not compared. --digests
# prints the digest of each given file. Needs no network.
set -euo pipefail

root=$(cd "$(dirname "$0")/.." && pwd)
source=${KRCF_SRC:-../shared/docs/src}
cd "$root"
part=
case ${1:-} in --rust | --port) part=$1; shift ;; esac
after=()
if [ "${1:-}" = --after-ci ]; then after=(--after-ci); shift; fi

if [ "$part" = --port ]; then
  :
elif command -v python3 >/dev/null; then
  python3 harness/reader/reader.py crates/replay/stdin
  python3 harness/reader/words.py crates/rfc8439/stdin
else
  echo "harness: python3 is not at hand, the reader is left out"
fi

if [ ! -d "$source/crates/rcflib/src" ]; then
  echo "harness: the Rust is not at hand (no crates/rcflib/src under $source), skipped"
  exit 0
fi
for tool in cargo rt; do
  if ! command -v "$tool" >/dev/null; then
    echo "harness: the Rust is at hand but $tool is not, nothing is compared: failed"
    exit 1
  fi
done

built() {
  cargo "$1" --quiet --offline --locked --manifest-path harness/Cargo.toml "${@:2}"
}
if [ "$part" != --port ]; then
  harness/copy_given.sh "$source" "$@"
  built build
  built run --package selftest
  built run --package record -- check crates
  KRCF_SRC=$source harness/faults.sh
fi
[ "$part" != --rust ] || exit 0

harness/made.sh "${after[@]}" leaves
listed=
if grep -q '^treelist:' crates.txt; then
  listed=yes
  harness/made.sh "${after[@]}" treelist
else
  echo "harness: crates.txt has no treelist, no texts are compared"
fi
regrown=
if grep -q '^regrow:' crates.txt; then
  regrown=yes
  harness/made.sh "${after[@]}" regrow
else
  echo "harness: crates.txt has no regrow, no archives are compared"
fi

# Leaves and texts need no library of the whole port: they are compared on one core while that is made on the other.
beside=
compared=$(mktemp)
trap '[ -z "$beside" ] || kill "$beside" 2>/dev/null || true; rm -f "$compared"' EXIT
leaves_and_texts() {
  set -e
  built run --package compare_leaves -- --fault
  built run --package compare_leaves -- "${LEAVES:-1000000}"
  [ -n "$listed" ] || return 0
  built run --package compare_texts -- --fault
  built run --package compare_texts -- "${TEXTS:-2000}"
}
# waits for what runs beside, and prints what it printed
joined() {
  local status=0
  wait "$beside" || status=$?
  beside=
  cat "$compared"
  [ "$status" -eq 0 ]
}
(leaves_and_texts) >"$compared" 2>&1 &
beside=$!
harness/made.sh "${after[@]}" run
joined
harness/frames.sh target/staticlib/lib{run,leaves}.a ${listed:+crates/treelist/out/treelist} ${regrown:+crates/regrow/out/regrow}

built run --package compare -- --fault
# The comparison of byte runs has one core for its time; words and archives are compared on the other meanwhile.
built run --package compare -- "${COMPARE:-30s}" >"$compared" 2>&1 &
beside=$!
built run --package compare_words -- --fault
built run --package compare_words -- "${WORDS:-1000000}"
if [ -n "$regrown" ]; then
  built run --package compare_archives -- --fault
  built run --package compare_archives -- "${ARCHIVES:-1000}"
  harness/statuses.sh
fi
joined
