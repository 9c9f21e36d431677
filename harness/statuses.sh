#!/bin/bash
# The exit statuses of ./regrow: 0 where the tree is printed, 1 where the archive is refused, 2 where there is none. What it
# prints is what the program prints. Needs crates/regrow/out/regrow.
set -uo pipefail

root=$(cd "$(dirname "$0")/.." && pwd)
cd "$root"
folder=$(mktemp -d)
trap 'rm -rf "$folder"' EXIT
example=examples/archive.txt
failed=0

# expects STATUS ARCHIVE WHAT
expects() {
  ./regrow "$2" >"$folder/printed" 2>"$folder/said"
  local status=$?
  if [ "$status" -ne "$1" ]; then
    echo "statuses: $3: status $status, not $1"
    failed=1
  fi
}
# prints_as_program ARCHIVE WHAT
prints_as_program() {
  if ! crates/regrow/out/regrow <"$1" | cmp -s - "$folder/printed"; then
    echo "statuses: $2: not what the program prints"
    failed=1
  fi
}

expects 0 "$example" "the example"
prints_as_program "$example" "the example"
head -n 3 "$example" >"$folder/no_rows"
expects 0 "$folder/no_rows" "no rows"
head -c -1 "$example" >"$folder/no_line_feed"
expects 1 "$folder/no_line_feed" "a last line without line feed"
prints_as_program "$folder/no_line_feed" "a last line without line feed"
sed '2s/^2 /33 /' "$example" >"$folder/channels"
expects 1 "$folder/channels" "a making that is refused"
: >"$folder/nothing"
expects 1 "$folder/nothing" "no byte"
expects 2 "$folder/missing" "no file"
[ "$failed" -eq 0 ] && echo "statuses: those of ./regrow are as told"
exit "$failed"
