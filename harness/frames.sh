#!/bin/bash
# Looks into compiled code for a fault of the compiler: where a function with a large frame tests something before it sets the frame up,
# register r11 may hold a number that the test left there, and the touching of the frame's pages, which counts in r11, destroys it
# (docs/DECISIONS.md, 69). So every such function has to set its frame up before anything else.
#   harness/frames.sh FILE..     libraries and programs
# Where objdump is not at hand, or the machine is no x86-64, one line says so and all is well.
set -euo pipefail

if ! command -v objdump >/dev/null; then
  echo "frames: objdump is not at hand, compiled code is not looked into"
  exit 0
fi
if [ "$(uname -m)" != x86_64 ]; then
  echo "frames: no x86-64, compiled code is not looked into"
  exit 0
fi

for file in "$@"; do
  objdump -d --no-show-raw-insn "$file" | sed "s|^|$file\t|"
done | awk -F '\t' '
  $2 ~ /^[0-9a-f]+ <.*>:$/ { name = $2; early = ""; next }
  $3 ~ /^mov +%rsp,%r11/ {
    large++
    if (early != "") { bad++; print "frames: " $1 ", " name " has `" early "` before its frame" }
    next
  }
  early == "" && $3 != "" && $3 !~ /^(push|endbr64|mov +%rsp,%rbp|and +\$.*,%rsp|sub +\$.*,%rsp|nop)/ { early = $3 }
  END {
    print "frames: " large + 0 " large frames, " bad + 0 " set up too late"
    exit bad > 0 || large == 0
  }'
