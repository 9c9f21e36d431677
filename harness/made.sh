#!/bin/bash
# Makes what the harness compares, as rt proves and builds it: the port's static libraries, target/staticlib/librun.a of crate
# `run_c` and libleaves.a of crate `leaves`, and the programs, crates/NAME/out/NAME.
#   harness/made.sh [--after-ci] run|leaves|PROGRAM ..
# --after-ci: `rt ci` has passed here just before, and nothing has changed since. Then programs are taken as it left them, and static
# libraries are built over the libraries that it left. It leaves these without a stamp, so that `rt lib` would prove each of
# them once more; rattle, which rt calls, takes them. Where that does not do, `rt lib` makes the static library.
set -euo pipefail

root=$(cd "$(dirname "$0")/.." && pwd)
cd "$root"
after=
if [ "${1:-}" = --after-ci ]; then after=yes; shift; fi

# whether the libraries in out/ are those of `rt ci`, and none is what another command made
left_by_ci() {
  [ -n "$after" ] && command -v rattle >/dev/null && compgen -G 'crates/*/out/rlib' >/dev/null &&
    ! compgen -G 'crates/*/out/rlib/stamp' >/dev/null
}
# builds a static library over the libraries that `rt ci` left
over_ci() {
  local kit library words=()
  kit=$(dirname "$(dirname "$(readlink -f "$(command -v rt)")")")
  for library in $(sed -n "s/#.*//; s/^$1 staticlib:\(.*\)/\1/p" crates.txt); do
    words+=(--extern "$library=$root/crates/$library/out/rlib/$library.rlib")
  done
  for library in crates/*/out/rlib; do
    words+=(-L "dependency=$root/$library")
  done
  mkdir -p "crates/$1/out"
  (cd "crates/$1" && rattle build --crate-name "$1" src/lib.rt --crate-type staticlib "${words[@]}" \
    --extern "std=$kit/rlibs/std.rlib" -L "dependency=$kit/rlibs" \
    --antt-project "$kit/rattle/logic/antt-project.json" --logic-built "$kit/logic_built" \
    --toolchain "$kit/toolchain" --backend llvm -o "out/lib$1.a")
}
# static CRATE NAME
static() {
  rm -f "crates/$1/out/lib$1.a"
  if ! left_by_ci || ! over_ci "$1"; then
    (cd "crates/$1" && rt lib)
  fi
  mkdir -p target/staticlib
  # what is equal is left alone, so that nothing is linked twice
  cmp -s "crates/$1/out/lib$1.a" "target/staticlib/lib$2.a" || cp "crates/$1/out/lib$1.a" "target/staticlib/lib$2.a"
}

for name in "$@"; do
  case $name in
    run) static run_c run ;;
    leaves) static leaves leaves ;;
    *)
      if [ -z "$after" ] || [ ! -x "crates/$name/out/$name" ]; then
        # rt runs what it makes: on no input, and what is printed for that is not wanted
        (cd "crates/$name" && rt run </dev/null >/dev/null)
      fi
      ;;
  esac
done
