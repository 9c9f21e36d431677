#!/bin/bash
# Copies the given Rust byte for byte into rcflib/given, which git ignores, and compares each copy.
#   copy_given.sh SOURCE [--digests]
# SOURCE holds crates/rcflib/src. Other files that may lie there are not taken.
# A copy that is already equal is left alone, so that nothing is built twice.
set -euo pipefail

given=(
  common/intervalstoremanager.rs
  errors.rs
  pointstore.rs
  samplerplustree/boundingbox.rs
  samplerplustree/cut.rs
  samplerplustree/nodestore.rs
  samplerplustree/nodeview.rs
  samplerplustree/randomcuttree.rs
  samplerplustree/sampler.rs
  samplerplustree/samplerplustree.rs
  types.rs
  visitor/visitor.rs
)

from=$1/crates/rcflib/src
to=$(dirname "$0")/rcflib/given

for file in "${given[@]}"; do
  mkdir -p "$(dirname "$to/$file")"
  if ! cmp -s "$from/$file" "$to/$file"; then
    cp --no-preserve=mode "$from/$file" "$to/$file"
  fi
  cmp "$from/$file" "$to/$file"
  if [ "${2:-}" = --digests ]; then
    printf '%s  %s\n' "$(sha256sum <"$to/$file" | cut -d' ' -f1)" "$file"
  fi
done
