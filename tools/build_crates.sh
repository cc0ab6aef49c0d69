#!/usr/bin/env bash
# Proves and builds the crates named, in this order, and says of each on the error output how long that took; one that
# is built already takes a moment: build_crates.sh REPOSITORY CRATE..
set -eu
repository=$1
shift
log=$(mktemp)
trap 'rm -f "$log"' EXIT

# a program is run too, on no input; where that ends with another status than 0, it is proved still
build() {
  if [ -f src/main.rt ]; then
    rt run </dev/null || { rt check && [ -x "out/$1" ]; }
  else
    rt lib
  fi
}

number=0
for crate in "$@"; do
  number=$((number + 1))
  printf 'proving %s (%d of %d) .. ' "$crate" "$number" $# >&2
  start=$SECONDS
  if ! (cd "$repository/crates/$crate" && build "$crate") >"$log" 2>&1; then
    echo "failed" >&2
    cat "$log" >&2
    exit 1
  fi
  echo "$((SECONDS - start)) s" >&2
done
