#!/usr/bin/env bash
# Prints the crates named and those of the repository that they stand on, by its crates.txt, each behind those that it
# stands on: needed_crates.sh REPOSITORY CRATE..
set -eu
repository=$1
shift
awk -v wanted="$*" '
  function visit(crate, names, count, i) {
    if (!(crate in known) || crate in visited) return
    visited[crate] = 1
    count = split(below[crate], names, " ")
    for (i = 1; i <= count; i++) visit(names[i])
    print crate
  }
  { sub(/#.*/, ""); sub(/:/, " ") }
  NF { known[$1] = 1; for (i = 2; i <= NF; i++) below[$1] = below[$1] " " $i }
  END {
    count = split(wanted, first, " ")
    for (i = 1; i <= count; i++) visit(first[i])
  }
' "$repository/crates.txt"
