#!/usr/bin/env bash
# Builds the program that stands on the input, over the crates named and those that they stand on, and prints where it
# is: program.sh NAME CRATE..
#
# The crates are proved and built in this repository first, and then copied into a folder of that name in the user's
# cache, where the program is built. Both keep what they proved, so only the first run takes long.
set -eu
top=$(dirname "$(dirname "$(readlink -f "$0")")")
folder=${XDG_CACHE_HOME:-$HOME/.cache}/acc/$1
shift

crates=$("$top/tools/needed_crates.sh" "$top" "$@")
# shellcheck disable=SC2086 # one word a crate
"$top/tools/build_crates.sh" "$top" $crates
mkdir -p "$folder/crates/program/src"
cat >"$folder/crates/program/src/main.rt"
cp "$top/HANDLES" "$folder"
echo "program: $*" >"$folder/crates.txt"
for crate in $crates; do
  grep "^$crate:" "$top/crates.txt" >>"$folder/crates.txt"
  rm -rf "$folder/crates/$crate/src" "$folder/crates/$crate/specs" "$folder/crates/$crate/proofs"
  tar -C "$top/crates" --exclude=out -cf - "$crate" | tar -C "$folder/crates" -xf -
done
"$top/tools/build_crates.sh" "$folder" program
echo "$folder/crates/program/out/program"
