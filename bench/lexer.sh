#!/usr/bin/env bash
# How fast the proved lexer reads: bytes per second of units of 1, 2 and 4 MiB, and whether twice the bytes take twice
# the time. It builds a small program over c_lexer by program.sh.
set -eu
work=$(mktemp -d)
trap 'rm -rf "$work"' EXIT
turns=20

cat >"$work/main.rt" <<'PROGRAM'
//! Lexes what stands on its input TURNS times.
#![tactic(auto)]

use c_lexer::lex;
use std::io::Read;
use std::process::ExitCode;

fn main(rt: HostRuntime) -> ExitCode {
    let mut bytes = Vec::new(rt.alloc());
    if rt.stdin().read_to_end(&mut bytes).is_err() {
        return ExitCode::from(2);
    }
    for _ in 0..TURNS {
        if lex(rt.alloc(), &bytes).is_err() {
            return ExitCode::from(1);
        }
    }
    ExitCode::from(0)
}
PROGRAM
bench=$(dirname "$(readlink -f "$0")")
program=$(sed "s/TURNS/$turns/" "$work/main.rt" | "$bench/program.sh" bench_lexer c_lexer)

# a function with names, numbers, marks, a literal, a character and comments, again and again
part='/* adds */ static int add_one(const char *s, long n) { int v = 0x1Fu + 42; if (*s == '"'\\n'"') v <<= 2; // twice
  return v + (int)n * 3 - puts("text \" more"); }
'
printf '%s' "$part" >"$work/part"
while [ "$(stat -c %s "$work/part")" -lt 4194304 ]; do
  cat "$work/part" "$work/part" >"$work/more"
  mv "$work/more" "$work/part"
done
for size in 1048576 2097152 4194304; do
  # the last part may be cut inside a comment or a literal, so the unit ends with blanks
  lines=$(head -c $((size - 200)) "$work/part" | wc -l)
  head -n $((lines - lines % 2)) "$work/part" >"$work/unit.$size"
  left=$((size - $(stat -c %s "$work/unit.$size")))
  head -c "$left" </dev/zero | tr '\0' ' ' >>"$work/unit.$size"
done

before=0
for size in 1048576 2097152 4194304; do
  start=$(date +%s%N)
  "$program" <"$work/unit.$size"
  took=$((($(date +%s%N) - start) / 1000))
  printf '%8d bytes, %d times: %7d bytes a millisecond' "$size" "$turns" $((size * turns * 1000 / took))
  if [ "$before" != 0 ]; then
    printf ', %d.%02d times as long as half the bytes' $((took / before)) $((took * 100 / before % 100))
  fi
  printf '\n'
  before=$took
done
