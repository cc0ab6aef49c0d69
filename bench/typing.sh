#!/usr/bin/env bash
# How long the proved walk over types and expressions takes over hostile units: names that are typedef names of one
# another, many names with one beginning, many names with one hash in the library's maps, and long lists. Each unit is
# a table of one row, which the program of typing_tests reads; it is proved and built first.
set -eu
work=$(mktemp -d)
trap 'rm -rf "$work"' EXIT

top=$(dirname "$(dirname "$(readlink -f "$0")")")
# shellcheck disable=SC2046 # one word a crate
"$top/tools/build_crates.sh" "$top" $("$top/tools/needed_crates.sh" "$top" typing_tests)

# Names of twelve letters with the same 17 low bits of the hash that the library's maps have for them
cat >"$work/colliding.c" <<'COLLIDING'
#include <stdint.h>
#include <stdio.h>
#include <stdlib.h>

enum { LENGTH = 12, BITS = 17 };
static const uint64_t multiplier = 0x9e3779b97f4a7c15u;
static char name[LENGTH + 1];
static long left;

static uint64_t folded(uint64_t a, uint64_t b) {
    unsigned __int128 product = (unsigned __int128)a * b;
    return (uint64_t)product ^ (uint64_t)(product >> 64);
}

static void extend(uint64_t state, int at) {
    for (char letter = 'a'; letter <= 'z'; letter++) {
        uint64_t next = folded(state ^ (uint64_t)letter * 0x10101, multiplier ^ 2);
        name[at] = letter;
        if (at + 1 < LENGTH) {
            extend(next, at + 1);
        } else if (((next ^ next >> 32) & ((1u << BITS) - 1)) == 0) {
            puts(name);
            if (--left == 0) exit(0);
        }
    }
}

int main(int argc, char **argv) {
    left = argc > 1 ? atol(argv[1]) : 1;
    extend(folded(0x243f6a8885a308d3u ^ LENGTH, multiplier ^ 16), 0);
    return 1;
}
COLLIDING
gcc -O2 -o "$work/colliding" "$work/colliding.c"
"$work/colliding" 100000 >"$work/names"

cat >"$work/tables.py" <<'TABLES'
"""Writes tables of one hostile row each into a folder, which has the colliding names."""
import os, sys

folder = sys.argv[1]
colliding = open(f"{folder}/names").read().split()
alike = [f"begins_as_all_others_do_{n}" for n in range(100000)]


def table(name, kind, given, text, answer):
    with open(f"{folder}/{name}.table", "w") as out:
        out.write(f"@{given}\n@{kind}\n{text} => {answer}\n")


def short(n):
    """A name of five bytes at most, so that a unit with all of them is no larger than a unit may be."""
    digits = "abcdefghijklmnopqrstuvwxyz0123456789"
    return "T" + (digits[n] if n < 36 else short(n // 36)[1:] + digits[n % 36])


def typedefs(count, derivation):
    """Typedef names, each of the one before."""
    more = (f"typedef {short(n)} {derivation}{short(n + 1)};" for n in range(count))
    return f"typedef int {short(0)};" + "".join(more)


table("nested_typedef_names", "declarations", typedefs(200000, ""), f"const {short(200000)} x;", "const int")
table("nested_pointers", "expressions", typedefs(4095, "*"), f"sizeof({short(4095)})", "unsigned long: 16")
for kind, names in ("alike", alike), ("colliding", colliding):
    last = names[-1]
    objects = "".join(f"int {name};" for name in names)
    table(f"names_{kind}", "expressions", objects, last, "int")
    tags = "".join(f"struct {name};" for name in names)
    table(f"tags_{kind}", "declarations", tags, f"struct {last} *x;", "pointer to compound 99999")
    members = "".join(f"char {name};" for name in names)
    table(f"members_{kind}", "expressions", f"struct s {{ {members} }} v;", f"sizeof v + v.{last}", "unsigned long")
    enumerators = ", ".join(names)
    table(f"enumerators_{kind}", "expressions", f"enum {{ {enumerators} }};", last, "int: 99999")
    given = "".join(f"enum {{ {name} }};" for name in names)
    table(f"enumerations_{kind}", "declarations", given, f"enum {{ {last} }} x;", "2 at 8")
many = 100000
table("qualifiers", "declarations", "", "const " * many + "int x;", "const int")
table("words", "declarations", "", "long " * many + "x;", "4 at 1")
table("arguments", "expressions", "int f(), x;", "f(" + "x," * many + "x)", "33 at 2")
table("parameters", "declarations", "", "int x(" + "int, " * many + "void);", f"45 at {7 + 5 * many}")
TABLES
python3 "$work/tables.py" "$work"

for table in "$work"/*.table; do
  python3 - "$top/crates/typing_tests/out/typing_tests" "$table" <<'RUN'
import os, resource, subprocess, sys, time
program, table = sys.argv[1:]
start = time.time()
answer = subprocess.run([program], stdin=open(table), capture_output=True, text=True)
seconds = time.time() - start
memory = resource.getrusage(resource.RUSAGE_CHILDREN).ru_maxrss // 1024
said = "as expected" if answer.returncode == 0 else answer.stdout[-200:] + answer.stderr[-200:]
name = os.path.basename(table).split(".")[0]
print(f"{name}: {os.path.getsize(table)} bytes, {seconds:.2f} s, {memory} MB, {said}", flush=True)
RUN
done
