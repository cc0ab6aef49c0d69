#!/usr/bin/env bash
# How fast the proved lexer and parser read: tokens per second, whether twice the tokens take twice the time, and the
# greatest memory for each token. One unit repeats a function, another declares as many names as it can. It builds a
# small program over c_parser by program.sh.
set -eu
work=$(mktemp -d)
trap 'rm -rf "$work"' EXIT

bench=$(dirname "$(readlink -f "$0")")
program=$("$bench/program.sh" bench_parser c_lexer c_parser <<'PROGRAM'
//! Parses what stands on its input, and writes how many tokens it has.
#![tactic(auto)]

use c_lexer::lex;
use c_parser::parse;
use std::io::Read;
use std::process::ExitCode;

fn main(rt: HostRuntime) -> ExitCode {
    let mut bytes = Vec::new(rt.alloc());
    if rt.stdin().read_to_end(&mut bytes).is_err() {
        return ExitCode::from(2);
    }
    let Ok(tokens) = lex(rt.alloc(), &bytes) else {
        return ExitCode::from(3);
    };
    if parse(rt.alloc(), &tokens).is_err() {
        return ExitCode::from(4);
    }
    if println!(rt; "{}", tokens.len()).is_err() {
        return ExitCode::from(2);
    }
    ExitCode::from(0)
}
PROGRAM
)

cat >"$work/make.py" <<'MAKE'
import sys
size, kind = int(sys.argv[1]), sys.argv[2]
function = ('static int f%d(const char *s, long n) { int v = 0x1Fu + 42;'
            ' while (*s == 1) { if (v < n) v <<= 2; else s++; }'
            ' for (int i = 0; i < 3; i++) { v += (int)n * 3 - puts("text" " more"); } return v ? v : n; }\n')
names = 'int a%d, *b%d;\n'
n = length = 0
while True:
    part = function % n if kind == 'functions' else names % (n, n)
    length += len(part)
    if length > size:
        break
    sys.stdout.write(part)
    n += 1
MAKE

for kind in functions names; do
  before=0
  for size in 1048576 2097152 4194304; do
    python3 "$work/make.py" "$size" "$kind" >"$work/unit"
    python3 - "$program" "$work/unit" "$kind" "$before" "$work/took" <<'RUN'
import resource, subprocess, sys, time
program, unit, kind, before, took = sys.argv[1:]
start = time.time()
answer = subprocess.run([program], stdin=open(unit), capture_output=True, text=True)
seconds = time.time() - start
if answer.returncode != 0:
    sys.exit('%s ended with %d' % (program, answer.returncode))
tokens = int(answer.stdout)
memory = resource.getrusage(resource.RUSAGE_CHILDREN).ru_maxrss * 1024
line = '%s: %8d tokens: %8d tokens a second, ' % (kind, tokens, tokens / seconds)
line += '%4d bytes of memory a token' % (memory / tokens)
if before != '0':
    line += ', %.2f times as long as half of them' % (seconds / float(before))
print(line)
open(took, 'w').write(str(seconds))
RUN
    before=$(cat "$work/took")
  done
done
