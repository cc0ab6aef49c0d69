"""Holds the table of crates/typing_tests/stdin against gcc and clang.

    python3 oracles/typing.py             names each row that one of them answers otherwise, and counts

A row with a type has to be taken, to have that type, and to be an integer constant expression of that value exactly
where the row has one. A row with a number has to be refused; how often the first complaint has the row's column is
counted alone, since compilers choose other places. Rows below a line "#:" are answered otherwise by one of them; where
none does, that is told too. Types are compared as compatible; those of a structure, a union or an enumeration that the
row itself declares are not.
"""
import re
import subprocess
import sys

COMPILERS = {
    "gcc": ["gcc", "-std=c11", "-pedantic-errors", "-fsyntax-only", "-xc", "-"],
    "clang": ["clang", "-std=c11", "-pedantic-errors", "-fsyntax-only", "-ferror-limit=0", "-xc", "-"],
}
TAG = r"\b(struct|union|enum) (\w+)"
# The names that are predeclared in the profile, and where other compilers have them: in headers, or in Annex K alone.
PREDECLARED = re.compile(
    r"\b(\w+_t|bool|true|false|NULL|EOF|EXIT_\w+|CHAR_BIT|\w+_M(IN|AX)|puts|putchar|getchar)\b")
HEADERS = "\n".join([
    "#include <limits.h>", "#include <stdbool.h>", "#include <stddef.h>", "#include <stdint.h>", "#include <stdio.h>",
    "#include <stdlib.h>", "typedef int errno_t;", "typedef size_t rsize_t;",
    "typedef void (*constraint_handler_t)(const char *restrict, void *restrict, errno_t);",
    "#define RSIZE_MAX ((size_t)16777216)", "#line 1", ""])


class Words:
    """A type in words, read from the outside in and written as C."""

    def __init__(self, text, given):
        self.text = text
        tags = list(dict.fromkeys(re.findall(TAG, given)))
        self.tags = {
            "compound": [f"{word} {tag}" for word, tag in tags if word != "enum"],
            "enumeration": [f"{word} {tag}" for word, tag in tags if word == "enum"],
        }

    def take(self, pattern):
        found = re.match(pattern, self.text)
        self.text = self.text[found.end():] if found else self.text
        return found

    def type(self, inner):
        """The C of the type, with `inner` in the place of the declared name."""
        qualifiers = self.take(r"((const|volatile|restrict) )*").group()
        if self.take(r"pointers? to "):
            target = f"*{qualifiers}{inner}"
            return self.type(f"({target})" if self.text.startswith(("array", "function")) else target)
        if self.take(r"arrays? of "):
            length = self.take(r"(\d*) ?").group(1)
            return self.type(f"{inner}[{length}]")
        if self.take(r"function \("):
            return self.function(inner)
        found = self.take(r"(compound|enumeration) (\d+)")
        base = self.tags[found.group(1)][int(found.group(2))] if found else self.take(r"[^,)]*").group()
        return f"{qualifiers}{base} {inner}"

    def function(self, inner):
        parameters = []
        while not self.take(r"\) giving "):
            self.take(", ")
            parameters.append("..." if self.take(r"\.\.\.") else self.type(""))
        return self.type(f"{inner}({', '.join(parameters) or 'void'})")


class Row:
    def __init__(self, kind, given, text, expected, reason):
        self.kind, self.given, self.text, self.expected, self.reason = kind, given, text, expected, reason
        self.refused = re.fullmatch(r"(\d+) at (\d+)", expected)
        self.words, _, value = expected.partition(": ")
        self.value = None if value in ("", "undefined") else value

    def headers(self):
        return HEADERS if PREDECLARED.search(self.given + self.text) else ""

    def c_value(self):
        if self.value == str(-(2**63)):
            return "-9223372036854775807 - 1"
        return self.value + ("ull" if int(self.value) > 2**63 - 1 else "")

    def c_type(self, inner):
        return Words(self.words, self.given).type(inner)

    def is_known(self):
        """The type in words speaks of nothing that the row itself declares."""
        own = set(re.findall(TAG, self.text)) - set(re.findall(TAG, self.given))
        return not (own or "{" in self.text) or not re.search("compound|enumeration", self.words)

    def first(self):
        """The text as code, in the second line."""
        if self.kind == "types":
            return f"void oracle(void) {{ {self.given}\nsizeof(__typeof__({self.text}) *); }}\n"
        if self.kind == "expressions":
            return f"void oracle(void) {{ {self.given} (void)(\n{self.text}\n); }}\n"
        if re.search(r"(register|auto) int x", self.text):
            return f"void oracle(void) {{ {self.given}\n{self.text}\n}}\n"
        return f"{self.given}\n{self.text}\n"

    def checks(self):
        """What is asked of a text that is taken, and whether it holds: its type, that it is constant, its value."""
        if not self.is_known():
            return []
        declared = "printf" if "printf" in self.text else "x"
        value = f"((void)0, ({self.text}))"
        of = {"types": self.text, "declarations": declared, "expressions": value}[self.kind]
        pointer, target = ("", "") if self.kind == "expressions" else ("*", "(*)")
        same = f"__builtin_types_compatible_p(__typeof__({of}) {pointer}, {self.c_type(target)})"
        opened, closed = ("", "") if self.kind == "declarations" else ("{", "}")
        checks = [(True, f'{opened} _Static_assert({same}, "type"); {closed}')]
        is_number = re.fullmatch(r"((un)?signed )?(_Bool|char|short|int|long long|long)", self.words)
        if self.kind == "expressions" and is_number:
            constant = f'{{ _Static_assert(({self.text}) || 1, "constant"); }}'
            checks.append((self.value is not None, constant))
        if self.value is not None:
            checks.append((True, f'{{ _Static_assert(({self.text}) == {self.c_value()}, "value"); }}'))
        return checks


def complaints(compiler, unit):
    """The column of the first complaint in each line."""
    done = subprocess.run(COMPILERS[compiler], input=unit, capture_output=True, text=True)
    found = {}
    for line, column in re.findall(r"<stdin>:(\d+):(\d+): (?:fatal )?error", done.stderr):
        found.setdefault(int(line), int(column))
    return found


def answer(compiler, row):
    """What a compiler says otherwise than the row; and whether it complains at the row's place."""
    found = complaints(compiler, row.headers() + row.first())
    if row.refused:
        return None if found else "taken", found.get(2) == int(row.refused.group(2))
    if found:
        return "refused", False
    checks = row.checks()
    lines = "\n".join(code for holds, code in checks)
    unit = f"{row.given}\n{row.text}\n{lines}\n"
    first = 3
    if row.kind != "declarations" or re.search(r"(register|auto) int x", row.text):
        text = row.text if row.kind == "declarations" else ""
        unit = f"void oracle(void) {{ {row.given}\n{text}\n{lines}\n}}\n"
    found = complaints(compiler, row.headers() + unit)
    others = [code for at, (holds, code) in enumerate(checks) if holds == (first + at in found)]
    return (others[0] if others else None), False


def rows():
    kind, given, reason = None, "", None
    with open("crates/typing_tests/stdin") as table:
        lines = table.read().split("\n")
    for line in lines:
        if line.startswith("#:"):
            reason = line
        elif not line:
            reason = None
        elif line in ("@types", "@expressions", "@declarations"):
            kind = line[1:]
        elif line.startswith("@"):
            given = line[1:]
        elif not line.startswith("#"):
            yield Row(kind, given, *line.split(" => "), reason)


def main():
    count, refused, failed, placed = 0, 0, False, dict.fromkeys(COMPILERS, 0)
    for row in rows():
        count += 1
        refused += bool(row.refused)
        others = []
        for compiler in COMPILERS:
            other, at_place = answer(compiler, row)
            placed[compiler] += at_place
            if other:
                others.append(f"{compiler}: {other}")
        if bool(others) != bool(row.reason):
            failed = True
            told = ", ".join(others) or f"both agree, against {row.reason}"
            print(f"{row.text} => {row.expected} ({told})", flush=True)
    print(f"{count} rows, {refused} refused;", ", ".join(f"{n} at the place of {c}" for c, n in placed.items()))
    sys.exit(failed)


main()
