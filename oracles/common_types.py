"""The table of crates/c_conversions/src/tests.rt: the common type of each pair of integer types, by gcc and clang.

    python3 oracles/common_types.py       writes the rows of the table

A row stands for the type of the left operand of `+`, a letter in it for that of the right one, both in the order of TYPES.
The script stops where both compilers disagree.
"""
import subprocess
import tempfile

TYPES = [
    "_Bool", "char", "signed char", "unsigned char", "short", "unsigned short", "int", "unsigned int", "long",
    "unsigned long", "long long", "unsigned long long",
]
LETTERS = {
    "int": "i", "unsigned int": "u", "long": "l", "unsigned long": "m", "long long": "x", "unsigned long long": "y",
}


def rows(compiler):
    cases = ", ".join(f"{type}: '{letter}'" for type, letter in LETTERS.items())
    lines = []
    for left in TYPES:
        puts = "".join(f"putchar(_Generic(({left})0 + ({right})0, {cases}));" for right in TYPES)
        lines.append(puts + "putchar('\\n');")
    source = "#include <stdio.h>\nint main(void){\n" + "\n".join(lines) + "\nreturn 0;}\n"
    with tempfile.TemporaryDirectory() as folder:
        with open(folder + "/types.c", "w") as file:
            file.write(source)
        subprocess.run([compiler, "-std=c11", "-o", folder + "/types", folder + "/types.c"], check=True)
        return subprocess.run([folder + "/types"], check=True, capture_output=True, text=True).stdout.split()


found = rows("gcc")
assert found == rows("clang")
for row in found:
    print(f'    "{row}",')
