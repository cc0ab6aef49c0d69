"""The table of crates/c_core/src/tests.rt: constant expressions, and what gcc and clang make of each.

    python3 oracles/constants.py          writes the lines of the table

Each line has the value of an expression, `undefined` where an operation in an evaluated part is undefined, or `none` where
it is no integer constant expression; and then the expression in postfix order, with each conversion of the core tree, which
is a cast in C.
Values and undefined operations are those of runs under the sanitizer of undefined behaviour, with each number read from a
volatile object; which expressions are constant is what both compilers say under -pedantic-errors. The script stops where
both disagree.
"""
import subprocess
import tempfile

C_TYPE = {
    "Bool": "_Bool", "I8": "signed char", "U8": "unsigned char", "I16": "short", "U16": "unsigned short",
    "I32": "int", "U32": "unsigned int", "I64": "long", "U64": "unsigned long",
}
SUFFIX = {"I32": "", "U32": "u", "I64": "l", "U64": "ul"}
BINARY = {
    "add": "+", "sub": "-", "mul": "*", "div": "/", "rem": "%", "shl": "<<", "shr": ">>", "and": "&", "or": "|",
    "xor": "^", "lt": "<", "le": "<=", "eq": "==", "ne": "!=", "ge": ">=", "gt": ">", "andalso": "&&", "orelse": "||",
    "comma": ",",
}
UNARY = {"neg": "-", "flip": "~", "not": "!"}
LEAST = {"I32": -2**31, "I64": -2**63}

ROWS = """
I32:2147483647
U64:18446744073709551615
I32:2147483646 I32:1 add:I32
I32:2147483647 I32:1 add:I32
I32:-2147483648 I32:-1 add:I32
U32:4294967295 U32:1 add:U32
I64:9223372036854775807 I64:1 add:I64
U64:18446744073709551615 U64:2 add:U64
I32:-2147483648 I32:1 sub:I32
I32:0 I32:-2147483648 sub:I32
U32:0 U32:1 sub:U32
U64:0 U64:1 sub:U64
I32:46341 I32:46341 mul:I32
I32:46340 I32:46340 mul:I32
U32:65536 U32:65536 mul:U32
U64:4294967297 U64:4294967297 mul:U64
I32:-7 I32:2 div:I32
I32:7 I32:-2 div:I32
I32:7 I32:0 div:I32
I32:-2147483648 I32:-1 div:I32
U32:4294967289 U32:2 div:U32
I32:-7 I32:2 rem:I32
I32:7 I32:-2 rem:I32
I32:7 I32:0 rem:I32
I32:-2147483648 I32:-1 rem:I32
I32:1 I32:30 shl:I32
I32:1 I32:31 shl:I32
I32:1 I32:32 shl:I32
I32:1 I32:-1 shl:I32
I32:-1 I32:1 shl:I32
U32:1 I32:31 shl:U32
U32:3 I64:31 shl:U32
U32:1 U64:32 shl:U32
I64:1 I32:62 shl:I64
I32:-5 I32:1 shr:I32
I32:-1 U32:31 shr:I32
U32:4294967295 I32:31 shr:U32
I32:1 I64:64 shr:I32
I32:-1 I32:255 and:I32
I32:-2147483648 I32:1 or:I32
I32:-1 I32:1 xor:I32
U64:18446744073709551615 U64:1 xor:U64
I64:-2 I64:-3 and:I64
I32:-2147483648 neg:I32
I32:2147483647 neg:I32
U32:1 neg:U32
U64:18446744073709551615 neg:U64
I32:0 flip:I32
I32:-2147483648 flip:I32
U32:0 flip:U32
U64:1 flip:U64
I32:0 not
U64:18446744073709551615 not
I32:-1 I32:0 lt
U32:4294967295 U32:0 lt
I64:-1 I64:-1 le
I32:3 I32:3 eq
I32:3 I32:4 eq
I32:3 I32:4 ne
U64:0 U64:18446744073709551615 ge
I32:5 I32:4 gt
I32:300 conv:I8
I32:-1 conv:U8
I32:200 conv:I8 conv:I32
I32:65536 conv:I16
I32:-1 conv:U16
I64:4294967296 conv:I32
I64:4294967297 conv:Bool
I32:0 conv:Bool
I32:-1 conv:U32 U32:1 gt
I32:-1 conv:U64
U32:4294967295 conv:I64 I64:1 add:I64
U32:2147483648 conv:I32 I32:-1 add:I32
U8:255 conv:I32 U8:255 conv:I32 add:I32
I32:128 conv:I8 conv:I32 neg:I32
I32:0 I32:5 andalso
I32:2 I32:5 andalso
I32:2 I32:0 andalso
I32:0 I32:1 I32:0 div:I32 andalso
I32:1 I32:1 I32:0 div:I32 andalso
I32:1 I32:0 div:I32 I32:0 andalso
I32:0 I32:7 orelse
I32:0 I32:0 orelse
I32:3 I32:2147483647 I32:1 add:I32 orelse
I32:0 I32:2147483647 I32:1 add:I32 orelse
I32:1 I32:10 I32:20 cond
I32:0 I32:10 I32:20 cond
I32:1 I32:10 I32:1 I32:0 rem:I32 cond
I32:0 I32:10 I32:1 I32:0 rem:I32 cond
I32:0 I32:1 I32:-1 shl:I32 I32:4 cond
I64:4294967296 I32:1 I32:2 cond
I32:0 I32:1 I32:0 div:I32 andalso I32:6 I32:7 cond
I32:1 I32:0 I32:3 orelse I32:0 I32:9 andalso cond
I32:1 I32:2 comma
I32:1 I32:1 I32:2 comma andalso
object
I32:0 object andalso
I32:1 object orelse
I32:1 I32:2 object cond
object conv:I8
I32:3 assign
I32:0 I32:3 assign andalso
call
I32:0 call andalso
I32:1 I32:4 call cond
pointer
I32:0 pointer andalso
object I32:1 I32:0 div:I32 add:I32
I32:1 I32:0 div:I32 object add:I32
""".split("\n")[1:-1]


def literal(kind, value):
    """A C constant of exactly that type and value."""
    if kind not in SUFFIX:
        return "((%s)%d)" % (C_TYPE[kind], value)
    if value == LEAST.get(kind):
        return "(-%d%s-1)" % (-value - 1, SUFFIX[kind])
    return "%s%d%s" % ("(-" if value < 0 else "", abs(value), SUFFIX[kind]) + (")" if value < 0 else "")


def spelled(row, volatile):
    """The C expression of a row; `volatile` gathers the declarations of its numbers, or is None for constants."""
    stack = []
    for word in row.split(" "):
        name, _, rest = word.partition(":")
        if name in C_TYPE:
            text = literal(name, int(rest))
            if volatile is not None:
                volatile.append("volatile %s v%d = %s;" % (C_TYPE[name], len(volatile), text))
                text = "v%d" % (len(volatile) - 1)
            stack.append(text)
        elif name == "conv":
            stack.append("(%s)%s" % (C_TYPE[rest], stack.pop()))
        elif name in UNARY:
            stack.append("(%s%s)" % (UNARY[name], stack.pop()))
        elif name == "cond":
            second, first, test = stack.pop(), stack.pop(), stack.pop()
            stack.append("(%s?%s:%s)" % (test, first, second))
        elif name == "object":
            stack.append("object")
        elif name == "assign":
            stack.append("(object=%s)" % stack.pop())
        elif name == "call":
            stack.append("called()")
        elif name == "pointer":
            stack.append("(!&object)")
        else:
            right, left = stack.pop(), stack.pop()
            stack.append("(%s%s%s)" % (left, BINARY[name], right))
    assert len(stack) == 1, row
    return stack[0]


def run(words, text=None):
    return subprocess.run(words, input=text, capture_output=True, text=True)


def is_constant(compiler, expression):
    unit = "int object;int called(void);enum e{x=(%s)!=0};\n" % expression
    flags = ["-std=c11", "-pedantic-errors", "-fsyntax-only", "-x", "c", "-"]
    return run([compiler] + flags, unit).returncode == 0


def outcome(compiler, row):
    """What a run gives: the value, or `undefined`."""
    declared = []
    expression = spelled(row, declared)
    unit = "#include <stdio.h>\nint object;int called(void){return 0;}\nint main(void){%s\n" % "".join(declared)
    unit += "if((__typeof__(%s))-1<0)printf(\"%%lld\",(long long)%s);" % (expression, expression)
    unit += "else printf(\"%%llu\",(unsigned long long)%s);return 0;}" % expression
    with tempfile.TemporaryDirectory() as folder:
        built = run([compiler, "-std=gnu11", "-w", "-O0", "-fsanitize=undefined", "-fno-sanitize-recover=all", "-x", "c",
                     "-", "-o", folder + "/a"], unit)
        assert built.returncode == 0, built.stderr
        ran = run([folder + "/a"])
        return ran.stdout if ran.returncode == 0 else "undefined"


def answer(compiler, row):
    words = row.split(" ")
    constant = not any(word in ("comma", "object", "assign", "call", "pointer") for word in words)
    if not constant:
        assert not is_constant(compiler, spelled(row, None)), row
        return "none"
    given = outcome(compiler, row)
    if given != "undefined":
        assert is_constant(compiler, spelled(row, None)), row
    return given


def main():
    print("static CONSTANTS: [&str; %d] = [" % len(ROWS))
    for row in ROWS:
        first, second = answer("gcc", row), answer("clang", row)
        assert first == second, (row, first, second)
        print('    "%s %s",' % (first, row))
    print("];")


main()
