/* Prints the table of crates/acc_num/src/tests.rt: for pairs of operands at the edges of each integer kind what the
   compiler that builds this file computes, and a word where the operation is undefined.
   Build: gcc -std=gnu17 -O1 integer_edges.c. Arithmetic of the narrow kinds is checked by the builtins, since C
   promotes their operands to int; _Bool is a bit-field of one bit. */
#include <stdio.h>
#include <stdbool.h>

typedef __int128 wide;
struct bit { unsigned value : 1; };

static void number(wide n)
{
    if (n < 0) { putchar('-'); n = -n; }
    char digits[40]; int k = 0;
    do { digits[k++] = '0' + (int)(n % 10); n /= 10; } while (n);
    while (k) putchar(digits[--k]);
}
static void value(wide n) { putchar(' '); number(n); }
static void outcome(bool over, const char *word, wide n) { if (over) printf(" %s", word); else value(n); }

#define KIND(NAME, TYPE, BITS, SIGNED)                                                                         \
static void NAME(TYPE a, TYPE b)                                                                               \
{                                                                                                              \
    TYPE r; bool over;                                                                                         \
    printf("    \"" #NAME); value(a); value(b);                                                                \
    over = __builtin_add_overflow(a, b, &r); outcome(over && SIGNED, "overflow", r);                           \
    over = __builtin_sub_overflow(a, b, &r); outcome(over && SIGNED, "overflow", r);                           \
    over = __builtin_mul_overflow(a, b, &r); outcome(over && SIGNED, "overflow", r);                           \
    if (b == 0) printf(" zero zero");                                                                          \
    else if (SIGNED && (wide)b == -1 && __builtin_sub_overflow((TYPE)0, a, &r)) printf(" overflow overflow");  \
    else { r = a / b; value(r); r = a % b; value(r); }                                                         \
    if (b < 0 || b >= BITS) printf(" shift shift");                                                            \
    else {                                                                                                     \
        r = (TYPE)((unsigned long long)a << b);                                                                \
        if (a < 0 || (SIGNED && (r < 0 || r >> b != a))) printf(" shift"); else value(r);                      \
        r = a >> b; value(r);                                                                                  \
    }                                                                                                          \
    printf("\",\n");                                                                                           \
}
KIND(I8, signed char, 8, true)
KIND(U8, unsigned char, 8, false)
KIND(I16, short, 16, true)
KIND(U16, unsigned short, 16, false)
KIND(I32, int, 32, true)
KIND(U32, unsigned, 32, false)
KIND(I64, long, 64, true)
KIND(U64, unsigned long, 64, false)

static void Bool(unsigned a, unsigned b)
{
    struct bit x = { a }, y = { b }, r;
    printf("    \"Bool"); value(a); value(b);
    r.value = x.value + y.value; value(r.value);
    r.value = x.value - y.value; value(r.value);
    r.value = x.value * y.value; value(r.value);
    if (b == 0) printf(" zero zero");
    else { r.value = x.value / y.value; value(r.value); r.value = x.value % y.value; value(r.value); }
    if (b >= 1) printf(" shift shift");
    else { r.value = x.value << y.value; value(r.value); r.value = x.value >> y.value; value(r.value); }
    printf("\",\n");
}

#define SIGNED_EDGES(NAME, LEAST, GREATEST, BITS)                                        \
    NAME(LEAST, -1); NAME(LEAST, LEAST); NAME(LEAST, 1); NAME(LEAST, 0);                 \
    NAME(GREATEST, 1); NAME(GREATEST, GREATEST); NAME(GREATEST, -1); NAME(LEAST + 1, -1); \
    NAME(1, BITS - 1); NAME(1, BITS - 2); NAME(-1, BITS - 1); NAME(1, BITS);             \
    NAME(-7, 2); NAME(7, -2); NAME(-1, 1)
#define UNSIGNED_EDGES(NAME, GREATEST, BITS)                                             \
    NAME(GREATEST, 1); NAME(GREATEST, GREATEST); NAME(GREATEST, 0); NAME(0, 1);          \
    NAME(0, GREATEST); NAME(1, BITS - 1); NAME(1, BITS); NAME(GREATEST, BITS - 1);       \
    NAME(GREATEST / 2 + 1, 2); NAME(GREATEST / 2, 2); NAME(GREATEST / 2 + 1, 1);         \
    NAME(GREATEST - 1, GREATEST); NAME(1, GREATEST); NAME(0, 0); NAME(7, 2)

int main(void)
{
    Bool(0, 0); Bool(0, 1); Bool(1, 0); Bool(1, 1);
    SIGNED_EDGES(I8, -128, 127, 8);
    UNSIGNED_EDGES(U8, 255, 8);
    SIGNED_EDGES(I16, -32768, 32767, 16);
    UNSIGNED_EDGES(U16, 65535, 16);
    SIGNED_EDGES(I32, (-2147483647 - 1), 2147483647, 32);
    UNSIGNED_EDGES(U32, 4294967295u, 32);
    SIGNED_EDGES(I64, (-9223372036854775807 - 1), 9223372036854775807, 64);
    UNSIGNED_EDGES(U64, 18446744073709551615u, 64);
    I32(46341, 46341); U32(65536, 65537); I64(3037000500, 3037000500); U64(4294967296u, 4294967297u);
    return 0;
}
