/* Prints the layouts that crates/c_types/src/tests.rt checks, as the compiler that builds this file has them: size,
   alignment and the places of three members. A pointer here has 16 bytes and alignment 8, which a structure of two
   longs stands for. Build: gcc -std=gnu17 layouts.c */
#include <stddef.h>
#include <stdio.h>
typedef struct { long a, b; } pointer;
#define ROW(KIND, NAME, A, B, C)                                                                            \
    KIND NAME { A; B; C; };                                                                                 \
    static void print_##NAME(void)                                                                          \
    {                                                                                                       \
        printf(#NAME " %zu %zu %zu %zu %zu\n", sizeof(KIND NAME), _Alignof(KIND NAME),                      \
            offsetof(KIND NAME, x), offsetof(KIND NAME, y), offsetof(KIND NAME, z));                        \
    }
ROW(struct, char_int_pointer, char x, int y, pointer z)
ROW(struct, three_chars, char x, char y, char z)
ROW(struct, short_between, char x, short y, char z)
ROW(struct, long_first, long x, char y, int z)
ROW(struct, long_between, char x, long y, char z)
ROW(struct, array_first, char x[3], int y, char z)
ROW(struct, pointer_first, pointer x, char y, short z)
ROW(struct, ints_between, short x, int y[5], char z)
ROW(union, numbers, char x, int y, long z)
ROW(union, odd_array, char x[3], short y, char z)
ROW(union, pointer_or_ints, pointer x, int y[5], char z)
ROW(struct, structure_between, char x, struct long_first y, short z)
ROW(struct, union_between, char x, union numbers y, char z)
ROW(struct, refers, pointer x, int y, pointer z)
ROW(struct, refers_with, struct refers x, int y, pointer z)
int main(void)
{
    print_char_int_pointer(); print_three_chars(); print_short_between(); print_long_first(); print_long_between();
    print_array_first(); print_pointer_first(); print_ints_between(); print_numbers(); print_odd_array();
    print_pointer_or_ints(); print_structure_between(); print_union_between();
    print_refers(); print_refers_with();
    return 0;
}
