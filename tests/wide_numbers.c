/* Compares release/wasm/wide.c with the compiler's own numbers of 128 bits, 300,000 random pairs. */
#define __ashlti3 shifted_left
#define __lshrti3 shifted_right
#define __multi3 product
#define __udivti3 quotient_of
#define __umodti3 remainder_of
#include "../release/wasm/wide.c"
#include <stdlib.h>

static u64 random_word(void) {
    return (u64)random() << 42 ^ (u64)random() << 21 ^ (u64)random();
}

/* Numbers of each length. */
static u128 random_number(void) {
    return joined(random_word(), random_word()) >> random() % 128;
}

int main(void) {
    for (int turn = 0; turn < 300000; turn++) {
        u128 a = random_number(), b = random_number() | (turn % 2 == 0);
        int by = (int)(random() % 128);
        if (shifted_left(a, by) != a << by || shifted_right(a, by) != a >> by || product(a, b) != a * b) return 1;
        if (b && (quotient_of(a, b) != a / b || remainder_of(a, b) != a % b)) return 2;
    }
    return 0;
}
