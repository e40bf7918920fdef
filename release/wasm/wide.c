/* Numbers of 128 bits, for which WebAssembly has no instructions: clang calls these functions. Nothing here may shift by a variable, since clang calls a function for that. */
typedef __UINT64_TYPE__ u64;
typedef unsigned __int128 u128;

static u128 joined(u64 high, u64 low) {
    return (u128)high << 64 | low;
}

static u64 high_of(u128 a) {
    return (u64)(a >> 64);
}

u128 __ashlti3(u128 a, int by) {
    u64 low = (u64)a;
    if (by >= 64) return joined(low << (by - 64), 0);
    return by ? joined(high_of(a) << by | low >> (64 - by), low << by) : a;
}

u128 __lshrti3(u128 a, int by) {
    u64 high = high_of(a);
    if (by >= 64) return joined(0, high >> (by - 64));
    return by ? joined(high >> by, (u64)a >> by | high << (64 - by)) : a;
}

/* The low 128 bits of a product. */
u128 __multi3(u128 a, u128 b) {
    u64 x = (u64)a, y = (u64)b, low = 0xffffffff;
    u64 p = (x & low) * (y & low), q = (x >> 32) * (y & low), r = (x & low) * (y >> 32), s = (x >> 32) * (y >> 32);
    u64 middle = (p >> 32) + (q & low) + (r & low);
    u64 high = s + (q >> 32) + (r >> 32) + (middle >> 32) + high_of(a) * y + x * high_of(b);
    return joined(high, middle << 32 | (p & low));
}

/* The quotient, and the remainder in `rest`. Numbers that need more than 64 bits are divided only to be written in decimal, so a bit at a time is fast enough. */
static u128 divided(u128 a, u128 b, u128 *rest) {
    u128 quotient = 0;
    *rest = 0;
    for (int bit = 0; bit < 128; bit++) {
        *rest = *rest << 1 | high_of(a) >> 63;
        a <<= 1;
        quotient <<= 1;
        if (*rest >= b) {
            *rest -= b;
            quotient |= 1;
        }
    }
    return quotient;
}

static int is_short(u128 a, u128 b) {
    return !high_of(a) && !high_of(b);
}

u128 __udivti3(u128 a, u128 b) {
    u128 rest;
    return is_short(a, b) ? (u64)a / (u64)b : divided(a, b, &rest);
}

u128 __umodti3(u128 a, u128 b) {
    u128 rest;
    if (is_short(a, b)) return (u64)a % (u64)b;
    divided(a, b, &rest);
    return rest;
}
