/* The heap of the library in WebAssembly with 32-bit memory, which only grows. No proof covers it.
 *
 * Blocks have one of four sizes in each power of two, and a list of free blocks for each size. Before a block are 16 bytes with the number of its
 * size. A call that gets no memory says so and writes nothing. Sizes have 64 bits, as in the library's own layouts: more than 2 GB is refused. */
typedef __UINT64_TYPE__ u64;
typedef __UINT32_TYPE__ u32;
typedef unsigned char u8;

/* What rattle_alloc and rattle_realloc return: an address has 8 bytes, of which the last 4 are 0. */
struct tried {
    u64 ok, at;
};

enum { HEAD = 16, PAGE = 16, SIZES = 4 * 31 + 1, MOST_PAGES = 65535 };

extern u8 __heap_base;
static u32 top, end;
static u8 nothing;
static void *free_of[SIZES];

/* The number of the least size for n bytes, 64 to 2^31: 4 a + b is 2^a + b 2^(a - 2). */
static u32 number_of(u32 n) {
    u32 a = 31 - (u32)__builtin_clz(n), step = 1U << (a - 2);
    return 4 * a + (n - (1U << a) + step - 1) / step;
}

static u32 size_of(u32 number) {
    return (1U << number / 4) + (number % 4 << (number / 4 - 2));
}

/* Whether there are so many bytes at `top`. The last page is never taken, so `end` is below 2^32. */
static int is_grown(u32 size) {
    if (!top) {
        top = ((u32)&__heap_base + 15) & ~15U;
        end = (u32)__builtin_wasm_memory_size(0) << PAGE;
    }
    if (end - top >= size) return 1;
    u32 pages = ((size - (end - top)) >> PAGE) + 64;
    if (pages > MOST_PAGES - (end >> PAGE)) return 0;
    if (__builtin_wasm_memory_grow(0, pages) == (__SIZE_TYPE__)-1) return 0;
    end += pages << PAGE;
    return 1;
}

/* A block of n bytes at a multiple of 16, or null. */
void *wk_room(u64 n) {
    if (n > (1U << 31) - HEAD) return 0;
    u32 number = number_of(n < 64 - HEAD ? 64 : (u32)n + HEAD);
    u8 *block = free_of[number];
    if (block) {
        free_of[number] = *(void **)block;
    } else {
        if (!is_grown(size_of(number))) return 0;
        block = (u8 *)top;
        top += size_of(number);
    }
    *(u32 *)block = number;
    return block + HEAD;
}

void wk_free(void *at) {
    if (!at) return;
    u8 *block = (u8 *)at - HEAD;
    u32 number = *(u32 *)block;
    *(void **)block = free_of[number];
    free_of[number] = block;
}

static struct tried tried(u8 *at) {
    return (struct tried){at != 0, (u32)(at ? at : &nothing)};
}

struct tried rattle_alloc(u64 n, u64 align) {
    (void)align;
    return tried(wk_room(n));
}

void rattle_dealloc(u8 *at) {
    wk_free(at);
}

struct tried rattle_realloc(u8 *at, u64 kept, u64 n, u64 align) {
    (void)align;
    if (n <= size_of(*(u32 *)(at - HEAD)) - HEAD) return tried(at);
    u8 *moved = wk_room(n);
    if (!moved) return tried(0);
    __builtin_memcpy(moved, at, kept < n ? kept : n);
    wk_free(at);
    return tried(moved);
}
