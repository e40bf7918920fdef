/* The heap of programs and libraries, over the one of C. No proof covers this file. */
#include <stdint.h>
#include <stdlib.h>

/* retarget.py has these two called as on Linux, where a structure of two words is returned in registers. */
#ifdef _WIN32
#define LINUX_CALL __attribute__((sysv_abi))
#else
#define LINUX_CALL
#endif

/* Whether there is memory, and its address in 8 bytes. */
struct block {
    uint64_t is_there, address;
};

static char nothing;

static struct block block_at(void *address) {
    return (struct block){address != 0, (uintptr_t)(address ? address : &nothing)};
}

/* malloc aligns to 16 bytes, and no alignment is larger. An empty block has an address of its own. */
LINUX_CALL struct block rattle_alloc(uint64_t size, uint64_t alignment) {
    uint64_t taken = size ? size : alignment;
    return block_at(taken > PTRDIFF_MAX ? 0 : malloc((size_t)taken));
}

LINUX_CALL struct block rattle_realloc(void *address, uint64_t kept, uint64_t size, uint64_t alignment) {
    uint64_t taken = size ? size : alignment;
    (void)kept;
    return block_at(taken > PTRDIFF_MAX ? 0 : realloc(address, (size_t)taken));
}

void rattle_dealloc(void *address) {
    free(address);
}
