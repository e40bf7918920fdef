/* The heap of the proved code, for Linux systems that the kit has no archive for: the functions of its c/liblibc_c.a. Nothing here is proved. */
#include <stddef.h>
#include <stdint.h>
#include <stdlib.h>

/* Whether there is memory, and its address. */
struct block {
    uint64_t is_there;
    void *address;
};

static char no_memory;

static struct block block_at(void *address) {
    struct block made = {address != NULL, address != NULL ? address : &no_memory};
    return made;
}

/* No alignment is larger than 16, which malloc gives each block. Empty blocks have an address of their own too. */
struct block rattle_alloc(size_t size, size_t alignment) {
    return block_at(malloc(size != 0 ? size : alignment));
}

struct block rattle_realloc(void *address, size_t kept, size_t size, size_t alignment) {
    (void)kept;
    return block_at(realloc(address, size != 0 ? size : alignment));
}

void rattle_dealloc(void *address) {
    free(address);
}
