/* The limits with which a plugin opens its sessions, a line each in the file of the variable OPENED. It is linked into the plugin with
 * -Wl,--wrap=wk_open,--wrap=wk_open_bytes. */
#include <stdio.h>
#include <stdlib.h>

#include "wokureti.h"

uint32_t __real_wk_open(wk_handle *, const uint8_t *, size_t, const size_t *, size_t, uint16_t, const uint8_t *, size_t, wk_fault *);
uint32_t __real_wk_open_bytes(wk_handle *, const uint8_t *, size_t, const size_t *, size_t, uint64_t, const uint8_t *, size_t, wk_fault *);
uint32_t __wrap_wk_open(wk_handle *, const uint8_t *, size_t, const size_t *, size_t, uint16_t, const uint8_t *, size_t, wk_fault *);
uint32_t __wrap_wk_open_bytes(wk_handle *, const uint8_t *, size_t, const size_t *, size_t, uint64_t, const uint8_t *, size_t, wk_fault *);

static void note(const char *kind, unsigned long long limit) {
    FILE *file = fopen(getenv("OPENED"), "a");
    if (!file || fprintf(file, "%s %llu\n", kind, limit) < 0 || fclose(file)) abort();
}

uint32_t __wrap_wk_open(wk_handle *handle, const uint8_t *files, size_t size, const size_t *ends, size_t sources, uint16_t states, const uint8_t *tables, size_t table_size,
                        wk_fault *fault) {
    note("states", states);
    return __real_wk_open(handle, files, size, ends, sources, states, tables, table_size, fault);
}

uint32_t __wrap_wk_open_bytes(wk_handle *handle, const uint8_t *files, size_t size, const size_t *ends, size_t sources, uint64_t bytes, const uint8_t *tables, size_t table_size,
                              wk_fault *fault) {
    note("bytes", bytes);
    return __real_wk_open_bytes(handle, files, size, ends, sources, bytes, tables, table_size, fault);
}
