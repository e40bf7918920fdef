/* Times calls of the library from C: library CLIP [TURNS]. Medians of TURNS turns (5), in microseconds, as library.py prints them from Python. */
#include <stdio.h>
#include <stdlib.h>
#include <string.h>
#include <time.h>

#include "wokureti.h"

enum { CACHED = 2000, EDITS = 2000, TIMES = 5, MOST_TURNS = 99 };

static const char *NAMES[TIMES] = {"a cached frame", "a request", "two edits", "all frames in order", "a copy of the samples"};

static void fail(const char *why) {
    fprintf(stderr, "library: %s\n", why);
    exit(1);
}

static double now(void) {
    struct timespec time;
    clock_gettime(CLOCK_MONOTONIC, &time);
    return (double)time.tv_sec * 1e6 + (double)time.tv_nsec / 1e3;
}

static uint8_t *read_file(const char *path, size_t *size) {
    FILE *file = fopen(path, "rb");
    if (!file || fseek(file, 0, SEEK_END)) fail("cannot read the clip");
    *size = (size_t)ftell(file);
    rewind(file);
    uint8_t *bytes = malloc(*size);
    if (!bytes || fread(bytes, 1, *size, file) != *size) fail("cannot read the clip");
    fclose(file);
    return bytes;
}

static void ask(wk_handle *handle, const char *line, char reply[64]) {
    size_t length = 0;
    if (wk_request(handle, (const uint8_t *)line, strlen(line), &length) || length >= 64 || wk_text(handle, (uint8_t *)reply, 64, &length)) fail("no reply");
    reply[length] = 0;
}

/* The rooms of a frame, and its samples in one piece. */
typedef struct {
    uint8_t *samples, *copy;
    size_t luma, chroma, across, width;
} room;

static void frame(wk_handle *handle, uint64_t n, room *r) {
    wk_shown shown = {.luma_stride = r->width, .chroma_stride = r->across};
    uint8_t *cb = r->samples + r->luma;
    uint32_t status = wk_frame(handle, n, r->samples, r->luma, cb, r->chroma, cb + r->chroma, r->chroma, &shown);
    if (!status) return;
    if (status != WK_ROOM) fail("a frame is refused");
    r->width = shown.width;
    r->across = (shown.width + 1) / 2;
    r->luma = r->width * shown.height;
    r->chroma = r->across * ((shown.height + 1) / 2);
    r->samples = realloc(r->samples, r->luma + 2 * r->chroma);
    r->copy = realloc(r->copy, r->luma + 2 * r->chroma);
    if (!r->samples || !r->copy) fail("out of memory");
    frame(handle, n, r);
}

static void turn(const uint8_t *file, size_t size, double found[TIMES]) {
    wk_handle handle = {0};
    wk_fault fault = {0};
    room r = {0};
    char reply[64], line[64];
    unsigned long frames = 0;
    if (wk_open(&handle, file, size, &size, 1, 256, NULL, 0, &fault)) fail("the clip is not opened");
    ask(&handle, "count", reply);
    if (sscanf(reply, "packets %*u frames %lu", &frames) != 1 || !frames) fail("there are no frames");
    double start = now();
    for (unsigned long n = 0; n < frames; n++) frame(&handle, n, &r);
    found[3] = now() - start;
    start = now();
    for (int k = 0; k < CACHED; k++) frame(&handle, frames - 1, &r);
    found[0] = (now() - start) / CACHED;
    start = now();
    for (int k = 0; k < EDITS; k++) ask(&handle, "count", reply);
    found[1] = (now() - start) / EDITS;
    start = now();
    for (int k = 0; k < EDITS / 10; k++) {
        snprintf(line, sizeof line, "hold %lu", frames);
        ask(&handle, line, reply);
        snprintf(line, sizeof line, "delete %lu", frames);
        ask(&handle, line, reply);
    }
    found[2] = (now() - start) / (EDITS / 10);
    start = now();
    for (int k = 0; k < CACHED; k++) {
        memcpy(r.copy, r.samples, r.luma + 2 * r.chroma);
        __asm__ volatile("" : : "r"(r.copy) : "memory");
    }
    found[4] = (now() - start) / CACHED;
    wk_close(&handle);
    free(r.samples);
    free(r.copy);
}

static int by_value(const void *a, const void *b) {
    double x = *(const double *)a, y = *(const double *)b;
    return (x > y) - (x < y);
}

int main(int argc, char **argv) {
    int turns = argc > 2 ? atoi(argv[2]) : 5;
    if (argc < 2 || turns < 1 || turns > MOST_TURNS) fail("usage: library CLIP [TURNS]");
    static double found[MOST_TURNS][TIMES];
    size_t size = 0;
    uint8_t *file = read_file(argv[1], &size);
    for (int k = 0; k < turns; k++) turn(file, size, found[k]);
    printf("%-24s%12s   microseconds\n", "", "from C");
    for (int what = 0; what < TIMES; what++) {
        double one[MOST_TURNS];
        for (int k = 0; k < turns; k++) one[k] = found[k][what];
        qsort(one, (size_t)turns, sizeof *one, by_value);
        printf("%-24s%12.1f\n", NAMES[what], one[turns / 2]);
    }
    free(file);
    return 0;
}
