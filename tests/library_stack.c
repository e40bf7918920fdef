/* The stack that each call of the library takes: library_stack SIZE FILE. Each call is made on a stack of SIZE bytes that were painted, over a file that is
 * both sources. It prints, for each, how many bytes were written, and the call. Memory below the stack cannot be touched: a call that needs more ends the
 * program by a signal. */
#include <stdio.h>
#include <stdlib.h>
#include <string.h>
#include <sys/mman.h>
#include <ucontext.h>

#include "wokureti.h"

#define PAINT 0xA5
/* No call takes so much that it passes over all of it. */
#define GUARD (8u << 20)
#define ROOM (64u << 20)

static uint8_t *stack;
static size_t stack_size;
static ucontext_t here, there;

/* The call's arguments and results: the stack has the call only. */
static wk_handle clip;
static uint8_t *both, *room, tables[3012];
static size_t ends[2], length, table_size;
static wk_fault fault;
static wk_shown shown;
static wk_unexported unexported;
static uint32_t status;
static uint64_t number;
static const char *line;
static bool pads, restamps;

static void fail(const char *what, long value) {
    printf("%s (%ld)\n", what, value);
    exit(1);
}

static void opens(void) {
    status = wk_open(&clip, both, ends[1], ends, 2, 4, tables, table_size, &fault);
}

static void opens_bytes(void) {
    status = wk_open_bytes(&clip, both, ends[1], ends, 2, 64 << 20, tables, table_size, &fault);
}

static void frames(void) {
    shown.luma_stride = shown.chroma_stride = 4096;
    status = wk_frame(&clip, number, room, ROOM / 2, room + ROOM / 2, ROOM / 4, room + ROOM / 4 * 3, ROOM / 4, &shown);
}

static void asks(void) {
    status = wk_request(&clip, (const uint8_t *)line, strlen(line), &length);
}

static void explains(void) {
    status = wk_why(&clip, &length);
}

static void saves(void) {
    status = wk_save(&clip, pads, &length);
}

static void saves_source(void) {
    status = wk_save_source(&clip, (size_t)number, pads, restamps, &length);
}

static void exports(void) {
    status = wk_export(&clip, pads, &length, &unexported);
}

static void copies(void) {
    status = wk_text(&clip, room, ROOM, &length);
}

static void closes(void) {
    wk_close(&clip);
}

/* Makes a call on the painted stack, and prints what it took. */
static void on_stack(const char *name, void (*call)(void)) {
    memset(stack, PAINT, stack_size);
    if (getcontext(&there)) fail("no context", 0);
    there.uc_stack.ss_sp = stack;
    there.uc_stack.ss_size = stack_size;
    there.uc_link = &here;
    makecontext(&there, call, 0);
    if (swapcontext(&here, &there)) fail("the call was not made", 0);
    size_t left = 0;
    while (left < stack_size && stack[left] == PAINT) left++;
    printf("%zu %s\n", stack_size - left, name);
}

static void ask(const char *text) {
    char name[64];
    line = text;
    snprintf(name, sizeof name, "wk_request %.*s", (int)strcspn(text, " "), text);
    on_stack(name, asks);
    if (status) fail(text, (long)status);
    on_stack("wk_text", copies);
    if (status) fail("no text", (long)status);
    if (length > 7 && !memcmp(room, "refused", 7)) on_stack("wk_why", explains);
}

/* Frames in order and back; those after a key packet last. */
static void all_frames(uint64_t count) {
    for (number = 0; number < count; number++) on_stack("wk_frame", frames);
    for (number = count; number-- > 0;) on_stack("wk_frame", frames);
}

static void files(void) {
    for (int way = 0; way < 4; way++) {
        pads = way & 1, restamps = way & 2, number = way & 1;
        on_stack("wk_save", saves);
        on_stack("wk_save_source", saves_source);
        on_stack("wk_export", exports);
        on_stack("wk_text", copies);
    }
}

static void requests(void) {
    static const char *const lines[] = {
        "count", "stats", "script", "list 0 1000", "origins 0 1000", "check 0 1000", "packet 0", "header 0", "header 1", "macroblocks 0", "macroblocks 1",
        "macroblocks 3", "frame 3", "frame 0", "frame 5", "hide 1", "show 1", "use 1", "use 0", "hold 3", "frame 4", "delete 2", "frame 3", "copy 1 1 2",
        "move 4 1", "frame 5", "replace 3 -", "frame 3", "insert 3 7 11000a", "frame 4", "check 0 1000", "macroblocks 3", "list 0 1000", "blank 0 1920 1080",
        "frame 0", "delete 0", "script trim 0 1 9; source 1; fade 1 2 2 256 0; splice 3 1", "frame 3", "frame 9", "origins 0 1000",
        "script crop 0 0 0 1 1; trim 1 0 9; splice 1 1 2", "frame 1", "script crop 0 0 0 16383 16383", "frame 0", "script trim 7 0 1", "script -", "delete 99999",
        "frame 99999", "use 7", "what", "# nothing", "", "insert 0 0 1", "packet 18446744073709551616",
    };
    for (size_t k = 0; k < sizeof lines / sizeof *lines; k++) ask(lines[k]);
}

static void read_file(const char *path) {
    FILE *opened = fopen(path, "rb");
    if (!opened || fseek(opened, 0, SEEK_END)) fail("cannot open the file", 0);
    size_t size = (size_t)ftell(opened);
    rewind(opened);
    both = malloc(2 * size);
    if (!both || fread(both, 1, size, opened) != size) fail("cannot read the file", 0);
    fclose(opened);
    memcpy(both + size, both, size);
    ends[0] = size;
    ends[1] = 2 * size;
}

static void paint_stack(const char *size) {
    stack_size = strtoul(size, NULL, 10);
    uint8_t *whole = mmap(NULL, GUARD + stack_size, PROT_READ | PROT_WRITE, MAP_PRIVATE | MAP_ANONYMOUS, -1, 0);
    if (whole == MAP_FAILED || mprotect(whole, GUARD, PROT_NONE)) fail("no guarded stack", 0);
    stack = whole + GUARD;
}

int main(int argc, char **argv) {
    if (argc != 3) fail("usage: library_stack SIZE FILE", argc);
    setvbuf(stdout, NULL, _IOLBF, 0);
    paint_stack(argv[1]);
    read_file(argv[2]);
    room = malloc(ROOM);
    memset(tables, 128, sizeof tables);
    table_size = sizeof tables;
    on_stack("wk_open", opens);
    if (status) fail("tables", (long)status);
    on_stack("wk_frame", frames);
    table_size = 1;
    on_stack("wk_open", opens);
    if (status != WK_TABLES) fail("short tables", (long)status);
    table_size = 0;
    on_stack("wk_open_bytes", opens_bytes);
    if (status) fail("opening", (long)status);
    requests();
    files();
    on_stack("wk_close", closes);
    on_stack("wk_open", opens);
    if (status) fail("opening again", (long)status);
    all_frames(30);
    ask("script source 1; fade 0 0 30 256 0; splice 1 2");
    all_frames(40);
    ask("script -");
    files();
    on_stack("wk_close", closes);
    return 0;
}
