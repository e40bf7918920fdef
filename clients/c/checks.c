/* Checks of the library that need C: checks growths|rooms|fuzz|threads|nulls|numbers FILE.
 *
 * growths  each request for memory of a fixed list of calls is refused in turn; the call says so, can be made again, and everything after it is
 *          as without the refusal. It is linked with the archive and --wrap=malloc,--wrap=realloc
 * rooms    frames in rooms of every size around the one that is needed, with strides around the width: each ends at a page that may not be touched
 * fuzz     a million lines of random words and bytes are answered
 * threads  two sessions in two threads serve the frames that one serves alone
 * numbers  each call has the numbers that the header names, and leaves what it says
 * nulls    a pointer that is NULL is a number, and nothing is done, unless its size is 0
 * It prints what is wrong and ends with 1, or prints nothing and ends with 0. */
#include <pthread.h>
#include <stdio.h>
#include <stdlib.h>
#include <string.h>
#include <sys/mman.h>
#include <unistd.h>

#include "wokureti.h"

void *__real_malloc(size_t size);
void *__real_realloc(void *at, size_t size);
void *__wrap_malloc(size_t size);
void *__wrap_realloc(void *at, size_t size);

/* How many requests for memory are granted before one is refused; below 0 all are. */
static _Thread_local long granted = -1;

static int is_refused(void) {
    if (granted < 0) return 0;
    return granted-- == 0;
}

void *__wrap_malloc(size_t size) {
    return is_refused() ? NULL : __real_malloc(size);
}

void *__wrap_realloc(void *at, size_t size) {
    return is_refused() ? NULL : __real_realloc(at, size);
}

static uint8_t *file;
static size_t file_size;

static void fail(const char *what, long number) {
    printf("%s (%ld)\n", what, number);
    exit(1);
}

/* A session's calls and the sum of what they gave. */
typedef struct {
    wk_handle handle;
    uint8_t *room;
    size_t room_size;
    uint64_t sum;
    long refused;
} run;

static const size_t ROOM = 3 * 1024 * 1024;

static void add(run *r, const uint8_t *bytes, size_t count) {
    for (size_t at = 0; at < count; at++) r->sum = (r->sum ^ bytes[at]) * 1099511628211u;
}

static uint32_t open_once(run *r) {
    wk_fault fault = {0};
    return wk_open(&r->handle, file, file_size, &file_size, 1, 4, NULL, 0, &fault);
}

static void open_run(run *r) {
    uint32_t status = open_once(r);
    if (status) {
        if (r->handle.at) fail("a handle holds something after a refusal", status);
        if (status != WK_MEMORY && status != WK_FILE) fail("opening has another status", status);
        r->refused++;
        if (open_once(r)) fail("opening again fails", 0);
    }
}

/* The reply to a line, which is asked again if memory was refused. */
static void ask(run *r, const char *line) {
    for (int turn = 0; turn < 2; turn++) {
        size_t length = 0, copied = 0;
        uint32_t status = wk_request(&r->handle, (const uint8_t *)line, strlen(line), &length);
        if (status == WK_OK && (length > r->room_size || wk_text(&r->handle, r->room, r->room_size, &copied) || copied != length)) fail("no text", (long)length);
        if (status == WK_OK && !(length >= 16 && !memcmp(r->room, "refused NoMemory", 16))) {
            add(r, r->room, length);
            return;
        }
        if (status != WK_OK && status != WK_MEMORY) fail("a line has another status", status);
        r->refused++;
    }
    fail("a line is refused again", 0);
}

static void frame(run *r, uint64_t n) {
    for (int turn = 0; turn < 2; turn++) {
        wk_shown shown = {.luma_stride = 1024, .chroma_stride = 512};
        size_t half = r->room_size / 4;
        uint32_t status = wk_frame(&r->handle, n, r->room, 2 * half, r->room + 2 * half, half, r->room + 3 * half, half, &shown);
        if (status == WK_OK) {
            for (size_t y = 0; y < shown.height; y++) add(r, r->room + y * 1024, shown.width);
            for (size_t y = 0; y < (shown.height + 1) / 2; y++) {
                add(r, r->room + 2 * half + y * 512, (shown.width + 1) / 2);
                add(r, r->room + 3 * half + y * 512, (shown.width + 1) / 2);
            }
            return;
        }
        if (status != WK_NO_MEMORY) {
            add(r, (const uint8_t *)&status, sizeof status);
            return;
        }
        r->refused++;
    }
    fail("a frame is refused again", (long)n);
}

/* What makes a file, as a number: of source 0, of source 0 with new time stamps, or of the frames. */
static uint32_t make(run *r, int what, size_t *length) {
    wk_unexported why = {0};
    if (what == 0) return wk_save(&r->handle, true, length);
    return what == 1 ? wk_save_source(&r->handle, 0, true, true, length) : wk_export(&r->handle, true, length, &why);
}

static void file_of(run *r, int what) {
    for (int turn = 0; turn < 2; turn++) {
        size_t length = 0, copied = 0;
        uint32_t status = make(r, what, &length);
        if (status == WK_OK) {
            if (length > r->room_size || wk_text(&r->handle, r->room, r->room_size, &copied)) fail("no file", (long)length);
            add(r, r->room, length);
            return;
        }
        if (status != WK_MEMORY && status != WK_NO_MEMORY) fail("a file has another status", status);
        r->refused++;
    }
    fail("a file is refused again", what);
}

/* Why a line is refused, without its number, which is another one if the line is asked again. */
static void why(run *r) {
    static const char line[] = "delete 99999";
    for (int turn = 0; turn < 2; turn++, r->refused++) {
        size_t length = 0, copied = 0;
        uint32_t status = wk_request(&r->handle, (const uint8_t *)line, sizeof line - 1, &length);
        if (status == WK_OK) status = wk_why(&r->handle, &length);
        if (status != WK_OK && status != WK_MEMORY) fail("a reason has another status", status);
        /* There is no text if there was no memory to keep the line. */
        if (status != WK_OK || !length) continue;
        if (length > r->room_size || wk_text(&r->handle, r->room, r->room_size, &copied)) fail("no reason", (long)length);
        uint8_t *colon = memchr(r->room, ':', length);
        if (!colon) fail("a reason without a number", (long)length);
        add(r, colon, length - (size_t)(colon - r->room));
        return;
    }
    fail("a reason is refused again", 0);
}

static void calls(run *r) {
    static const char *lines[] = {"hold 3", "delete 2", "blank 1 64 48", "copy 0 5 2", "move 4 1", "insert 3 7 1100", "replace 3 -", "script trim 0 1 9; fade 1 0 4 256 0", "script -", "count"};
    open_run(r);
    for (uint64_t n = 0; n < 6; n++) frame(r, n);
    for (size_t k = 0; k < sizeof lines / sizeof *lines; k++) {
        ask(r, lines[k]);
        frame(r, k % 7);
    }
    why(r);
    for (int what = 0; what < 3; what++) file_of(r, what);
    wk_close(&r->handle);
}

static uint64_t sum_of(long grants, long *refused) {
    run r = {.room = __real_malloc(ROOM), .room_size = ROOM, .sum = 14695981039346656037u};
    granted = grants;
    calls(&r);
    granted = -1;
    free(r.room);
    *refused = r.refused;
    return r.sum;
}

static void growths(void) {
    long refused = 0;
    uint64_t wanted = sum_of(-1, &refused);
    if (refused) fail("memory was refused without reason", refused);
    for (long grants = 0;; grants++) {
        uint64_t sum = sum_of(grants, &refused);
        if (sum != wanted) fail("another result after a request for memory was refused", grants);
        if (!refused) {
            if (grants < 100) fail("too few requests for memory", grants);
            return;
        }
    }
}

/* Memory that ends at a page that may not be touched. */
typedef struct {
    uint8_t *whole, *end;
    size_t size;
} guarded;

static guarded guarded_of(size_t most) {
    size_t page = (size_t)sysconf(_SC_PAGESIZE), size = (most + page - 1) / page * page;
    guarded made = {mmap(NULL, size + page, PROT_READ | PROT_WRITE, MAP_PRIVATE | MAP_ANONYMOUS, -1, 0), NULL, size + page};
    if (made.whole == MAP_FAILED || mprotect(made.whole + size, page, PROT_NONE)) fail("no guarded memory", 0);
    made.end = made.whole + size;
    return made;
}

/* The room that a plane needs, or a number that no room has if its rows would overlap. */
static size_t needed(size_t width, size_t height, size_t stride) {
    return stride < width ? SIZE_MAX : (height - 1) * stride + width;
}

/* A frame in rooms that are this much larger than needed, or smaller; one plane's alone if it is named. Its samples are those of `wanted`. */
static void fit(run *r, guarded rooms[3], const wk_shown *size, size_t gaps[2], int plane, long more, uint8_t *const wanted[3]) {
    wk_shown shown = {.luma_stride = size->width + gaps[0], .chroma_stride = (size->width + 1) / 2 + gaps[1]};
    size_t widths[3] = {size->width, (size->width + 1) / 2, (size->width + 1) / 2}, heights[3] = {size->height, (size->height + 1) / 2, (size->height + 1) / 2}, sizes[3];
    bool fits = true;
    for (int k = 0; k < 3; k++) {
        size_t stride = k ? shown.chroma_stride : shown.luma_stride, need = needed(widths[k], heights[k], stride);
        /* With strides under the width no room is large enough. */
        sizes[k] = need == SIZE_MAX ? widths[k] * heights[k] : (size_t)((long)need + (k == plane ? more : 0));
        fits = fits && sizes[k] >= need;
        memset(rooms[k].whole, 0xA5, (size_t)(rooms[k].end - rooms[k].whole));
    }
    uint8_t *at[3] = {rooms[0].end - sizes[0], rooms[1].end - sizes[1], rooms[2].end - sizes[2]};
    uint32_t status = wk_frame(&r->handle, 3, at[0], sizes[0], at[1], sizes[1], at[2], sizes[2], &shown);
    if (status != (fits ? WK_OK : WK_ROOM)) fail("a room has another status", (long)status);
    if (shown.width != size->width || shown.height != size->height) fail("another size", shown.width);
    for (int k = 0; k < 3; k++) {
        size_t stride = k ? shown.chroma_stride : shown.luma_stride;
        if (at[k] > rooms[k].whole && at[k][-1] != 0xA5) fail("a byte before a room was written", k);
        for (size_t i = 0; i < sizes[k]; i++) {
            bool is_sample = fits && i / stride < heights[k] && i % stride < widths[k];
            if (at[k][i] != (is_sample ? wanted[k][i / stride * widths[k] + i % stride] : 0xA5)) fail("another byte in a room", (long)i);
        }
    }
}

static void rooms(void) {
    run r = {.room = NULL};
    open_run(&r);
    wk_shown size = {0};
    if (wk_frame(&r.handle, 3, NULL, 0, NULL, 0, NULL, 0, &size) != WK_ROOM) fail("a frame without room", 0);
    size_t half = (size.width + 1) / 2, low = (size.height + 1) / 2;
    uint8_t *wanted[3] = {__real_malloc(size.width * size.height), __real_malloc(half * low), __real_malloc(half * low)};
    wk_shown shown = {.luma_stride = size.width, .chroma_stride = half};
    if (wk_frame(&r.handle, 3, wanted[0], size.width * size.height, wanted[1], half * low, wanted[2], half * low, &shown) != WK_OK) fail("a frame with room", 0);
    guarded made[3];
    for (int k = 0; k < 3; k++) made[k] = guarded_of((size.width + 8) * (size_t)size.height + 8);
    static const size_t gaps[] = {(size_t)-1, (size_t)-2, 0, 1, 2, 3, 5};
    for (size_t luma = 0; luma < sizeof gaps / sizeof *gaps; luma++)
        for (size_t chroma = 0; chroma < sizeof gaps / sizeof *gaps; chroma++)
            for (int plane = 0; plane < 3; plane++)
                for (long more = -4; more <= 4; more++) {
                    size_t pair[2] = {gaps[luma], gaps[chroma]};
                    fit(&r, made, &size, pair, plane, more, wanted);
                }
    /* Strides whose product with the rows does not fit. */
    shown.luma_stride = SIZE_MAX;
    if (wk_frame(&r.handle, 3, wanted[0], size.width * size.height, wanted[1], half * low, wanted[2], half * low, &shown) != WK_ROOM) fail("a stride without end", 0);
    for (int k = 0; k < 3; k++) {
        munmap(made[k].whole, made[k].size);
        free(wanted[k]);
    }
    wk_close(&r.handle);
}

static void fuzz(void) {
    static const char *words[] = {"frame", "insert", "replace", "delete", "move", "copy", "blank", "hold", "use", "script", "count", "stats", "trim", "splice", "parts", "crop", "fade", "source",
                                  ";", "-", "0", "1", "7", "16", "99", "18446744073709551615", "1100", "a0", "#", "x", ""};
    run r = {.room = __real_malloc(ROOM), .room_size = ROOM};
    uint64_t state = 75;
    open_run(&r);
    for (long number = 0; number < 1000000; number++) {
        char line[256];
        size_t size = 0, length = 0, copied = 0;
        for (int left = 1 + (int)(number % 7); left && size < 200; left--) {
            state = state * 6364136223846793005u + 1442695040888963407u;
            uint32_t pick = (uint32_t)(state >> 33);
            if (pick % 50 == 0) line[size++] = (char)(pick >> 8);
            else size += (size_t)sprintf(line + size, "%s%s", words[pick / 64 % (sizeof words / sizeof *words)], pick & 1 ? " " : "  ");
        }
        if (wk_request(&r.handle, (const uint8_t *)line, size, &length)) fail("a line was not answered", number);
        if (length > r.room_size || wk_text(&r.handle, r.room, r.room_size, &copied) || copied != length) fail("no text", number);
        if (length && r.room[length - 1] != '\n') fail("a reply has no end", number);
        if (number % 1000 == 999) {
            wk_close(&r.handle);
            open_run(&r);
        }
    }
    wk_close(&r.handle);
    free(r.room);
}

static void *alone(void *sum) {
    long refused = 0;
    *(uint64_t *)sum = sum_of(-1, &refused);
    return NULL;
}

static void threads(void) {
    pthread_t started[4];
    uint64_t sums[5];
    for (int k = 0; k < 4; k++)
        if (pthread_create(&started[k], NULL, alone, &sums[k])) fail("no thread", k);
    for (int k = 0; k < 4; k++) pthread_join(started[k], NULL);
    alone(&sums[4]);
    for (int k = 0; k < 4; k++)
        if (sums[k] != sums[4]) fail("another result in a thread", k);
}

static void expect(const char *what, uint32_t found, uint32_t wanted) {
    if (found != wanted) fail(what, (long)found);
}

/* Parts of size 0 at NULL are parts like others. The text of the session stays. */
static void empty_parts(wk_handle *at, size_t text) {
    wk_handle other = {0};
    wk_fault fault = {7, 7};
    wk_shown shown = {0};
    size_t none = 0, length = 0;
    expect("no files", wk_open(&other, NULL, 0, NULL, 0, 4, NULL, 0, &fault), WK_ARGUMENT);
    expect("a file without bytes", wk_open_bytes(&other, NULL, 0, &none, 1, 4, NULL, 0, &fault), WK_FILE);
    if (fault.source || fault.cause != WK_FILE_HEADER) fail("another fault", (long)fault.cause);
    expect("a frame without room", wk_frame(at, 0, NULL, 0, NULL, 0, NULL, 0, &shown), WK_ROOM);
    expect("a text without room", wk_text(at, NULL, 0, &length), WK_ROOM);
    if (!shown.width || length != text) fail("another size", (long)length);
}

/* Each call with each pointer that may not be NULL as NULL. The session, its text and the results are as before. */
static void nulls(void) {
    run r = {.room = __real_malloc(ROOM), .room_size = ROOM};
    size_t length = 0, kept = 0;
    wk_shown shown = {0};
    wk_fault fault = {7, 7};
    wk_unexported why = {7, 7, 7, 7};
    wk_handle *at = &r.handle, *none = NULL;
    const uint8_t *line = (const uint8_t *)"delete 1";
    open_run(&r);
    if (wk_request(at, (const uint8_t *)"count", 5, &length) != WK_OK || !length) fail("no count", 0);
    uint32_t found[] = {
        wk_open(none, file, file_size, &file_size, 1, 4, NULL, 0, &fault), wk_open(at, file, file_size, &file_size, 1, 4, NULL, 0, NULL),
        wk_open(at, NULL, file_size, &file_size, 1, 4, NULL, 0, &fault), wk_open(at, file, file_size, NULL, 1, 4, NULL, 0, &fault),
        wk_open(at, file, file_size, &file_size, 1, 4, NULL, 3012, &fault),
        wk_open_bytes(none, file, file_size, &file_size, 1, 4, NULL, 0, &fault), wk_open_bytes(at, file, file_size, &file_size, 1, 4, NULL, 0, NULL),
        wk_open_bytes(at, NULL, file_size, &file_size, 1, 4, NULL, 0, &fault), wk_open_bytes(at, file, file_size, NULL, 1, 4, NULL, 0, &fault),
        wk_open_bytes(at, file, file_size, &file_size, 1, 4, NULL, 3012, &fault),
        wk_frame(none, 0, NULL, 0, NULL, 0, NULL, 0, &shown), wk_frame(at, 0, NULL, 0, NULL, 0, NULL, 0, NULL), wk_frame(at, 0, NULL, 1, NULL, 0, NULL, 0, &shown),
        wk_frame(at, 0, NULL, 0, NULL, 1, NULL, 0, &shown), wk_frame(at, 0, NULL, 0, NULL, 0, NULL, 1, &shown),
        wk_request(none, line, 8, &kept), wk_request(at, line, 8, NULL), wk_request(at, NULL, 8, &kept), wk_why(none, &kept), wk_why(at, NULL),
        wk_save(none, true, &kept), wk_save(at, true, NULL), wk_save_source(none, 0, true, true, &kept), wk_save_source(at, 0, true, true, NULL),
        wk_export(none, true, &kept, &why), wk_export(at, true, NULL, &why), wk_export(at, true, &kept, NULL),
        wk_text(none, r.room, r.room_size, &kept), wk_text(at, r.room, r.room_size, NULL), wk_text(at, NULL, r.room_size, &kept),
    };
    for (size_t k = 0; k < sizeof found / sizeof *found; k++)
        if (found[k] != WK_ARGUMENT) fail("NULL has another number", (long)k);
    wk_close(none);
    if (kept || fault.source != 7 || why.frame != 7 || shown.width) fail("a result was written", (long)kept);
    empty_parts(at, length);
    if (wk_text(at, r.room, r.room_size, &kept) || kept != length || memcmp(r.room, "packets ", 8)) fail("another text", (long)kept);
    size_t again = 0;
    if (wk_request(at, (const uint8_t *)"count", 5, &again) || again != length) fail("another count", (long)again);
    wk_close(at);
    free(r.room);
}

/* The numbers of opening: the handle holds nothing afterwards. */
static void opening(run *r) {
    static const uint8_t none[40] = "not a file of packets, but long enough";
    size_t nine[9] = {0}, back[2] = {file_size, 10}, far = file_size + 1, whole = sizeof none;
    wk_fault fault = {7, 7};
    wk_handle *at = &r->handle;
    for (int k = 0; k < 9; k++) nine[k] = file_size;
    open_run(r);
    expect("no file", wk_open(at, file, file_size, nine, 0, 4, NULL, 0, &fault), WK_ARGUMENT);
    if (at->at) fail("a session is left", 0);
    expect("nine files", wk_open(at, file, file_size, nine, 9, 4, NULL, 0, &fault), WK_ARGUMENT);
    expect("no state", wk_open(at, file, file_size, nine, 1, 0, NULL, 0, &fault), WK_ARGUMENT);
    expect("too many states", wk_open(at, file, file_size, nine, 1, 4097, NULL, 0, &fault), WK_ARGUMENT);
    expect("an end before the one before it", wk_open(at, file, file_size, back, 2, 4, NULL, 0, &fault), WK_ARGUMENT);
    expect("an end past the end", wk_open_bytes(at, file, file_size, &far, 1, 1 << 20, NULL, 0, &fault), WK_ARGUMENT);
    expect("short tables", wk_open(at, file, file_size, nine, 1, 4, none, 1, &fault), WK_TABLES);
    if (at->at || fault.source != 7 || fault.cause != 7) fail("a fault without a file", (long)fault.cause);
    expect("no file of packets", wk_open_bytes(at, none, sizeof none, &whole, 1, 1 << 20, NULL, 0, &fault), WK_FILE);
    if (at->at || fault.source != 0 || fault.cause != WK_FILE_MAGIC) fail("another fault", (long)fault.cause);
}

/* The numbers of a handle that holds nothing: no result is written. */
static void closed(run *r) {
    size_t length = 7;
    wk_shown shown = {.luma_stride = 7};
    wk_unexported why = {7, 7, 7, 7};
    wk_handle *at = &r->handle;
    wk_close(at);
    uint32_t found[] = {wk_frame(at, 0, NULL, 0, NULL, 0, NULL, 0, &shown), wk_request(at, NULL, 0, &length), wk_why(at, &length), wk_save(at, false, &length),
                        wk_save_source(at, 0, false, false, &length), wk_export(at, false, &length, &why), wk_text(at, r->room, r->room_size, &length)};
    for (size_t k = 0; k < sizeof found / sizeof *found; k++) expect("a closed handle", found[k], WK_CLOSED);
    if (length != 7 || shown.width || why.frame != 7) fail("a result of a closed handle", (long)length);
}

/* A frame that is refused with this number: its strides stay, and only a packet that decoding refuses is reported. */
static void refused(run *r, uint64_t n, uint32_t number, uint64_t packet) {
    wk_shown shown = {.luma_stride = 1024, .chroma_stride = 512, .width = 3, .height = 5, .source = 8, .packet = 9};
    expect("a frame", wk_frame(&r->handle, n, r->room, r->room_size / 2, r->room, r->room_size / 4, r->room, r->room_size / 4, &shown), number);
    if (shown.luma_stride != 1024 || shown.chroma_stride != 512 || shown.width != 3 || shown.height != 5) fail("a refused frame has a size", (long)n);
    if (shown.source != (number == WK_PACKET ? 0 : 8) || shown.packet != (number == WK_PACKET ? packet : 9)) fail("another packet", (long)shown.packet);
}

/* An export that fails with this number, frame, node and packet: the text stays. */
static void unexported(run *r, uint32_t number, uint64_t frame, uint64_t node, uint64_t packet) {
    wk_unexported why = {7, 7, 7, 7};
    size_t before = 0, length = 0, copied = 0;
    wk_request(&r->handle, (const uint8_t *)"count", 5, &before);
    expect("an export", wk_export(&r->handle, false, &length, &why), number);
    if (why.frame != frame || why.node != node || why.packet != packet) fail("another reason", (long)why.frame);
    if (length != before || wk_text(&r->handle, r->room, r->room_size, &copied) || copied != before || memcmp(r->room, "packets", 7)) fail("the text changed", (long)length);
}

static void numbers(void) {
    run r = {.room = __real_malloc(ROOM), .room_size = ROOM};
    size_t length = 0;
    opening(&r);
    closed(&r);
    open_run(&r);
    refused(&r, 1 << 20, WK_NO_SUCH_FRAME, 0);
    refused(&r, UINT64_MAX, WK_NO_SUCH_FRAME, 0);
    ask(&r, "script crop 0 0 0 16383 16383");
    refused(&r, 0, WK_CROP_OUTSIDE, 0);
    unexported(&r, WK_CROP_OUTSIDE, 0, 7, 7);
    ask(&r, "script fade 0 2 3 256 0");
    unexported(&r, WK_CHANGED, 3, 1, 7);
    ask(&r, "script -");
    frame(&r, 0);
    ask(&r, "script crop 0 0 0 2 2");
    refused(&r, 0, WK_SIZE_DIFFERS, 0);
    ask(&r, "script -");
    ask(&r, "replace 3 1100");
    refused(&r, 3, WK_PACKET, 3);
    refused(&r, 5, WK_PACKET, 3);
    unexported(&r, WK_PACKET, 3, 7, 3);
    expect("no source", wk_save_source(&r.handle, 1, false, false, &length), WK_SOURCE);
    expect("a refused line", wk_request(&r.handle, (const uint8_t *)"delete 99999", 12, &length), WK_OK);
    size_t told = 0;
    memset(r.room, 0xA5, 64);
    expect("a text without room", wk_text(&r.handle, r.room, length - 1, &told), WK_ROOM);
    if (told != length || r.room[0] != 0xA5) fail("a text without room was written", (long)told);
    wk_close(&r.handle);
    free(r.room);
}

int main(int argc, char **argv) {
    if (argc != 3) fail("usage: checks growths|rooms|fuzz|threads|nulls|numbers FILE", argc);
    FILE *opened = fopen(argv[2], "rb");
    if (!opened) fail("cannot open the file", 0);
    fseek(opened, 0, SEEK_END);
    file_size = (size_t)ftell(opened);
    rewind(opened);
    file = __real_malloc(file_size);
    if (fread(file, 1, file_size, opened) != file_size) fail("cannot read the file", 0);
    fclose(opened);
    if (!strcmp(argv[1], "growths")) growths();
    else if (!strcmp(argv[1], "rooms")) rooms();
    else if (!strcmp(argv[1], "fuzz")) fuzz();
    else if (!strcmp(argv[1], "nulls")) nulls();
    else if (!strcmp(argv[1], "numbers")) numbers();
    else threads();
    free(file);
    return 0;
}
