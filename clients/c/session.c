/* A session by the library: session OUT STATES SAVE EXPORT OPTIONS FILE.. answers the request lines of standard input as vp8serve does. Replies go to
 * standard output, the samples of frames to OUT, the packets of the first file to SAVE, and the frames of the script as packets to EXPORT; `-` leaves any
 * out. OPTIONS has p for padded packets, and r for new time stamps in SAVE. If the frames are not exported, a last line of standard error says
 * why: the status, frame, node, source and packet. For OUT each frame is asked for several times. Rooms have strides that are wider than their rows and a
 * byte after their end, and what a call must not write is looked at after each call. */
#include <stdio.h>
#include <stdlib.h>
#include <string.h>

#include "wokureti.h"

#define GUARD 0xA5

static void fail(const char *why) {
    fprintf(stderr, "session: %s\n", why);
    exit(1);
}

static void *room_of(size_t size) {
    void *room = malloc(size ? size : 1);
    if (!room) fail("out of memory");
    return room;
}

/* The rows of a plane in a room of the caller's. */
typedef struct {
    uint8_t *at;
    size_t width, height, stride, size;
} plane;

static plane plane_of(size_t width, size_t height, size_t gap) {
    plane made = {NULL, width, height, width + gap, 0};
    made.size = (height - 1) * made.stride + width;
    made.at = room_of(made.size + 1);
    memset(made.at, GUARD, made.size + 1);
    return made;
}

/* Writes the rows of a plane, and looks at the bytes between and after them. */
static void end_plane(plane *made, FILE *out) {
    for (size_t y = 0; y < made->height; y++) {
        uint8_t *row = made->at + y * made->stride;
        if (out && fwrite(row, 1, made->width, out) != made->width) fail("cannot write the frames");
        size_t gap = y + 1 < made->height ? made->stride - made->width : 1;
        for (size_t x = 0; x < gap; x++)
            if (row[made->width + x] != GUARD) fail("a byte between two rows was written");
    }
    free(made->at);
}

/* Asks for a frame whose line was answered, in rooms of no size first. */
static void frame(wk_handle *handle, uint64_t n, FILE *out) {
    wk_shown shown = {0};
    uint32_t status = wk_frame(handle, n, NULL, 0, NULL, 0, NULL, 0, &shown);
    if (status >= 16) return;
    if (status != WK_ROOM || !shown.width || !shown.height) fail("a frame without room has no size");
    size_t half_width = (shown.width + 1) / 2, half_height = (shown.height + 1) / 2;
    plane y = plane_of(shown.width, shown.height, n % 5), cb = plane_of(half_width, half_height, n % 3), cr = plane_of(half_width, half_height, n % 3);
    shown.luma_stride = y.stride;
    shown.chroma_stride = cb.stride;
    if (wk_frame(handle, n, y.at, y.size, cb.at, cb.size - 1, cr.at, cr.size, &shown) != WK_ROOM) fail("a room that is a byte too small");
    if (cb.at[0] != GUARD || y.at[0] != GUARD) fail("a frame without room was written");
    if (wk_frame(handle, n, y.at, y.size, cb.at, cb.size, cr.at, cr.size, &shown) != WK_OK) fail("a frame with room was not served");
    end_plane(&y, out);
    end_plane(&cb, out);
    end_plane(&cr, out);
}

/* Writes the text of the handle. */
static void write_text(wk_handle *handle, size_t length, FILE *out) {
    size_t copied = 0;
    uint8_t *text = room_of(length + 1);
    text[length] = GUARD;
    if (length && wk_text(handle, text, length - 1, &copied) != WK_ROOM) fail("a room that is a byte too small for a text");
    if (wk_text(handle, text, length, &copied) != WK_OK || copied != length) fail("a text was not copied");
    if (text[length] != GUARD) fail("a byte after a text was written");
    if (fwrite(text, 1, length, out) != length) fail("cannot write");
    free(text);
}

/* Saves the packets of the first file, and those of a source that is not there. */
static void save(wk_handle *handle, size_t sources, bool pads, bool restamps, FILE *out) {
    size_t length = 0, again = 0;
    if (wk_save_source(handle, sources, pads, restamps, &length) != WK_SOURCE) fail("a source that is not there was saved");
    for (size_t source = 0; source < sources; source++)
        if (wk_save_source(handle, source, !pads, !restamps, &length) != WK_OK || length < 32) fail("the packets of a source were not saved");
    if (wk_save_source(handle, 0, pads, restamps, &length) != WK_OK) fail("the packets were not saved");
    if (!restamps && (wk_save(handle, pads, &again) != WK_OK || again != length)) fail("the packets were not saved alike");
    write_text(handle, length, out);
}

/* Exports the frames of the script, or says why not: the text is as it was then. */
static void export(wk_handle *handle, bool pads, FILE *out) {
    size_t before = 0, length = 0;
    if (wk_request(handle, (const uint8_t *)"count", 5, &before) != WK_OK) fail("count was not answered");
    wk_unexported why = {0};
    uint32_t status = wk_export(handle, pads, &length, &why);
    if (status == WK_OK) {
        write_text(handle, length, out);
        return;
    }
    if (length != before) fail("the text changed, although nothing was exported");
    fprintf(stderr, "export %u %llu %llu %llu %llu\n", status, (unsigned long long)why.frame, (unsigned long long)why.node, (unsigned long long)why.source, (unsigned long long)why.packet);
}

static FILE *opened(const char *path) {
    if (!strcmp(path, "-")) return NULL;
    FILE *file = fopen(path, "wb");
    if (!file) fail("cannot create a file");
    return file;
}

int main(int argc, char **argv) {
    if (argc < 7) fail("usage: session OUT STATES SAVE EXPORT OPTIONS FILE..");
    FILE *out = opened(argv[1]), *saved = opened(argv[3]), *exported = opened(argv[4]);
    bool pads = strchr(argv[5], 'p'), restamps = strchr(argv[5], 'r');
    size_t count = (size_t)argc - 6, size = 0, ends[9] = {0}, length = 0;
    uint8_t *files = NULL;
    for (size_t k = 0; k < count && k < 9; k++) {
        FILE *file = fopen(argv[6 + k], "rb");
        if (!file) fail("cannot open a file");
        fseek(file, 0, SEEK_END);
        size_t more = (size_t)ftell(file);
        rewind(file);
        files = realloc(files, size + more + 1);
        if (!files || fread(files + size, 1, more, file) != more) fail("cannot read a file");
        fclose(file);
        ends[k] = size += more;
    }
    wk_handle handle = {0};
    wk_fault fault = {0};
    uint32_t status = wk_open(&handle, files, size, ends, count, (uint16_t)atoi(argv[2]), NULL, 0, &fault);
    /* Nothing is kept of the caller's memory. */
    memset(files, GUARD, size);
    free(files);
    if (status) {
        printf("opened %u source %llu cause %u\n", status, (unsigned long long)fault.source, fault.cause);
        if (handle.at) fail("a handle holds something after a refusal");
        return 3;
    }
    char *line = NULL;
    size_t held = 0;
    for (ssize_t got; (got = getline(&line, &held, stdin)) >= 0;) {
        /* A carriage return before the newline is not part of the line. */
        if (got && line[got - 1] == '\n') {
            got--;
            if (got && line[got - 1] == '\r') got--;
        }
        status = wk_request(&handle, (const uint8_t *)line, (size_t)got, &length);
        if (status) fail("a line was not answered");
        write_text(&handle, length, stdout);
        line[got] = 0;
        if (out && !strncmp(line, "frame ", 6)) frame(&handle, strtoull(line + 6, NULL, 10), out);
    }
    if (saved) {
        save(&handle, count, pads, restamps, saved);
        fclose(saved);
    }
    if (exported) {
        export(&handle, pads, exported);
        fclose(exported);
    }
    if (out) fclose(out);
    free(line);
    wk_close(&handle);
    wk_close(&handle);
    wk_shown shown = {0};
    wk_unexported why = {0};
    uint8_t byte = 0;
    if (handle.at || wk_request(&handle, (const uint8_t *)"count", 5, &length) != WK_CLOSED || wk_why(&handle, &length) != WK_CLOSED || wk_save(&handle, true, &length) != WK_CLOSED
        || wk_save_source(&handle, 0, false, false, &length) != WK_CLOSED || wk_export(&handle, false, &length, &why) != WK_CLOSED || wk_text(&handle, &byte, 1, &length) != WK_CLOSED
        || wk_frame(&handle, 0, &byte, 1, &byte, 1, &byte, 1, &shown) != WK_CLOSED)
        fail("a handle that was closed answers");
    return 0;
}
