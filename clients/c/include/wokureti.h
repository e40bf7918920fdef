/* libwokureti: an edited VP8 stream in the program that opens it.
 *
 * A session is held by a handle. Frames of its current script come as three planes, requests as the lines that `vp8serve --live`
 * takes (docs/reference/requests.md), the current packets as an IVF file, and the frames of the script as one, without coding again:
 *
 *     wk_handle clip = {0};
 *     wk_fault fault = {0};
 *     size_t end = size;
 *     if (wk_open(&clip, file, size, &end, 1, 64, NULL, 0, &fault)) return 1;
 *     wk_shown shown = {.luma_stride = 640, .chroma_stride = 320};
 *     static uint8_t y[640 * 360], cb[320 * 180], cr[320 * 180];
 *     uint32_t status = wk_frame(&clip, 12, y, sizeof y, cb, sizeof cb, cr, sizeof cr, &shown);
 *     size_t length;
 *     char reply[4096];
 *     if (!wk_request(&clip, (const uint8_t *)"delete 3", 8, &length) && length <= sizeof reply)
 *         wk_text(&clip, (uint8_t *)reply, sizeof reply, &length);     // "ok 299\n"
 *     wk_close(&clip);
 *
 * The caller's part, which nothing checks:
 * - A handle begins as {0}. It is not copied, written or moved while it holds a session, and each call on it, wk_close too, is
 *   made on the thread that opened it. Two handles have nothing in common: two threads may have one each.
 * - A pointer and its size describe memory of the caller's that is there and that nobody else writes during the call. Two parts
 *   that a call writes do not overlap. A size of 0 may have the pointer NULL, and no other size may.
 * - The library does not look for NULL. In C and C++ this header does: a pointer that is NULL is WK_ARGUMENT, and nothing is done, unless its size is 0.
 *   Programs in other languages, which call the library by its symbols, pass none.
 * - No call is made from a signal handler, nor in the child of a fork of a program with several threads.
 * - malloc, realloc and free are the C library's or behave as those do. WK_STACK bytes of stack are left.
 *
 * Nothing is kept of the caller's memory after a call. Out of memory is a number, and never ends the program.
 *
 * Versions. A program that was compiled with this header runs with this library and each later one of the same major version, which is in the name
 * of the library (libwokureti.so.0): later versions add calls and numbers, and change no call, number or struct. An earlier one may lack calls: each
 * says the last version without it.
 */
#ifndef WOKURETI_H
#define WOKURETI_H

#include <stdbool.h>
#include <stddef.h>
#include <stdint.h>

#ifdef __cplusplus
extern "C" {
#endif

/* The version of this header: 0.16.0. A call that comes with 0.17.0 can be asked for by `#if WK_VERSION >= 1700`. */
#define WK_VERSION_MAJOR 0
#define WK_VERSION_MINOR 16
#define WK_VERSION_PATCH 0
#define WK_VERSION (10000 * WK_VERSION_MAJOR + 100 * WK_VERSION_MINOR + WK_VERSION_PATCH)

/* Bytes of stack that each call has enough with. The request `frame` takes the most, 112 KB of them. */
#define WK_STACK (128 * 1024)

/* A handle: {0} holds nothing. */
typedef struct {
    void *at;
} wk_handle;

/* A frame: the strides of the caller's rooms in bytes, before the call, and after it the size of the frame in luma samples. A chroma
 * plane has half of each side, rounded up. Where the status is WK_PACKET, the source and packet that decoding refuses. */
typedef struct {
    size_t luma_stride, chroma_stride;
    uint32_t width, height;
    uint64_t source, packet;
} wk_shown;

/* The file that wk_open refuses, counted from 0, and why: a number of WK_FILE_. */
typedef struct {
    uint64_t source;
    uint32_t cause;
} wk_fault;

/* The first frame that wk_export cannot write, counted from 0. With WK_CHANGED the number of the first node of the script that changes
 * samples of it, counted from 1. With WK_PACKET the source and packet that decoding refuses. */
typedef struct {
    uint64_t frame, node, source, packet;
} wk_unexported;

/* What a call returns. Each call names the numbers that it has besides WK_OK. With WK_CLOSED, WK_MEMORY and the refusals of a call nothing changed and
 * no result was written, where the call does not say otherwise. */
enum {
    WK_OK = 0,
    WK_ARGUMENT = 1, /* a number is outside its range, or a pointer is NULL */
    WK_FILE = 2,     /* the bytes of a source are no IVF, WebM or Matroska file of VP8, or there is no memory for its packets: see wk_fault */
    WK_MEMORY = 3,   /* out of memory; of a frame it is WK_NO_MEMORY */
    WK_CLOSED = 4,   /* the handle holds nothing */
    WK_ROOM = 5,     /* too little room; the size that is needed is reported, and no byte of the room is written */
    WK_TABLES = 6,   /* the tables do not have 3,012 bytes */
    WK_LOST = 7,     /* out of memory for a reply; the line may have been answered, and the text is the one before */
    /* refusals, as the words of replies; no number from 8 to 15 is used */
    WK_LINE = 16, WK_SOURCE, WK_PLACE, WK_FULL, WK_SPENT, WK_SIZE, WK_TOO_LARGE, WK_NO_SUCH_FRAME, WK_PACKET, WK_CROP_OUTSIDE,
    WK_SIZE_DIFFERS, WK_SYNTAX, WK_NODES, WK_REFERENCE, WK_NUMBER, WK_NO_MEMORY, WK_NO_BIT,
    /* errors of wk_export: the script changes samples of a frame; the last four are about packets and not about a frame */
    WK_CHANGED = 33,
    WK_EXPORT_PLACE = 34,    /* a frame has no packet */
    WK_EXPORT_FULL = 35,     /* more than 1,048,576 packets, or more than 1,073,741,824 bytes */
    WK_EXPORT_SIZE = 36,     /* no packet repeats a frame of this size */
    WK_EXPORT_TOO_LARGE = 37 /* a packet that repeats a frame would be too large */
};

/* Why a file is refused. FOURCC and HEADER_LENGTH are of IVF files, the last five of files that begin with EBML's mark, 1A 45 DF A3: neither WebM nor
 * Matroska; no list of tracks; no track of VP8; packets that are compressed or encrypted once more; a unit of time of 0, or of 2^32 ns or more. */
enum {
    WK_FILE_HEADER = 1, WK_FILE_MAGIC, WK_FILE_FOURCC, WK_FILE_HEADER_LENGTH, WK_FILE_TOO_MANY, WK_FILE_NO_MEMORY,
    WK_FILE_DOC_TYPE, WK_FILE_NO_TRACKS, WK_FILE_NO_VIDEO, WK_FILE_ENCODED, WK_FILE_SCALE
};

/* The version of the library that runs: 1600 is 0.16.0, and 10203 is 1.2.3. It is WK_VERSION if the library is of this header. */
uint32_t wk_version(void);

/* Opens a session over `sources` IVF, WebM or Matroska files, 1 to 8, which lie one after the other in `files`, each up to its end in `ends`. At most
 * `states` decoded states are cached, 1 to 4,096. `tables` of size 0 are those of RFC 6386. What the handle held is ended first.
 * WK_ARGUMENT, WK_TABLES, WK_FILE with `fault`, WK_MEMORY: the handle holds nothing then. */
uint32_t wk_open(wk_handle *handle, const uint8_t *files, size_t size, const size_t *ends, size_t sources, uint16_t states,
                 const uint8_t *tables, size_t table_size, wk_fault *fault);

/* Opens a session as wk_open does, with a limit in bytes: the pictures of the cached states, four for each, take at most `bytes`, or are those of
 * the newest state alone. At most 4,096 states are cached. The numbers are those of wk_open. (Not in 0.12.0.) */
uint32_t wk_open_bytes(wk_handle *handle, const uint8_t *files, size_t size, const size_t *ends, size_t sources, uint64_t bytes,
                       const uint8_t *tables, size_t table_size, wk_fault *fault);

/* Ends the session of a handle, if it holds one. */
void wk_close(wk_handle *handle);

/* Frame n of the current script, counted from 0, into three rooms. With WK_ROOM nothing is written to them, and `shown` has the size.
 * Like the request `frame`, the first frame that is served fixes the size of the stream; one for which there is no room does too.
 * WK_CLOSED, WK_ROOM, WK_NO_SUCH_FRAME, WK_PACKET with source and packet in `shown`, WK_CROP_OUTSIDE, WK_SIZE_DIFFERS, WK_NO_MEMORY. Other states may be
 * cached after each. The strides in `shown`, and the bytes of the rooms between and after the rows, stay as they are. */
uint32_t wk_frame(wk_handle *handle, uint64_t n, uint8_t *y, size_t y_size, uint8_t *cb, size_t cb_size, uint8_t *cr, size_t cr_size,
                  wk_shown *shown);

/* Answers a request line, without its newline, and without a carriage return before that. The reply is the text of the handle
 * afterwards, and `length` its length: nothing for an empty line or a comment, and all lines of a reply that begins with `lines`, each with
 * its newline. The bytes of a frame go nowhere. A line that is refused is WK_OK too: its text begins with `refused`.
 * WK_CLOSED; WK_MEMORY, with which the line was not looked at; WK_LOST. With the last two the text stays, and `length` is its length. */
uint32_t wk_request(wk_handle *handle, const uint8_t *line, size_t size, size_t *length);

/* Writes why the last line was refused, as `vp8serve --explain` does, which is the text of the handle afterwards. Its length is 0 if the line was
 * answered otherwise, or if there was no memory to keep it. WK_CLOSED; WK_MEMORY, with which the text stays, and `length` is its length. */
uint32_t wk_why(wk_handle *handle, size_t *length);

/* Makes the IVF file of the current packets of source 0, which is the text of the handle afterwards. With `pads` a byte 00 is
 * added to each packet whose last token partition is empty (players that use libvpx show it then). WK_CLOSED, WK_MEMORY as of wk_why. */
uint32_t wk_save(wk_handle *handle, bool pads, size_t *length);

/* Makes the IVF file of the current packets of a source, counted from 0, which is the text of the handle afterwards. With `pads` as wk_save. With
 * `restamps` the packets get new time stamps, without the gaps and jumps of edits: each shown packet stays as long as in its file. The file has
 * the rate and scale of the source's own file. WK_SOURCE if there is no such source; WK_CLOSED, WK_MEMORY as of wk_why. (Not in 0.11.0.) */
uint32_t wk_save_source(wk_handle *handle, size_t source, bool pads, bool restamps, size_t *length);

/* Makes the IVF file of the frames of the current script, which is the text of the handle afterwards: as `vp8serve --export` writes it, without
 * coding again and without decoding. Decoding it gives exactly these frames. A byte 00 is added to each packet whose last token partition is empty,
 * whatever `pads` is. A frame that is refused, or that a crop or a fade changes, cannot be written: its number is in `unexported`, with the number of its
 * refusal as the status, or WK_CHANGED. Nothing but the text changes, and not the text either then; `length` is its length.
 * WK_CLOSED, WK_MEMORY; of a frame WK_PACKET, WK_CROP_OUTSIDE, WK_CHANGED; of all WK_EXPORT_FULL, WK_EXPORT_SIZE, WK_EXPORT_TOO_LARGE. (Not in 0.11.0.) */
uint32_t wk_export(wk_handle *handle, bool pads, size_t *length, wk_unexported *unexported);

/* Copies the text of the handle to the front of a room. With WK_ROOM nothing is written, and `length` is the length of the text. WK_CLOSED, WK_ROOM. */
uint32_t wk_text(wk_handle *handle, uint8_t *room, size_t size, size_t *length);

/* The same calls, which look for NULL first. With WK_NO_CHECKS, for a program that has members or functions of these names, the calls are the library's own. */
#ifndef WK_NO_CHECKS
static inline uint32_t wk_checked_open(wk_handle *handle, const uint8_t *files, size_t size, const size_t *ends, size_t sources, uint16_t states,
                                       const uint8_t *tables, size_t table_size, wk_fault *fault) {
    bool is_whole = handle && fault && (files || !size) && (ends || !sources) && (tables || !table_size);
    return is_whole ? wk_open(handle, files, size, ends, sources, states, tables, table_size, fault) : (uint32_t)WK_ARGUMENT;
}

static inline uint32_t wk_checked_open_bytes(wk_handle *handle, const uint8_t *files, size_t size, const size_t *ends, size_t sources, uint64_t bytes,
                                             const uint8_t *tables, size_t table_size, wk_fault *fault) {
    bool is_whole = handle && fault && (files || !size) && (ends || !sources) && (tables || !table_size);
    return is_whole ? wk_open_bytes(handle, files, size, ends, sources, bytes, tables, table_size, fault) : (uint32_t)WK_ARGUMENT;
}

static inline void wk_checked_close(wk_handle *handle) {
    if (handle) wk_close(handle);
}

static inline uint32_t wk_checked_frame(wk_handle *handle, uint64_t n, uint8_t *y, size_t y_size, uint8_t *cb, size_t cb_size, uint8_t *cr, size_t cr_size,
                                        wk_shown *shown) {
    bool is_whole = handle && shown && (y || !y_size) && (cb || !cb_size) && (cr || !cr_size);
    return is_whole ? wk_frame(handle, n, y, y_size, cb, cb_size, cr, cr_size, shown) : (uint32_t)WK_ARGUMENT;
}

static inline uint32_t wk_checked_request(wk_handle *handle, const uint8_t *line, size_t size, size_t *length) {
    return handle && length && (line || !size) ? wk_request(handle, line, size, length) : (uint32_t)WK_ARGUMENT;
}

static inline uint32_t wk_checked_why(wk_handle *handle, size_t *length) {
    return handle && length ? wk_why(handle, length) : (uint32_t)WK_ARGUMENT;
}

static inline uint32_t wk_checked_save(wk_handle *handle, bool pads, size_t *length) {
    return handle && length ? wk_save(handle, pads, length) : (uint32_t)WK_ARGUMENT;
}

static inline uint32_t wk_checked_save_source(wk_handle *handle, size_t source, bool pads, bool restamps, size_t *length) {
    return handle && length ? wk_save_source(handle, source, pads, restamps, length) : (uint32_t)WK_ARGUMENT;
}

static inline uint32_t wk_checked_export(wk_handle *handle, bool pads, size_t *length, wk_unexported *unexported) {
    return handle && length && unexported ? wk_export(handle, pads, length, unexported) : (uint32_t)WK_ARGUMENT;
}

static inline uint32_t wk_checked_text(wk_handle *handle, uint8_t *room, size_t size, size_t *length) {
    return handle && length && (room || !size) ? wk_text(handle, room, size, length) : (uint32_t)WK_ARGUMENT;
}

#define wk_open(...) wk_checked_open(__VA_ARGS__)
#define wk_open_bytes(...) wk_checked_open_bytes(__VA_ARGS__)
#define wk_close(...) wk_checked_close(__VA_ARGS__)
#define wk_frame(...) wk_checked_frame(__VA_ARGS__)
#define wk_request(...) wk_checked_request(__VA_ARGS__)
#define wk_why(...) wk_checked_why(__VA_ARGS__)
#define wk_save(...) wk_checked_save(__VA_ARGS__)
#define wk_save_source(...) wk_checked_save_source(__VA_ARGS__)
#define wk_export(...) wk_checked_export(__VA_ARGS__)
#define wk_text(...) wk_checked_text(__VA_ARGS__)
#endif

#ifdef __cplusplus
}
#endif

#endif
