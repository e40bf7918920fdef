/* What the hosts of the library find out about a clip: the bytes of its files, its frame rate, the kinds of its packets, and why the session refuses something. */
#ifndef WOKURETI_CLIP_FACTS_H
#define WOKURETI_CLIP_FACTS_H

#include <errno.h>
#include <math.h>
#include <stdio.h>
#include <stdlib.h>
#include <string.h>

#include "wokureti.h"

enum { CLIP_SOURCES = 8 };

/* The files of a session, one after the other, each up to its end. */
typedef struct {
    uint8_t *bytes;
    size_t ends[CLIP_SOURCES], count;
} clip_files;

/* Adds a file. NULL, or the system's reason, if it cannot be read. */
static inline const char *clip_add_file(clip_files *files, const char *path) {
    size_t begin = files->count ? files->ends[files->count - 1] : 0, size = begin, room = begin, piece = 1 << 20;
    FILE *file = fopen(path, "rb");
    if (!file) return strerror(errno);
    int wrong = 0;
    for (size_t got = 1; got && !wrong; size += got) {
        if (room - size < piece) {
            room = size + (size - begin > piece ? size - begin : piece);
            uint8_t *more = realloc(files->bytes, room);
            if (more) files->bytes = more;
            else wrong = ENOMEM;
        }
        errno = 0;
        got = wrong ? 0 : fread(files->bytes + size, 1, room - size, file);
        if (!got && ferror(file)) wrong = errno ? errno : EIO;
    }
    fclose(file);
    if (wrong) return strerror(wrong);
    files->ends[files->count++] = size;
    return NULL;
}

/* Why a file is refused, as `vp8serve` says it after `input`. */
static inline const char *clip_file_cause(uint32_t cause) {
    static const char *const causes[] = {"", "Header", "Magic", "FourCc", "HeaderLength", "TooMany", "NoMemory", "DocType", "NoTracks", "NoVideo", "Encoded", "Scale"};
    return causes[cause < sizeof causes / sizeof *causes ? cause : 0];
}

/* The text of a handle, without its last newline; NULL if there is no memory. The caller frees it. */
static inline char *clip_text(wk_handle *handle, size_t length) {
    char *text = malloc(length + 1);
    size_t copied = 0;
    if (!text) return NULL;
    if (wk_text(handle, (uint8_t *)text, length, &copied)) copied = 0;
    text[copied && text[copied - 1] == '\n' ? copied - 1 : copied] = 0;
    return text;
}

/* The reply to a request line. */
static inline char *clip_ask(wk_handle *handle, const char *line) {
    size_t length = 0;
    return wk_request(handle, (const uint8_t *)line, strlen(line), &length) ? NULL : clip_text(handle, length);
}

/* Why a request line is refused: the reply and the reason, as in `refused Place: packet 9 does not exist: source 0 has 9 packets`. NULL if it is
 * answered. With no memory it is `refused NoMemory`. */
static inline char *clip_refusal(wk_handle *handle, const char *line) {
    static const char lost[] = "refused NoMemory";
    size_t length = 0;
    char *reply = clip_ask(handle, line), *why = NULL, *both = NULL;
    if (reply && strncmp(reply, "refused", 7)) {
        free(reply);
        return NULL;
    }
    if (reply && !wk_why(handle, &length) && length) why = clip_text(handle, length);
    /* "line 2: frame: packet 60 has 2 bytes": neither the number of the line nor its command is the caller's. */
    const char *reason = why ? strstr(why, ": ") : NULL;
    reason = reason ? strstr(reason + 2, ": ") : NULL;
    size_t size = (reply ? strlen(reply) : sizeof lost) + (reason ? strlen(reason) : 0) + 1;
    both = malloc(size);
    if (both) snprintf(both, size, "%s%s", reply ? reply : lost, reason ? reason : "");
    free(reply);
    free(why);
    return both;
}

/* A packet of an IVF file: its bytes, its time stamp, and where the next one begins. */
typedef struct {
    const uint8_t *bytes;
    uint64_t size, stamp;
    size_t next;
} clip_packet;

static inline uint64_t clip_number(const uint8_t *bytes, size_t size) {
    uint64_t number = 0;
    while (size--) number = number << 8 | bytes[size];
    return number;
}

/* The packet at a place of a file of `end` bytes; false at its end, and if it is cut off. */
static inline bool clip_packet_at(const uint8_t *file, size_t end, size_t at, clip_packet *found) {
    if (at > end || end - at < 12) return false;
    found->size = clip_number(file + at, 4);
    found->stamp = clip_number(file + at + 4, 8);
    found->bytes = file + at + 12;
    if (found->size > end - at - 12) return false;
    found->next = at + 12 + (size_t)found->size;
    return true;
}

static inline bool clip_is_shown(const clip_packet *packet) {
    return packet->size < 3 || packet->bytes[0] & 16;
}

/* Frames a second, as a fraction in lowest terms. */
typedef struct {
    int64_t many, one;
} clip_rate;

static inline clip_rate clip_reduced(uint64_t many, uint64_t one) {
    uint64_t a = many, b = one;
    while (b) {
        uint64_t left = a % b;
        a = b;
        b = left;
    }
    return (clip_rate){(int64_t)(many / a), (int64_t)(one / a)};
}

static inline int clip_by_step(const void *a, const void *b) {
    uint64_t x = *(const uint64_t *)a, y = *(const uint64_t *)b;
    return (x > y) - (x < y);
}

/* The rate of frames of which `count` last `span` units of many/one a second, all but for rounding as long: the rate that clips have if one is near, whole ones first. */
static inline clip_rate clip_mean_rate(uint64_t many, uint64_t one, size_t count, uint64_t span) {
    static const int64_t usual[][2] = {{24, 1}, {25, 1}, {30, 1}, {48, 1}, {50, 1}, {60, 1}, {120, 1}, {10, 1}, {12, 1}, {15, 1}, {20, 1}, {24000, 1001}, {30000, 1001}, {60000, 1001}};
    double found = (double)many * (double)count / ((double)one * (double)span);
    clip_rate best = {0, 0};
    double least = 0;
    for (size_t k = 0; k < sizeof usual / sizeof *usual; k++) {
        double away = fabs((double)usual[k][0] / (double)usual[k][1] - found);
        bool is_near = away <= 2 * found / (double)span;
        if (is_near && (!best.one || (usual[k][1] == best.one && away < least))) best = (clip_rate){usual[k][0], usual[k][1]}, least = away;
    }
    return best.one ? best : clip_reduced(many * count, one * span);
}

/* The rate of an IVF file with these steps between the time stamps of shown packets, which it sorts: that of the header if a unit is a frame, else that of the
 * median step, the lower one of two. Steps that were rounded to units, as in WebM, have the rate of their mean. The client in Python has the same rule. */
static inline clip_rate clip_rate_of(uint64_t many, uint64_t one, uint64_t *steps, size_t count, bool goes_on) {
    if (!many || !one) many = 30, one = 1;
    bool is_rate = many <= 240 * one;
    if (!count) return is_rate ? clip_reduced(many, one) : (clip_rate){30, 1};
    qsort(steps, count, sizeof *steps, clip_by_step);
    uint64_t step = steps[(count - 1) / 2], span = 0;
    if (step == 1 && is_rate) return clip_reduced(many, one);
    if (step > (INT64_MAX >> 20) / one) return clip_reduced(many, one);
    bool is_rounded = goes_on && step >= 8 && steps[0] + 1 >= step && steps[count - 1] <= step + 1 && steps[0] < steps[count - 1];
    if (!is_rounded) return clip_reduced(many, one * step);
    for (size_t k = 0; k < count; k++) span += steps[k];
    return clip_mean_rate(many, one, count, span);
}

/* What a file says of its frames. */
typedef struct {
    clip_rate rate;
    size_t shown;
    /* I or P for each shown packet. */
    char *kinds;
} clip_facts;

/* The same of the bytes of an IVF file; false if there is no memory. The caller frees `kinds`. */
static inline bool clip_look_at(const uint8_t *file, size_t end, clip_facts *facts) {
    size_t begin = (size_t)clip_number(file + 6, 2), packets = 0, count = 0;
    uint64_t before = 0;
    clip_packet packet;
    *facts = (clip_facts){0};
    for (size_t at = begin; clip_packet_at(file, end, at, &packet); at = packet.next) packets++;
    uint64_t *steps = malloc((packets + 1) * sizeof *steps);
    facts->kinds = malloc(packets + 1);
    if (!steps || !facts->kinds) {
        free(steps);
        free(facts->kinds);
        facts->kinds = NULL;
        return false;
    }
    for (size_t at = begin; clip_packet_at(file, end, at, &packet); at = packet.next) {
        if (!clip_is_shown(&packet)) continue;
        if (facts->shown && packet.stamp > before) steps[count++] = packet.stamp - before;
        before = packet.stamp;
        facts->kinds[facts->shown++] = packet.size >= 3 && !(packet.bytes[0] & 1) ? 'I' : 'P';
    }
    facts->rate = clip_rate_of(clip_number(file + 16, 4), clip_number(file + 20, 4), steps, count, count + 1 == facts->shown);
    free(steps);
    return true;
}

/* What source 0 of a session that was just opened over these files says of its frames. The packets of a WebM file are those that the session read. */
static inline bool clip_look(wk_handle *handle, const clip_files *files, clip_facts *facts) {
    static const uint8_t webm[] = {0x1A, 0x45, 0xDF, 0xA3};
    size_t length = 0, copied = 0;
    if (files->ends[0] < sizeof webm || memcmp(files->bytes, webm, sizeof webm)) return clip_look_at(files->bytes, files->ends[0], facts);
    if (wk_save_source(handle, 0, false, false, &length)) return false;
    uint8_t *saved = malloc(length);
    bool is_seen = saved && !wk_text(handle, saved, length, &copied) && clip_look_at(saved, copied, facts);
    free(saved);
    return is_seen;
}

/* The current script with a trim of all frames for each crop and each fade, which change no times: a request line for the caller to free, or NULL. */
static inline char *clip_plain_script(const char *script) {
    static const char all[] = " 0 4294967295";
    size_t nodes = 1, at = 0;
    for (const char *end = script; (end = strchr(end, ';')); end++) nodes++;
    char *plain = malloc(strlen(script) + nodes * sizeof all + 1);
    for (const char *node = script; plain && *node; node += strcspn(node, ";"), node += *node == ';') {
        const char *name = strncmp(node, "script ", 7) ? node : node + 7;
        size_t size = strcspn(node, ";");
        bool changes = !strncmp(name, "crop ", 5) || !strncmp(name, "fade ", 5);
        if (changes) at += (size_t)sprintf(plain + at, "%.*strim %.*s%s", (int)(name - node), node, (int)strcspn(name + 5, " "), name + 5, all);
        else memcpy(plain + at, node, size), at += size;
        if (node[size]) plain[at++] = ';';
        plain[at] = 0;
    }
    return plain;
}

/* The frames of the current script as an IVF file without crops and fades, or NULL. The script is set again, and lost if there is no memory for that. */
static inline uint8_t *clip_export(wk_handle *handle, size_t *length, bool *is_lost) {
    wk_unexported found;
    char *script = clip_ask(handle, "script"), *plain = script ? clip_plain_script(script) : NULL;
    bool is_other = plain && strcmp(plain, script);
    char *why = is_other ? clip_refusal(handle, plain) : NULL, *again = NULL;
    uint8_t *file = NULL;
    if (plain && !why && !wk_export(handle, false, length, &found)) file = malloc(*length);
    if (file && wk_text(handle, file, *length, length)) free(file), file = NULL;
    if (is_other) again = clip_refusal(handle, script);
    *is_lost = !script || !plain || again;
    free(why);
    free(again);
    free(script);
    free(plain);
    return file;
}

/* When each frame of a script begins, and the last one ends, in units of one/many seconds, for the caller to free; NULL if they come by the rate. If the
 * session has lost its script, it serves other frames and is of no use. */
typedef struct {
    uint64_t *stamps, many, one;
    bool is_lost;
} clip_times;

__extension__ typedef unsigned __int128 clip_wide;

/* Whether a time is a frame or more away from that of the rate. */
static inline bool clip_is_away(const clip_times *times, clip_rate rate, uint64_t frame, uint64_t stamp) {
    clip_wide here = (clip_wide)stamp * times->one * (uint64_t)rate.many, even = (clip_wide)frame * (uint64_t)rate.one * times->many;
    return (here > even ? here - even : even - here) >= (clip_wide)(uint64_t)rate.one * times->many;
}

/* The times of `count` frames of the current script. None if all are within a frame of the constant rate, or if they are not known: a frame is refused, or there
 * is no memory. */
static inline clip_times clip_times_of(wk_handle *handle, clip_rate rate, uint64_t count) {
    size_t length = 0, shown = 0;
    bool varies = false, is_lost = false;
    uint8_t *file = clip_export(handle, &length, &is_lost);
    clip_times times = {NULL, file ? clip_number(file + 16, 4) : 0, file ? clip_number(file + 20, 4) : 0, is_lost};
    if (file && times.many && times.one && count && count < length) times.stamps = malloc((count + 1) * sizeof *times.stamps);
    clip_packet packet;
    for (size_t at = 32; times.stamps && shown < count && clip_packet_at(file, length, at, &packet); at = packet.next) {
        if (!clip_is_shown(&packet)) continue;
        varies = varies || clip_is_away(&times, rate, shown, packet.stamp);
        times.stamps[shown++] = packet.stamp;
    }
    free(file);
    if (times.stamps && varies && shown == count) {
        uint64_t last = (uint64_t)((clip_wide)times.many * (uint64_t)rate.one / times.one / (uint64_t)rate.many);
        times.stamps[count] = times.stamps[count - 1] + (last ? last : 1);
        return times;
    }
    free(times.stamps);
    times.stamps = NULL;
    return times;
}

#endif
