/* A host for the plugin clients/vapoursynth/wokureti.c, with the calls of VapourSynth that it uses:
 *
 *     vapoursynth_host PLUGIN OUT THREADS NAME=VALUE .. -- FRAME ..
 *
 * It makes a clip of these arguments, asks for the frames from several threads, writes the samples of those that are served to OUT, in the order of
 * the command line, and prints a line for each frame: its properties or its error. A clip that is refused is printed, with status 3. What the plugin
 * must not do ends it with status 1: a byte written between rows, an argument of another type, a frame, map or thread that is left. */
#include <dirent.h>
#include <dlfcn.h>
#include <pthread.h>
#include <stdarg.h>
#include <stdatomic.h>
#include <stdbool.h>
#include <stdio.h>
#include <stdlib.h>
#include <string.h>
#include <unistd.h>

#include "vapoursynth4.h"

#define GUARD 0xA5
#define GAP 64

static void fail(const char *form, ...) {
    va_list rest;
    va_start(rest, form);
    vprintf(form, rest);
    printf("\n");
    exit(1);
}

static void *room_of(size_t size) {
    void *room = calloc(1, size);
    if (!room) fail("out of memory");
    return room;
}

/* A map: values by their keys. */
typedef struct {
    char *key, *data;
    int64_t number;
    double real;
    bool is_number, is_real;
} Value;

struct VSMap {
    Value values[64];
    int count;
    char *error;
};

struct VSFrame {
    uint8_t *planes[3];
    ptrdiff_t strides[3];
    int widths[3], heights[3];
    VSMap properties;
};

struct VSFrameContext {
    char *error;
};

/* The clip that the plugin makes, and how often it is ended. */
static struct {
    VSVideoInfo info;
    VSFilterGetFrame get_frame;
    VSFilterFree end;
    void *instance;
    int made, ended;
} clip;

static atomic_int frames_left;
static char *arguments;
static VSPublicFunction make;

static const Value *value_at(const VSMap *map, const char *key, int index, int *error) {
    for (int k = 0; k < map->count; k++)
        if (!strcmp(map->values[k].key, key) && index-- == 0) {
            *error = 0;
            return &map->values[k];
        }
    *error = 1;
    return NULL;
}

static Value *fresh_value(VSMap *map, const char *key, int append) {
    int error = 0;
    if (append != maAppend && value_at(map, key, 0, &error)) fail("%s is set twice", key);
    if (map->count == 64) fail("too many values");
    map->values[map->count].key = strdup(key);
    return &map->values[map->count++];
}

static void clear(VSMap *map) {
    for (int k = 0; k < map->count; k++) {
        free(map->values[k].key);
        free(map->values[k].data);
    }
    free(map->error);
}

static int VS_CC set_int(VSMap *map, const char *key, int64_t number, int append) {
    Value *made = fresh_value(map, key, append);
    made->number = number;
    made->is_number = true;
    return 0;
}

static int VS_CC set_float(VSMap *map, const char *key, double number, int append) {
    Value *made = fresh_value(map, key, append);
    made->real = number;
    made->is_real = true;
    return 0;
}

static int VS_CC set_data(VSMap *map, const char *key, const char *data, int size, int type, int append) {
    (void)type;
    fresh_value(map, key, append)->data = strndup(data, size < 0 ? strlen(data) : (size_t)size);
    return 0;
}

static int64_t VS_CC get_int(const VSMap *map, const char *key, int index, int *error) {
    const Value *found = value_at(map, key, index, error);
    if (found && !found->is_number) fail("%s is not a number", key);
    return found ? found->number : 0;
}

static const char *VS_CC get_data(const VSMap *map, const char *key, int index, int *error) {
    const Value *found = value_at(map, key, index, error);
    if (found && found->is_number) fail("%s is a number", key);
    return found ? found->data : NULL;
}

static int VS_CC count_of(const VSMap *map, const char *key) {
    int count = 0, error = 0;
    while (value_at(map, key, count, &error)) count++;
    return count ? count : -1;
}

static void VS_CC set_error(VSMap *map, const char *text) {
    map->error = strdup(text);
}

static const char *VS_CC get_error(const VSMap *map) {
    return map->error;
}

static int VS_CC query_format(VSVideoFormat *format, int family, int type, int bits, int across, int down, VSCore *core) {
    (void)core;
    *format = (VSVideoFormat){.colorFamily = family, .sampleType = type, .bitsPerSample = bits, .bytesPerSample = 1, .subSamplingW = across, .subSamplingH = down, .numPlanes = 3};
    return 1;
}

static VSFrame *VS_CC new_frame(const VSVideoFormat *format, int width, int height, const VSFrame *properties, VSCore *core) {
    (void)core;
    if (format->colorFamily != cfYUV || format->bitsPerSample != 8 || format->subSamplingW != 1 || format->subSamplingH != 1 || properties) fail("frames of another format");
    VSFrame *made = room_of(sizeof *made);
    for (int k = 0; k < 3; k++) {
        made->widths[k] = width >> (k > 0);
        made->heights[k] = height >> (k > 0);
        made->strides[k] = (made->widths[k] + GAP) / GAP * GAP;
        size_t size = (size_t)(made->strides[k] * made->heights[k]);
        made->planes[k] = room_of(size);
        memset(made->planes[k], GUARD, size);
    }
    atomic_fetch_add(&frames_left, 1);
    return made;
}

static void VS_CC free_frame(const VSFrame *given) {
    VSFrame *frame = (VSFrame *)given;
    for (int k = 0; k < 3; k++) free(frame->planes[k]);
    clear(&frame->properties);
    free(frame);
    atomic_fetch_sub(&frames_left, 1);
}

static VSMap *VS_CC properties_of(VSFrame *frame) {
    return &frame->properties;
}

static ptrdiff_t VS_CC stride_of(const VSFrame *frame, int plane) {
    return frame->strides[plane];
}

static uint8_t *VS_CC plane_of(VSFrame *frame, int plane) {
    return frame->planes[plane];
}

static void VS_CC set_filter_error(const char *text, VSFrameContext *context) {
    context->error = strdup(text);
}

static void VS_CC new_filter(VSMap *out, const char *name, const VSVideoInfo *info, VSFilterGetFrame get_frame, VSFilterFree end, int mode, const VSFilterDependency *dependencies,
                             int count, void *instance, VSCore *core) {
    (void)core;
    (void)dependencies;
    if (out->error || strcmp(name, "Source") || mode != fmUnordered || count) fail("a filter of another kind");
    clip.info = *info;
    clip.get_frame = get_frame;
    clip.end = end;
    clip.instance = instance;
    clip.made++;
}

static const VSAPI API = {
    .createVideoFilter = new_filter, .newVideoFrame = new_frame, .freeFrame = free_frame, .getFramePropertiesRW = properties_of, .getStride = stride_of, .getWritePtr = plane_of,
    .queryVideoFormat = query_format, .setFilterError = set_filter_error, .mapSetError = set_error, .mapGetError = get_error, .mapNumElements = count_of, .mapGetInt = get_int,
    .mapSetInt = set_int, .mapGetData = get_data, .mapSetFloat = set_float, .mapSetData = set_data,
};

static int VS_CC version(void) {
    return VAPOURSYNTH_API_VERSION;
}

static int VS_CC configure(const char *identifier, const char *space, const char *name, int plugin, int api, int flags, VSPlugin *given) {
    (void)name;
    (void)given;
    if (strcmp(identifier, "wokureti.source") || strcmp(space, "wokureti") || plugin < 1 || api != VAPOURSYNTH_API_VERSION || flags) fail("the plugin calls itself %s", identifier);
    return 1;
}

static int VS_CC add_function(const char *name, const char *names, const char *result, VSPublicFunction function, void *data, VSPlugin *plugin) {
    (void)plugin;
    if (strcmp(name, "Source") || strcmp(result, "clip:vnode;") || data) fail("the plugin has another function: %s", name);
    arguments = strdup(names);
    make = function;
    return 1;
}

/* The type of an argument in the text that the plugin gave: `int`, `data` or `data[]`. */
static const char *type_of(const char *key) {
    static char type[16];
    for (const char *at = arguments; at && *at; at = strchr(at, ';') + 1)
        if (!strncmp(at, key, strlen(key)) && at[strlen(key)] == ':' && sscanf(at + strlen(key) + 1, "%15[^:;]", type) == 1) return type;
    fail("Source has no argument %s", key);
    return NULL;
}

static void add_argument(VSMap *map, char *word) {
    char *value = strchr(word, '=');
    if (!value) fail("usage: vapoursynth_host PLUGIN OUT THREADS NAME=VALUE .. -- FRAME ..");
    *value++ = 0;
    const char *type = type_of(word);
    if (!strcmp(type, "int")) set_int(map, word, strtoll(value, NULL, 10), maReplace);
    else set_data(map, word, value, -1, dtUtf8, strcmp(type, "data[]") ? maReplace : maAppend);
}

/* The frames that are asked for, and what came of them. */
typedef struct {
    int number;
    const VSFrame *frame;
    char *error;
} Asked;

static Asked *asked;
static int count;
static atomic_int next;

static void *request(void *unused) {
    (void)unused;
    for (int k; (k = atomic_fetch_add(&next, 1)) < count;) {
        VSFrameContext context = {0};
        void *data = NULL;
        asked[k].frame = clip.get_frame(asked[k].number, arInitial, clip.instance, &data, &context, NULL, &API);
        asked[k].error = context.error;
        if (!asked[k].frame == !context.error) fail("frame %d is served and refused, or neither", asked[k].number);
    }
    return NULL;
}

/* Writes the samples of a frame, and looks at the bytes after each row. */
static void write_frame(const VSFrame *frame, FILE *out) {
    for (int k = 0; k < 3; k++)
        for (int y = 0; y < frame->heights[k]; y++) {
            const uint8_t *row = frame->planes[k] + y * frame->strides[k];
            if (fwrite(row, 1, (size_t)frame->widths[k], out) != (size_t)frame->widths[k]) fail("cannot write");
            for (ptrdiff_t x = frame->widths[k]; x < frame->strides[k]; x++)
                if (row[x] != GUARD) fail("a byte between two rows was written");
        }
}

static void report(const Asked *one, FILE *out) {
    printf("%d", one->number);
    if (one->error) printf(" error %s", one->error);
    if (one->frame) {
        for (int k = 0; k < one->frame->properties.count; k++) {
            const Value *value = &one->frame->properties.values[k];
            if (value->is_real) printf(" %s=%.17g", value->key, value->real);
            else if (value->is_number) printf(" %s=%lld", value->key, (long long)value->number);
            else printf(" %s=%s", value->key, value->data);
        }
        write_frame(one->frame, out);
        free_frame(one->frame);
    }
    free(one->error);
    printf("\n");
}

/* The number of threads of this process. Those of an address sanitizer, if there are any, were there before. */
static int threads_now(void) {
    int found = 0;
    DIR *folder = opendir("/proc/self/task");
    while (folder && readdir(folder)) found++;
    if (folder) closedir(folder);
    return found;
}

static void ask_all(int threads) {
    pthread_t started[16];
    for (int k = 0; k < threads; k++)
        if (pthread_create(&started[k], NULL, request, NULL)) fail("no thread");
    for (int k = 0; k < threads; k++) pthread_join(started[k], NULL);
}

/* A thread that was joined may be listed for a moment. */
static void check_threads(int before) {
    for (int turn = 0; turn < 100 && threads_now() != before; turn++) usleep(10000);
    if (threads_now() != before) fail("a thread is left");
}

int main(int argc, char **argv) {
    if (argc < 5) fail("usage: vapoursynth_host PLUGIN OUT THREADS NAME=VALUE .. -- FRAME ..");
    void *plugin = dlopen(argv[1], RTLD_NOW | RTLD_LOCAL);
    if (!plugin) fail("%s", dlerror());
    void (*init)(VSPlugin *, const VSPLUGINAPI *) = NULL;
    *(void **)&init = dlsym(plugin, "VapourSynthPluginInit2");
    static const VSPLUGINAPI calls = {.getAPIVersion = version, .configPlugin = configure, .registerFunction = add_function};
    if (!init) fail("the plugin has no entry");
    init(NULL, &calls);
    int at = 4, before = threads_now();
    VSMap in = {0}, out = {0};
    for (; at < argc && strcmp(argv[at], "--"); at++) add_argument(&in, argv[at]);
    make(&in, &out, NULL, NULL, &API);
    clear(&in);
    free(arguments);
    if (!out.error == !clip.made) fail("a clip is made and refused, or neither");
    if (out.error) {
        printf("error %s\n", out.error);
        clear(&out);
        check_threads(before);
        return 3;
    }
    printf("clip %dx%d frames %d rate %lld/%lld\n", clip.info.width, clip.info.height, clip.info.numFrames, (long long)clip.info.fpsNum, (long long)clip.info.fpsDen);
    count = argc - at - 1;
    asked = room_of((size_t)(count + 1) * sizeof *asked);
    for (int k = 0; k < count; k++) asked[k].number = atoi(argv[at + 1 + k]);
    ask_all(atoi(argv[3]));
    clip.end(clip.instance, NULL, &API);
    check_threads(before);
    FILE *samples = fopen(argv[2], "wb");
    if (!samples) fail("cannot create %s", argv[2]);
    for (int k = 0; k < count; k++) report(&asked[k], samples);
    free(asked);
    if (fclose(samples)) fail("cannot write");
    if (frames_left) fail("%d frames are left", frames_left);
    return 0;
}
