/* wokureti.Source: the frames of an edited VP8 stream, for VapourSynth.
 *
 *     clip = core.wokureti.Source("a.ivf", sources=["b.ivf"], script="source 1; splice 0 1", cache=64)
 *
 * Each clip has a session of libwokureti, whose calls are all made on one thread of the clip's own. A frame that the session refuses is an
 * error of that frame, with its path, its number, the packet and the cause; the others are served. */
#include <limits.h>
#include <pthread.h>
#include <stdarg.h>
#include <stdio.h>
#include <stdlib.h>
#include <string.h>

#include "../c/clip_facts.h"
#include "vapoursynth4.h"
#include "wokureti.h"

enum { MOST_STATES = 4096, TEXT = 1024 };
/* The most bytes of cached states where nothing is said. */
static const int64_t CACHE_BYTES = 512 << 20;

typedef struct Source Source;

/* What the worker is asked for: a call, and whether it is done. */
typedef struct {
    void (*call)(Source *source, void *given);
    void *given;
    bool is_done;
} Job;

struct Source {
    pthread_t worker;
    pthread_mutex_t lock;
    pthread_cond_t changed;
    Job *job;
    bool ends;
    /* The worker's own. */
    wk_handle handle;
    /* What is known once the session is open. `kinds` has I or P for each frame, and is NULL with a script. */
    VSVideoInfo info;
    char *kinds, *paths[CLIP_SOURCES];
    clip_times times;
};

static void *work(void *given) {
    Source *source = given;
    pthread_mutex_lock(&source->lock);
    while (!source->ends || source->job) {
        Job *job = source->job;
        if (!job) {
            pthread_cond_wait(&source->changed, &source->lock);
            continue;
        }
        pthread_mutex_unlock(&source->lock);
        job->call(source, job->given);
        pthread_mutex_lock(&source->lock);
        job->is_done = true;
        source->job = NULL;
        pthread_cond_broadcast(&source->changed);
    }
    pthread_mutex_unlock(&source->lock);
    return NULL;
}

/* Makes a call on the worker, and waits for it. */
static void on_worker(Source *source, void (*call)(Source *, void *), void *given) {
    Job job = {call, given, false};
    pthread_mutex_lock(&source->lock);
    while (source->job) pthread_cond_wait(&source->changed, &source->lock);
    source->job = &job;
    pthread_cond_broadcast(&source->changed);
    while (!job.is_done) pthread_cond_wait(&source->changed, &source->lock);
    pthread_mutex_unlock(&source->lock);
}

static void close_session(Source *source, void *given) {
    (void)given;
    wk_close(&source->handle);
}

/* Ends the session and the thread of a source that has a thread. */
static void end_source(Source *source) {
    on_worker(source, close_session, NULL);
    pthread_mutex_lock(&source->lock);
    source->ends = true;
    pthread_cond_broadcast(&source->changed);
    pthread_mutex_unlock(&source->lock);
    pthread_join(source->worker, NULL);
    pthread_cond_destroy(&source->changed);
    pthread_mutex_destroy(&source->lock);
    free(source->kinds);
    free(source->times.stamps);
    for (int k = 0; k < CLIP_SOURCES; k++) free(source->paths[k]);
    free(source);
}

static Source *new_source(void) {
    Source *source = calloc(1, sizeof *source);
    if (!source) return NULL;
    pthread_mutex_init(&source->lock, NULL);
    pthread_cond_init(&source->changed, NULL);
    if (!pthread_create(&source->worker, NULL, work, source)) return source;
    pthread_cond_destroy(&source->changed);
    pthread_mutex_destroy(&source->lock);
    free(source);
    return NULL;
}

/* What opening needs, and why it failed: nothing if it did not. */
typedef struct {
    clip_files files;
    const char *paths[CLIP_SOURCES], *script;
    /* The most cached states, or 0: then the most bytes that they take. */
    uint16_t states;
    uint64_t bytes;
    char wrong[TEXT];
} Opening;

static bool fails(Opening *opening, const char *form, ...) {
    va_list rest;
    va_start(rest, form);
    vsnprintf(opening->wrong, TEXT, form, rest);
    va_end(rest);
    return false;
}

/* Fails with why a request line is refused, after the path of source 0; true if it is not. */
static bool is_answered(Source *source, Opening *opening, const char *line, const char *before) {
    char *why = clip_refusal(&source->handle, line);
    bool is = !why || fails(opening, "%.400s: %s%s", opening->paths[0], before, why);
    free(why);
    return is;
}

static bool set_script(Source *source, Opening *opening) {
    size_t size = strlen(opening->script) + sizeof "script ";
    char *line = malloc(size);
    if (!line) return fails(opening, "out of memory");
    snprintf(line, size, "script %s", opening->script);
    bool is_set = is_answered(source, opening, line, "script: ");
    free(line);
    return is_set;
}

/* The number of frames of the script, and the size of the first one that is served: the session then refuses frames of another size. */
static bool find_frames(Source *source, Opening *opening) {
    unsigned long long frames = 0;
    wk_shown shown = {0};
    char *counts = clip_ask(&source->handle, "count");
    bool is_counted = counts && sscanf(counts, "packets %*u frames %llu", &frames) == 1;
    free(counts);
    if (!is_counted) return fails(opening, "out of memory");
    if (!frames) return fails(opening, "%.400s: there are no frames", opening->paths[0]);
    if (frames > INT_MAX) return fails(opening, "there are %llu frames, more than VapourSynth numbers", frames);
    for (unsigned long long n = 0; n < frames && !shown.width; n++) wk_frame(&source->handle, n, NULL, 0, NULL, 0, NULL, 0, &shown);
    if (!shown.width) return is_answered(source, opening, "frame 0", "no frame is served; frame 0: ") && fails(opening, "no frame is served");
    if (shown.width % 2 || shown.height % 2)
        return fails(opening, "%.400s: the frames have %ux%u samples: VapourSynth's YUV420P8 needs even sides", opening->paths[0], shown.width, shown.height);
    source->info.numFrames = (int)frames;
    source->info.width = (int)shown.width;
    source->info.height = (int)shown.height;
    return true;
}

/* The frame rate, and without a script the kinds of the frames. */
static bool find_facts(Source *source, Opening *opening) {
    clip_facts facts;
    if (!clip_look(&source->handle, &opening->files, &facts)) return fails(opening, "out of memory");
    source->info.fpsNum = facts.rate.many;
    source->info.fpsDen = facts.rate.one;
    char *script = clip_ask(&source->handle, "script");
    bool has_kinds = script && !strcmp(script, "script -") && facts.shown == (size_t)source->info.numFrames;
    free(script);
    if (has_kinds) source->kinds = facts.kinds;
    else free(facts.kinds);
    /* The session has the bytes. */
    free(opening->files.bytes);
    opening->files.bytes = NULL;
    source->times = clip_times_of(&source->handle, facts.rate, (uint64_t)source->info.numFrames);
    return source->times.is_lost ? fails(opening, "out of memory") : true;
}

static uint32_t open_handle(wk_handle *handle, const Opening *opening, wk_fault *fault) {
    const clip_files *files = &opening->files;
    size_t size = files->ends[files->count - 1];
    if (opening->states) return wk_open(handle, files->bytes, size, files->ends, files->count, opening->states, NULL, 0, fault);
    return wk_open_bytes(handle, files->bytes, size, files->ends, files->count, opening->bytes, NULL, 0, fault);
}

static void open_session(Source *source, void *given) {
    Opening *opening = given;
    wk_fault fault = {0};
    uint32_t status = open_handle(&source->handle, opening, &fault);
    if (status == WK_FILE) {
        fails(opening, "%.400s is not an IVF, WebM or Matroska file of VP8: %s", opening->paths[fault.source], clip_file_cause(fault.cause));
    } else if (status) {
        fails(opening, status == WK_MEMORY ? "out of memory" : "the session is not opened (%u)", status);
    } else if ((!opening->script[0] || set_script(source, opening)) && find_frames(source, opening)) {
        find_facts(source, opening);
    }
}

/* Adds the bytes of a file. */
static bool read_file(Opening *opening, const char *path) {
    opening->paths[opening->files.count] = path;
    const char *why = clip_add_file(&opening->files, path);
    return why ? fails(opening, "cannot read %.400s: %s", path, why) : true;
}

/* Takes `cache`, a number of states, or `cache_bytes`. */
static bool take_cache(Opening *opening, const VSMap *in, const VSAPI *api) {
    int no_states = 0, no_bytes = 0;
    int64_t states = api->mapGetInt(in, "cache", 0, &no_states), bytes = api->mapGetInt(in, "cache_bytes", 0, &no_bytes);
    if (!no_states && !no_bytes) return fails(opening, "either cache or cache_bytes is given, not both");
    if (!no_states && (states < 1 || states > MOST_STATES)) return fails(opening, "cache is %lld, but must be 1 to %d", (long long)states, MOST_STATES);
    if (!no_bytes && bytes < 1) return fails(opening, "cache_bytes is %lld, but must be 1 or more", (long long)bytes);
    opening->states = no_states ? 0 : (uint16_t)states;
    opening->bytes = (uint64_t)(no_bytes ? CACHE_BYTES : bytes);
    return true;
}

/* Takes the arguments of Source. */
static bool take_arguments(Opening *opening, const VSMap *in, const VSAPI *api) {
    int error = 0, sources = api->mapNumElements(in, "sources");
    const char *first = api->mapGetData(in, "path", 0, &error);
    if (error) return fails(opening, "path is missing");
    opening->script = api->mapGetData(in, "script", 0, &error);
    if (error) opening->script = "";
    if (!take_cache(opening, in, api)) return false;
    if (sources >= CLIP_SOURCES) return fails(opening, "there are more than seven sources");
    if (!read_file(opening, first)) return false;
    for (int k = 0; k < sources; k++) {
        const char *path = api->mapGetData(in, "sources", k, &error);
        if (error || !read_file(opening, path)) return false;
    }
    return true;
}

/* A frame that is asked for. */
typedef struct {
    VSFrame *frame;
    const VSAPI *api;
    int number;
    char wrong[TEXT];
} Wanted;

static void serve(Source *source, void *given) {
    Wanted *wanted = given;
    uint8_t *at[3];
    size_t size[3], stride[3];
    for (int k = 0; k < 3; k++) {
        size_t width = (size_t)source->info.width >> (k > 0), height = (size_t)source->info.height >> (k > 0);
        at[k] = wanted->api->getWritePtr(wanted->frame, k);
        stride[k] = (size_t)wanted->api->getStride(wanted->frame, k);
        size[k] = (height - 1) * stride[k] + width;
    }
    wk_shown shown = {.luma_stride = stride[0], .chroma_stride = stride[1]};
    uint32_t status = wk_frame(&source->handle, (uint64_t)wanted->number, at[0], size[0], at[1], size[1], at[2], size[2], &shown);
    if (!status) return;
    char line[32];
    snprintf(line, sizeof line, "frame %d", wanted->number);
    char *why = clip_refusal(&source->handle, line);
    /* Of the source that the packet is of. */
    const char *path = status == WK_PACKET && shown.source < CLIP_SOURCES ? source->paths[shown.source] : source->paths[0];
    snprintf(wanted->wrong, TEXT, "wokureti: %.400s: %s: %s", path, line, why ? why : "refused NoMemory");
    free(why);
}

/* BT.601, limited range, chroma samples in the middle of four (as in JPEG), frames that are not interlaced: what VP8 is. */
static void set_properties(const Source *source, int number, VSMap *properties, const VSAPI *api) {
    api->mapSetInt(properties, "_Matrix", 6, maReplace);
    api->mapSetInt(properties, "_ColorRange", 1, maReplace);
    api->mapSetInt(properties, "_ChromaLocation", 1, maReplace);
    api->mapSetInt(properties, "_FieldBased", 0, maReplace);
    clip_rate lasts = {source->info.fpsDen, source->info.fpsNum};
    double begins = (double)number * (double)lasts.many / (double)lasts.one;
    const clip_times *times = &source->times;
    if (times->stamps) {
        lasts = clip_reduced((times->stamps[number + 1] - times->stamps[number]) * times->one, times->many);
        begins = (double)times->stamps[number] * (double)times->one / (double)times->many;
    }
    api->mapSetInt(properties, "_DurationNum", lasts.many, maReplace);
    api->mapSetInt(properties, "_DurationDen", lasts.one, maReplace);
    api->mapSetFloat(properties, "_AbsoluteTime", begins, maReplace);
    if (source->kinds) api->mapSetData(properties, "_PictType", source->kinds + number, 1, dtUtf8, maReplace);
}

static const VSFrame *VS_CC get_frame(int number, int reason, void *instance, void **data, VSFrameContext *context, VSCore *core, const VSAPI *api) {
    (void)data;
    if (reason != arInitial) return NULL;
    Source *source = instance;
    VSFrame *frame = api->newVideoFrame(&source->info.format, source->info.width, source->info.height, NULL, core);
    Wanted wanted = {.frame = frame, .api = api, .number = number};
    on_worker(source, serve, &wanted);
    if (wanted.wrong[0]) {
        api->freeFrame(frame);
        api->setFilterError(wanted.wrong, context);
        return NULL;
    }
    set_properties(source, number, api->getFramePropertiesRW(frame), api);
    return frame;
}

static void VS_CC free_source(void *instance, VSCore *core, const VSAPI *api) {
    (void)core;
    (void)api;
    end_source(instance);
}

static bool keep_paths(Source *source, Opening *opening) {
    for (size_t k = 0; k < opening->files.count; k++)
        if (!(source->paths[k] = strdup(opening->paths[k]))) return fails(opening, "out of memory");
    return true;
}

static void VS_CC create(const VSMap *in, VSMap *out, void *given, VSCore *core, const VSAPI *api) {
    (void)given;
    Opening opening = {0};
    Source *source = NULL;
    if (take_arguments(&opening, in, api)) {
        source = new_source();
        if (source && keep_paths(source, &opening)) on_worker(source, open_session, &opening);
        else if (!source) fails(&opening, "no thread for the session");
    }
    free(opening.files.bytes);
    if (opening.wrong[0]) {
        char text[TEXT + 32];
        snprintf(text, sizeof text, "wokureti.Source: %s", opening.wrong);
        if (source) end_source(source);
        api->mapSetError(out, text);
        return;
    }
    api->queryVideoFormat(&source->info.format, cfYUV, stInteger, 8, 1, 1, core);
    api->createVideoFilter(out, "Source", &source->info, get_frame, free_source, fmUnordered, NULL, 0, source, core);
}

__attribute__((visibility("default"))) void VS_CC VapourSynthPluginInit2(VSPlugin *plugin, const VSPLUGINAPI *api);

void VS_CC VapourSynthPluginInit2(VSPlugin *plugin, const VSPLUGINAPI *api) {
    int version = VS_MAKE_VERSION((int)wk_version() / 10000, (int)wk_version() / 100 % 100);
    api->configPlugin("wokureti.source", "wokureti", "Frames of edited VP8 streams", version, VAPOURSYNTH_API_VERSION, 0, plugin);
    api->registerFunction("Source", "path:data;sources:data[]:opt;script:data:opt;cache:int:opt;cache_bytes:int:opt;", "clip:vnode;", create, NULL, plugin);
}
