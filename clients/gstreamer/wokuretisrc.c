/* wokuretisrc: a GStreamer source of the frames of an edited VP8 stream.
 *
 *     gst-launch-1.0 wokuretisrc location=a.ivf script="trim 0 100 50" ! videoconvert ! autovideosink
 *     gst-play-1.0 "wokureti:///clips/a.ivf?script=trim 0 100 50"
 *
 * Each element has a session of libwokureti, whose calls are all made on one thread of the element's own. Seeks are exact: a position in time
 * is the frame that is shown then, and a frame has the samples of decoding from the stream's start. */
#include <gst/base/gstpushsrc.h>
#include <gst/gst.h>
#include <gst/video/gstvideopool.h>
#include <gst/video/video.h>
#include <string.h>

#include "../c/clip_facts.h"
#include "wokureti.h"

#define PACKAGE "Wokureti"

GST_DEBUG_CATEGORY_STATIC(wokureti_debug);
#define GST_CAT_DEFAULT wokureti_debug

#define WOKURETI_TYPE_SRC (wokureti_src_get_type())
G_DECLARE_FINAL_TYPE(WokuretiSrc, wokureti_src, WOKURETI, SRC, GstPushSrc)

/* What the worker is asked for: a call, whether it is done, and what frees its argument if nobody waits for it any more. */
typedef struct {
    void (*call)(WokuretiSrc *src, gpointer given);
    gpointer given;
    gboolean is_done;
    GDestroyNotify left;
} Job;

struct _WokuretiSrc {
    GstPushSrc parent;
    /* The path of source 0, and those of the others: one by one, or in one text. */
    gchar *paths[CLIP_SOURCES], *sources, *script;
    /* The most cached states, or 0: then the most bytes that they take. */
    guint states;
    guint64 cache_bytes;
    GThread *worker;
    GMutex lock;
    GCond changed;
    Job *job;
    gboolean ends, is_unlocked;
    /* The worker's own. */
    wk_handle handle;
    /* What is known once the session is open: the path of each source, and the frames. */
    gchar **names;
    GstVideoInfo info;
    gint rate, scale;
    guint64 frames;
    /* When each frame begins, and the last one ends, if that is not by the rate. */
    guint64 *times;
    /* The next frame; in reverse, the one after it. */
    guint64 next;
    gboolean is_reverse;
};

static void add_uri_handler(gpointer interface, gpointer data);

G_DEFINE_TYPE_WITH_CODE(WokuretiSrc, wokureti_src, GST_TYPE_PUSH_SRC, G_IMPLEMENT_INTERFACE(GST_TYPE_URI_HANDLER, add_uri_handler))

/* PROP_LOCATION + N is source N. */
enum { PROP_LOCATION = 1, PROP_SOURCES = PROP_LOCATION + CLIP_SOURCES, PROP_SCRIPT, PROP_STATES, PROP_CACHE_BYTES };

/* The most bytes of cached states where nothing is said. */
static const guint64 CACHE_BYTES = 512 << 20;

static GstStaticPadTemplate template = GST_STATIC_PAD_TEMPLATE("src", GST_PAD_SRC, GST_PAD_ALWAYS, GST_STATIC_CAPS(GST_VIDEO_CAPS_MAKE("I420")));

/* The worker */

/* Reports that a job is done. Called with the lock. */
static void end_job(WokuretiSrc *src, Job *job) {
    job->is_done = TRUE;
    src->job = NULL;
    if (job->left) {
        job->left(job->given);
        g_free(job);
    }
    g_cond_broadcast(&src->changed);
}

static gpointer work(gpointer given) {
    WokuretiSrc *src = given;
    g_mutex_lock(&src->lock);
    while (!src->ends || src->job) {
        if (src->job) {
            Job *job = src->job;
            g_mutex_unlock(&src->lock);
            job->call(src, job->given);
            g_mutex_lock(&src->lock);
            end_job(src, job);
        } else {
            g_cond_wait(&src->changed, &src->lock);
        }
    }
    g_mutex_unlock(&src->lock);
    return NULL;
}

/* Makes a call on the worker, and waits for it. With `left` an unlock ends the wait: FALSE, and what was given is freed by that when the call is over. */
static gboolean on_worker(WokuretiSrc *src, void (*call)(WokuretiSrc *, gpointer), gpointer given, GDestroyNotify left) {
    Job *job = g_new0(Job, 1);
    job->call = call;
    job->given = given;
    g_mutex_lock(&src->lock);
    while (src->job && !(left && src->is_unlocked)) g_cond_wait(&src->changed, &src->lock);
    if (left && src->is_unlocked) {
        g_mutex_unlock(&src->lock);
        left(given);
        g_free(job);
        return FALSE;
    }
    src->job = job;
    g_cond_broadcast(&src->changed);
    while (!job->is_done && !(left && src->is_unlocked)) g_cond_wait(&src->changed, &src->lock);
    gboolean is_done = job->is_done;
    if (!is_done) job->left = left;
    g_mutex_unlock(&src->lock);
    if (is_done) g_free(job);
    return is_done;
}

static gboolean set_unlocked(GstBaseSrc *base, gboolean is_unlocked) {
    WokuretiSrc *src = WOKURETI_SRC(base);
    g_mutex_lock(&src->lock);
    src->is_unlocked = is_unlocked;
    g_cond_broadcast(&src->changed);
    g_mutex_unlock(&src->lock);
    return TRUE;
}

/* A frame that takes long to decode does not keep a seek or the end of the pipeline waiting. */
static gboolean unlock(GstBaseSrc *base) {
    return set_unlocked(base, TRUE);
}

static gboolean unlock_stop(GstBaseSrc *base) {
    return set_unlocked(base, FALSE);
}

/* Opening */

/* What opening needs, and why it failed. */
typedef struct {
    clip_files files;
    gchar *wrong;
    guint width, height;
} Opening;

static gchar *refusal_of(WokuretiSrc *src, const gchar *line) {
    char *why = clip_refusal(&src->handle, line);
    gchar *text = g_strdup(why ? why : "out of memory");
    free(why);
    return text;
}

static void set_script(WokuretiSrc *src, Opening *opening) {
    gchar *line = g_strdup_printf("script %s", src->script);
    char *why = clip_refusal(&src->handle, line);
    if (why) opening->wrong = g_strdup_printf("script %s: %s", src->script, why);
    free(why);
    g_free(line);
}

/* The number of frames, and the size of the first one that is served: the session then refuses frames of another size. */
static void find_frames(WokuretiSrc *src, Opening *opening) {
    unsigned long long frames = 0;
    char *counts = clip_ask(&src->handle, "count");
    if (!counts || sscanf(counts, "packets %*u frames %llu", &frames) != 1) opening->wrong = g_strdup("out of memory");
    free(counts);
    if (opening->wrong) return;
    src->frames = frames;
    for (guint64 n = 0; n < src->frames && !opening->width; n++) {
        wk_shown shown = {0};
        if (wk_frame(&src->handle, n, NULL, 0, NULL, 0, NULL, 0, &shown) == WK_ROOM) opening->width = shown.width, opening->height = shown.height;
    }
    if (opening->width) return;
    gchar *why = src->frames ? refusal_of(src, "frame 0") : NULL;
    opening->wrong = why ? g_strdup_printf("no frame is served; frame 0: %s", why) : g_strdup("there are no frames");
    g_free(why);
}

/* The frame rate, as a fraction whose numbers are those of GStreamer. */
static void find_rate(WokuretiSrc *src, Opening *opening) {
    clip_facts facts;
    if (!clip_look(&src->handle, &opening->files, &facts)) {
        opening->wrong = g_strdup("out of memory");
        return;
    }
    free(facts.kinds);
    /* The session has the bytes. */
    free(opening->files.bytes);
    opening->files.bytes = NULL;
    while (facts.rate.many > G_MAXINT || facts.rate.one > G_MAXINT) facts.rate.many /= 2, facts.rate.one /= 2;
    src->rate = MAX((gint)facts.rate.many, 1);
    src->scale = MAX((gint)facts.rate.one, 1);
}

static void find_times(WokuretiSrc *src, Opening *opening) {
    clip_times found = clip_times_of(&src->handle, (clip_rate){src->rate, src->scale}, src->frames);
    src->times = found.stamps;
    if (found.is_lost) opening->wrong = g_strdup("out of memory");
    for (guint64 n = 0; src->times && n <= src->frames; n++) src->times[n] = gst_util_uint64_scale(src->times[n], GST_SECOND * found.one, found.many);
}

static uint32_t open_handle(WokuretiSrc *src, const clip_files *files, wk_fault *fault) {
    size_t size = files->ends[files->count - 1];
    if (src->states) return wk_open(&src->handle, files->bytes, size, files->ends, files->count, (uint16_t)src->states, NULL, 0, fault);
    return wk_open_bytes(&src->handle, files->bytes, size, files->ends, files->count, src->cache_bytes, NULL, 0, fault);
}

static void open_session(WokuretiSrc *src, gpointer given) {
    Opening *opening = given;
    wk_fault fault = {0};
    uint32_t status = open_handle(src, &opening->files, &fault);
    if (status == WK_FILE) {
        opening->wrong = g_strdup_printf("%s is not an IVF, WebM or Matroska file of VP8: %s", src->names[fault.source], clip_file_cause(fault.cause));
    } else if (status) {
        opening->wrong = status == WK_MEMORY ? g_strdup("out of memory") : g_strdup_printf("the session is not opened (%u)", status);
    } else {
        find_rate(src, opening);
        if (!opening->wrong && src->script) set_script(src, opening);
        if (!opening->wrong) find_frames(src, opening);
        if (!opening->wrong) find_times(src, opening);
    }
}

static void close_session(WokuretiSrc *src, gpointer given) {
    (void)given;
    wk_close(&src->handle);
}

/* The paths of all sources, or an error of the element. */
static gchar **find_names(WokuretiSrc *src) {
    guint count = 0;
    for (guint k = 0; k < CLIP_SOURCES; k++)
        if (src->paths[k]) count = k + 1;
    if (!src->paths[0]) {
        GST_ELEMENT_ERROR(src, RESOURCE, NOT_FOUND, ("no location is given: the path of an IVF, WebM or Matroska file"), (NULL));
        return NULL;
    }
    if (src->sources && count > 1) {
        GST_ELEMENT_ERROR(src, RESOURCE, SETTINGS, ("either sources or source1 to source7 are given, not both"), (NULL));
        return NULL;
    }
    gchar **more = g_strsplit(src->sources ? src->sources : "", ":", 0), **names = g_new0(gchar *, CLIP_SOURCES + 1);
    guint others = g_strv_length(more);
    gboolean is_wrong = others >= CLIP_SOURCES;
    if (is_wrong) GST_ELEMENT_ERROR(src, RESOURCE, SETTINGS, ("there are more than seven sources"), (NULL));
    for (guint k = 0; k < count && !is_wrong; k++) {
        is_wrong = src->paths[k] == NULL;
        if (is_wrong) GST_ELEMENT_ERROR(src, RESOURCE, SETTINGS, ("source%u is given, and source%u is not", count - 1, k), (NULL));
        else names[k] = g_strdup(src->paths[k]);
    }
    for (guint k = 0; k < others && !is_wrong; k++) names[count + k] = g_strdup(more[k]);
    g_strfreev(more);
    if (is_wrong) g_clear_pointer(&names, g_strfreev);
    return names;
}

static gboolean read_files(WokuretiSrc *src, clip_files *files) {
    for (guint k = 0; src->names[k]; k++) {
        const char *why = clip_add_file(files, src->names[k]);
        if (!why) continue;
        gboolean is_there = g_file_test(src->names[k], G_FILE_TEST_EXISTS);
        if (is_there) GST_ELEMENT_ERROR(src, RESOURCE, OPEN_READ, ("cannot read %s: %s", src->names[k], why), (NULL));
        else GST_ELEMENT_ERROR(src, RESOURCE, NOT_FOUND, ("cannot read %s: %s", src->names[k], why), (NULL));
        return FALSE;
    }
    return TRUE;
}

/* What VP8 is, at every size: BT.601, luma of 16 to 235, chroma samples in the middle of four. GStreamer's own choice depends on the height. */
static void set_info(WokuretiSrc *src, const Opening *opening) {
    gst_video_info_set_format(&src->info, GST_VIDEO_FORMAT_I420, opening->width, opening->height);
    gst_video_colorimetry_from_string(&src->info.colorimetry, GST_VIDEO_COLORIMETRY_BT601);
    src->info.chroma_site = GST_VIDEO_CHROMA_SITE_JPEG;
    src->info.fps_n = src->rate;
    src->info.fps_d = src->scale;
}

/* When a frame begins. */
static GstClockTime time_of(WokuretiSrc *src, guint64 frame) {
    if (src->times) return src->times[MIN(frame, src->frames)];
    return gst_util_uint64_scale(frame, GST_SECOND * (guint64)src->scale, (guint64)src->rate);
}

/* The frame that is shown at a time: the last one that begins by then, or the number of frames after their end. */
static guint64 frame_at(WokuretiSrc *src, GstClockTime time) {
    if (!src->times) {
        /* The times of frames are rounded down, so a nanosecond is added, which may be one too many. */
        guint64 frame = gst_util_uint64_scale(time + 1, (guint64)src->rate, GST_SECOND * (guint64)src->scale);
        return frame && time_of(src, frame) > time ? frame - 1 : frame;
    }
    guint64 first = 0, after = src->frames + 1;
    while (after - first > 1) {
        guint64 middle = first + (after - first) / 2;
        if (src->times[middle] <= time) first = middle;
        else after = middle;
    }
    return first;
}

static gboolean stop(GstBaseSrc *base) {
    WokuretiSrc *src = WOKURETI_SRC(base);
    if (src->worker) {
        on_worker(src, close_session, NULL, NULL);
        g_mutex_lock(&src->lock);
        src->ends = TRUE;
        g_cond_broadcast(&src->changed);
        g_mutex_unlock(&src->lock);
        g_thread_join(src->worker);
        src->worker = NULL;
    }
    g_clear_pointer(&src->names, g_strfreev);
    free(src->times);
    src->times = NULL;
    gst_video_info_init(&src->info);
    return TRUE;
}

static gboolean start(GstBaseSrc *base) {
    WokuretiSrc *src = WOKURETI_SRC(base);
    Opening opening = {0};
    gboolean is_open = FALSE;
    src->names = find_names(src);
    if (src->names && read_files(src, &opening.files)) {
        src->ends = src->is_reverse = FALSE;
        src->next = 0;
        src->worker = g_thread_new("wokureti", work, src);
        on_worker(src, open_session, &opening, NULL);
        is_open = opening.wrong == NULL;
        if (!is_open) GST_ELEMENT_ERROR(src, STREAM, DECODE, ("%s: %s", src->names[0], opening.wrong), (NULL));
    }
    if (is_open) {
        set_info(src, &opening);
        base->segment.duration = (gint64)time_of(src, src->frames);
    }
    free(opening.files.bytes);
    g_free(opening.wrong);
    if (!is_open) stop(base);
    return is_open;
}

/* Caps, seeks and questions */

static GstCaps *get_caps(GstBaseSrc *base, GstCaps *filter) {
    WokuretiSrc *src = WOKURETI_SRC(base);
    GstCaps *caps = src->worker && GST_VIDEO_INFO_WIDTH(&src->info) ? gst_video_info_to_caps(&src->info) : gst_static_pad_template_get_caps(&template);
    if (filter) {
        GstCaps *both = gst_caps_intersect_full(filter, caps, GST_CAPS_INTERSECT_FIRST);
        gst_caps_unref(caps);
        return both;
    }
    return caps;
}

/* Frames are written into buffers that are used again: those that come after offer some, or else ours. */
static gboolean decide_allocation(GstBaseSrc *base, GstQuery *query) {
    WokuretiSrc *src = WOKURETI_SRC(base);
    GstBufferPool *pool = NULL;
    GstCaps *caps = NULL;
    guint size = 0, least = 0, most = 0;
    gboolean is_offered = gst_query_get_n_allocation_pools(query) > 0;
    if (is_offered) gst_query_parse_nth_allocation_pool(query, 0, &pool, &size, &least, &most);
    if (!pool) pool = gst_video_buffer_pool_new();
    size = MAX(size, (guint)GST_VIDEO_INFO_SIZE(&src->info));
    GstStructure *config = gst_buffer_pool_get_config(pool);
    gst_query_parse_allocation(query, &caps, NULL);
    gst_buffer_pool_config_set_params(config, caps, size, least, most);
    if (gst_query_find_allocation_meta(query, GST_VIDEO_META_API_TYPE, NULL)) gst_buffer_pool_config_add_option(config, GST_BUFFER_POOL_OPTION_VIDEO_META);
    gst_buffer_pool_set_config(pool, config);
    if (is_offered) gst_query_set_nth_allocation_pool(query, 0, pool, size, least, most);
    else gst_query_add_allocation_pool(query, pool, size, least, most);
    gst_object_unref(pool);
    return GST_BASE_SRC_CLASS(wokureti_src_parent_class)->decide_allocation(base, query);
}

static gboolean is_seekable(GstBaseSrc *base) {
    (void)base;
    return TRUE;
}

static gboolean do_seek(GstBaseSrc *base, GstSegment *segment) {
    WokuretiSrc *src = WOKURETI_SRC(base);
    if (segment->format != GST_FORMAT_TIME) return FALSE;
    src->is_reverse = segment->rate < 0;
    segment->time = segment->start;
    if (!src->is_reverse) {
        src->next = frame_at(src, segment->position);
        segment->position = time_of(src, src->next);
        return TRUE;
    }
    GstClockTime end = time_of(src, src->frames);
    if (!GST_CLOCK_TIME_IS_VALID(segment->stop) || segment->stop > end) segment->stop = end;
    segment->position = segment->stop;
    src->next = frame_at(src, segment->position);
    /* A frame that begins at the position or later is not played. */
    if (time_of(src, src->next) < segment->position) src->next++;
    return TRUE;
}

static gboolean convert(WokuretiSrc *src, GstQuery *asked) {
    GstFormat from, to;
    gint64 given;
    gst_query_parse_convert(asked, &from, &given, &to, NULL);
    if (!src->worker || (from != GST_FORMAT_TIME && from != GST_FORMAT_DEFAULT) || (to != GST_FORMAT_TIME && to != GST_FORMAT_DEFAULT)) return FALSE;
    gint64 made = from == to || given < 0 ? given : to == GST_FORMAT_TIME ? (gint64)time_of(src, (guint64)given) : (gint64)frame_at(src, (guint64)given);
    gst_query_set_convert(asked, from, given, to, made);
    return TRUE;
}

/* The length in a format, or -1. */
static gint64 length_in(WokuretiSrc *src, GstFormat format) {
    if (!src->worker) return -1;
    return format == GST_FORMAT_TIME ? (gint64)time_of(src, src->frames) : (gint64)src->frames;
}

static gboolean query(GstBaseSrc *base, GstQuery *asked) {
    WokuretiSrc *src = WOKURETI_SRC(base);
    GstFormat format;
    switch (GST_QUERY_TYPE(asked)) {
    case GST_QUERY_DURATION:
        gst_query_parse_duration(asked, &format, NULL);
        if (!src->worker || (format != GST_FORMAT_TIME && format != GST_FORMAT_DEFAULT)) break;
        gst_query_set_duration(asked, format, length_in(src, format));
        return TRUE;
    case GST_QUERY_SEEKING:
        gst_query_parse_seeking(asked, &format, NULL, NULL, NULL);
        if (format != GST_FORMAT_TIME && format != GST_FORMAT_DEFAULT) break;
        gst_query_set_seeking(asked, format, TRUE, 0, length_in(src, format));
        return TRUE;
    case GST_QUERY_CONVERT:
        if (convert(src, asked)) return TRUE;
        break;
    default:
        break;
    }
    return GST_BASE_SRC_CLASS(wokureti_src_parent_class)->query(base, asked);
}

/* Frames */

/* A frame that is asked for. */
typedef struct {
    GstVideoFrame frame;
    guint64 number;
    uint32_t status;
    gchar *why;
} Wanted;

static void free_wanted(gpointer given) {
    Wanted *wanted = given;
    gst_video_frame_unmap(&wanted->frame);
    g_free(wanted->why);
    g_free(wanted);
}

static void serve(WokuretiSrc *src, gpointer given) {
    Wanted *wanted = given;
    uint8_t *at[3];
    size_t size[3];
    for (guint k = 0; k < 3; k++) {
        at[k] = GST_VIDEO_FRAME_COMP_DATA(&wanted->frame, k);
        size_t stride = (size_t)GST_VIDEO_FRAME_COMP_STRIDE(&wanted->frame, k), rows = (size_t)GST_VIDEO_FRAME_COMP_HEIGHT(&wanted->frame, k);
        size[k] = (rows - 1) * stride + (size_t)GST_VIDEO_FRAME_COMP_WIDTH(&wanted->frame, k);
    }
    wk_shown shown = {.luma_stride = (size_t)GST_VIDEO_FRAME_COMP_STRIDE(&wanted->frame, 0), .chroma_stride = (size_t)GST_VIDEO_FRAME_COMP_STRIDE(&wanted->frame, 1)};
    wanted->status = wk_frame(&src->handle, wanted->number, at[0], size[0], at[1], size[1], at[2], size[2], &shown);
    if (!wanted->status) return;
    gchar *line = g_strdup_printf("frame %" G_GUINT64_FORMAT, wanted->number), *why = refusal_of(src, line);
    /* Of the source that the packet is of. */
    const gchar *name = wanted->status == WK_PACKET && shown.source < g_strv_length(src->names) ? src->names[shown.source] : src->names[0];
    wanted->why = g_strdup_printf("%s: frame %" G_GUINT64_FORMAT ": %s", name, wanted->number, why);
    g_free(line);
    g_free(why);
}

static GstFlowReturn fill(GstPushSrc *push, GstBuffer *buffer) {
    WokuretiSrc *src = WOKURETI_SRC(push);
    if (src->is_reverse ? !src->next : src->next >= src->frames) return GST_FLOW_EOS;
    Wanted *wanted = g_new0(Wanted, 1);
    wanted->number = src->is_reverse ? src->next - 1 : src->next;
    if (!gst_video_frame_map(&wanted->frame, &src->info, buffer, GST_MAP_WRITE)) {
        g_free(wanted);
        GST_ELEMENT_ERROR(src, RESOURCE, NO_SPACE_LEFT, ("out of memory for a frame"), (NULL));
        return GST_FLOW_ERROR;
    }
    if (!on_worker(src, serve, wanted, free_wanted)) return GST_FLOW_FLUSHING;
    guint64 number = wanted->number;
    gboolean is_served = !wanted->status;
    if (!is_served) GST_ELEMENT_ERROR(src, STREAM, DECODE, ("%s", wanted->why), (NULL));
    free_wanted(wanted);
    if (!is_served) return GST_FLOW_ERROR;
    GST_BUFFER_PTS(buffer) = GST_BUFFER_DTS(buffer) = time_of(src, number);
    GST_BUFFER_DURATION(buffer) = time_of(src, number + 1) - GST_BUFFER_PTS(buffer);
    GST_BUFFER_OFFSET(buffer) = number;
    GST_BUFFER_OFFSET_END(buffer) = number + 1;
    src->next = src->is_reverse ? number : number + 1;
    return GST_FLOW_OK;
}

/* Addresses: wokureti:///clips/a.ivf?source=/clips/b.ivf&script=source 1; splice 0 1 */

static GstURIType uri_type(GType type) {
    (void)type;
    return GST_URI_SRC;
}

static const gchar *const *uri_protocols(GType type) {
    static const gchar *const protocols[] = {"wokureti", NULL};
    (void)type;
    return protocols;
}

static void add_to_uri(GString *uri, const gchar *name, const gchar *value) {
    gchar *text = g_uri_escape_string(value, "/:;,", FALSE);
    g_string_append_printf(uri, "%c%s=%s", strchr(uri->str, '?') ? '&' : '?', name, text);
    g_free(text);
}

static gchar *get_uri(GstURIHandler *handler) {
    WokuretiSrc *src = WOKURETI_SRC(handler);
    if (!src->paths[0]) return NULL;
    gchar *whole = g_canonicalize_filename(src->paths[0], NULL), *path = g_uri_escape_string(whole, "/:;,", FALSE);
    GString *uri = g_string_new("wokureti://");
    g_string_append(uri, path);
    gchar **more = g_strsplit(src->sources ? src->sources : "", ":", 0);
    for (guint k = 0; more[k]; k++) add_to_uri(uri, "source", more[k]);
    for (guint k = 1; k < CLIP_SOURCES; k++)
        if (src->paths[k]) add_to_uri(uri, "source", src->paths[k]);
    if (src->script) add_to_uri(uri, "script", src->script);
    gchar *states = g_strdup_printf("%u", src->states), *bytes = g_strdup_printf("%" G_GUINT64_FORMAT, src->cache_bytes);
    if (src->states) add_to_uri(uri, "states", states);
    if (src->cache_bytes != CACHE_BYTES) add_to_uri(uri, "cache-bytes", bytes);
    g_strfreev(more);
    g_free(states);
    g_free(bytes);
    g_free(path);
    g_free(whole);
    return g_string_free(uri, FALSE);
}

/* What an address says. */
typedef struct {
    gchar *paths[CLIP_SOURCES], *script;
    guint sources;
    guint64 states, cache_bytes;
} Address;

static gboolean is_bad(GError **error, const gchar *uri, const gchar *why) {
    g_set_error(error, GST_URI_ERROR, GST_URI_ERROR_BAD_URI, "%s: %s", uri, why);
    return FALSE;
}

/* Takes one part of a query, NAME=VALUE. Why it is not one, or NULL. */
static const gchar *take_word(Address *address, const gchar *word) {
    const gchar *value = strchr(word, '=');
    gchar *name = g_strndup(word, value ? (gsize)(value - word) : strlen(word)), *text = value ? g_uri_unescape_string(value + 1, NULL) : NULL;
    const gchar *why = NULL;
    if (!text) {
        why = "a part of the query is not NAME=VALUE in percent-encoding";
    } else if (!strcmp(name, "source") && address->sources + 1 < CLIP_SOURCES) {
        address->paths[++address->sources] = g_steal_pointer(&text);
    } else if (!strcmp(name, "source")) {
        why = "there are more than seven sources";
    } else if (!strcmp(name, "script") && !address->script) {
        address->script = g_steal_pointer(&text);
    } else if (!strcmp(name, "states")) {
        if (!g_ascii_string_to_unsigned(text, 10, 0, 4096, &address->states, NULL)) why = "states is not a number from 0 to 4096";
    } else if (!strcmp(name, "cache-bytes")) {
        if (!g_ascii_string_to_unsigned(text, 10, 1, G_MAXUINT64, &address->cache_bytes, NULL)) why = "cache-bytes is not a number from 1 on";
    } else {
        why = "a name in the query is not source, script, states or cache-bytes, or script is there twice";
    }
    g_free(name);
    g_free(text);
    return why;
}

static void clear_address(Address *address) {
    for (guint k = 0; k < CLIP_SOURCES; k++) g_free(address->paths[k]);
    g_free(address->script);
}

static gboolean read_address(Address *address, const gchar *uri, GError **error) {
    const gchar *path = uri + strlen("wokureti://"), *mark = strchr(path, '?');
    if (g_ascii_strncasecmp(uri, "wokureti://", strlen("wokureti://")) || *path != '/') return is_bad(error, uri, "the form is wokureti:///PATH?NAME=VALUE&..");
    if (strchr(uri, '#')) return is_bad(error, uri, "# is written as %23");
    address->paths[0] = g_uri_unescape_segment(path, mark ? mark : path + strlen(path), NULL);
    if (!address->paths[0]) return is_bad(error, uri, "the path is not percent-encoded: % is written as %25");
    gchar **words = g_strsplit(mark ? mark + 1 : "", "&", 0);
    const gchar *why = NULL;
    for (guint k = 0; words[k] && !why; k++)
        if (*words[k]) why = take_word(address, words[k]);
    g_strfreev(words);
    return why ? is_bad(error, uri, why) : TRUE;
}

static gboolean set_uri(GstURIHandler *handler, const gchar *uri, GError **error) {
    WokuretiSrc *src = WOKURETI_SRC(handler);
    Address address = {.cache_bytes = CACHE_BYTES};
    if (GST_STATE(src) > GST_STATE_READY) {
        g_set_error(error, GST_URI_ERROR, GST_URI_ERROR_BAD_STATE, "the address of a running element cannot be changed");
        return FALSE;
    }
    if (!read_address(&address, uri, error)) {
        clear_address(&address);
        return FALSE;
    }
    for (guint k = 0; k < CLIP_SOURCES; k++) {
        g_free(src->paths[k]);
        src->paths[k] = address.paths[k];
    }
    g_clear_pointer(&src->sources, g_free);
    g_free(src->script);
    src->script = address.script;
    src->states = (guint)address.states;
    src->cache_bytes = address.cache_bytes;
    return TRUE;
}

static void add_uri_handler(gpointer interface, gpointer data) {
    GstURIHandlerInterface *calls = interface;
    (void)data;
    calls->get_type = uri_type;
    calls->get_protocols = uri_protocols;
    calls->get_uri = get_uri;
    calls->set_uri = set_uri;
}

/* The element */

/* The text of a property, or NULL if it has none. */
static gchar **text_of(WokuretiSrc *src, guint id) {
    if (id >= PROP_LOCATION && id < PROP_LOCATION + CLIP_SOURCES) return &src->paths[id - PROP_LOCATION];
    return id == PROP_SOURCES ? &src->sources : id == PROP_SCRIPT ? &src->script : NULL;
}

static void set_property(GObject *object, guint id, const GValue *value, GParamSpec *spec) {
    WokuretiSrc *src = WOKURETI_SRC(object);
    gchar **text = text_of(src, id);
    if (id == PROP_STATES) {
        src->states = g_value_get_uint(value);
    } else if (id == PROP_CACHE_BYTES) {
        src->cache_bytes = g_value_get_uint64(value);
    } else if (text) {
        g_free(*text);
        *text = g_value_dup_string(value);
    } else {
        G_OBJECT_WARN_INVALID_PROPERTY_ID(object, id, spec);
    }
}

static void get_property(GObject *object, guint id, GValue *value, GParamSpec *spec) {
    WokuretiSrc *src = WOKURETI_SRC(object);
    gchar **text = text_of(src, id);
    if (id == PROP_STATES) {
        g_value_set_uint(value, src->states);
    } else if (id == PROP_CACHE_BYTES) {
        g_value_set_uint64(value, src->cache_bytes);
    } else if (text) {
        g_value_set_string(value, *text);
    } else {
        G_OBJECT_WARN_INVALID_PROPERTY_ID(object, id, spec);
    }
}

static void finalize(GObject *object) {
    WokuretiSrc *src = WOKURETI_SRC(object);
    for (guint k = 0; k < CLIP_SOURCES; k++) g_free(src->paths[k]);
    g_free(src->sources);
    g_free(src->script);
    g_strfreev(src->names);
    g_mutex_clear(&src->lock);
    g_cond_clear(&src->changed);
    G_OBJECT_CLASS(wokureti_src_parent_class)->finalize(object);
}

static void wokureti_src_init(WokuretiSrc *src) {
    g_mutex_init(&src->lock);
    g_cond_init(&src->changed);
    src->cache_bytes = CACHE_BYTES;
    gst_video_info_init(&src->info);
    gst_base_src_set_format(GST_BASE_SRC(src), GST_FORMAT_TIME);
}

static void install_properties(GObjectClass *object) {
    static const char *const names[] = {"source1", "source2", "source3", "source4", "source5", "source6", "source7"};
    GParamFlags flags = G_PARAM_READWRITE | G_PARAM_STATIC_STRINGS | GST_PARAM_MUTABLE_READY;
    g_object_class_install_property(object, PROP_LOCATION, g_param_spec_string("location", "Location", "The path of an IVF, WebM or Matroska file of VP8", NULL, flags));
    for (guint k = 1; k < CLIP_SOURCES; k++)
        g_object_class_install_property(object, PROP_LOCATION + k, g_param_spec_string(names[k - 1], names[k - 1], "The path of this source of the script", NULL, flags));
    g_object_class_install_property(object, PROP_SOURCES, g_param_spec_string("sources", "Sources", "The paths of sources 1 to 7 in one text, with : between them", NULL, flags));
    g_object_class_install_property(object, PROP_SCRIPT, g_param_spec_string("script", "Script", "The script whose frames are served", NULL, flags));
    g_object_class_install_property(object, PROP_STATES, g_param_spec_uint("states", "States", "The most decoded states that are cached (0: cache-bytes is the limit)", 0, 4096, 0, flags));
    g_object_class_install_property(object, PROP_CACHE_BYTES,
                                    g_param_spec_uint64("cache-bytes", "Cache bytes", "The most bytes of the pictures of cached states, if states is 0", 1, G_MAXUINT64, CACHE_BYTES, flags));
}

static void wokureti_src_class_init(WokuretiSrcClass *class) {
    GObjectClass *object = G_OBJECT_CLASS(class);
    GstElementClass *element = GST_ELEMENT_CLASS(class);
    GstBaseSrcClass *base = GST_BASE_SRC_CLASS(class);
    object->set_property = set_property;
    object->get_property = get_property;
    object->finalize = finalize;
    install_properties(object);
    gst_element_class_add_static_pad_template(element, &template);
    gst_element_class_set_static_metadata(element, "Wokureti source", "Source/File/Video", "Frames of an edited VP8 stream", "The founders of Wokureti");
    base->start = start;
    base->stop = stop;
    base->unlock = unlock;
    base->unlock_stop = unlock_stop;
    base->get_caps = get_caps;
    base->decide_allocation = decide_allocation;
    base->is_seekable = is_seekable;
    base->do_seek = do_seek;
    base->query = query;
    GST_PUSH_SRC_CLASS(class)->fill = fill;
    GST_DEBUG_CATEGORY_INIT(wokureti_debug, "wokuretisrc", 0, "frames of an edited VP8 stream");
}

static gboolean plugin_init(GstPlugin *plugin) {
    return gst_element_register(plugin, "wokuretisrc", GST_RANK_PRIMARY, WOKURETI_TYPE_SRC);
}

/* No licence has been chosen, which GStreamer's word for is "unknown". */
GST_PLUGIN_DEFINE(GST_VERSION_MAJOR, GST_VERSION_MINOR, wokureti, "Frames of edited VP8 streams", plugin_init, "0.16.0", GST_LICENSE_UNKNOWN, PACKAGE, "README.md of the repository")
