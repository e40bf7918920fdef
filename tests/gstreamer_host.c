/* Plays a pipeline whose last element is called `sink`, and prints what arrives there:
 *
 *     gstreamer_host PIPELINE COMMAND ..
 *
 * `caps` prints the caps, `length` the durations in nanoseconds and frames, `frame N` and `time NS` seek and print the frame that is shown then, `play RATE FORMAT FROM TO`
 * (a rate, `time` or `frame`, and two positions, of which the last may be -1) seeks and prints the frames up to the end, `loop RATE FROM TO` plays frames twice as a loop does, without
 * a flush between, `again` ends the pipeline and starts it again, `long NS` seeks to a frame that takes long, seeks to 0
 * meanwhile and prints how many milliseconds the second call and the frame of the first one took. A frame is its number, its time, its duration and the MD5 of its samples.
 * The last line, `buffers N`, has the number of different buffers. */
#include <gst/gst.h>
#include <gst/video/video.h>
#include <stdio.h>
#include <stdlib.h>
#include <string.h>

static GstElement *pipeline, *sink;
static GHashTable *buffers;
static GMutex lock;
/* Frames are printed as they arrive, or only the last one is kept. */
static gboolean is_played;
static gchar *last;

static void fail(const char *why) {
    fprintf(stderr, "gstreamer_host: %s\n", why);
    GstBus *bus = gst_element_get_bus(pipeline);
    GstMessage *message = gst_bus_pop_filtered(bus, GST_MESSAGE_ERROR);
    GError *error = NULL;
    if (message) gst_message_parse_error(message, &error, NULL);
    if (error) fprintf(stderr, "%s\n", error->message);
    exit(1);
}

static gchar *digest_of(GstVideoFrame *frame) {
    GChecksum *sum = g_checksum_new(G_CHECKSUM_MD5);
    for (int k = 0; k < 3; k++)
        for (int y = 0; y < GST_VIDEO_FRAME_COMP_HEIGHT(frame, k); y++)
            g_checksum_update(sum, (guchar *)GST_VIDEO_FRAME_COMP_DATA(frame, k) + y * GST_VIDEO_FRAME_COMP_STRIDE(frame, k), GST_VIDEO_FRAME_COMP_WIDTH(frame, k));
    gchar *text = g_strdup(g_checksum_get_string(sum));
    g_checksum_free(sum);
    return text;
}

static GstPadProbeReturn arrived(GstPad *pad, GstPadProbeInfo *info, gpointer unused) {
    (void)unused;
    GstBuffer *buffer = GST_PAD_PROBE_INFO_BUFFER(info);
    GstCaps *caps = gst_pad_get_current_caps(pad);
    GstVideoInfo video;
    GstVideoFrame frame;
    if (!gst_video_info_from_caps(&video, caps) || !gst_video_frame_map(&frame, &video, buffer, GST_MAP_READ)) fail("a buffer is not a frame");
    gchar *digest = digest_of(&frame);
    g_mutex_lock(&lock);
    g_hash_table_add(buffers, frame.data[0]);
    g_free(last);
    last = g_strdup_printf("frame %" G_GUINT64_FORMAT " %" G_GUINT64_FORMAT " %" G_GUINT64_FORMAT " %s", GST_BUFFER_OFFSET(buffer), GST_BUFFER_PTS(buffer), GST_BUFFER_DURATION(buffer), digest);
    if (is_played) printf("%s\n", last);
    g_mutex_unlock(&lock);
    g_free(digest);
    gst_video_frame_unmap(&frame);
    gst_caps_unref(caps);
    return GST_PAD_PROBE_OK;
}

static void preroll(void) {
    if (gst_element_get_state(pipeline, NULL, NULL, 60 * GST_SECOND) != GST_STATE_CHANGE_SUCCESS) fail("the pipeline does not pause");
}

static void seek_with(GstSeekFlags flags, gdouble rate, GstFormat format, gint64 from, gint64 to) {
    if (!gst_element_seek(pipeline, rate, format, flags, GST_SEEK_TYPE_SET, from, to < 0 ? GST_SEEK_TYPE_NONE : GST_SEEK_TYPE_SET, to)) fail("a seek is refused");
}

static void seek(gdouble rate, GstFormat format, gint64 from, gint64 to) {
    seek_with(GST_SEEK_FLAG_FLUSH | GST_SEEK_FLAG_ACCURATE, rate, format, from, to);
}

/* Waits for the end of the frames, or of a part of a loop. */
static void wait_for(GstMessageType wanted) {
    GstBus *bus = gst_element_get_bus(pipeline);
    GstMessage *message = gst_bus_timed_pop_filtered(bus, 60 * GST_SECOND, wanted | GST_MESSAGE_ERROR);
    if (!message || GST_MESSAGE_TYPE(message) != wanted) fail("the frames do not end");
    gst_message_unref(message);
    gst_object_unref(bus);
    printf("end\n");
}

static void show(GstFormat format, const char *at) {
    seek(1, format, g_ascii_strtoll(at, NULL, 10), -1);
    preroll();
    printf("%s\n", last);
}

static void play(char **words) {
    gdouble rate = g_ascii_strtod(words[0], NULL);
    /* The frame that is shown while the pipeline is paused is printed too. */
    is_played = TRUE;
    seek(rate, strcmp(words[1], "time") ? GST_FORMAT_DEFAULT : GST_FORMAT_TIME, g_ascii_strtoll(words[2], NULL, 10), g_ascii_strtoll(words[3], NULL, 10));
    gst_element_set_state(pipeline, GST_STATE_PLAYING);
    wait_for(GST_MESSAGE_EOS);
    gst_element_set_state(pipeline, GST_STATE_PAUSED);
    preroll();
    is_played = FALSE;
}

static void loop(char **words) {
    gdouble rate = g_ascii_strtod(words[0], NULL);
    gint64 from = g_ascii_strtoll(words[1], NULL, 10), to = g_ascii_strtoll(words[2], NULL, 10);
    is_played = TRUE;
    seek_with(GST_SEEK_FLAG_FLUSH | GST_SEEK_FLAG_ACCURATE | GST_SEEK_FLAG_SEGMENT, rate, GST_FORMAT_DEFAULT, from, to);
    gst_element_set_state(pipeline, GST_STATE_PLAYING);
    wait_for(GST_MESSAGE_SEGMENT_DONE);
    seek_with(GST_SEEK_FLAG_ACCURATE | GST_SEEK_FLAG_SEGMENT, rate, GST_FORMAT_DEFAULT, from, to);
    wait_for(GST_MESSAGE_SEGMENT_DONE);
    is_played = FALSE;
    seek(1, GST_FORMAT_TIME, 0, -1);
    gst_element_set_state(pipeline, GST_STATE_PAUSED);
    preroll();
}

static void start_again(void) {
    gst_element_set_state(pipeline, GST_STATE_NULL);
    gst_element_set_state(pipeline, GST_STATE_PAUSED);
    preroll();
    printf("%s\n", last);
}

/* Milliseconds of the second of two seeks, and until the frame of the first one would have been there. */
static void wait_long(const char *at) {
    gint64 begin = g_get_monotonic_time();
    seek(1, GST_FORMAT_TIME, g_ascii_strtoll(at, NULL, 10), -1);
    preroll();
    gint64 whole = g_get_monotonic_time() - begin;
    seek(1, GST_FORMAT_TIME, 0, -1);
    preroll();
    seek(1, GST_FORMAT_TIME, g_ascii_strtoll(at, NULL, 10), -1);
    g_usleep((gulong)whole / 8);
    begin = g_get_monotonic_time();
    seek(1, GST_FORMAT_TIME, 0, -1);
    printf("long %" G_GINT64_FORMAT " %" G_GINT64_FORMAT "\n", (g_get_monotonic_time() - begin) / 1000, whole / 1000);
    preroll();
    printf("%s\n", last);
}

static void print_length(void) {
    gint64 time = -1, frames = -1, second = -1;
    GstPad *pad = gst_element_get_static_pad(sink, "sink");
    if (!gst_element_query_duration(pipeline, GST_FORMAT_TIME, &time) || !gst_element_query_duration(pipeline, GST_FORMAT_DEFAULT, &frames)) fail("a length is not known");
    if (!gst_pad_peer_query_convert(pad, GST_FORMAT_TIME, GST_SECOND, GST_FORMAT_DEFAULT, &second)) fail("a time is not converted");
    printf("length %" G_GINT64_FORMAT " %" G_GINT64_FORMAT " second %" G_GINT64_FORMAT "\n", time, frames, second);
    gst_object_unref(pad);
}

static void print_caps(void) {
    GstPad *pad = gst_element_get_static_pad(sink, "sink");
    GstCaps *caps = gst_pad_get_current_caps(pad);
    gchar *text = gst_caps_to_string(caps);
    printf("caps %s\n", text);
    g_free(text);
    gst_caps_unref(caps);
    gst_object_unref(pad);
}

int main(int argc, char **argv) {
    gst_init(&argc, &argv);
    GError *error = NULL;
    pipeline = argc > 1 ? gst_parse_launch(argv[1], &error) : NULL;
    sink = pipeline ? gst_bin_get_by_name(GST_BIN(pipeline), "sink") : NULL;
    if (error || !sink) {
        fprintf(stderr, "gstreamer_host: %s\n", error ? error->message : "no element is called sink");
        return 2;
    }
    buffers = g_hash_table_new(NULL, NULL);
    GstPad *pad = gst_element_get_static_pad(sink, "sink");
    gst_pad_add_probe(pad, GST_PAD_PROBE_TYPE_BUFFER, arrived, NULL, NULL);
    gst_object_unref(pad);
    gst_element_set_state(pipeline, GST_STATE_PAUSED);
    preroll();
    for (int k = 2; k < argc; k++) {
        if (!strcmp(argv[k], "caps")) print_caps();
        else if (!strcmp(argv[k], "length")) print_length();
        else if (!strcmp(argv[k], "frame") && k + 1 < argc) show(GST_FORMAT_DEFAULT, argv[++k]);
        else if (!strcmp(argv[k], "time") && k + 1 < argc) show(GST_FORMAT_TIME, argv[++k]);
        else if (!strcmp(argv[k], "loop") && k + 3 < argc) loop(argv + k + 1), k += 3;
        else if (!strcmp(argv[k], "again")) start_again();
        else if (!strcmp(argv[k], "long") && k + 1 < argc) wait_long(argv[++k]);
        else if (!strcmp(argv[k], "play") && k + 4 < argc) play(argv + k + 1), k += 4;
        else fail("there is no such command");
    }
    gst_element_set_state(pipeline, GST_STATE_NULL);
    printf("buffers %u\n", g_hash_table_size(buffers));
    g_hash_table_unref(buffers);
    g_free(last);
    gst_object_unref(sink);
    gst_object_unref(pipeline);
    return 0;
}
