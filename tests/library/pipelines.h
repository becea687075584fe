/* What the programs here share that play a file by the GStreamer element to another file, and seek in it. */
#ifndef TESTS_LIBRARY_PIPELINES_H
#define TESTS_LIBRARY_PIPELINES_H

#include <gst/gst.h>
#include <stdlib.h>

/* A pipeline, the element in it, and what the pipeline answers. */
typedef struct playing {
    GstElement *pipeline, *dec;
    GstBus *bus;
} playing;

static inline GstElement *part(GstElement *pipeline, const char *what, const char *key, const char *value) {
    GstElement *made = gst_element_factory_make(what, NULL);
    if (!made) exit(3);
    gst_util_set_object_arg(G_OBJECT(made), key, value);
    gst_bin_add(GST_BIN(pipeline), made);
    return made;
}

/* A pipeline that plays `file` by `filter` to `out`, paused at its start. */
static inline playing paused(const char *filter, const char *file, const char *out) {
    GstElement *pipeline = gst_pipeline_new(NULL);
    GstElement *source = part(pipeline, "filesrc", "location", file);
    GstElement *dec = part(pipeline, "dsdarcdec", "filter", filter);
    GstElement *sink = part(pipeline, "filesink", "location", out);
    playing it = {pipeline, dec, gst_element_get_bus(pipeline)};
    if (!gst_element_link_many(source, dec, sink, NULL)) exit(3);
    gst_element_set_state(pipeline, GST_STATE_PAUSED);
    if (gst_element_get_state(pipeline, NULL, NULL, 30 * GST_SECOND) != GST_STATE_CHANGE_SUCCESS) exit(1);
    return it;
}

/* When frame `frame` sounds, in ns. */
static inline gint64 time_of(playing it, const char *frame) {
    GstPad *pad = gst_element_get_static_pad(it.dec, "src");
    GstCaps *caps = gst_pad_get_current_caps(pad);
    gint rate = 0;
    gst_structure_get_int(gst_caps_get_structure(caps, 0), "rate", &rate);
    gst_caps_unref(caps);
    gst_object_unref(pad);
    return (gint64)gst_util_uint64_scale(strtoull(frame, NULL, 10), GST_SECOND, (guint64)rate);
}

static inline void stopped(playing it) {
    gst_element_set_state(it.pipeline, GST_STATE_NULL);
    gst_object_unref(it.bus);
    gst_object_unref(it.pipeline);
}

#endif
