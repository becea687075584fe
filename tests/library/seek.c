/* Seeks in what the GStreamer element plays: seek FILTER FILE OUT PAUSE FRAME..
 *
 * While FILE is played to OUT it goes to each frame in turn, PAUSE microseconds after it began or went to the last one,
 * as players do: by a seek that flushes. OUT then holds the frames from the last one on, as GStreamer's filesink begins
 * again after each. The status is 1 where a seek or the playing fails. */
#include "pipelines.h"

/* Waits until all that a seek asked for has come, or a fault. */
static int ended(GstBus *bus, guint32 number) {
    for (;;) {
        GstMessage *message = gst_bus_timed_pop_filtered(bus, 30 * GST_SECOND, GST_MESSAGE_EOS | GST_MESSAGE_ERROR);
        int is_fault = !message || GST_MESSAGE_TYPE(message) == GST_MESSAGE_ERROR;
        int is_end = message && (number == 0 || gst_message_get_seqnum(message) == number);
        if (message && is_fault) {
            GError *error = NULL;
            gst_message_parse_error(message, &error, NULL);
            g_printerr("%s\n", error->message);
            g_error_free(error);
        }
        if (message) gst_message_unref(message);
        if (is_fault || is_end) return is_fault;
    }
}

/* Whether the pipeline says that it can seek. */
static int seeks(playing it) {
    GstQuery *query = gst_query_new_seeking(GST_FORMAT_TIME);
    gboolean is_able = TRUE;
    if (gst_element_query(it.pipeline, query)) gst_query_parse_seeking(query, NULL, &is_able, NULL, NULL);
    gst_query_unref(query);
    return is_able;
}

int main(int count, char **arguments) {
    guint32 number = 0;
    playing it;
    int failed;
    gst_init(NULL, NULL);
    if (count < 5) return 3;
    it = paused(arguments[1], arguments[2], arguments[3]);
    failed = !seeks(it);
    for (int at = 5; at < count && !failed; at++) {
        GstSeekFlags flags = GST_SEEK_FLAG_FLUSH | GST_SEEK_FLAG_ACCURATE;
        GstEvent *event = gst_event_new_seek(1.0, GST_FORMAT_TIME, flags, GST_SEEK_TYPE_SET, time_of(it, arguments[at]),
                                             GST_SEEK_TYPE_NONE, -1);
        number = gst_event_get_seqnum(event);
        if (!gst_element_send_event(it.pipeline, event)) failed = 1;
        gst_element_set_state(it.pipeline, GST_STATE_PLAYING);
        g_usleep(strtoull(arguments[4], NULL, 10));
    }
    gst_element_set_state(it.pipeline, GST_STATE_PLAYING);
    failed = failed || ended(it.bus, number);
    stopped(it);
    return failed;
}
