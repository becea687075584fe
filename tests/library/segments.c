/* Plays a segment again and again by the GStreamer element: segments FILTER FILE OUT FIRST STOP TIMES
 *
 * It goes to frame FIRST by a seek that flushes, and then TIMES - 1 times by seeks that don't, each up to frame STOP and
 * answered by SEGMENT_DONE. The last seek has no segment, and ends with the stream. OUT then holds the frames from FIRST
 * to STOP this many times, and those from STOP on. The status is 1 where an answer doesn't come, or is another one. */
#include "pipelines.h"

/* Goes to a time, up to another one, and waits for what has to answer. */
static int goes(playing it, GstSeekFlags flags, gint64 start, gint64 stop) {
    GstMessageType wanted = flags & GST_SEEK_FLAG_SEGMENT ? GST_MESSAGE_SEGMENT_DONE : GST_MESSAGE_EOS;
    GstEvent *event = gst_event_new_seek(1.0, GST_FORMAT_TIME, flags | GST_SEEK_FLAG_ACCURATE, GST_SEEK_TYPE_SET, start,
                                         GST_SEEK_TYPE_SET, stop);
    GstMessage *message;
    GstFormat format;
    gint64 place;
    int is_right;
    if (!gst_element_send_event(it.pipeline, event)) return g_printerr("the seek is refused\n"), 0;
    gst_element_set_state(it.pipeline, GST_STATE_PLAYING);
    message = gst_bus_timed_pop_filtered(it.bus, 20 * GST_SECOND,
                                         GST_MESSAGE_EOS | GST_MESSAGE_ERROR | GST_MESSAGE_SEGMENT_DONE);
    is_right = message && GST_MESSAGE_TYPE(message) == wanted;
    if (!is_right) g_printerr("%s answers\n", message ? GST_MESSAGE_TYPE_NAME(message) : "nothing");
    if (is_right && wanted == GST_MESSAGE_SEGMENT_DONE) {
        gst_message_parse_segment_done(message, &format, &place);
        is_right = format == GST_FORMAT_TIME && place == stop;
        if (!is_right) g_printerr("%s %" G_GINT64_FORMAT " answers\n", gst_format_get_name(format), place);
    }
    if (message) gst_message_unref(message);
    return is_right;
}

int main(int count, char **arguments) {
    gint64 first, stop;
    playing it;
    int is_right;
    gst_init(NULL, NULL);
    if (count != 7) return 3;
    it = paused(arguments[1], arguments[2], arguments[3]);
    first = time_of(it, arguments[4]);
    stop = time_of(it, arguments[5]);
    is_right = goes(it, GST_SEEK_FLAG_FLUSH | GST_SEEK_FLAG_SEGMENT, first, stop);
    for (int turn = 1; turn < atoi(arguments[6]) && is_right; turn++)
        is_right = goes(it, GST_SEEK_FLAG_SEGMENT, first, stop);
    is_right = is_right && goes(it, GST_SEEK_FLAG_NONE, stop, -1);
    stopped(it);
    return !is_right;
}
