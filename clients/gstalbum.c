/* Plays the files of an album by GStreamer without a gap, as DoP 1.1 samples: gstalbum SINK FILE..
 *
 *     cc gstalbum.c $(pkg-config --cflags --libs dsdarc gstreamer-app-1.0) -o gstalbum
 *     gstalbum "alsasink device=hw:0" 1.dsf 2.dsf
 *
 * SINK is a pipeline that takes raw audio of 24 bits; nothing may change the samples on the way to the DAC. */
#include <dsdarc.h>
#include <gst/app/gstappsrc.h>
#include <stdio.h>
#include <stdlib.h>

enum { BLOCK = 65536, FRAMES = 4096 };

static void demand(int is_right, const char *name, const char *why) {
    if (is_right) return;
    fprintf(stderr, "gstalbum: %s: %s\n", name, why);
    exit(1);
}

/* Says what the samples are, and starts to play. */
static void start(GstAppSrc *source, GstElement *pipeline, const dsdarc_info *info) {
    char *text = g_strdup_printf("audio/x-raw,format=S24LE,layout=interleaved,rate=%u,channels=%u,channel-mask=(bitmask)%d",
                                 info->rate, info->channels, info->channels == 2 ? 3 : 0);
    GstCaps *caps = gst_caps_from_string(text);
    gst_app_src_set_caps(source, caps);
    gst_caps_unref(caps), g_free(text);
    gst_element_set_state(pipeline, GST_STATE_PLAYING);
}

/* Hands on what is due. */
static void play_due(dsdarc_player *player, GstAppSrc *source, const dsdarc_info *info) {
    static unsigned char frames[FRAMES * 18];
    size_t given, align = 3 * info->channels;
    while (dsdarc_player_pull(player, frames, FRAMES, DSDARC_PACKED, &given) == DSDARC_OK && given > 0)
        gst_app_src_push_buffer(source, gst_buffer_new_memdup(frames, given * align));
}

int main(int count, char **arguments) {
    static unsigned char bytes[BLOCK];
    dsdarc_player *player = NULL;
    dsdarc_info info = {0};
    dsdarc_status status;
    size_t size, at, taken;
    gst_init(&count, &arguments);
    demand(count > 2, "usage", "gstalbum SINK FILE..");
    GstElement *pipeline = gst_parse_launch(g_strconcat("appsrc name=from format=time block=true ! ", arguments[1], NULL), NULL);
    demand(pipeline != NULL, arguments[1], "no such pipeline");
    GstAppSrc *source = GST_APP_SRC(gst_bin_get_by_name(GST_BIN(pipeline), "from"));
    demand(dsdarc_player_new_joined(&player) == DSDARC_OK, "the library", "no player");
    for (int k = 2; k < count; k++) {
        FILE *file = fopen(arguments[k], "rb");
        demand(file != NULL, arguments[k], "it can't be read");
        status = k > 2 ? dsdarc_player_next(player) : DSDARC_OK;
        demand(status == DSDARC_OK, arguments[k - 1], dsdarc_status_text(status));
        while ((size = fread(bytes, 1, BLOCK, file)) > 0)
            for (at = 0; at < size; at += taken) {
                status = dsdarc_player_push(player, bytes + at, size - at, &taken);
                if (status == DSDARC_NO_CHOICE && (status = dsdarc_player_dop(player)) == DSDARC_OK)
                    dsdarc_player_info(player, &info), start(source, pipeline, &info);
                demand(status == DSDARC_OK, arguments[k], dsdarc_status_text(status));
                if (info.channels) play_due(player, source, &info);
            }
        fclose(file);
    }
    status = dsdarc_player_end(player);
    demand(status == DSDARC_OK, arguments[count - 1], dsdarc_status_text(status));
    if (info.channels) play_due(player, source, &info);
    gst_app_src_end_of_stream(source);
    gst_message_unref(gst_bus_timed_pop_filtered(GST_ELEMENT_BUS(pipeline), GST_CLOCK_TIME_NONE,
                                                 GST_MESSAGE_EOS | GST_MESSAGE_ERROR));
    gst_element_set_state(pipeline, GST_STATE_NULL);
    dsdarc_player_drop(player);
    return 0;
}
