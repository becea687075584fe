/* A GStreamer element over the library: frames of a DSDIFF or DSF file, decimated by a filter.
 *
 *     cc -shared -fPIC gstdsdarcdec.c $(pkg-config --cflags --libs dsdarc gstreamer-tag-1.0) -o libgstdsdarc.so
 *     GST_PLUGIN_PATH=. gst-launch-1.0 filesrc location=in.dsf ! dsdarcdec filter=88200/24 ! filesink location=out.pcm
 *     GST_PLUGIN_PATH=. gst-play-1.0 in.dsf
 *
 * `filter` is a project text's path, or what to play to: RATE/BITS, or several with commas between them, the best first.
 * Without it that is what DSDARC_FILTER says, else 88200/24,96000/24. The ready filters are those of the folder that
 * DSDARC_FILTERS names, by its index, and those that the library has. A filter that the index beside it lists for files
 * of other rates gives a warning. A seek is answered by one in bytes of the element before. After a stop before the end
 * of the file, nothing is said about the file.
 *
 * Tags say how long the sound is, and the bits of a second of the file. If the file is one of this system, they have also
 * what GStreamer reads of its ID3 tag: title, artist, album, cover and others. The tag comes after the sound, and the
 * elements before give the sound first; so it is read in the file that they name.
 *
 * Channels are in the order of the loudspeakers, as of `play --speakers`, and the caps name these. */
#include <dsdarc.h>
#include <fcntl.h>
#include <gst/gst.h>
#include <gst/tag/tag.h>
#include <stdio.h>
#include <string.h>

#include "speakers.h"
#include "tags.h"

#define PACKAGE "dsdarc"
#define ORIGIN "urn:dsdarc"
#define BEST "88200/24,96000/24"
#define GST_CAT_DEFAULT dsdarcdec_debug
enum { FRAMES = 4096, FILTER = 1, MOST_RATES = 16 };

GST_DEBUG_CATEGORY_STATIC(dsdarcdec_debug);

typedef struct {
    GstElement element;
    GstPad *sink, *src;
    char *filter;
    dsdarc_player *player;
    GByteArray *front; /* what comes before the sound */
    guint64 place;     /* the next byte of the file */
    dsdarc_info info;
    speaker_order order; /* of the channels, and their loudspeakers */
    gboolean announced, dropping; /* what was sent before a seek is dropped */
    gboolean stopped;        /* the next element wants no more */
    gboolean expects_end;    /* the end of a segment was reported: what ends then isn't the stream */
    GstSegment segment;
    guint32 seek_number; /* of the events and messages that belong to the last seek */
    gboolean keeps;      /* this seek flushes what comes before the element, and nothing after it */
    guint64 frame, last; /* the next one, and the one at which the segment stops */
} DsdarcDec;
typedef struct {
    GstElementClass parent;
} DsdarcDecClass;
G_DEFINE_TYPE(DsdarcDec, dsdarc_dec, GST_TYPE_ELEMENT)

static GstStaticPadTemplate sinks =
    GST_STATIC_PAD_TEMPLATE("sink", GST_PAD_SINK, GST_PAD_ALWAYS, GST_STATIC_CAPS("audio/x-dsf; audio/x-dff"));
static GstStaticPadTemplate srcs = GST_STATIC_PAD_TEMPLATE("src", GST_PAD_SRC, GST_PAD_ALWAYS, GST_STATIC_CAPS("audio/x-raw"));

static GstFlowReturn refused(DsdarcDec *dec, dsdarc_status status) {
    GST_ELEMENT_ERROR(dec, STREAM, DECODE, ("%s", dsdarc_status_text(status)), (NULL));
    return GST_FLOW_ERROR;
}

static GstClockTime time_of(DsdarcDec *dec, guint64 frame) { return gst_util_uint64_scale(frame, GST_SECOND, dec->info.rate); }

/* The frame that begins at a time. Times are whole nanoseconds, and may be a little before it. */
static guint64 frame_at(DsdarcDec *dec, GstClockTime time) { return gst_util_uint64_scale_round(time, dec->info.rate, GST_SECOND); }

/* The index in the folder of a filter; it has no byte if there is none. */
static char *index_in(const char *folder, gsize *size) {
    char *path = g_build_filename(folder, "index.txt", NULL), *index = NULL;
    if (!g_file_get_contents(path, &index, size, NULL)) *size = 0;
    g_free(path);
    return index;
}

/* Warns of a filter that the index beside it lists for files of other rates. */
static void warn_of_rate(DsdarcDec *dec, const char *path, guint32 rate) {
    char *folder = g_path_get_dirname(path), *name = g_path_get_basename(path);
    guint32 rates[MOST_RATES];
    gsize size, count, known;
    char *index = index_in(folder, &size);
    if (dsdarc_filter_rates(index, size, name, rates, MOST_RATES, &count) == DSDARC_OK && count > 0) {
        for (known = 0; known < MIN(count, MOST_RATES) && rates[known] != rate;) known++;
        if (known == MIN(count, MOST_RATES))
            GST_ELEMENT_WARNING(dec, STREAM, FORMAT,
                                ("the filter %s is for files of %u Hz, and this one has %u Hz", path, rates[0], rate), (NULL));
    }
    g_free(index);
    g_free(name);
    g_free(folder);
}

/* Chooses the filter at a path for a file of a rate; what is refused is reported. */
static GstFlowReturn choose_at(DsdarcDec *dec, const char *path, guint32 rate) {
    char *text;
    gsize size;
    dsdarc_status status;
    if (!g_file_get_contents(path, &text, &size, NULL)) {
        GST_ELEMENT_ERROR(dec, RESOURCE, OPEN_READ, ("the filter %s can't be read", path), (NULL));
        return GST_FLOW_ERROR;
    }
    status = dsdarc_player_filter(dec->player, text, size);
    g_free(text);
    if (status != DSDARC_OK) return refused(dec, status);
    GST_DEBUG_OBJECT(dec, "a file of %u Hz, by %s", rate, path);
    warn_of_rate(dec, path, rate);
    return GST_FLOW_OK;
}

/* Chooses the ready filter that is wished for; *flow says whether it could, where there is one. */
static gboolean choose_ready(DsdarcDec *dec, const dsdarc_wish *wish, GstFlowReturn *flow) {
    const char *folder = g_getenv("DSDARC_FILTERS");
    char *index, *path, name[4096];
    dsdarc_status status = DSDARC_NO_FILTER;
    gsize size;
    if (folder) {
        index = index_in(folder, &size);
        status = dsdarc_filter_find(index, size, wish, name, sizeof name);
        g_free(index);
    }
    if (status == DSDARC_OK) {
        path = g_build_filename(folder, name, NULL);
        *flow = choose_at(dec, path, wish->rate_in);
        g_free(path);
        return TRUE;
    }
    status = dsdarc_player_filter_ready(dec->player, wish->rate, wish->width, wish->gain);
    GST_DEBUG_OBJECT(dec, "a file of %u Hz, to %u/%u: %s", wish->rate_in, wish->rate, wish->width, dsdarc_status_text(status));
    *flow = status == DSDARC_OK ? GST_FLOW_OK : GST_FLOW_ERROR;
    if (status != DSDARC_OK && status != DSDARC_NO_FILTER) refused(dec, status);
    return status != DSDARC_NO_FILTER;
}

/* Chooses the filter for a file of a rate: the first one that there is. */
static GstFlowReturn choose(DsdarcDec *dec, guint32 rate) {
    const char *said = dec->filter ? dec->filter : g_getenv("DSDARC_FILTER");
    gchar **wishes = g_strsplit(said ? said : BEST, ",", 0);
    GstFlowReturn flow = GST_FLOW_OK;
    gboolean is_there = FALSE;
    for (gsize number = 0; wishes[number] && !is_there; number++) {
        dsdarc_wish wish = {.rate_in = rate};
        char more;
        if (sscanf(wishes[number], "%9u/%2u%c", &wish.rate, &wish.width, &more) == 2)
            is_there = choose_ready(dec, &wish, &flow);
        else
            flow = choose_at(dec, wishes[number], rate), is_there = TRUE;
    }
    g_strfreev(wishes);
    if (is_there) return flow;
    GST_ELEMENT_ERROR(dec, RESOURCE, NOT_FOUND, ("there is no such filter for a file of %u Hz", rate), (NULL));
    return GST_FLOW_ERROR;
}

/* The file that the elements before read, if it is one of this system and begins with the bytes that came; or -1. */
static int file_of(DsdarcDec *dec) {
    GstQuery *query = gst_query_new_uri();
    gsize size = dec->front->len;
    char *uri = NULL, *path = NULL, *bytes = g_malloc(size);
    int file = -1;
    if (gst_pad_peer_query(dec->sink, query)) gst_query_parse_uri(query, &uri);
    if (uri && (path = g_filename_from_uri(uri, NULL, NULL))) file = open(path, O_RDONLY | O_CLOEXEC | O_NONBLOCK);
    if (file >= 0 && (pread(file, bytes, size, 0) != (gssize)size || memcmp(bytes, dec->front->data, size) != 0))
        close(file), file = -1;
    gst_query_unref(query);
    g_free(bytes);
    g_free(path);
    g_free(uri);
    return file;
}

/* What GStreamer reads of the file's tag; or NULL. */
static GstTagList *tags_of(DsdarcDec *dec) {
    int file = file_of(dec);
    tag_place tag = {0, 0};
    GstTagList *tags = NULL;
    guint8 *bytes = NULL;
    GstBuffer *buffer;
    if (file < 0) return NULL;
    if ((tag = tag_of(file)).size > 0) bytes = g_try_malloc(tag.size);
    if (bytes && pread(file, bytes, tag.size, (off_t)tag.at) == (gssize)tag.size) {
        buffer = gst_buffer_new_wrapped(bytes, tag.size);
        tags = gst_tag_list_from_id3v2_tag(buffer);
        gst_buffer_unref(buffer);
    } else {
        g_free(bytes);
    }
    close(file);
    return tags;
}

/* Posts the tags. What the sound itself says comes before what the file's tag says of it. */
static void post_tags(DsdarcDec *dec) {
    GstTagList *own = gst_tag_list_new(GST_TAG_DURATION, time_of(dec, dec->info.frames), GST_TAG_BITRATE,
                                       dec->info.rate_in * dec->info.channels, NULL);
    GstTagList *read = tags_of(dec), *all = gst_tag_list_merge(own, read, GST_TAG_MERGE_KEEP);
    gst_tag_list_unref(own);
    if (read) gst_tag_list_unref(read);
    gst_pad_push_event(dec->src, gst_event_new_tag(all));
}

/* Announces what follows, once it is known. */
static void announce(DsdarcDec *dec) {
    GstCaps *caps = gst_caps_new_simple("audio/x-raw", "format", G_TYPE_STRING, dec->info.width == 16 ? "S16LE" : "S24LE",
                                        "rate", G_TYPE_INT, (int)dec->info.rate, "channels", G_TYPE_INT,
                                        (int)dec->info.channels, "layout", G_TYPE_STRING, "interleaved", NULL);
    /* More than two channels have a mask always: 0 says that they belong to no loudspeakers. */
    if (dec->info.channels > 2 || (dec->info.channels == 2 && dec->order.mask != 0))
        gst_caps_set_simple(caps, "channel-mask", GST_TYPE_BITMASK, (guint64)dec->order.mask, NULL);
    gst_pad_push_event(dec->src, gst_event_new_caps(caps));
    gst_caps_unref(caps);
    dec->last = dec->info.frames;
    dec->segment.duration = time_of(dec, dec->info.frames);
    gst_pad_push_event(dec->src, gst_event_new_segment(&dec->segment));
    post_tags(dec);
    dec->announced = TRUE;
}

/* Reports that a segment was given whole, for which the application waits instead of the end of the stream. */
static void answer(DsdarcDec *dec) {
    gint64 stop = (gint64)(dec->segment.stop == GST_CLOCK_TIME_NONE ? dec->segment.duration : dec->segment.stop);
    GstMessage *message = gst_message_new_segment_done(GST_OBJECT(dec), GST_FORMAT_TIME, stop);
    GstEvent *event = gst_event_new_segment_done(GST_FORMAT_TIME, stop);
    gst_message_set_seqnum(message, dec->seek_number);
    gst_event_set_seqnum(event, dec->seek_number);
    gst_element_post_message(GST_ELEMENT(dec), message);
    gst_pad_push_event(dec->src, event);
}

static gboolean is_segment(DsdarcDec *dec) { return dec->announced && (dec->segment.flags & GST_SEGMENT_FLAG_SEGMENT); }

/* All frames were given. At the end of the sound the rest of the file is still looked at. */
static GstFlowReturn all_given(DsdarcDec *dec) {
    if (dec->last == dec->info.frames) return GST_FLOW_OK;
    if (is_segment(dec) && !dec->expects_end) answer(dec), dec->expects_end = TRUE;
    return GST_FLOW_EOS;
}

static GstFlowReturn give(DsdarcDec *dec) {
    gsize frame = (gsize)dec->info.width / 8 * dec->info.channels, given;
    for (;;) {
        guint64 left = dec->last - dec->frame;
        GstBuffer *buffer;
        GstMapInfo map;
        GstFlowReturn flow;
        if (left == 0) return all_given(dec);
        buffer = gst_buffer_new_allocate(NULL, FRAMES * frame, NULL);
        gst_buffer_map(buffer, &map, GST_MAP_WRITE);
        dsdarc_player_pull(dec->player, map.data, left < FRAMES ? (gsize)left : FRAMES, DSDARC_PACKED, &given);
        speakers_put(&dec->order, map.data, given, dec->info.width / 8);
        gst_buffer_unmap(buffer, &map);
        if (given == 0) return gst_buffer_unref(buffer), GST_FLOW_OK;
        gst_buffer_set_size(buffer, (gssize)(given * frame));
        GST_BUFFER_PTS(buffer) = time_of(dec, dec->frame);
        GST_BUFFER_DURATION(buffer) = time_of(dec, dec->frame + given) - GST_BUFFER_PTS(buffer);
        dec->frame += given;
        flow = gst_pad_push(dec->src, buffer);
        if (flow == GST_FLOW_EOS) dec->stopped = TRUE;
        if (flow != GST_FLOW_OK) return flow;
    }
}

/* Chooses how the sound is given, and announces it, once these bytes make it known. */
static GstFlowReturn begin(DsdarcDec *dec, const guint8 *bytes, gsize size) {
    dsdarc_description file;
    GstFlowReturn flow;
    g_byte_array_append(dec->front, bytes, (guint)size);
    if (dsdarc_player_describe(dec->player, &file, sizeof file) != DSDARC_OK) return GST_FLOW_OK;
    if ((flow = choose(dec, file.rate_in)) != GST_FLOW_OK) return flow;
    dsdarc_player_info(dec->player, &dec->info);
    dec->order = speakers_of(&file);
    announce(dec);
    return GST_FLOW_OK;
}

static GstFlowReturn push(DsdarcDec *dec, const guint8 *bytes, gsize size) {
    GstFlowReturn flow = GST_FLOW_OK;
    dsdarc_status status = DSDARC_OK;
    gsize taken;
    if (!dec->player && (status = dsdarc_player_new_empty(&dec->player)) != DSDARC_OK) return refused(dec, status);
    for (gsize at = 0; at < size && flow == GST_FLOW_OK; at += taken) {
        if ((status = dsdarc_player_push(dec->player, bytes + at, size - at, &taken)) != DSDARC_OK) return refused(dec, status);
        dec->place += taken;
        if (!dec->announced) flow = begin(dec, bytes + at, taken);
        if (dec->announced) flow = give(dec);
    }
    return flow;
}

static GstFlowReturn chain(GstPad *pad, GstObject *parent, GstBuffer *buffer) {
    DsdarcDec *dec = (DsdarcDec *)parent;
    GstFlowReturn flow;
    GstMapInfo map;
    (void)pad;
    if (dec->dropping) return gst_buffer_unref(buffer), GST_FLOW_OK;
    gst_buffer_map(buffer, &map, GST_MAP_READ);
    flow = push(dec, map.data, map.size);
    gst_buffer_unmap(buffer, &map);
    gst_buffer_unref(buffer);
    return flow;
}

/* Whether the stream ends with the file, and neither by the next element nor by the application. */
static gboolean is_at_end(DsdarcDec *dec, GstEvent *event) {
    guint32 number = gst_event_get_seqnum(event);
    GstEvent *known;
    gint64 size;
    gboolean is_own = FALSE;
    if (dec->stopped || (dec->announced && dec->frame == dec->last && dec->last < dec->info.frames)) return FALSE;
    if (gst_pad_peer_query_duration(dec->sink, GST_FORMAT_BYTES, &size) && size >= 0) return dec->place >= (guint64)size;
    /* The element before doesn't know the size: an end of the application has a number of its own. Before the first byte
     * there is no segment: then it is a number after that of the start. */
    if ((known = gst_pad_get_sticky_event(dec->sink, GST_EVENT_SEGMENT, 0)))
        is_own = gst_event_get_seqnum(known) == number;
    else if ((known = gst_pad_get_sticky_event(dec->sink, GST_EVENT_STREAM_START, 0)))
        is_own = gst_util_seqnum_compare(number, gst_event_get_seqnum(known)) < 0;
    if (known) gst_event_unref(known);
    return is_own;
}

/* Whether the file holds a recording. */
static gboolean is_whole(DsdarcDec *dec) {
    dsdarc_status status = dec->player ? dsdarc_player_end(dec->player) : DSDARC_FILE_REFUSED;
    if (status != DSDARC_OK) refused(dec, status);
    return status == DSDARC_OK;
}

/* Passes on the end of the stream, but for one that only follows from a segment or from what is dropped. */
static gboolean end_of_stream(GstPad *pad, DsdarcDec *dec, GstEvent *event) {
    gboolean is_hidden = dec->dropping || dec->expects_end;
    dec->expects_end = FALSE;
    if (!is_hidden && is_at_end(dec, event) && is_whole(dec) && is_segment(dec)) answer(dec), is_hidden = TRUE;
    if (!is_hidden) return gst_pad_event_default(pad, GST_OBJECT(dec), event);
    gst_event_unref(event);
    return TRUE;
}

static gboolean sink_event(GstPad *pad, GstObject *parent, GstEvent *event) {
    DsdarcDec *dec = (DsdarcDec *)parent;
    guint32 number = gst_event_get_seqnum(event);
    GstEvent *own;
    switch (GST_EVENT_TYPE(event)) {
    case GST_EVENT_SEGMENT:
        if (dec->announced && !dec->dropping) {
            own = gst_event_new_segment(&dec->segment);
            gst_event_set_seqnum(own, number);
            gst_pad_push_event(dec->src, own);
        }
        gst_event_unref(event);
        return TRUE;
    case GST_EVENT_CAPS:
        gst_event_unref(event);
        return TRUE;
    case GST_EVENT_EOS:
        return end_of_stream(pad, dec, event);
    case GST_EVENT_FLUSH_STOP:
        dec->dropping = FALSE;
        /* fall through */
    case GST_EVENT_FLUSH_START:
        if (!dec->keeps || number != dec->seek_number) return gst_pad_event_default(pad, parent, event);
        gst_event_unref(event);
        return TRUE;
    default:
        return gst_pad_event_default(pad, parent, event);
    }
}

/* Whether the element before can go to a byte. */
static gboolean is_seekable(DsdarcDec *dec) {
    GstQuery *query = gst_query_new_seeking(GST_FORMAT_BYTES);
    gboolean is_able = FALSE;
    if (gst_pad_peer_query(dec->sink, query)) gst_query_parse_seeking(query, NULL, &is_able, NULL, NULL);
    gst_query_unref(query);
    return is_able;
}

/* The segment of a seek from where the player is now, and the frame with which it begins. */
static gboolean sought(DsdarcDec *dec, GstEvent *event, GstSegment *segment, guint64 *frame) {
    gdouble rate;
    GstFormat format;
    GstSeekFlags flags;
    GstSeekType type, stop_type;
    gint64 start, stop;
    gst_event_parse_seek(event, &rate, &format, &flags, &type, &start, &stop_type, &stop);
    if (!dec->announced || format != GST_FORMAT_TIME || rate != 1.0) return FALSE;
    *segment = dec->segment;
    segment->position = time_of(dec, dec->frame);
    if (!gst_segment_do_seek(segment, rate, format, flags, type, start, stop_type, stop, NULL)) return FALSE;
    if ((*frame = frame_at(dec, segment->position)) > dec->info.frames) return FALSE;
    segment->start = segment->time = segment->position = time_of(dec, *frame);
    return TRUE;
}

/* Has the player go to a seek's frame: *offset is the byte from which on the file is pushed then. */
static dsdarc_status go_to(DsdarcDec *dec, GstEvent *event, guint64 *offset) {
    GstSegment segment;
    guint64 frame;
    dsdarc_status status;
    if (!sought(dec, event, &segment, &frame)) return DSDARC_PAST_END;
    if ((status = dsdarc_player_seek(dec->player, frame, offset)) != DSDARC_OK) return status;
    dec->segment = segment;
    dec->seek_number = gst_event_get_seqnum(event);
    dec->frame = frame;
    dec->last = segment.stop == GST_CLOCK_TIME_NONE ? dec->info.frames : frame_at(dec, segment.stop);
    dec->last = CLAMP(dec->last, frame, dec->info.frames);
    dec->place = *offset;
    dec->keeps = !(segment.flags & GST_SEGMENT_FLAG_RESET);
    dec->dropping = TRUE;
    dec->stopped = dec->expects_end = FALSE;
    return DSDARC_OK;
}

static void send_with_number(DsdarcDec *dec, GstEvent *event, guint32 number) {
    gst_event_set_seqnum(event, number);
    gst_pad_push_event(dec->src, event);
}

static gboolean seek(DsdarcDec *dec, GstEvent *event) {
    GstSeekFlags flags;
    GstSegment segment;
    GstEvent *before;
    guint64 frame, offset = 0;
    dsdarc_status status;
    guint32 number = gst_event_get_seqnum(event);
    gst_event_parse_seek(event, NULL, NULL, &flags, NULL, NULL, NULL, NULL);
    if (!sought(dec, event, &segment, &frame) || !is_seekable(dec)) return FALSE;
    /* What is under way is flushed first, or else played to its end. What was sent before the seek is dropped: the
     * player wants other bytes. */
    if (flags & GST_SEEK_FLAG_FLUSH) send_with_number(dec, gst_event_new_flush_start(), number);
    GST_PAD_STREAM_LOCK(dec->sink);
    status = go_to(dec, event, &offset);
    GST_PAD_STREAM_UNLOCK(dec->sink);
    if (status != DSDARC_OK) return refused(dec, status), FALSE;
    if (is_segment(dec)) {
        GstMessage *start = gst_message_new_segment_start(GST_OBJECT(dec), GST_FORMAT_TIME, (gint64)dec->segment.start);
        gst_message_set_seqnum(start, number);
        gst_element_post_message(GST_ELEMENT(dec), start);
    }
    /* The element before may have come to its end, from which only a flush brings it back. */
    before = gst_event_new_seek(1.0, GST_FORMAT_BYTES, GST_SEEK_FLAG_FLUSH, GST_SEEK_TYPE_SET, (gint64)offset,
                                GST_SEEK_TYPE_NONE, -1);
    gst_event_set_seqnum(before, number);
    if (gst_pad_push_event(dec->sink, before)) return TRUE;
    refused(dec, DSDARC_NOT_YET);
    return FALSE;
}

static gboolean src_event(GstPad *pad, GstObject *parent, GstEvent *event) {
    gboolean is_done;
    if (GST_EVENT_TYPE(event) != GST_EVENT_SEEK) return gst_pad_event_default(pad, parent, event);
    is_done = seek((DsdarcDec *)parent, event);
    gst_event_unref(event);
    return is_done;
}

static gboolean src_query(GstPad *pad, GstObject *parent, GstQuery *query) {
    DsdarcDec *dec = (DsdarcDec *)parent;
    GstFormat format;
    if (!dec->announced) return gst_pad_query_default(pad, parent, query);
    switch (GST_QUERY_TYPE(query)) {
    case GST_QUERY_DURATION:
        gst_query_parse_duration(query, &format, NULL);
        if (format != GST_FORMAT_TIME) return FALSE;
        gst_query_set_duration(query, format, (gint64)time_of(dec, dec->info.frames));
        return TRUE;
    case GST_QUERY_POSITION:
        gst_query_parse_position(query, &format, NULL);
        if (format != GST_FORMAT_TIME) return FALSE;
        gst_query_set_position(query, format, (gint64)time_of(dec, dec->frame));
        return TRUE;
    case GST_QUERY_SEEKING:
        gst_query_parse_seeking(query, &format, NULL, NULL, NULL);
        gst_query_set_seeking(query, format, format == GST_FORMAT_TIME && is_seekable(dec), 0,
                              (gint64)time_of(dec, dec->info.frames));
        return TRUE;
    default:
        return gst_pad_query_default(pad, parent, query);
    }
}

/* As before the first byte of a file. */
static void reset(DsdarcDec *dec) {
    dsdarc_player_drop(dec->player), dec->player = NULL;
    g_byte_array_set_size(dec->front, 0);
    gst_segment_init(&dec->segment, GST_FORMAT_TIME);
    dec->announced = dec->dropping = dec->stopped = dec->expects_end = dec->keeps = FALSE;
    dec->frame = dec->last = dec->place = 0;
    memset(&dec->order, 0, sizeof dec->order);
    dec->seek_number = GST_SEQNUM_INVALID;
}

static GstStateChangeReturn change_state(GstElement *element, GstStateChange change) {
    GstStateChangeReturn done = GST_ELEMENT_CLASS(dsdarc_dec_parent_class)->change_state(element, change);
    if (change == GST_STATE_CHANGE_PAUSED_TO_READY) reset((DsdarcDec *)element);
    return done;
}

static void set(GObject *object, guint id, const GValue *value, GParamSpec *spec) {
    (void)spec;
    if (id == FILTER) g_free(((DsdarcDec *)object)->filter), ((DsdarcDec *)object)->filter = g_value_dup_string(value);
}

static void finalize(GObject *object) {
    reset((DsdarcDec *)object);
    g_byte_array_unref(((DsdarcDec *)object)->front);
    g_free(((DsdarcDec *)object)->filter);
    G_OBJECT_CLASS(dsdarc_dec_parent_class)->finalize(object);
}

static void dsdarc_dec_class_init(DsdarcDecClass *class) {
    GstElementClass *element = GST_ELEMENT_CLASS(class);
    G_OBJECT_CLASS(class)->set_property = set;
    G_OBJECT_CLASS(class)->finalize = finalize;
    element->change_state = change_state;
    g_object_class_install_property(
        G_OBJECT_CLASS(class), FILTER,
        g_param_spec_string("filter", "Filter", "a project text's path, or RATE/BITS to play to", NULL, G_PARAM_WRITABLE));
    gst_element_class_add_static_pad_template(element, &sinks);
    gst_element_class_add_static_pad_template(element, &srcs);
    gst_element_class_set_static_metadata(element, "dsdarc", "Codec/Decoder/Audio", "decimates DSDIFF and DSF files", "dsdarc");
}

static void dsdarc_dec_init(DsdarcDec *dec) {
    dec->front = g_byte_array_new();
    dec->sink = gst_pad_new_from_static_template(&sinks, "sink");
    dec->src = gst_pad_new_from_static_template(&srcs, "src");
    gst_pad_set_chain_function(dec->sink, chain);
    gst_pad_set_event_function(dec->sink, sink_event);
    gst_pad_set_event_function(dec->src, src_event);
    gst_pad_set_query_function(dec->src, src_query);
    gst_element_add_pad(GST_ELEMENT(dec), dec->sink);
    gst_element_add_pad(GST_ELEMENT(dec), dec->src);
    reset(dec);
}

static void find(GstTypeFind *file, gpointer data) {
    const guint8 *head = gst_type_find_peek(file, 0, 16);
    (void)data;
    if (!head) return;
    if (memcmp(head, "DSD ", 4) == 0) gst_type_find_suggest_empty_simple(file, GST_TYPE_FIND_MAXIMUM, "audio/x-dsf");
    if (memcmp(head, "FRM8", 4) == 0 && memcmp(head + 12, "DSD ", 4) == 0)
        gst_type_find_suggest_empty_simple(file, GST_TYPE_FIND_MAXIMUM, "audio/x-dff");
}

static gboolean init(GstPlugin *plugin) {
    GstCaps *caps = gst_static_pad_template_get_caps(&sinks);
    gboolean is_done;
    GST_DEBUG_CATEGORY_INIT(dsdarcdec_debug, "dsdarcdec", 0, "frames of DSDIFF and DSF files");
    is_done = gst_type_find_register(plugin, "dsdarcfind", GST_RANK_PRIMARY, find, "dsf,dff", caps, NULL, NULL) &&
              gst_element_register(plugin, "dsdarcdec", GST_RANK_PRIMARY, dsdarc_dec_get_type());
    gst_caps_unref(caps);
    return is_done;
}

GST_PLUGIN_DEFINE(GST_VERSION_MAJOR, GST_VERSION_MINOR, dsdarc, "decimates DSDIFF and DSF files", init, "0.2.0", "MIT/X11",
                  "dsdarc", ORIGIN)
