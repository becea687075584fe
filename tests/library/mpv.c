/* Tries the stream of clients/mpvdsdarc.c without mpv: it is read whole, and then at random places in pieces of random
 * sizes, which have to be parts of the same bytes.
 *
 *     mpv SEED COUNT FILTER OUT FILE..
 *
 * OUT gets the bytes of the last file. Of a file that isn't opened, or that ends early, the line says so. */
#include "../../clients/mpvdsdarc.c"

/* What of mpv the plugin calls; nothing of it is called here. */
static int unused(void) { abort(); }
int mpv_stream_cb_add_ro(mpv_handle *mpv, const char *name, void *data, mpv_stream_cb_open_ro_fn open) {
    return (void)mpv, (void)name, (void)data, (void)open, unused();
}
int mpv_hook_add(mpv_handle *mpv, uint64_t number, const char *name, int priority) {
    return (void)mpv, (void)number, (void)name, (void)priority, unused();
}
int mpv_hook_continue(mpv_handle *mpv, uint64_t number) { return (void)mpv, (void)number, unused(); }
mpv_event *mpv_wait_event(mpv_handle *mpv, double seconds) { return (void)mpv, (void)seconds, unused(), NULL; }
int mpv_command(mpv_handle *mpv, const char **words) { return (void)mpv, (void)words, unused(); }
int mpv_get_property(mpv_handle *mpv, const char *name, mpv_format format, void *data) {
    return (void)mpv, (void)name, (void)format, (void)data, unused();
}
char *mpv_get_property_string(mpv_handle *mpv, const char *name) { return (void)mpv, (void)name, unused(), NULL; }
int mpv_set_property_string(mpv_handle *mpv, const char *name, const char *value) {
    return (void)mpv, (void)name, (void)value, unused();
}
void mpv_free(void *data) { (void)data, unused(); }
void mpv_free_node_contents(mpv_node *node) { (void)node, unused(); }

static uint64_t state;
static uint64_t below(uint64_t most) {
    state = state * 6364136223846793005u + 1442695040888963407u;
    return (state >> 33) % most;
}

/* Reads as many bytes, or up to where the stream ends or fails. */
static uint64_t filled(mpv_stream_cb_info *from, char *out, uint64_t count, uint64_t most) {
    uint64_t done = 0;
    while (done < count) {
        uint64_t room = count - done < most ? count - done : most;
        int64_t given = from->read_fn(from->cookie, out + done, room);
        if (given <= 0) break;
        if ((uint64_t)given > room) abort();
        done += (uint64_t)given;
    }
    return done;
}

/* Whether random parts of a stream are those of its bytes. */
static int are_parts(mpv_stream_cb_info *from, const char *whole, uint64_t size, uint64_t count) {
    static char part[70000];
    while (count-- > 0) {
        uint64_t place = below(size + 1), wanted = below(below(4) ? 2000 : sizeof part), given;
        if (from->seek_fn(from->cookie, (int64_t)place) != (int64_t)place) return 0;
        given = filled(from, part, wanted, 1 + below(9000));
        if (given < wanted && place + given != size) return 0;
        if (memcmp(part, whole + place, given) != 0) return 0;
    }
    return from->seek_fn(from->cookie, (int64_t)size + 1) < 0 && from->seek_fn(from->cookie, -1) < 0;
}

int main(int count, char **words) {
    int wrong = 0;
    if (count < 6) return 2;
    state = strtoull(words[1], NULL, 10);
    for (int k = 5; k < count; k++) {
        mpv_stream_cb_info from = {0};
        char *name = NULL, *whole;
        uint64_t size, given;
        FILE *out;
        if (asprintf(&name, SCHEME "%zu/%s%s", strlen(words[3]), words[3], words[k]) < 0) return 2;
        if (open_it(NULL, name, &from) != 0) {
            printf("refused %s\n", words[k]);
            free(name);
            continue;
        }
        free(name);
        size = (uint64_t)from.size_fn(from.cookie);
        if (size > 1u << 30 || !(whole = malloc((size_t)size + 1))) return from.close_fn(from.cookie), 2;
        given = filled(&from, whole, size, 65536);
        if (given < size) {
            printf("short %s\n", words[k]);
        } else if (!are_parts(&from, whole, size, strtoull(words[2], NULL, 10))) {
            printf("other bytes of %s\n", words[k]);
            wrong = 1;
        }
        if (!(out = fopen(words[4], "wb")) || fwrite(whole, 1, (size_t)given, out) != given || fclose(out) != 0) return 2;
        free(whole);
        from.close_fn(from.cookie);
    }
    return wrong;
}
