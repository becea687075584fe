/* Plays the files of an album over ALSA without a gap, as DoP 1.1 samples: alsadop DEVICE FILE..
 *
 *     cc alsadop.c $(pkg-config --cflags --libs dsdarc alsa) -o alsadop
 *     alsadop hw:0 1.dsf 2.dsf
 *
 * The device has to take samples of 32 bits at a sixteenth of the files' rate, and nothing may change them on the way. */
#include <alsa/asoundlib.h>
#include <dsdarc.h>
#include <stdio.h>
#include <stdlib.h>

enum { BLOCK = 65536, FRAMES = 4096 };

static void demand(int is_right, const char *name, const char *why) {
    if (is_right) return;
    fprintf(stderr, "alsadop: %s: %s\n", name, why);
    exit(1);
}

/* Writes what is due to the device; DoP samples are the high 24 of 32 bits. */
static void play_due(dsdarc_player *player, snd_pcm_t *pcm, unsigned channels) {
    static int32_t samples[6 * FRAMES];
    size_t given, done, k;
    while (dsdarc_player_pull(player, samples, FRAMES, DSDARC_S32, &given) == DSDARC_OK && given > 0) {
        for (k = 0; k < given * channels; k++) samples[k] = (int32_t)((uint32_t)samples[k] << 8);
        for (done = 0; done < given;) {
            snd_pcm_sframes_t wrote = snd_pcm_writei(pcm, samples + done * channels, given - done);
            if (wrote < 0) wrote = snd_pcm_recover(pcm, (int)wrote, 1);
            demand(wrote >= 0, "the device", snd_strerror((int)wrote));
            done += (size_t)wrote;
        }
    }
}

int main(int count, char **arguments) {
    static unsigned char bytes[BLOCK];
    dsdarc_player *player = NULL;
    dsdarc_info info = {0};
    dsdarc_status status;
    snd_pcm_t *pcm = NULL;
    size_t size, at, taken;
    int k, fault;
    demand(count > 2, "usage", "alsadop DEVICE FILE..");
    demand(dsdarc_player_new_joined(&player) == DSDARC_OK, "the library", "no player");
    for (k = 2; k < count; k++) {
        FILE *file = fopen(arguments[k], "rb");
        demand(file != NULL, arguments[k], "it can't be read");
        status = k > 2 ? dsdarc_player_next(player) : DSDARC_OK;
        demand(status == DSDARC_OK, arguments[k - 1], dsdarc_status_text(status));
        while ((size = fread(bytes, 1, BLOCK, file)) > 0)
            for (at = 0; at < size; at += taken) {
                status = dsdarc_player_push(player, bytes + at, size - at, &taken);
                if (status == DSDARC_NO_CHOICE && (status = dsdarc_player_dop(player)) == DSDARC_OK) {
                    dsdarc_player_info(player, &info);
                    fault = snd_pcm_open(&pcm, arguments[1], SND_PCM_STREAM_PLAYBACK, SND_PCM_NO_AUTO_FORMAT);
                    demand(fault >= 0, arguments[1], snd_strerror(fault));
                    fault = snd_pcm_set_params(pcm, SND_PCM_FORMAT_S32_LE, SND_PCM_ACCESS_RW_INTERLEAVED, info.channels,
                                               info.rate, 0, 500000);
                    demand(fault >= 0, arguments[1], snd_strerror(fault));
                }
                demand(status == DSDARC_OK, arguments[k], dsdarc_status_text(status));
                if (pcm) play_due(player, pcm, info.channels);
            }
        fclose(file);
    }
    status = dsdarc_player_end(player);
    demand(status == DSDARC_OK, arguments[count - 1], dsdarc_status_text(status));
    if (pcm) play_due(player, pcm, info.channels), snd_pcm_drain(pcm), snd_pcm_close(pcm);
    dsdarc_player_drop(player);
    return 0;
}
