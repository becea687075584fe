/* Decodes a DSD file by FFmpeg's libavcodec on one thread, for the time that it takes: avcodec FILE
 *
 *     cc -O2 avcodec.c $(pkg-config --cflags --libs libavcodec libavformat libavutil) -o avcodec
 *
 * It prints how many frames come of it, and their rate. */
#include <libavcodec/avcodec.h>
#include <libavformat/avformat.h>
#include <stdio.h>

int main(int count, char **arguments) {
    AVFormatContext *file = NULL;
    AVCodecContext *decoder;
    const AVCodec *codec;
    AVPacket *packet = av_packet_alloc();
    AVFrame *frame = av_frame_alloc();
    long long frames = 0;
    int stream, more = 1;
    if (count != 2 || avformat_open_input(&file, arguments[1], NULL, NULL) < 0) return 3;
    if ((stream = av_find_best_stream(file, AVMEDIA_TYPE_AUDIO, -1, -1, &codec, 0)) < 0) return 3;
    decoder = avcodec_alloc_context3(codec);
    avcodec_parameters_to_context(decoder, file->streams[stream]->codecpar);
    decoder->thread_count = 1;
    if (avcodec_open2(decoder, codec, NULL) < 0) return 3;
    while (more) {
        more = av_read_frame(file, packet) >= 0;
        if (avcodec_send_packet(decoder, more ? packet : NULL) < 0) return 1;
        av_packet_unref(packet);
        while (avcodec_receive_frame(decoder, frame) >= 0) frames += frame->nb_samples;
    }
    printf("%lld frames at %d Hz\n", frames, decoder->sample_rate);
    av_frame_free(&frame);
    av_packet_free(&packet);
    avcodec_free_context(&decoder);
    avformat_close_input(&file);
    return 0;
}
