/*
 * What libavcodec shows of a stream's subtitles, for players.py beside this file to compare with.
 *
 *   libavcodec_pictures STREAM OUT    writes for each display set of the first stream of DVB subtitles: its presentation time and the
 *                                     number of its rectangles; for each its place, its sides and its pixels by rows, four bytes
 *                                     each as red, green, blue and alpha. Numbers have eight bytes, the lowest first.
 */
#include <libavcodec/avcodec.h>
#include <libavformat/avformat.h>
#include <stdio.h>
#include <stdlib.h>

static void fail(const char *what)
{
    exit((fprintf(stderr, "libavcodec_pictures: %s\n", what), 1));
}

static void put(FILE *out, int64_t number)
{
    for (int k = 0; k < 8; k++)
        fputc((uint64_t)number >> 8 * k & 255, out);
}

static void put_rectangle(FILE *out, const AVSubtitleRect *rectangle)
{
    const uint32_t *palette = (const uint32_t *)rectangle->data[1];
    put(out, rectangle->x), put(out, rectangle->y), put(out, rectangle->w), put(out, rectangle->h);
    for (int y = 0; y < rectangle->h; y++)
        for (int x = 0; x < rectangle->w; x++) {
            uint32_t colour = palette[rectangle->data[0][y * rectangle->linesize[0] + x]];
            fputc(colour >> 16 & 255, out), fputc(colour >> 8 & 255, out), fputc(colour & 255, out), fputc(colour >> 24, out);
        }
}

int main(int count, char **words)
{
    AVFormatContext *format = NULL;
    if (count != 3 || avformat_open_input(&format, words[1], NULL, NULL) < 0 || avformat_find_stream_info(format, NULL) < 0)
        fail("the stream cannot be opened");
    int which = -1;
    for (unsigned k = 0; k < format->nb_streams; k++)
        if (which < 0 && format->streams[k]->codecpar->codec_id == AV_CODEC_ID_DVB_SUBTITLE)
            which = k;
    const AVCodec *codec = avcodec_find_decoder(AV_CODEC_ID_DVB_SUBTITLE);
    AVCodecContext *context = avcodec_alloc_context3(codec);
    AVDictionary *options = NULL;
    /* Colours are those of the stream and the standard's own, and not guessed. */
    av_dict_set(&options, "compute_clut", "0", 0);
    /* Pages are those that the descriptor names, and not all that there are. */
    av_dict_set(&options, "dvb_substream", "0", 0);
    if (which < 0 || avcodec_parameters_to_context(context, format->streams[which]->codecpar) < 0
            || avcodec_open2(context, codec, &options) < 0)
        fail("there are no subtitles");
    FILE *out = fopen(words[2], "wb");
    AVPacket *packet = av_packet_alloc();
    if (!out || !packet)
        fail("the file cannot be made");
    while (av_read_frame(format, packet) >= 0) {
        AVSubtitle shown;
        int got = 0;
        if (packet->stream_index == which && avcodec_decode_subtitle2(context, &shown, &got, packet) >= 0 && got) {
            put(out, packet->pts), put(out, shown.num_rects);
            for (unsigned k = 0; k < shown.num_rects; k++)
                put_rectangle(out, shown.rects[k]);
            avsubtitle_free(&shown);
        }
        av_packet_unref(packet);
    }
    return fclose(out) ? 1 : 0;
}
