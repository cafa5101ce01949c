/*
 * libavcodec's DVB subtitle encoder and decoder, for the scripts beside this file to compare with.
 *
 *   libavcodec encode SCRIPT COUNT    encodes the pictures of a script of bench/text_pictures.py in turn, COUNT sets a round
 *   libavcodec decode SETS COUNT      decodes the display sets that bench_libraries writes to a file, COUNT sets a round
 *
 * Each prints the sets a second of the best of 20 rounds, or 0 where libavcodec tells of a fault in a set. Sets to decode come in
 * groups, one a size and depth of the picture, of which each begins with a mode change: the group's first set is decoded once,
 * and then those behind it in turn.
 */
#include <libavcodec/avcodec.h>
#include <libavutil/log.h>
#include <stdio.h>
#include <stdlib.h>
#include <string.h>
#include <time.h>

enum { ROUNDS = 20, MOST_PICTURES = 512, MOST_SETS = 128, MOST_BYTES = 1 << 20, PAGE = 0x10, END = 0x80 };

/* A display set: its bytes, and whether its page is a mode change. */
struct set {
    uint8_t *bytes;
    int size, mode_change;
};

static void fail(const char *what)
{
    exit((fprintf(stderr, "libavcodec: %s\n", what), 1));
}

/* How many faults it has told of. */
static int faults;
static void count_fault(void *context, int level, const char *form, va_list words)
{
    (void)context, (void)form, (void)words;
    faults += level <= AV_LOG_ERROR;
}

static double seconds(void)
{
    struct timespec now;
    clock_gettime(CLOCK_MONOTONIC, &now);
    return now.tv_sec + now.tv_nsec / 1e9;
}

/* The whole of a file, with a zero behind it. */
static char *text_of(const char *path, size_t *size)
{
    FILE *file = fopen(path, "rb");
    if (!file)
        fail("a file cannot be opened");
    fseek(file, 0, SEEK_END);
    *size = ftell(file);
    rewind(file);
    char *text = calloc(*size + AV_INPUT_BUFFER_PADDING_SIZE, 1);
    if (!text || fread(text, 1, *size, file) != *size || fclose(file))
        fail("a file cannot be read");
    return text;
}

static AVCodecContext *opened(const AVCodec *codec)
{
    AVCodecContext *context = codec ? avcodec_alloc_context3(codec) : NULL;
    if (!context)
        fail("it has no DVB subtitles");
    context->width = 720, context->height = 576;
    context->time_base = (AVRational){1, 1000};
    if (avcodec_open2(context, codec, NULL) < 0)
        fail("its coder cannot be opened");
    return context;
}

/* The picture of a record "picture,NAME,DEPTH,WIDTH,HEIGHT,CODES", its codes in hexadecimal digits, and its colours. */
static AVSubtitleRect *picture_of(const char *record)
{
    AVSubtitleRect *picture = calloc(1, sizeof *picture);
    int start = 0, depth;
    if (sscanf(record, "picture,%*[^,],%d,%d,%d,%n", &depth, &picture->w, &picture->h, &start) != 3)
        fail("a picture cannot be read");
    int digits = depth == 8 ? 2 : 1, count = picture->w * picture->h;
    picture->type = SUBTITLE_BITMAP;
    picture->y = 480;
    picture->nb_colors = 1 << depth;
    picture->linesize[0] = picture->w;
    picture->data[0] = malloc(count);
    picture->data[1] = calloc(256, sizeof(uint32_t));
    for (int place = 0; place < count; place++) {
        char code[3] = {0};
        memcpy(code, record + start + place * digits, digits);
        picture->data[0][place] = strtol(code, NULL, 16);
    }
    for (uint32_t entry = 0; entry < 1u << depth; entry++)
        ((uint32_t *)picture->data[1])[entry] = (entry ? 0xFF000000 : 0) | entry * 0x010101;
    return picture;
}

static void encode(const char *path, int count)
{
    AVSubtitleRect *pictures[MOST_PICTURES];
    size_t size;
    int many = 0;
    char *text = text_of(path, &size);
    for (char *line = strtok(text, "\n"); line && many < MOST_PICTURES; line = strtok(NULL, "\n"))
        if (!strncmp(line, "picture,", 8))
            pictures[many++] = picture_of(line);
    if (!many)
        fail("the script has no picture");
    AVCodecContext *coder = opened(avcodec_find_encoder(AV_CODEC_ID_DVB_SUBTITLE));
    uint8_t *out = malloc(MOST_BYTES);
    double best = 1e9;
    for (int round = 0; round < ROUNDS; round++) {
        double start = seconds();
        for (int number = 0; number < count; number++) {
            AVSubtitle set = {.num_rects = 1, .rects = &pictures[number % many]};
            if (avcodec_encode_subtitle(coder, out, MOST_BYTES, &set) <= 0)
                fail("a set is not encoded");
        }
        double spent = seconds() - start;
        best = spent < best ? spent : best;
    }
    printf("%.0f\n", count / best);
}

/* Reads the next set of a file, up to its end segment, and says how many bytes it has. */
static int next_set(uint8_t *bytes, uint8_t *end, struct set *set)
{
    uint8_t *place = bytes;
    memset(set, 0, sizeof *set);
    while (end - place >= 6 && place[0] == 0x0F) {
        int size = 6 + (place[4] << 8 | place[5]);
        if (size > end - place)
            fail("a segment is cut");
        set->mode_change |= place[1] == PAGE && (place[7] >> 2 & 3) == 2;
        place += size;
        if (place[-size + 1] == END)
            break;
    }
    set->size = place - bytes;
    if (!set->size)
        fail("what is to be decoded is no set");
    /* A decoder may read behind the end of what it is given. */
    set->bytes = calloc(set->size + AV_INPUT_BUFFER_PADDING_SIZE, 1);
    memcpy(set->bytes, bytes, set->size);
    return set->size;
}

static void decode_set(AVCodecContext *decoder, AVPacket *packet, struct set *set)
{
    AVSubtitle shown;
    int is_shown = 0;
    packet->data = set->bytes, packet->size = set->size, packet->pts++;
    if (avcodec_decode_subtitle2(decoder, &shown, &is_shown, packet) < 0 || !is_shown || shown.num_rects != 1)
        fail("a set is not decoded");
    avsubtitle_free(&shown);
}

static void decode_group(struct set *sets, int many, int count)
{
    AVCodecContext *decoder = opened(avcodec_find_decoder(AV_CODEC_ID_DVB_SUBTITLE));
    AVPacket *packet = av_packet_alloc();
    double best = 1e9;
    packet->pts = faults = 0;
    decode_set(decoder, packet, &sets[0]);
    for (int round = 0, next = 0; round < ROUNDS; round++) {
        double start = seconds();
        for (int number = 0; number < count; number++, next++)
            decode_set(decoder, packet, &sets[1 + next % (many - 1)]);
        double spent = seconds() - start;
        best = spent < best ? spent : best;
    }
    printf("%.0f\n", faults ? 0 : count / best);
    avcodec_free_context(&decoder);
}

static void decode(const char *path, int count)
{
    static struct set sets[MOST_SETS];
    size_t size;
    uint8_t *bytes = (uint8_t *)text_of(path, &size), *end = bytes + size;
    int many = 0, first = 0;
    while (many < MOST_SETS && bytes < end) {
        bytes += next_set(bytes, end, &sets[many]);
        if (many > first && sets[many].mode_change) {
            decode_group(sets + first, many - first, count);
            first = many;
        }
        many++;
    }
    decode_group(sets + first, many - first, count);
}

int main(int count, char **words)
{
    av_log_set_callback(count_fault);
    if (count != 4)
        fail("its words are encode or decode, a file, and how many sets a round has");
    (strcmp(words[1], "encode") ? decode : encode)(words[2], atoi(words[3]));
    return 0;
}
