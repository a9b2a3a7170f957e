/* Decodes byte streams by libavcodec and by OpenH264, many in one process: of each file whose name stands on a line of standard input the lines
       frame WIDTHxHEIGHT md5 DIGEST          of each frame in the order of output
       error TEXT                             of each kind of complaint or warning of ffmpeg's, up to sixteen
       errors NUMBER                          how often the decoder complained
       end
   go to standard output. judges ffmpeg|openh264. Built with -DWITH_OPENH264 where OpenH264's headers are installed. */
#include <libavcodec/avcodec.h>
#include <libavutil/md5.h>
#include <stdio.h>
#include <stdlib.h>
#include <string.h>
#ifdef WITH_OPENH264
#include <wels/codec_api.h>
#endif

enum { DIGEST = 16, PIECE = 65536, LONGEST_NAME = 4096, MOST_WAITING = 20, KINDS = 16 };

static long errors;
static const char *kinds[KINDS];

/* Counts a complaint, and prints it, or a warning, if it is the first of its kind. */
static void count_error(void *context, int level, const char *format, va_list values) {
    (void)context, (void)values;
    if (level > AV_LOG_WARNING) return;
    errors += level <= AV_LOG_ERROR;
    for (int i = 0; i < KINDS; i++) {
        if (kinds[i] == format) return;
        if (!kinds[i]) {
            kinds[i] = format;
            printf("error %.*s\n", (int)strcspn(format, "\n"), format);
            return;
        }
    }
}

/* Prints the line of a frame. */
static void put(uint8_t *const plane[3], const int stride[3], int width, int height) {
    struct AVMD5 *sum = av_md5_alloc();
    uint8_t digest[DIGEST];
    av_md5_init(sum);
    for (int p = 0; p < 3; p++)
        for (int y = 0; y < (p ? height / 2 : height); y++) av_md5_update(sum, plane[p] + (size_t)y * stride[p], p ? width / 2 : width);
    av_md5_final(sum, digest);
    printf("frame %dx%d md5 ", width, height);
    for (int i = 0; i < DIGEST; i++) printf("%02x", digest[i]);
    putchar('\n');
    av_free(sum);
}

static void drain(AVCodecContext *decoder, AVPacket *packet, AVFrame *frame) {
    if (avcodec_send_packet(decoder, packet) < 0) errors++;
    while (avcodec_receive_frame(decoder, frame) >= 0) {
        put(frame->data, frame->linesize, frame->width, frame->height);
        av_frame_unref(frame);
    }
}

/* Parses a piece of the stream, or what is left at its end, and decodes each access unit. */
static void parse(AVCodecParserContext *parser, AVCodecContext *decoder, uint8_t *bytes, long length) {
    AVPacket *packet = av_packet_alloc();
    AVFrame *frame = av_frame_alloc();
    do {
        int most = (int)(length < PIECE ? length : PIECE);
        int used = av_parser_parse2(parser, decoder, &packet->data, &packet->size, bytes, most, AV_NOPTS_VALUE, AV_NOPTS_VALUE, 0);
        bytes += used;
        length -= used;
        if (packet->size) drain(decoder, packet, frame);
    } while (length > 0);
    av_packet_free(&packet);
    av_frame_free(&frame);
}

static void by_ffmpeg(uint8_t *bytes, long length) {
    const AVCodec *codec = avcodec_find_decoder(AV_CODEC_ID_H264);
    AVCodecContext *decoder = avcodec_alloc_context3(codec);
    AVCodecParserContext *parser = av_parser_init(AV_CODEC_ID_H264);
    AVFrame *frame = av_frame_alloc();
    decoder->thread_count = 1;
    decoder->strict_std_compliance = FF_COMPLIANCE_STRICT;
    decoder->flags |= AV_CODEC_FLAG_UNALIGNED; /* frames are cropped to the sample */
    avcodec_open2(decoder, codec, NULL);
    if (length > 0) parse(parser, decoder, bytes, length);
    parse(parser, decoder, NULL, 0);
    drain(decoder, NULL, frame);
    av_frame_free(&frame);
    av_parser_close(parser);
    avcodec_free_context(&decoder);
}

#ifdef WITH_OPENH264
static void put_picture(unsigned char **plane, const SBufferInfo *info) {
    if (info->iBufferStatus != 1) return;
    const SSysMEMBuffer *it = &info->UsrData.sSystemBuffer;
    int stride[3] = {it->iStride[0], it->iStride[1], it->iStride[1]};
    put(plane, stride, it->iWidth, it->iHeight);
}

/* Where the next start code begins. */
static long next_unit(const uint8_t *bytes, long from, long length) {
    for (long i = from; i + 3 < length; i++)
        if (!bytes[i] && !bytes[i + 1] && bytes[i + 2] == 1) return i > 0 && !bytes[i - 1] ? i - 1 : i;
    return length;
}

static void by_openh264(uint8_t *bytes, long length) {
    ISVCDecoder *decoder;
    SDecodingParam ways;
    SBufferInfo info;
    unsigned char *plane[3];
    int end = 1, quiet = 0;
    if (WelsCreateDecoder(&decoder)) exit(1);
    memset(&ways, 0, sizeof ways);
    ways.sVideoProperty.eVideoBsType = VIDEO_BITSTREAM_AVC;
    ways.eEcActiveIdc = ERROR_CON_DISABLE;
    (*decoder)->SetOption(decoder, DECODER_OPTION_TRACE_LEVEL, &quiet);
    (*decoder)->Initialize(decoder, &ways);
    for (long at = 0, to; at < length; at = to) {
        to = next_unit(bytes, at + 4, length);
        memset(&info, 0, sizeof info);
        if ((*decoder)->DecodeFrameNoDelay(decoder, bytes + at, (int)(to - at), plane, &info) != dsErrorFree) errors++;
        put_picture(plane, &info);
    }
    (*decoder)->SetOption(decoder, DECODER_OPTION_END_OF_STREAM, &end);
    for (int i = 0; i < MOST_WAITING; i++) {
        memset(&info, 0, sizeof info);
        (*decoder)->FlushFrame(decoder, plane, &info);
        if (info.iBufferStatus != 1) break;
        put_picture(plane, &info);
    }
    (*decoder)->Uninitialize(decoder);
    WelsDestroyDecoder(decoder);
}
#endif

/* Prints the lines of one file. */
static void judge(const char *name, void (*by)(uint8_t *, long)) {
    FILE *file = fopen(name, "rb");
    errors = 0;
    memset(kinds, 0, sizeof kinds);
    if (file) {
        fseek(file, 0, SEEK_END);
        long length = ftell(file);
        rewind(file);
        uint8_t *bytes = calloc((size_t)length + AV_INPUT_BUFFER_PADDING_SIZE, 1);
        if (fread(bytes, 1, (size_t)length, file) == (size_t)length) by(bytes, length);
        free(bytes);
        fclose(file);
    }
    printf("errors %ld\nend\n", errors);
    fflush(stdout);
}

int main(int count, char **words) {
    char name[LONGEST_NAME];
    void (*by)(uint8_t *, long) = NULL;
    if (count == 2 && !strcmp(words[1], "ffmpeg")) by = by_ffmpeg;
#ifdef WITH_OPENH264
    if (count == 2 && !strcmp(words[1], "openh264")) by = by_openh264;
#endif
    if (!by) return 64;
    av_log_set_callback(count_error);
    while (fgets(name, sizeof name, stdin)) {
        name[strcspn(name, "\n")] = 0;
        judge(name, by);
    }
    return 0;
}
