/* Decodes a stream by libavcodec in one thread: what bench/compare.py times beside the program, and bench/library.py beside the library.
 *
 *     avcodec FILE assembly|c read|write
 *
 * c: without assembly. read: a sample of each line of a frame's memory is read. write: frames go to standard output as planar YUV. */
#include <libavcodec/avcodec.h>
#include <libavutil/cpu.h>
#include <stdbool.h>
#include <stddef.h>
#include <stdio.h>
#include <stdlib.h>
#include <string.h>

enum { PIECE = 65536, LINE = 64, PLANES = 3, USAGE = 64 };

static unsigned sum = 0;
static bool writes = false;

/* Writes a row of samples, or reads one of each line of memory. */
static void take_row(const uint8_t *row, int width)
{
    if (writes)
        fwrite(row, 1, (size_t)width, stdout);
    else
        for (int x = 0; x < width; x += LINE)
            sum += row[x];
}

/* Takes every row of a frame. */
static void take(const AVFrame *frame)
{
    for (int plane = 0; plane < PLANES; plane++) {
        int width = plane ? (frame->width + 1) / 2 : frame->width, height = plane ? (frame->height + 1) / 2 : frame->height;
        for (int y = 0; y < height; y++)
            take_row(frame->data[plane] + (ptrdiff_t)y * frame->linesize[plane], width);
    }
}

/* Sends a packet, or the end, and receives frames. */
static void decode(AVCodecContext *context, const AVPacket *packet, AVFrame *frame)
{
    if (avcodec_send_packet(context, packet) < 0)
        return;
    while (avcodec_receive_frame(context, frame) >= 0) {
        take(frame);
        av_frame_unref(frame);
    }
}

/* Sends a piece, or the end, through the parser. */
static void parse(AVCodecParserContext *parser, AVCodecContext *context, AVPacket *packet, AVFrame *frame, const uint8_t *bytes, int size)
{
    do {
        int used = av_parser_parse2(parser, context, &packet->data, &packet->size, bytes, size, AV_NOPTS_VALUE, AV_NOPTS_VALUE, 0);
        bytes += used;
        size -= used;
        if (packet->size)
            decode(context, packet, frame);
    } while (size > 0);
}

int main(int argc, char **argv)
{
    static uint8_t piece[PIECE + AV_INPUT_BUFFER_PADDING_SIZE];
    FILE *file = argc > 3 ? fopen(argv[1], "rb") : NULL;
    size_t size;
    if (!file)
        return USAGE;
    if (strcmp(argv[2], "c") == 0)
        av_force_cpu_flags(0);
    writes = strcmp(argv[3], "write") == 0;
    setvbuf(file, NULL, _IONBF, 0);
    AVCodecContext *context = avcodec_alloc_context3(avcodec_find_decoder(AV_CODEC_ID_H264));
    AVCodecParserContext *parser = av_parser_init(AV_CODEC_ID_H264);
    AVPacket *packet = av_packet_alloc();
    AVFrame *frame = av_frame_alloc();
    context->thread_count = 1;
    avcodec_open2(context, NULL, NULL);
    while ((size = fread(piece, 1, PIECE, file)) > 0) {
        memset(piece + size, 0, AV_INPUT_BUFFER_PADDING_SIZE);
        parse(parser, context, packet, frame, piece, (int)size);
    }
    parse(parser, context, packet, frame, piece, 0);
    decode(context, NULL, frame);
    if (!writes)
        printf("%u\n", sum);
    return 0;
}
