/* Decodes a stream by OpenH264 in one thread and writes its frames as planar YUV: what bench/compare.py times.
 *
 *     openh264 FILE */
#include <stddef.h>
#include <stdio.h>
#include <stdlib.h>
#include <string.h>
#include <wels/codec_api.h>

enum { USAGE = 64, PLANES = 3, MOST_WAITING = 20, START_CODE = 4 };

/* Writes the frame that a call gave, if it gave one. */
static void put(unsigned char *const plane[PLANES], const SBufferInfo *info)
{
    const SSysMEMBuffer *size = &info->UsrData.sSystemBuffer;
    if (info->iBufferStatus != 1)
        return;
    for (int i = 0; i < PLANES; i++) {
        int width = i ? size->iWidth / 2 : size->iWidth, height = i ? size->iHeight / 2 : size->iHeight;
        for (int y = 0; y < height; y++)
            fwrite(plane[i] + (ptrdiff_t)y * size->iStride[i > 0], 1, (size_t)width, stdout);
    }
}

/* Where the next start code begins, or the end. */
static long next_unit(const unsigned char *bytes, long from, long length)
{
    for (long i = from; i + 3 < length; i++)
        if (!bytes[i] && !bytes[i + 1] && bytes[i + 2] == 1)
            return bytes[i - 1] ? i : i - 1;
    return length;
}

/* The whole file, or NULL. */
static unsigned char *read_whole(const char *name, long *length)
{
    FILE *file = fopen(name, "rb");
    if (!file)
        return NULL;
    fseek(file, 0, SEEK_END);
    *length = ftell(file);
    rewind(file);
    unsigned char *bytes = calloc((size_t)*length + START_CODE, 1);
    if (bytes && fread(bytes, 1, (size_t)*length, file) != (size_t)*length) {
        free(bytes);
        bytes = NULL;
    }
    fclose(file);
    return bytes;
}

int main(int argc, char **argv)
{
    long length = 0;
    unsigned char *bytes = argc > 1 ? read_whole(argv[1], &length) : NULL, *plane[PLANES];
    ISVCDecoder *decoder;
    SDecodingParam ways;
    SBufferInfo info;
    int end = 1;
    if (!bytes || WelsCreateDecoder(&decoder))
        return USAGE;
    memset(&ways, 0, sizeof ways);
    ways.sVideoProperty.eVideoBsType = VIDEO_BITSTREAM_AVC;
    ways.eEcActiveIdc = ERROR_CON_DISABLE;
    (*decoder)->Initialize(decoder, &ways);
    for (long at = 0, to; at < length; at = to) {
        to = next_unit(bytes, at + START_CODE, length);
        memset(&info, 0, sizeof info);
        (*decoder)->DecodeFrameNoDelay(decoder, bytes + at, (int)(to - at), plane, &info);
        put(plane, &info);
    }
    (*decoder)->SetOption(decoder, DECODER_OPTION_END_OF_STREAM, &end);
    for (int i = 0; i < MOST_WAITING; i++) {
        memset(&info, 0, sizeof info);
        (*decoder)->FlushFrame(decoder, plane, &info);
        if (info.iBufferStatus != 1)
            break;
        put(plane, &info);
    }
    (*decoder)->Uninitialize(decoder);
    WelsDestroyDecoder(decoder);
    free(bytes);
    return 0;
}
