/* Decodes a stream by the library in pieces: what bench/library.py times.
 *
 *     receive FILE BYTES|units read|unread
 *
 * BYTES: so many a piece, 64 KiB at most, as a file is read. units: one unit of the stream a piece, as a player has them. read: every row
 * of each frame is read too. The status is 0 for a legal stream. */
#include <h264v.h>
#include <stdbool.h>
#include <stdio.h>
#include <stdlib.h>
#include <string.h>

enum { PIECE = 65536, LINE = 64, USAGE = 64, START = 3 };

/* Reads a sample of each line of a frame's memory, so that all of it comes to the processor. */
static unsigned touch(const h264v_frame *frame)
{
    unsigned sum = 0;
    for (size_t at = 0; at < frame->size; at += LINE)
        sum += frame->samples[at];
    return sum;
}

static unsigned sum = 0;
static bool reads = false;

/* Receives the frames that wait. */
static void receive(h264v *decoder)
{
    h264v_frame frame;
    while (h264v_receive(decoder, &frame) == H264V_FRAME)
        sum += reads ? touch(&frame) : 1;
}

/* Sends a file in pieces of so many bytes. */
static void send_pieces(h264v *decoder, FILE *file, size_t most, h264v_verdict *verdict)
{
    static uint8_t piece[PIECE];
    int32_t answer = H264V_GOES_ON;
    size_t size;
    while (answer == H264V_GOES_ON && (size = fread(piece, 1, most, file)) > 0) {
        answer = h264v_send(decoder, piece, size, verdict);
        receive(decoder);
    }
}

/* Where the start code after this place begins; the end where there is none. */
static size_t next_start(const uint8_t *bytes, size_t size, size_t at)
{
    while (at + START <= size) {
        const uint8_t *one = memchr(bytes + at + START - 1, 1, size - at - START + 1);
        if (!one)
            return size;
        at = (size_t)(one - bytes) - START + 1;
        if (bytes[at] == 0 && bytes[at + 1] == 0)
            return at;
        at++;
    }
    return size;
}

/* Sends a file, which is read whole, in units. */
static void send_units(h264v *decoder, FILE *file, h264v_verdict *verdict)
{
    size_t room = PIECE, size = 0, got, at = 0, end;
    uint8_t *bytes = malloc(room);
    while (bytes && (got = fread(bytes + size, 1, room - size, file)) > 0) {
        size += got;
        if (size == room)
            bytes = realloc(bytes, room *= 2);
    }
    for (; bytes && at < size; at = end) {
        end = next_start(bytes, size, at + 1);
        if (h264v_send(decoder, bytes + at, end - at, verdict) != H264V_GOES_ON)
            break;
        receive(decoder);
    }
    free(bytes);
}

int main(int argc, char **argv)
{
    FILE *file = argc == 4 ? fopen(argv[1], "rb") : NULL;
    h264v *decoder;
    h264v_verdict verdict;
    size_t most = argc == 4 ? strtoul(argv[2], NULL, 10) : 0;
    if (!file || most > PIECE || (most == 0 && strcmp(argv[2], "units") != 0))
        return USAGE;
    reads = strcmp(argv[3], "read") == 0;
    if (h264v_open(H264V_FULL, H264V_BASELINE, &decoder) != H264V_OPENED)
        return USAGE;
    setvbuf(file, NULL, _IONBF, 0);
    if (strcmp(argv[2], "units") == 0)
        send_units(decoder, file, &verdict);
    else
        send_pieces(decoder, file, most, &verdict);
    h264v_finish(decoder, &verdict);
    receive(decoder);
    h264v_close(decoder);
    fclose(file);
    printf("%u\n", sum);
    return (int)verdict.kind;
}
