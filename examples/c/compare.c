/* Holds an encoder's reconstruction against the frames of its stream, as they come.
 *
 *     compare STREAM RECONSTRUCTION
 *
 * RECONSTRUCTION has the encoder's frames in the order of output, as I420 one after another. Prints the first sample that
 * differs, with its frame, plane, column and row, or that all are equal. The status is 0 where all frames are equal and the
 * stream is legal, 1 where not, 64 where the words are wrong, and 4 where a file fails. */
#include <h264v.h>
#include <inttypes.h>
#include <stdio.h>
#include <stdlib.h>
#include <string.h>

enum { PIECE = 4096, DIFFERENT = 1, FAILED = 4, USAGE = 64 };

typedef struct {
    FILE *file;
    uint8_t *samples;
    size_t room;
    uint64_t frames;
} reconstruction;

/* Prints where two frames first differ. */
static void print_difference(const h264v_frame *frame, const uint8_t *other, uint64_t number)
{
    static const char *const planes[] = {"Y", "Cb", "Cr"};
    size_t luma = (size_t)frame->width * frame->height, at = 0, width = frame->width;
    unsigned plane = 0;
    while (frame->samples[at] == other[at])
        at++;
    if (at >= luma) {
        plane = at >= luma + luma / 4 ? 2 : 1;
        at -= luma + (plane == 2 ? luma / 4 : 0);
        width /= 2;
    }
    printf("frame %" PRIu64 " count %" PRId32 ": %s differs at column %zu row %zu\n", number, frame->count, planes[plane], at % width, at / width);
}

/* Reads the encoder's next frame and compares it; 0 equal, DIFFERENT, or FAILED. */
static int compare_frame(const h264v_frame *frame, reconstruction *encoder)
{
    if (frame->size > encoder->room) {
        uint8_t *larger = realloc(encoder->samples, frame->size);
        if (!larger)
            return FAILED;
        encoder->samples = larger;
        encoder->room = frame->size;
    }
    if (fread(encoder->samples, 1, frame->size, encoder->file) != frame->size) {
        printf("the reconstruction ends before frame %" PRIu64 "\n", encoder->frames);
        return ferror(encoder->file) ? FAILED : DIFFERENT;
    }
    if (memcmp(frame->samples, encoder->samples, frame->size) != 0) {
        print_difference(frame, encoder->samples, encoder->frames);
        return DIFFERENT;
    }
    encoder->frames++;
    return 0;
}

/* Compares the frames that wait. */
static int compare_frames(h264v *decoder, reconstruction *encoder)
{
    h264v_frame frame;
    int status = 0;
    while (status == 0 && h264v_receive(decoder, &frame) == H264V_FRAME)
        status = compare_frame(&frame, encoder);
    return status;
}

/* Compares all frames of a stream. */
static int compare(h264v *decoder, FILE *stream, reconstruction *encoder)
{
    static uint8_t piece[PIECE];
    h264v_verdict verdict;
    int32_t answer = H264V_GOES_ON;
    int status;
    size_t size;
    while (answer == H264V_GOES_ON && (size = fread(piece, 1, PIECE, stream)) > 0) {
        answer = h264v_send(decoder, piece, size, &verdict);
        if ((status = compare_frames(decoder, encoder)) != 0)
            return status;
    }
    if (ferror(stream))
        return FAILED;
    h264v_finish(decoder, &verdict);
    if ((status = compare_frames(decoder, encoder)) != 0)
        return status;
    if (verdict.kind != H264V_YES) {
        printf("the stream is not legal: %s at bit %" PRIu64 "\n", verdict.kind == H264V_MEMORY ? "memory" : verdict.label, verdict.bit);
        return DIFFERENT;
    }
    if (fgetc(encoder->file) != EOF) {
        printf("the reconstruction goes on after frame %" PRIu64 "\n", encoder->frames);
        return DIFFERENT;
    }
    printf("%" PRIu64 " frames are equal\n", encoder->frames);
    return 0;
}

int main(int argc, char **argv)
{
    reconstruction encoder = {0};
    FILE *stream;
    h264v *decoder;
    int status;
    if (argc != 3) {
        fprintf(stderr, "usage: compare STREAM RECONSTRUCTION\n");
        return USAGE;
    }
    stream = fopen(argv[1], "rb");
    encoder.file = fopen(argv[2], "rb");
    if (!stream || !encoder.file) {
        perror(stream ? argv[2] : argv[1]);
        return FAILED;
    }
    if (h264v_open(H264V_FULL, H264V_BASELINE, &decoder) != H264V_OPENED) {
        fprintf(stderr, "compare: no decoder\n");
        return FAILED;
    }
    status = compare(decoder, stream, &encoder);
    h264v_close(decoder);
    free(encoder.samples);
    fclose(encoder.file);
    fclose(stream);
    return status;
}
