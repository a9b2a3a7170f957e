/* Decodes a stream in pieces, writes its frames as I420, and prints the verdict.
 *
 *     decode [--target baseline|main-ip] FILE [OUTPUT]
 *
 * The status is the verdict's kind, 64 where the words are wrong, or 4 where a file fails. */
#include <h264v.h>
#include <inttypes.h>
#include <stdio.h>
#include <string.h>

enum { PIECE = 4096, FAILED = 4, USAGE = 64 };

static void print_verdict(const h264v_verdict *verdict)
{
    switch (verdict->kind) {
    case H264V_YES:
        printf("yes: units %" PRIu64 " pictures %" PRIu64 " frames %" PRIu64 "\n", verdict->units, verdict->pictures, verdict->frames);
        break;
    case H264V_NO:
        printf("no: bit %" PRIu64 ": %s (clause %s)\n", verdict->bit, verdict->label, verdict->clause);
        break;
    case H264V_OUTSIDE:
        printf("outside: bit %" PRIu64 ": %s\n", verdict->bit, verdict->label);
        break;
    default:
        printf("memory\n");
    }
}

/* Writes the frames that wait; 0, or -1 where a write fails. */
static int write_frames(h264v *decoder, FILE *output)
{
    h264v_frame frame;
    while (h264v_receive(decoder, &frame) == H264V_FRAME) {
        if (output && fwrite(frame.samples, 1, frame.size, output) != frame.size)
            return -1;
    }
    return 0;
}

/* Decodes a file to its end; 0, or -1 where a file fails. */
static int decode(h264v *decoder, FILE *input, FILE *output, h264v_verdict *verdict)
{
    static uint8_t piece[PIECE];
    size_t size;
    while ((size = fread(piece, 1, PIECE, input)) > 0) {
        int32_t answer = h264v_send(decoder, piece, size, verdict);
        if (write_frames(decoder, output) != 0)
            return -1;
        if (answer == H264V_FELL)
            return 0;
    }
    if (ferror(input))
        return -1;
    h264v_finish(decoder, verdict);
    return write_frames(decoder, output);
}

/* The target of the words --target NAME, if they come first, which are taken off; or -1 where the name is none. */
static int take_target(int *argc, char ***argv)
{
    int target;
    if (*argc < 3 || strcmp((*argv)[1], "--target") != 0)
        return H264V_BASELINE;
    target = strcmp((*argv)[2], "baseline") == 0 ? H264V_BASELINE : strcmp((*argv)[2], "main-ip") == 0 ? H264V_MAIN_IP : -1;
    *argc -= 2;
    *argv += 2;
    return target;
}

int main(int argc, char **argv)
{
    FILE *input, *output = NULL;
    h264v *decoder;
    h264v_verdict verdict;
    int status, target = take_target(&argc, &argv);
    if (argc < 2 || argc > 3 || target < 0) {
        fprintf(stderr, "usage: decode [--target baseline|main-ip] FILE [OUTPUT]\n");
        return USAGE;
    }
    input = fopen(argv[1], "rb");
    if (!input || (argc == 3 && !(output = fopen(argv[2], "wb")))) {
        perror(input ? argv[2] : argv[1]);
        return FAILED;
    }
    status = h264v_open(H264V_FULL, (uint32_t)target, &decoder);
    if (status != H264V_OPENED) {
        fprintf(stderr, "decode: no decoder\n");
        return status;
    }
    status = decode(decoder, input, output, &verdict);
    h264v_close(decoder);
    fclose(input);
    if (output && fclose(output) != 0)
        status = -1;
    if (status != 0) {
        perror("decode");
        return FAILED;
    }
    print_verdict(&verdict);
    return (int)verdict.kind;
}
