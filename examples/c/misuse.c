/* Breaks what the header asks of a caller, one thing a run, so that it can be seen that valgrind names it. The library cannot
 * look at these things: it answers anything, or the program ends by a signal.
 *
 *     misuse ONE_FRAME closed-send | closed-receive | closed-twice | past-the-end | kept-frame | null-decoder | null-verdict */
#include "expect.h"

enum { USAGE = 64 };

/* Sums the samples of a frame, so that they are read. */
static unsigned sum_of(const h264v_frame *frame)
{
    unsigned sum = 0;
    for (size_t at = 0; at < frame->size; at++)
        sum += frame->samples[at];
    return sum;
}

/* Uses a decoder after it was closed. */
static void use_closed(const char *word, const stream *s)
{
    h264v *decoder = opened(H264V_FULL, H264V_BASELINE);
    h264v_verdict verdict;
    h264v_frame frame;
    h264v_close(decoder);
    if (strcmp(word, "closed-send") == 0)
        printf("%d\n", h264v_send(decoder, s->bytes, s->size, &verdict));
    else if (strcmp(word, "closed-receive") == 0)
        printf("%d\n", h264v_receive(decoder, &frame));
    else
        h264v_close(decoder);
}

/* Reads a lent frame after its decoder was closed. Reading it after the next h264v_receive breaks the header's words too, but the library may keep
 * that memory for a later frame, so that valgrind sees nothing. */
static void keep_frame(const stream *s)
{
    h264v *decoder = opened(H264V_FULL, H264V_BASELINE);
    h264v_verdict verdict;
    h264v_frame frame;
    h264v_send(decoder, s->bytes, s->size, &verdict);
    h264v_finish(decoder, &verdict);
    expect(h264v_receive(decoder, &frame) == H264V_FRAME, "there is a frame");
    h264v_close(decoder);
    printf("%u\n", sum_of(&frame));
}

int main(int argc, char **argv)
{
    stream s;
    h264v_verdict verdict;
    const char *word = argc == 3 ? argv[2] : "";
    if (argc != 3 || !read_stream(argv[1], &s))
        return USAGE;
    if (strncmp(word, "closed-", strlen("closed-")) == 0) {
        use_closed(word, &s);
    } else if (strcmp(word, "past-the-end") == 0) {
        h264v_check(s.bytes, s.size + 1, H264V_FULL, H264V_BASELINE, &verdict);
    } else if (strcmp(word, "kept-frame") == 0) {
        keep_frame(&s);
    } else if (strcmp(word, "null-decoder") == 0) {
        h264v_finish(NULL, &verdict);
    } else if (strcmp(word, "null-verdict") == 0) {
        h264v_check(s.bytes, s.size, H264V_FULL, H264V_BASELINE, NULL);
    } else {
        return USAGE;
    }
    free(s.bytes);
    return failures != 0;
}
