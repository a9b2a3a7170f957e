/* Decodes a stream in several threads at once, each with decoders of its own, and holds every verdict and frame against the first.
 *
 *     threads FILE */
#include "expect.h"
#include <pthread.h>

enum { THREADS = 4, TIMES = 8, USAGE = 64 };

/* What a thread decodes, and how often it came out otherwise than wanted. */
typedef struct {
    const stream *source;
    h264v_verdict verdict;
    unsigned sum;
    unsigned others;
} task;

/* Decodes the stream byte by byte: its verdict, and the sum of its samples. */
static unsigned decode(const stream *s, h264v_verdict *verdict)
{
    h264v *decoder = opened(H264V_FULL, H264V_BASELINE);
    h264v_frame frame;
    unsigned sum = 0;
    for (size_t at = 0; at < s->size; at++)
        if (h264v_send(decoder, s->bytes + at, 1, verdict) == H264V_FELL)
            break;
    h264v_finish(decoder, verdict);
    while (h264v_receive(decoder, &frame) == H264V_FRAME)
        for (size_t at = 0; at < frame.size; at++)
            sum = sum * 31 + frame.samples[at];
    h264v_close(decoder);
    return sum;
}

static void *run(void *given)
{
    task *own = given;
    for (int time = 0; time < TIMES; time++) {
        h264v_verdict verdict;
        unsigned sum = decode(own->source, &verdict);
        own->others += sum != own->sum || !same(&verdict, &own->verdict);
    }
    return NULL;
}

int main(int argc, char **argv)
{
    pthread_t threads[THREADS];
    task tasks[THREADS];
    stream s;
    if (argc != 2 || !read_stream(argv[1], &s))
        return USAGE;
    for (int at = 0; at < THREADS; at++) {
        tasks[at] = (task){.source = &s};
        tasks[at].sum = decode(&s, &tasks[at].verdict);
    }
    for (int at = 0; at < THREADS; at++)
        expect(pthread_create(&threads[at], NULL, run, &tasks[at]) == 0, "there is a thread");
    for (int at = 0; at < THREADS; at++) {
        pthread_join(threads[at], NULL);
        expect(tasks[at].others == 0, "each thread decodes what one alone does");
    }
    free(s.bytes);
    return failures != 0;
}
