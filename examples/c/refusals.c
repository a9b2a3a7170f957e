/* Refuses each allocation of a decoding in turn, and holds the answers against the header: memory, and nothing else. Counts the
 * blocks too: as many are freed as were taken, whatever was refused.
 *
 * h264v_receive asks for memory only to keep that of the frame which it takes back. Where this is refused, the frame is freed,
 * and no caller is told: every frame and the verdict come as if nothing was refused.
 *
 *     refusals ONE_FRAME FILE..
 *
 * ONE_FRAME is the stream of samples/ of one picture. It is tried once more with many pictures after it.
 *
 * It has malloc, realloc and free of its own, before those of the C library (glibc). The status is 0 where all is as expected. */
#include "expect.h"

enum { PIECE = 64, MORE = 40 };

extern void *__libc_malloc(size_t size);
extern void *__libc_realloc(void *old, size_t size);
extern void __libc_free(void *block);

/* How many allocations are left up to the one that is refused; 0: none is refused. */
static long until = 0;

/* Whether a frame is being received. */
static int receiving = 0;

/* Whether the refusal came while a frame was received. */
static int is_untold = 0;

/* How many blocks stand. */
static long standing = 0;

static int refuses(void)
{
    int now = until > 0 && --until == 0;
    if (now)
        is_untold = receiving;
    return now;
}

void *malloc(size_t size)
{
    void *block = refuses() ? NULL : __libc_malloc(size);
    standing += block != NULL;
    return block;
}

void *realloc(void *old, size_t size)
{
    void *block = refuses() ? NULL : __libc_realloc(old, size);
    standing += block != NULL && old == NULL;
    return block;
}

void free(void *block)
{
    standing -= block != NULL;
    __libc_free(block);
}

/* What came of a stream: how many frames, and a sum of their samples in order. */
typedef struct {
    unsigned frames;
    uint32_t sum;
} taken;

/* Receives the frames that wait. */
static void receive(h264v *decoder, taken *came)
{
    h264v_frame frame;
    receiving = 1;
    while (h264v_receive(decoder, &frame) == H264V_FRAME) {
        came->frames++;
        for (size_t at = 0; at < frame.size; at++)
            came->sum = came->sum * 31 + frame.samples[at];
    }
    receiving = 0;
}

/* Sends a stream to its end or to its verdict, and receives its frames. */
static taken decode(h264v *decoder, const stream *s, h264v_verdict *verdict)
{
    taken came = {0, 0};
    int32_t answer = H264V_GOES_ON;
    for (size_t at = 0; at < s->size && answer == H264V_GOES_ON; at += PIECE) {
        answer = h264v_send(decoder, s->bytes + at, s->size - at < PIECE ? s->size - at : PIECE, verdict);
        receive(decoder, &came);
    }
    h264v_finish(decoder, verdict);
    receive(decoder, &came);
    return came;
}

/* What is held against the header of a decoding in which an allocation was refused, or none. */
static void hold(const h264v_verdict *verdict, const taken *came, int was_told, const h264v_verdict *whole, const taken *all)
{
    if (was_told) {
        expect(verdict->kind == H264V_MEMORY && verdict->bit == 0, "memory is said");
        expect(came->frames <= all->frames, "no frame comes that is not the stream's");
    } else {
        expect(same(verdict, whole), "the verdict is that of the stream");
        expect(came->frames == all->frames && came->sum == all->sum, "each frame of the stream comes");
    }
}

/* Decodes with the allocation of this number refused: whether there was one to refuse. */
static int refused(const stream *s, long number, const h264v_verdict *whole, const taken *all)
{
    h264v *decoder = NULL;
    h264v_verdict verdict, again;
    long before = standing;
    int32_t answer;
    int was_refused;
    is_untold = 0;
    until = number;
    answer = h264v_open(H264V_FULL, H264V_BASELINE, &decoder);
    if (answer == H264V_OPENED) {
        taken came = decode(decoder, s, &verdict);
        was_refused = until == 0;
        until = 0;
        hold(&verdict, &came, was_refused && !is_untold, whole, all);
        h264v_finish(decoder, &again);
        expect(same(&verdict, &again), "it is said again");
        h264v_close(decoder);
    } else {
        was_refused = until == 0;
        until = 0;
        expect(answer == H264V_MEMORY && was_refused && !decoder, "open says memory, and there is no decoder");
    }
    expect(standing == before, "as many blocks are freed as were taken");
    return was_refused;
}

/* h264v_check with each allocation refused; how many there were. */
static long refused_checks(const stream *s)
{
    h264v_verdict whole, verdict;
    long number = 0, before = standing;
    int was_refused = 1;
    h264v_check(s->bytes, s->size, H264V_FULL, H264V_BASELINE, &whole);
    while (was_refused) {
        until = ++number;
        h264v_check(s->bytes, s->size, H264V_FULL, H264V_BASELINE, &verdict);
        was_refused = until == 0;
        until = 0;
        expect(was_refused ? verdict.kind == H264V_MEMORY : same(&verdict, &whole), "a check says memory, or the verdict");
        expect(standing == before, "a check keeps nothing");
    }
    return number - 1;
}

/* A decoder that explains, with each allocation refused up to the verdict and its object; how many there were. */
static long refused_explanations(const stream *s)
{
    enum { OBJECT = 2048 };
    long number = 0, before = standing;
    int was_refused = 1;
    while (was_refused) {
        h264v *decoder = NULL;
        h264v_verdict verdict;
        char object[OBJECT];
        size_t length = 1;
        until = ++number;
        if (h264v_open_explaining(H264V_FULL, H264V_BASELINE, &decoder) == H264V_OPENED) {
            h264v_send(decoder, s->bytes, s->size, &verdict);
            h264v_finish(decoder, &verdict);
            was_refused = until == 0;
            expect(!was_refused || verdict.kind == H264V_MEMORY, "a decoder that explains says memory");
            length = h264v_explain(decoder, object, sizeof object);
            expect(was_refused || until > 0 || length == 0, "an object for which there is no memory is none");
            was_refused = until == 0;
            until = 0;
            h264v_close(decoder);
        } else {
            was_refused = until == 0;
            until = 0;
            expect(was_refused && !decoder, "open_explaining says memory");
        }
        expect(standing == before, "a decoder that explains frees all");
    }
    return number - 1;
}

/* Sends the units of a stream without their start codes, to its end or to its verdict. One that was not sent for want of memory is sent again; whether
 * there was one. */
static int decode_units(h264v *decoder, const stream *s, h264v_verdict *verdict)
{
    int32_t answer = H264V_GOES_ON;
    int was_unsent = 0;
    size_t end;
    for (size_t from = unit_from(s, 0, &end); from < s->size && answer == H264V_GOES_ON; from = unit_from(s, end, &end)) {
        answer = h264v_send_unit(decoder, s->bytes + from, end - from, verdict);
        if (answer == H264V_MEMORY) {
            was_unsent = 1;
            answer = h264v_send_unit(decoder, s->bytes + from, end - from, verdict);
        }
    }
    h264v_finish(decoder, verdict);
    return was_unsent;
}

/* A stream in units with each allocation refused: the verdict is memory, or a unit is not sent and nothing has changed; how many there were. */
static long refused_units(const stream *s)
{
    h264v_verdict whole, verdict;
    h264v *decoder = opened(H264V_FULL, H264V_BASELINE);
    long number = 0, before;
    int was_refused = 1, was_unsent, ever_unsent = 0;
    expect(!decode_units(decoder, s, &whole), "each unit is sent");
    h264v_close(decoder);
    before = standing;
    while (was_refused) {
        decoder = opened(H264V_FULL, H264V_BASELINE);
        until = ++number;
        was_unsent = decode_units(decoder, s, &verdict);
        was_refused = until == 0;
        until = 0;
        expect(was_refused && !was_unsent ? verdict.kind == H264V_MEMORY : same(&verdict, &whole), "units say memory, or the verdict");
        ever_unsent |= was_unsent;
        h264v_close(decoder);
        expect(standing == before, "units keep nothing");
    }
    expect(ever_unsent, "a refusal that leaves a unit unsent");
    return number - 1;
}

/* Decodes and checks a stream with each of its allocations refused, and prints how many there were. */
static void refuse_each(const char *name, const stream *s)
{
    h264v_verdict whole;
    h264v *decoder = opened(H264V_FULL, H264V_BASELINE);
    taken all = decode(decoder, s, &whole);
    long number = 0, untold = 0;
    h264v_close(decoder);
    while (refused(s, ++number, &whole, &all))
        untold += is_untold;
    printf("%s: %ld allocations, each refused in turn, %ld of them untold; %ld of a check; %ld with an explanation; %ld in units\n", name, number - 1,
           untold, refused_checks(s), refused_explanations(s), refused_units(s));
}

int main(int argc, char **argv)
{
    setvbuf(stdout, NULL, _IONBF, 0); /* a buffer would be a block that stands */
    for (int at = 1; at < argc; at++) {
        stream s;
        if (!read_stream(argv[at], &s))
            return 64;
        refuse_each(argv[at], &s);
        if (at == 1) {
            if (!go_on(&s, MORE))
                return 64;
            refuse_each("many frames", &s);
        }
        free(s.bytes);
    }
    return argc < 2 ? 64 : failures != 0;
}
