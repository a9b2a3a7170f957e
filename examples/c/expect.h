/* For the programs here that test the library: what they expect, and streams in memory. */
#ifndef EXPECT_H
#define EXPECT_H

#include <h264v.h>
#include <stdio.h>
#include <stdlib.h>
#include <string.h>

/* A stream, in as many bytes as it has: what reads past them is seen by AddressSanitizer and by valgrind. */
typedef struct {
    uint8_t *bytes;
    size_t size;
} stream;

/* How many things were not as expected. */
static int failures = 0;

static inline void expect(int holds, const char *what)
{
    if (!holds) {
        printf("not so: %s\n", what);
        failures++;
    }
}

/* Whether two verdicts say the same. */
static inline int same(const h264v_verdict *a, const h264v_verdict *b)
{
    return a->kind == b->kind && a->bit == b->bit && a->units == b->units && a->pictures == b->pictures && a->frames == b->frames &&
           strcmp(a->label, b->label) == 0 && strcmp(a->clause, b->clause) == 0;
}

/* A decoder that has to be had; it ends the program where there is none. */
static inline h264v *opened(uint32_t mode, uint32_t target)
{
    h264v *decoder;
    if (h264v_open(mode, target, &decoder) == H264V_OPENED)
        return decoder;
    printf("not so: there is a decoder\n");
    exit(EXIT_FAILURE);
}

/* Reads a file of 1 MiB at most; 0 where that fails. The caller frees the bytes. */
static inline int read_stream(const char *name, stream *to)
{
    enum { MOST = 1 << 20 };
    FILE *file = fopen(name, "rb");
    uint8_t *bytes = file ? malloc(MOST) : NULL;
    to->size = bytes ? fread(bytes, 1, MOST, file) : 0;
    to->bytes = bytes ? realloc(bytes, to->size ? to->size : 1) : NULL;
    if (file)
        fclose(file);
    return to->bytes && to->size > 0;
}

/* Adds so many pictures to the stream of samples/ that has one; 0 where memory is refused. Each has one macroblock, which is
 * skipped: it shows what the first one shows. Their stream is legal. */
static inline int go_on(stream *s, unsigned pictures)
{
    enum { UNIT = 8, FRAME_NUMS = 16 };
    uint8_t *bytes = realloc(s->bytes, s->size + (size_t)pictures * UNIT);
    if (!bytes)
        return 0;
    s->bytes = bytes;
    for (unsigned k = 1; k <= pictures; k++) {
        unsigned frame_num = k % FRAME_NUMS;
        uint8_t unit[UNIT] = {0, 0, 0, 1, 0x61, (uint8_t)(0x9a | frame_num >> 3), (uint8_t)((frame_num & 7) << 5 | 2), 0xa0};
        memcpy(bytes + s->size, unit, UNIT);
        s->size += UNIT;
    }
    return 1;
}

/* How many bytes a start code has, 00 00 01. */
enum { START = 3 };

/* Whether a start code, or 00 00 00, stands at a place of a stream. */
static inline int ends_unit(const stream *s, size_t at)
{
    return at + START <= s->size && s->bytes[at] == 0 && s->bytes[at + 1] == 0 && s->bytes[at + 2] <= 1;
}

/* Where the next NAL unit of a byte stream begins, from this place on, and where it ends, which is written; the end of the stream where there is none. */
static inline size_t unit_from(const stream *s, size_t at, size_t *end)
{
    size_t from;
    while (at < s->size && !(ends_unit(s, at) && s->bytes[at + 2] == 1))
        at++;
    if (at == s->size)
        return *end = s->size;
    from = at += START;
    while (at < s->size && !ends_unit(s, at))
        at++;
    *end = at;
    return from;
}

#endif
