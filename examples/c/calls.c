/* Calls each function of the library as the header says, and holds every answer and every field against it.
 *
 *     calls ONE_FRAME VECTOR_TOO_LONG
 *
 * The two are streams of samples/: one of a picture of one macroblock, whose samples are all 128, and that one with a second
 * picture, whose vector goes too far. The status is 0 where every answer is as the header says. */
#include "expect.h"
#include <stdlib.h>

enum { SIDE = 16, SAMPLES = SIDE * SIDE * 3 / 2, GREY = 128, MARK = 0x5a, VECTOR_BIT = 256, BYTES_OF_VERDICT = 72, BYTES_OF_FRAME = 32 };
enum { MORE = 40, OBJECT = 2048, BYTES_OF_INFO = 72, LAST_UNIT = 29 };
/* Of VECTOR_TOO_LONG: where its second and its last start code begin, and how many bytes its four start codes have. */
enum { SECOND_CODE = 10, LAST_CODE = 26, CODES = 4 + 4 + 3 + 3 };

/* The sizes that other languages lay out by hand. */
_Static_assert(sizeof(h264v_verdict) == BYTES_OF_VERDICT, "the size of a verdict");
_Static_assert(sizeof(h264v_frame) == BYTES_OF_FRAME, "the size of a frame");
_Static_assert(sizeof(h264v_info) == BYTES_OF_INFO, "the size of the information");

/* Parameter sets and the slice of a picture of 32x16 of which 30x6 is shown, with samples of 4:3 and 60000/1001 ticks a second. */
static const uint8_t CROPPED[] = {0, 0, 0, 1, 0x67, 0x42, 0xc0, 0x0a, 0xda, 0x2f, 0xa6, 0x4f, 0xfc, 0x00, 0x10, 0x00, 0x0c,
                                  0x40, 0x00, 0x00, 0xfa, 0x40, 0x00, 0x3a, 0x98, 0x21, 0, 0, 0, 1, 0x68, 0xce, 0x38, 0x80,
                                  0, 0, 0, 1, 0x65, 0x88, 0x84, 0x93, 0xc0};

/* Whether every byte of a thing is the mark that was put there. */
static int is_marked(const void *thing, size_t size)
{
    const unsigned char *bytes = thing;
    while (size > 0 && bytes[size - 1] == MARK)
        size--;
    return size == 0;
}

/* Whether a frame has the samples of the first sample's, and this count. */
static int is_grey(const h264v_frame *frame, unsigned count)
{
    size_t at = 0;
    while (at < frame->size && frame->samples[at] == GREY)
        at++;
    return frame->width == SIDE && frame->height == SIDE && frame->count == (int32_t)count && frame->size == SAMPLES && at == SAMPLES;
}

static int is_yes(const h264v_verdict *v, uint64_t units, uint64_t pictures, uint64_t frames)
{
    return v->kind == H264V_YES && v->bit == 0 && v->units == units && v->pictures == pictures && v->frames == frames && v->label[0] == 0 &&
           v->clause[0] == 0;
}

static int is_vector_range(const h264v_verdict *v)
{
    return v->kind == H264V_NO && v->bit == VECTOR_BIT && v->units == 0 && v->pictures == 0 && v->frames == 0 &&
           strcmp(v->label, "VectorRange") == 0 && strcmp(v->clause, "A.3") == 0;
}

/* Whether an object of JSON has a text in it. */
static int has(const char *object, const char *text)
{
    if (strstr(object, text))
        return 1;
    printf("%s\n", object);
    return 0;
}

/* h264v_open with modes and targets that are, and that are not. */
static void opens(void)
{
    h264v *decoder;
    for (uint32_t mode = 0; mode < 5; mode++) {
        for (uint32_t target = 0; target < 3; target++) {
            int known = mode <= H264V_VERDICT && target <= H264V_MAIN_IP;
            memset(&decoder, MARK, sizeof decoder);
            expect(h264v_open(mode, target, &decoder) == (known ? H264V_OPENED : H264V_MISUSE), "open answers by mode and target");
            expect(is_marked(&decoder, sizeof decoder) == !known, "open writes a decoder where there is one");
            if (known)
                h264v_close(decoder);
        }
    }
    memset(&decoder, MARK, sizeof decoder);
    expect(h264v_open(UINT32_MAX, UINT32_MAX, &decoder) == H264V_MISUSE && is_marked(&decoder, sizeof decoder), "open of the largest numbers");
}

/* A legal stream in pieces of so many bytes: what each call answers and writes, and what it leaves. */
static void legal_in_pieces(const stream *s, size_t piece)
{
    h264v *decoder = opened(H264V_FULL, H264V_BASELINE);
    h264v_verdict verdict;
    h264v_frame frame;
    memset(&verdict, MARK, sizeof verdict);
    memset(&frame, MARK, sizeof frame);
    expect(h264v_receive(decoder, &frame) == H264V_NO_FRAME && is_marked(&frame, sizeof frame), "no frame before the first byte");
    expect(h264v_send(decoder, s->bytes, 0, &verdict) == H264V_GOES_ON, "an empty piece goes on");
    for (size_t at = 0; at < s->size; at += piece) {
        size_t size = s->size - at < piece ? s->size - at : piece;
        expect(h264v_send(decoder, s->bytes + at, size, &verdict) == H264V_GOES_ON, "a legal piece goes on");
    }
    expect(is_marked(&verdict, sizeof verdict), "the verdict is not written while the stream goes on");
    h264v_finish(decoder, &verdict);
    expect(is_yes(&verdict, 3, 1, 1), "the verdict on a legal stream");
    memset(&verdict, MARK, sizeof verdict);
    h264v_finish(decoder, &verdict);
    expect(is_yes(&verdict, 3, 1, 1), "a second finish writes it again");
    memset(&verdict, MARK, sizeof verdict);
    expect(h264v_send(decoder, s->bytes, s->size, &verdict) == H264V_FELL && is_yes(&verdict, 3, 1, 1), "so does a send after it, which reads nothing");
    expect(h264v_receive(decoder, &frame) == H264V_FRAME && is_grey(&frame, 0), "its frame");
    memset(&frame, MARK, sizeof frame);
    expect(h264v_receive(decoder, &frame) == H264V_NO_FRAME && is_marked(&frame, sizeof frame), "no frame after the last");
    h264v_close(decoder);
}

/* Receives the frames that wait, after so many; how many there are then. */
static unsigned received(h264v *decoder, unsigned frames)
{
    h264v_frame frame;
    while (h264v_receive(decoder, &frame) == H264V_FRAME)
        expect(is_grey(&frame, 2 * frames++), "each frame comes in its turn");
    return frames;
}

/* A stream of many frames, in pieces of so many bytes. The memory of those that were received is used for later ones. */
static void many_in_pieces(const stream *s, size_t piece)
{
    h264v *decoder = opened(H264V_FULL, H264V_BASELINE);
    h264v_verdict verdict;
    unsigned frames = 0;
    for (size_t at = 0; at < s->size; at += piece) {
        size_t size = s->size - at < piece ? s->size - at : piece;
        expect(h264v_send(decoder, s->bytes + at, size, &verdict) == H264V_GOES_ON, "a piece of many pictures goes on");
        frames = received(decoder, frames);
    }
    h264v_finish(decoder, &verdict);
    frames = received(decoder, frames);
    expect(is_yes(&verdict, 3 + MORE, 1 + MORE, 1 + MORE) && frames == 1 + MORE, "the verdict on many pictures, and as many frames");
    h264v_close(decoder);
}

/* Modes that give no frames. */
static void no_frames(const stream *s, uint32_t mode, uint64_t pictures, uint64_t frames)
{
    h264v *decoder = opened(mode, H264V_BASELINE);
    h264v_verdict verdict;
    h264v_frame frame;
    expect(h264v_send(decoder, s->bytes, s->size, &verdict) == H264V_GOES_ON, "a legal stream goes on in each mode");
    h264v_finish(decoder, &verdict);
    expect(is_yes(&verdict, 3, pictures, frames), "the verdict without frames");
    expect(h264v_receive(decoder, &frame) == H264V_NO_FRAME, "no frame without H264V_FULL");
    h264v_close(decoder);
}

/* A stream that breaks a rule: the verdict. The frame before it was not due yet, and does not come. */
static void broken(const stream *s)
{
    h264v *decoder = opened(H264V_FULL, H264V_BASELINE);
    h264v_verdict verdict, again;
    h264v_frame frame;
    int32_t answer = h264v_send(decoder, s->bytes, s->size, &verdict);
    if (answer == H264V_GOES_ON)
        h264v_finish(decoder, &verdict);
    expect(is_vector_range(&verdict), "the verdict on a vector that is too long");
    memset(&again, MARK, sizeof again);
    h264v_finish(decoder, &again);
    expect(is_vector_range(&again), "a second finish writes it again");
    memset(&again, MARK, sizeof again);
    expect(h264v_send(decoder, s->bytes, s->size, &again) == H264V_FELL && is_vector_range(&again), "a send after the verdict says it again");
    expect(h264v_send(decoder, s->bytes, 0, &again) == H264V_FELL && is_vector_range(&again), "so does one of no bytes");
    expect(h264v_receive(decoder, &frame) == H264V_NO_FRAME, "a frame that was not due does not come");
    h264v_close(decoder);
}

/* Sends the units of a stream from this place on without their start codes, up to its end or to the verdict; the last answer. */
static int32_t sent_units(h264v *decoder, const stream *s, size_t at, h264v_verdict *verdict)
{
    int32_t answer = H264V_GOES_ON;
    size_t end;
    for (size_t from = unit_from(s, at, &end); from < s->size && answer == H264V_GOES_ON; from = unit_from(s, end, &end))
        answer = h264v_send_unit(decoder, s->bytes + from, end - from, verdict);
    return answer;
}

/* A legal stream in units, between bytes that are no unit: what each call answers, and what it leaves. */
static void legal_in_units(const stream *s)
{
    static const uint8_t none[1] = {0}, two_units[] = {0x67, 0x42, 0, 0, 1, 0x68}, zeros[] = {0x67, 0, 0, 0, 1}, after[] = {0x68, 0xce, 0};
    h264v *decoder = opened(H264V_FULL, H264V_BASELINE);
    h264v_verdict verdict;
    size_t end;
    memset(&verdict, MARK, sizeof verdict);
    for (size_t from = unit_from(s, 0, &end); from < s->size; from = unit_from(s, end, &end)) {
        expect(h264v_send_unit(decoder, none, 0, &verdict) == H264V_NO_UNIT, "no bytes are no unit");
        expect(h264v_send_unit(decoder, two_units, sizeof two_units, &verdict) == H264V_NO_UNIT, "two units are no unit");
        expect(h264v_send_unit(decoder, zeros, sizeof zeros, &verdict) == H264V_NO_UNIT, "no unit has 00 00 00");
        expect(h264v_send_unit(decoder, after, sizeof after, &verdict) == H264V_NO_UNIT, "no unit ends in 00");
        expect(h264v_send_unit(decoder, s->bytes + from, end - from, &verdict) == H264V_GOES_ON, "a unit goes on");
    }
    expect(is_marked(&verdict, sizeof verdict), "the verdict is not written while the stream goes on");
    h264v_finish(decoder, &verdict);
    expect(is_yes(&verdict, 3, 1, 1), "the verdict on legal units");
    expect(received(decoder, 0) == 1, "their frame");
    memset(&verdict, MARK, sizeof verdict);
    expect(h264v_send_unit(decoder, none, 0, &verdict) == H264V_FELL && is_yes(&verdict, 3, 1, 1), "a unit after the verdict says it again");
    h264v_close(decoder);
}

/* A stream that breaks a rule, of which so many bytes are sent as they are and the rest in units: the bit counts no start code that was put in. */
static void broken_in_units(const stream *s, size_t bytes, uint64_t bit)
{
    h264v *decoder;
    h264v_verdict verdict, again;
    char object[OBJECT], wanted[64];
    expect(h264v_open_explaining(H264V_FULL, H264V_BASELINE, &decoder) == H264V_OPENED, "there is a decoder that explains");
    expect(h264v_send(decoder, s->bytes, bytes, &verdict) == H264V_GOES_ON, "the first bytes go on");
    if (sent_units(decoder, s, bytes, &verdict) == H264V_GOES_ON)
        h264v_finish(decoder, &verdict);
    expect(verdict.kind == H264V_NO && verdict.bit == bit && strcmp(verdict.label, "VectorRange") == 0, "the bit of what was sent");
    memset(&again, MARK, sizeof again);
    expect(sent_units(decoder, s, 0, &again) == H264V_FELL && same(&verdict, &again), "a unit after the verdict says it again");
    expect(h264v_explain(decoder, object, sizeof object) < sizeof object, "an object");
    snprintf(wanted, sizeof wanted, ",\"bit\":%u,\"byte\":%u,\"unit\":%u,\"nal_unit_type\":1,", (unsigned)bit, (unsigned)bit / 8,
             (unsigned)bit / 8 - (VECTOR_BIT / 8 - LAST_UNIT));
    expect(has(object, wanted) && has(object, "\"element\":\"mb_type\","), "its places count the same bytes");
    h264v_close(decoder);
}

/* A picture that lacks a macroblock: this is known by the next unit, and stands in the one before it. */
static void incomplete_in_units(void)
{
    static const uint8_t delimiter[] = {0x09, 0x10};
    const stream cropped = {(uint8_t *)CROPPED, sizeof CROPPED};
    h264v *decoder = opened(H264V_FULL, H264V_BASELINE);
    h264v_verdict verdict;
    expect(sent_units(decoder, &cropped, 0, &verdict) == H264V_GOES_ON, "the units of half a picture go on");
    expect(h264v_send_unit(decoder, delimiter, sizeof delimiter, &verdict) == H264V_GOES_ON, "so does a delimiter, whose end is not known");
    expect(h264v_send_unit(decoder, delimiter, sizeof delimiter, &verdict) == H264V_FELL, "by its end it is known");
    expect(verdict.kind == H264V_NO && strcmp(verdict.label, "Incomplete") == 0, "the picture is incomplete");
    expect(verdict.bit == 8 * (sizeof CROPPED - 3 * (START + 1)), "after the last byte of its slice");
    h264v_close(decoder);
}

/* Streams of which there is little. */
static void of_little(void)
{
    static const uint8_t none[1] = {0}, rubbish[] = {1, 2, 3, 4, 5, 6, 7, 8};
    h264v *decoder = opened(H264V_FULL, H264V_BASELINE);
    h264v_verdict verdict, checked;
    h264v_finish(decoder, &verdict);
    expect(verdict.kind == H264V_NO && verdict.bit == 0 && verdict.label[0] != 0, "no bytes are a no");
    h264v_check(none, 0, H264V_FULL, H264V_BASELINE, &checked);
    expect(same(&verdict, &checked), "and so says a check");
    h264v_close(decoder);
    decoder = opened(H264V_UNITS, H264V_MAIN_IP);
    expect(h264v_send(decoder, rubbish, sizeof rubbish, &verdict) == H264V_FELL && verdict.kind == H264V_NO, "rubbish is a no at once");
    h264v_close(decoder);
    h264v_close(opened(H264V_FULL, H264V_MAIN_IP)); /* nothing was sent */
}

/* A feature that is outside: level 6. */
static void outside(const stream *s)
{
    enum { LEVEL_AT = 7, LEVEL_6 = 60 };
    h264v_verdict verdict;
    uint8_t before = s->bytes[LEVEL_AT];
    s->bytes[LEVEL_AT] = LEVEL_6;
    h264v_check(s->bytes, s->size, H264V_FULL, H264V_BASELINE, &verdict);
    s->bytes[LEVEL_AT] = before;
    expect(verdict.kind == H264V_OUTSIDE && verdict.bit == LEVEL_AT * 8 && verdict.units == 0, "level 6 is outside");
    expect(strcmp(verdict.label, "Level6") == 0 && verdict.clause[0] == 0, "an outside names its feature, and no clause");
}

/* h264v_check by mode and target. */
static void checks(const stream *legal, const stream *bad)
{
    h264v_verdict verdict;
    for (uint32_t target = H264V_BASELINE; target <= H264V_MAIN_IP; target++) {
        h264v_check(legal->bytes, legal->size, H264V_UNITS, target, &verdict);
        expect(is_yes(&verdict, 3, 0, 0), "a check of units");
        h264v_check(legal->bytes, legal->size, H264V_HEADERS, target, &verdict);
        expect(is_yes(&verdict, 3, 1, 0), "a check of headers");
        h264v_check(legal->bytes, legal->size, H264V_FULL, target, &verdict);
        expect(is_yes(&verdict, 3, 1, 1), "a check of all");
        h264v_check(bad->bytes, bad->size, H264V_FULL, target, &verdict);
        expect(is_vector_range(&verdict), "a check of a broken stream");
        h264v_check(legal->bytes, legal->size, H264V_VERDICT + 1, target, &verdict);
        expect(verdict.kind == H264V_MISUSE && verdict.bit == 0 && verdict.label[0] == 0, "a check with a mode that is none");
    }
    h264v_check(legal->bytes, legal->size, H264V_FULL, 2, &verdict);
    expect(verdict.kind == H264V_MISUSE && verdict.units == 0 && verdict.clause[0] == 0, "a check for a target that is none");
}

/* Two decoders at once, and closing while a frame is lent and others wait. */
static void two_at_once(const stream *s)
{
    h264v *first = opened(H264V_FULL, H264V_BASELINE), *second = opened(H264V_FULL, H264V_BASELINE);
    h264v_verdict verdict;
    h264v_frame frame, other;
    for (size_t at = 0; at < s->size; at++) {
        expect(h264v_send(first, s->bytes + at, 1, &verdict) == H264V_GOES_ON, "the first goes on");
        expect(h264v_send(second, s->bytes + at, 1, &verdict) == H264V_GOES_ON, "the second goes on");
    }
    h264v_finish(first, &verdict);
    expect(h264v_receive(first, &frame) == H264V_FRAME, "the first has its frame");
    expect(h264v_receive(second, &other) == H264V_NO_FRAME, "the second has none yet");
    h264v_finish(second, &verdict);
    h264v_close(second); /* its frame waits */
    expect(is_grey(&frame, 0), "a lent frame stays while another decoder is closed");
    h264v_close(first); /* its frame is lent */
}

/* The version of the library is that of the header. */
static void versions(void)
{
    char text[16];
    snprintf(text, sizeof text, "%u.%u.%u", (unsigned)(h264v_version() >> 16), (unsigned)(h264v_version() >> 8 & 255), (unsigned)(h264v_version() & 255));
    expect(h264v_version() == H264V_VERSION && strcmp(text, H264V_VERSION_TEXT) == 0, "the version is that of the header");
}

/* A decoder that explains its verdict, which has to be had. */
static h264v *explaining(uint32_t mode)
{
    h264v *decoder;
    if (h264v_open_explaining(mode, H264V_BASELINE, &decoder) == H264V_OPENED)
        return decoder;
    printf("not so: there is a decoder that explains\n");
    exit(EXIT_FAILURE);
}

/* h264v_explain of a broken stream, in pieces of so many bytes, with room for the object and without. */
static void explains(const stream *s, size_t piece)
{
    h264v *decoder = explaining(H264V_FULL);
    h264v_verdict verdict;
    char object[OBJECT], marked[OBJECT];
    size_t length;
    memset(object, MARK, sizeof object);
    expect(h264v_explain(decoder, object, sizeof object) == 0 && is_marked(object, sizeof object), "nothing is explained before the verdict");
    for (size_t at = 0; at < s->size; at += piece)
        h264v_send(decoder, s->bytes + at, s->size - at < piece ? s->size - at : piece, &verdict);
    h264v_finish(decoder, &verdict);
    expect(is_vector_range(&verdict), "the verdict of a decoder that explains");
    length = h264v_explain(decoder, object, sizeof object);
    expect(length > 0 && length < sizeof object && strlen(object) == length, "an object with a 0 at its end");
    expect(is_marked(object + length + 1, sizeof object - length - 1), "nothing is written after it");
    expect(has(object, "{\"kind\":\"verdict\",\"verdict\":\"no\",\"status\":1,\"rule\":\"VectorRange\",\"clause\":\"A.3\","), "the verdict");
    expect(has(object, ",\"bit\":256,\"byte\":32,\"unit\":29,\"nal_unit_type\":1,"), "its bit");
    expect(has(object, "\"picture\":1,\"frame_num\":1,\"slice\":0,\"macroblock\":0,\"column\":0,\"row\":0,\"element\":\"mb_type\","), "the place");
    expect(has(object, "\"ends_in_unit\":true,\"allowed\":\"vectors of -8192 to 8191 across and -256 to 255 down,"), "what is allowed");
    expect(has(object, "\"cause\":\"") && object[length - 1] == '}', "the cause");
    memset(marked, MARK, sizeof marked);
    expect(h264v_explain(decoder, marked, length) == length && is_marked(marked, sizeof marked), "nothing is written where there is no room");
    expect(h264v_explain(decoder, marked, length + 1) == length && strcmp(marked, object) == 0, "just enough room");
    expect(is_marked(marked + length + 1, sizeof marked - length - 1), "nothing is written after that");
    h264v_close(decoder);
}

/* h264v_explain of a decoder that does not note places, and of a legal stream. */
static void explains_plainly(const stream *legal, const stream *bad)
{
    h264v *decoder = opened(H264V_FULL, H264V_BASELINE);
    h264v_verdict verdict;
    char object[OBJECT];
    h264v_send(decoder, bad->bytes, bad->size, &verdict);
    h264v_finish(decoder, &verdict);
    expect(h264v_explain(decoder, object, sizeof object) > 0, "an object without a place");
    expect(has(object, "\"clause\":\"A.3\",\"bit\":256,\"byte\":32,\"breaks\":\"") && !strstr(object, "macroblock\":"), "which has the bit");
    h264v_close(decoder);
    decoder = explaining(H264V_FULL);
    h264v_send(decoder, legal->bytes, legal->size, &verdict);
    h264v_finish(decoder, &verdict);
    expect(h264v_explain(decoder, object, sizeof object) > 0, "an object of a yes");
    expect(strcmp(object, "{\"kind\":\"verdict\",\"verdict\":\"yes\",\"status\":0,\"units\":3,\"pictures\":1,\"frames\":1}") == 0, "which has its counts");
    h264v_close(decoder);
    expect(h264v_open_explaining(H264V_FULL, 2, &decoder) == H264V_MISUSE, "a decoder that explains has a target that is known");
}

/* h264v_stream before a slice, and with cropping, an aspect ratio and a rate. */
static void tells_streams(const stream *s)
{
    h264v *decoder = opened(H264V_HEADERS, H264V_BASELINE);
    h264v_verdict verdict;
    h264v_info info;
    memset(&info, MARK, sizeof info);
    expect(h264v_stream(decoder, &info) == H264V_NOT_TOLD && is_marked(&info, sizeof info), "nothing is told before a slice");
    h264v_send(decoder, CROPPED, sizeof CROPPED, &verdict);
    h264v_finish(decoder, &verdict);
    expect(verdict.kind == H264V_YES, "the cropped stream is legal so far");
    expect(h264v_stream(decoder, &info) == H264V_TOLD, "a stream is told");
    expect(info.profile_idc == 66 && info.level_idc == 10 && info.is_level_1b == 0, "profile and level");
    expect(info.coded_width == 32 && info.coded_height == 16 && info.width == 30 && info.height == 6, "the sizes");
    expect(info.crop_left == 0 && info.crop_right == 2 && info.crop_top == 4 && info.crop_bottom == 6, "the cropping");
    expect(info.sar_width == 4 && info.sar_height == 3, "the aspect ratio");
    expect(info.rate_frames == 60000 && info.rate_seconds == 2002 && info.is_fixed_rate == 1, "the rate");
    h264v_close(decoder);
    decoder = opened(H264V_FULL, H264V_BASELINE);
    h264v_send(decoder, s->bytes, s->size, &verdict);
    h264v_finish(decoder, &verdict);
    expect(h264v_stream(decoder, &info) == H264V_TOLD && info.width == SIDE && info.height == SIDE, "the size of the sample");
    expect(info.sar_width == 0 && info.sar_height == 0 && info.rate_frames == 0 && info.rate_seconds == 0, "what it does not give is 0");
    h264v_close(decoder);
}

int main(int argc, char **argv)
{
    stream legal, bad, many;
    if (argc != 3 || !read_stream(argv[1], &legal) || !read_stream(argv[2], &bad) || !read_stream(argv[1], &many) || !go_on(&many, MORE))
        return 64;
    opens();
    for (size_t piece = 1; piece <= legal.size; piece++)
        legal_in_pieces(&legal, piece);
    for (size_t piece = 1; piece <= many.size; piece *= 8)
        many_in_pieces(&many, piece);
    no_frames(&legal, H264V_UNITS, 0, 0);
    no_frames(&legal, H264V_HEADERS, 1, 0);
    no_frames(&legal, H264V_VERDICT, 1, 1);
    broken(&bad);
    legal_in_units(&legal);
    broken_in_units(&bad, 0, VECTOR_BIT - 8 * CODES);
    broken_in_units(&bad, SECOND_CODE, VECTOR_BIT - 8 * (CODES - 4));
    broken_in_units(&bad, LAST_CODE, VECTOR_BIT - 8 * 3);
    incomplete_in_units();
    of_little();
    outside(&legal);
    checks(&legal, &bad);
    two_at_once(&legal);
    versions();
    explains(&bad, 1);
    explains(&bad, bad.size);
    explains_plainly(&legal, &bad);
    tells_streams(&legal);
    free(legal.bytes);
    free(bad.bytes);
    free(many.bytes);
    return failures != 0;
}
