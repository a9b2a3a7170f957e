/* h264v: a proved verifier and decoder of H.264 byte streams (Annex B).
 *
 *     h264v *decoder;
 *     if (h264v_open(H264V_FULL, H264V_BASELINE, &decoder) != H264V_OPENED) ..
 *     send bytes, in pieces of any size, or units without start codes, and after each receive frames until there is none
 *     finish, and receive the last frames
 *     close
 *
 * The library takes memory by malloc, realloc and free, starts no thread, and reads and writes nothing else. Each decoder
 * stands alone: two threads may use two decoders at once, and one decoder from one thread at a time.
 *
 * What the caller owes, since the library cannot look at it:
 *   - no pointer is null, not even that of no bytes;
 *   - a decoder is one that h264v_open gave and that was not closed, and no other call uses it at the same time;
 *   - as many bytes as are named stand where they are said to stand, and no call's parameters overlap.
 *
 * The proof covers the library's functions as they are called by such a caller. docs/LIBRARY.md says what is proved.
 */
#ifndef H264V_H
#define H264V_H

#include <stddef.h>
#include <stdint.h>

#ifdef __cplusplus
extern "C" {
#endif

/* The version of this header, as a number that grows with each version and as a text. */
#define H264V_VERSION_MAJOR 0
#define H264V_VERSION_MINOR 1
#define H264V_VERSION_PATCH 0
#define H264V_VERSION (H264V_VERSION_MAJOR << 16 | H264V_VERSION_MINOR << 8 | H264V_VERSION_PATCH)
#define H264V_VERSION_TEXT "0.1.0"

/* How far a stream is judged. */
enum {
    H264V_UNITS = 0,   /* the byte stream, its units, and the parameter sets */
    H264V_HEADERS = 1, /* these, and slice headers */
    H264V_FULL = 2,    /* these, and slice data, of which the frames are made; the others give no frames */
    H264V_VERDICT = 3  /* these, and slice data, as H264V_FULL, without making frames */
};

/* The decoder that a stream has to suit. */
enum {
    H264V_BASELINE = 0, /* Constrained Baseline, levels 1 to 5.2 */
    H264V_MAIN_IP = 1   /* the progressive streams of I and P slices in CAVLC of the Main profile */
};

/* What is said of a stream. */
enum {
    H264V_YES = 0,     /* it is legal */
    H264V_NO = 1,      /* it breaks a rule of the standard */
    H264V_OUTSIDE = 2, /* it has something that is not judged, and nothing before it breaks a rule */
    H264V_MEMORY = 3,  /* memory was refused, so there is no verdict */
    H264V_MISUSE = 5   /* the mode or the target is none of the above (of h264v_check alone) */
};

/* What h264v_open answers. */
enum { H264V_OPENED = 0 /* or H264V_MEMORY or H264V_MISUSE, and then there is no decoder */ };

/* What h264v_send answers. */
enum {
    H264V_GOES_ON = 0, /* the stream is legal so far; the verdict was not written */
    H264V_FELL = 1     /* the verdict stands, whatever bytes may still come, and was written */
};

/* What h264v_send_unit answers beside these. Nothing was sent then, the verdict was not written, and the decoder is as it was. */
enum { H264V_NO_UNIT = 2 /* no NAL unit has these bytes; or H264V_MEMORY, where memory was refused */ };

/* What h264v_receive answers. */
enum {
    H264V_NO_FRAME = 0, /* none waits; the frame was not written */
    H264V_FRAME = 1     /* one was lent */
};

/* A verdict. Fields that the kind does not have are 0. */
typedef struct {
    uint64_t bit;      /* NO and OUTSIDE: where it stands, in bits of what was sent from 0, the highest bit of a byte first */
    uint64_t units;    /* YES: the units of the stream */
    uint64_t pictures; /* YES: the coded pictures; 0 with H264V_UNITS */
    uint64_t frames;   /* YES: the frames; 0 with H264V_UNITS and H264V_HEADERS */
    uint32_t kind;     /* H264V_YES and so on */
    char label[24];    /* NO: the rule's name; OUTSIDE: the feature's name. ASCII, with a 0 at its end */
    char clause[8];    /* NO: the clause of the standard that has the rule. ASCII, with a 0 at its end */
} h264v_verdict;

/* A frame that is lent: read it, and neither write nor free it. The samples stand one after another, a byte a sample: the
 * rows of Y, width * height, then those of Cb, then those of Cr, each width / 2 * height / 2. Width and height are even, and
 * cropping is done. No bytes stand between rows: the stride of Y is width, that of Cb and of Cr is width / 2. */
typedef struct {
    const uint8_t *samples; /* they stay until the next h264v_receive or h264v_close of this decoder */
    size_t size;            /* how many samples there are in all */
    uint32_t width;         /* luma samples in a row */
    uint32_t height;        /* luma samples in a column */
    int32_t count;          /* the picture order count */
} h264v_frame;

/* What h264v_stream answers. */
enum {
    H264V_NOT_TOLD = 0, /* no slice was read; the information was not written */
    H264V_TOLD = 1      /* it was written */
};

/* What the sequence parameter set says that the last slice uses. Sizes are in luma samples. */
typedef struct {
    uint64_t rate_frames;   /* the frame rate is rate_frames / rate_seconds; both are 0 where the set has no timing */
    uint64_t rate_seconds;
    uint32_t profile_idc;   /* 66, 77 or 88 */
    uint32_t level_idc;     /* ten times the level; level 1b is 9, or 11 where is_level_1b is 1 */
    uint32_t is_level_1b;   /* constraint_set3_flag */
    uint32_t width;         /* what is shown, as in h264v_frame */
    uint32_t height;
    uint32_t coded_width;   /* before cropping */
    uint32_t coded_height;
    uint32_t crop_left;     /* what cropping cuts off each side */
    uint32_t crop_right;
    uint32_t crop_top;
    uint32_t crop_bottom;
    uint32_t sar_width;     /* the sample aspect ratio is sar_width : sar_height; both are 0 where it is not specified */
    uint32_t sar_height;
    uint32_t is_fixed_rate; /* fixed_frame_rate_flag */
} h264v_info;

/* A decoder. Its inside is hidden. */
typedef struct h264v h264v;

/* The version of the library that runs, as H264V_VERSION numbers it. */
uint32_t h264v_version(void);

/* Makes a decoder for one stream, and writes it to *decoder. The caller owns it until h264v_close.
 * Answers H264V_OPENED; H264V_MEMORY where memory was refused; H264V_MISUSE where the mode or the target is not known. */
int32_t h264v_open(uint32_t mode, uint32_t target, h264v **decoder);

/* As h264v_open, for a decoder that notes what h264v_explain needs to say where a verdict stands. It takes up to 30 % more time,
 * 100 kB, and 80 bytes for each picture. */
int32_t h264v_open_explaining(uint32_t mode, uint32_t target, h264v **decoder);

/* Decodes the next `size` bytes of the stream. They are read before it returns, and not kept.
 * Answers H264V_GOES_ON, or H264V_FELL: then the verdict is in *verdict, no frame comes after those that wait, and each
 * further call of h264v_send, h264v_send_unit and h264v_finish says that verdict again and changes nothing. */
int32_t h264v_send(h264v *decoder, const uint8_t *bytes, size_t size, h264v_verdict *verdict);

/* Decodes the next NAL unit of the stream: `size` bytes without a start code, as MP4 (AVCC) and RTP have them. The library puts 00 00 01
 * before them. Places count the bytes that were sent, and no start code that was put in: the bit of a verdict, and the places of
 * h264v_explain. A unit is judged once its end is known, by the next unit or by h264v_finish, so a verdict may stand in an earlier one.
 * Answers H264V_GOES_ON or H264V_FELL, as h264v_send does. H264V_NO_UNIT: no NAL unit has these bytes (7.4.1), since there are none,
 * or 00 00 00 or 00 00 01 stands in them, or the last one is 00. Zero bytes after a unit are no part of it: leave them out.
 * H264V_MEMORY: memory was refused. The decoder keeps 8 bytes for each unit.
 * Both calls may be used for one stream. The start code ends a unit that h264v_send left open, and bytes of h264v_send after a unit
 * begin with a start code of their own. */
int32_t h264v_send_unit(h264v *decoder, const uint8_t *bytes, size_t size, h264v_verdict *verdict);

/* Lends the next frame in the order of output, and takes back the one lent before.
 * Answers H264V_FRAME, or H264V_NO_FRAME. A frame that waits stays until it is received, after the verdict too. */
int32_t h264v_receive(h264v *decoder, h264v_frame *frame);

/* Decodes the end of the stream, and writes the verdict on all that was sent. A second call writes it again. After a call no
 * further bytes are read. Frames may then wait. */
void h264v_finish(h264v *decoder, h264v_verdict *verdict);

/* Writes the verdict as one object of JSON into the `size` bytes at `buffer`, in UTF-8 with a 0 at its end. docs/OUTPUT.md names
 * its fields: those of kind `verdict`, without `file`. The place, what was found there and what is allowed are among them where
 * the decoder was opened by h264v_open_explaining.
 * Answers the length of the object without the 0. Where that is not below `size` nothing was written, so call it again with more
 * room. Answers 0 where the verdict does not stand yet, or memory was refused. */
size_t h264v_explain(h264v *decoder, char *buffer, size_t size);

/* Writes to *info what the sequence parameter set says that the last slice uses. Answers H264V_TOLD, or H264V_NOT_TOLD. With
 * H264V_UNITS no slice is read. */
int32_t h264v_stream(h264v *decoder, h264v_info *info);

/* Lets go of a decoder, of the frame that it lent and of those that wait. It is not to be used again. */
void h264v_close(h264v *decoder);

/* Judges a whole stream of `size` bytes, and writes the verdict. No frames are made: H264V_FULL judges as H264V_VERDICT. */
void h264v_check(const uint8_t *bytes, size_t size, uint32_t mode, uint32_t target, h264v_verdict *verdict);

#ifdef __cplusplus
}
#endif
#endif
