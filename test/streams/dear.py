"""The dearest streams that a level allows, each in a size that grows with `size`: pairs of an iterator over bytes and the number of macroblocks."""
import random

from .macroblocks import INTER, QUARTERS, SUB_PARTS, Picture, SliceData
from .sets import PictureSet, Sequence
from .words import Unit, framed

SLICE, IDR, FILLER, UNSPECIFIED = 1, 5, 12, 24
COLUMNS, ROWS = 22, 18
GREATEST_COLUMNS, GREATEST_ROWS = 256, 144  # MaxFS of level 5.2
MOST_REFERENCES = 16
FRAME_NUMBERS = 1 << 16
PIECE = 1 << 20
# In the order in which they are coded: each an escape of 28 bits while level_suffix grows, then the shortest that are allowed beside them (9.2.2, 8.5.12).
LONGEST_LEVELS = [17, 31, 61, 121, 241, 481] + [17] * 10
MIDDLES = [(2, 2), (-6, 10)]  # vectors whose samples need most of their neighbours


def ue(number):
    word = format(number + 1, "b")
    return "0" * (len(word) - 1) + word


class Dear:
    """A stream in the making, of pictures whose slice data are made once."""

    def __init__(self, columns=COLUMNS, rows=ROWS, **more):
        self.sps = Sequence(columns, rows, **{"level": 52, "frame_num_bits": 16, "count_type": 2, **more})
        self.pps = PictureSet(default_active=self.sps.references, filter_control=False)
        self.mbs, self.number, self.idr_id = columns * rows, 0, 0

    def sets(self):
        return self.sps.unit().bytes() + self.pps.unit().bytes()

    def head(self, idr=False, first=0, operations=(), qp=26):
        """The front of a slice."""
        out = Unit(3, IDR if idr else SLICE)
        out.ue("first_mb_in_slice", first)
        out.ue("slice_type", 2 if idr else 0)
        out.ue("pic_parameter_set_id", 0)
        out.u("frame_num", 16, self.number)
        if idr:
            out.ue("idr_pic_id", self.idr_id)
        out.u("flags of marking or of the list", 2, 0)
        if not idr:
            out.u("adaptive_ref_pic_marking_mode_flag", 1, bool(operations))
        for value in operations:
            out.ue("operation", value)
        out.se("slice_qp_delta", qp - self.pps.qp)
        return out

    def slice(self, data, **ways):
        out = self.head(**ways)
        return framed(out.header, "".join(it[4] for it in out.elements) + data + "1")

    def next(self, step=1):
        self.number = (self.number + step) % FRAME_NUMBERS

    def begun(self):
        """The sets, and an IDR picture of grey macroblocks."""
        return self.sets() + self.slice((ue(3) + "111") * self.mbs, idr=True)

    def skipped(self):
        """A picture of skipped macroblocks, in one word."""
        self.next()
        return self.slice(ue(self.mbs))


class Chosen(SliceData):
    """Slice data of one kind of inter macroblock, which goes through vectors and references by turns."""

    turn = 0

    def wanted(self, x, y):
        return MIDDLES[(x + y) % 2]

    def put_index(self):
        self.turn += 1
        index = self.ways["usable"][self.turn % len(self.ways["usable"])]
        if self.ways["active"] > 1:
            self.out.te("ref_idx_l0", self.ways["active"] - 1, index)
        return index

    def put_macroblock(self):
        """Sixteen parts of 4x4, none with the vector of a neighbour."""
        p = self.p
        self.mb = p.coded
        self.x, self.y = 4 * (self.mb % p.columns), 4 * (self.mb // p.columns)
        p.slices[self.mb], p.kinds[self.mb] = 0, INTER
        p.coded += 1
        self.put_type(3)
        for _ in QUARTERS:
            self.out.ue("sub_mb_type", 3)
        indices = [self.put_index() for _ in QUARTERS]
        for (dx, dy), index in zip(QUARTERS, indices):
            for x, y, width, height in SUB_PARTS[3]:
                self.put_vector((self.x + dx + x, self.y + dy + y, width, height), index, (0, 0))
        self.out.ue("coded_block_pattern", 0)


class Steady(random.Random):
    """Chance that always says the same: the predicted vector is not taken."""

    def random(self):
        return 0.9


def parts_data(dear, active):
    out = Unit(3, SLICE)
    ways = {"number": 0, "is_p": True, "qp": 26, "usable": list(range(active)), "active": active}
    Chosen(Picture(dear.sps, dear.pps), out, Steady(), ways).put(dear.mbs)
    return "".join(it[4] for it in out.elements)


def parts(count, references):
    dear = Dear(references=references)
    yield dear.begun()
    for _ in range(references - 1):
        yield dear.skipped()
    data = parts_data(dear, references)
    for _ in range(count):
        dear.next()
        yield dear.slice(data)


def small_parts(size):
    return parts(12 * size, 1), COLUMNS * ROWS * (12 * size + 1)


def sixteen_references(size):
    return parts(12 * size, MOST_REFERENCES), COLUMNS * ROWS * (12 * size + MOST_REFERENCES)


def levels_block(rows):
    out = Unit(3, SLICE)
    SliceData(Picture(Sequence(1, 1), PictureSet()), out, random, {"qp": 0}).put_block(LONGEST_LEVELS[::-1], rows)
    return "".join(it[4] for it in out.elements)


def levels_stream(count):
    dear = Dear()
    yield dear.begun()
    front, block = ue(0) + ue(0) + "11" + ue(11) + "1", levels_block("nc8")  # no run, 16x16, no difference of vectors, pattern 15, no delta
    data = front + levels_block("nc0") + block * 15 + (front + block * 16) * (dear.mbs - 1)
    for _ in range(count):
        dear.next()
        yield dear.slice(data, qp=0)


def longest_levels(size):
    return levels_stream(4 * size), COLUMNS * ROWS * (4 * size + 1)


def pcm_stream(count):
    dear = Dear()
    yield dear.sets()
    samples = int.from_bytes(bytes(i % 251 + 1 for i in range(384)), "big")
    for _ in range(count):
        out = dear.head(idr=True)
        for _ in range(dear.mbs):
            out.ue("mb_type", 25)
            out.align()
            out.u("pcm_samples", 384 * 8, samples)
        dear.idr_id ^= 1
        yield out.bytes()


def pcm(size):
    return pcm_stream(4 * size), COLUMNS * ROWS * 4 * size


def slices_stream(count, columns=COLUMNS, rows=ROWS):
    dear = Dear(columns, rows)
    yield dear.begun()
    for _ in range(count):
        dear.next()
        for first in range(dear.mbs):
            yield dear.slice(ue(1), first=first)


def slice_each(size):
    return slices_stream(30 * size), COLUMNS * ROWS * (30 * size + 1)


def greatest_slices(size):
    return slices_stream(size, GREATEST_COLUMNS, GREATEST_ROWS), GREATEST_COLUMNS * GREATEST_ROWS * (size + 1)


def operations_stream(count):
    """Fifteen missing numbers before each picture, whose frames it unmarks one by one; then operations 4 and 6."""
    dear = Dear(1, 1, references=MOST_REFERENCES, gaps=True)
    yield dear.begun()
    forget = [value for i in range(MOST_REFERENCES - 1) for value in (1, i)]
    for _ in range(count):
        dear.next(MOST_REFERENCES)
        yield dear.slice(ue(0) + ue(5 + 3) + "111", operations=[*forget, 4, MOST_REFERENCES, 6, 0, 0])


def operations(size):
    return operations_stream(20000 * size), 20000 * size


def empty_stream(count):
    dear = Dear(1, 1)
    yield dear.begun()
    for _ in range(count):
        yield b"\0\0\1" + bytes([UNSPECIFIED]) * 1


def empty_units(size):
    return empty_stream(2000000 * size), 1


def sets_stream(count):
    dear = Dear(1, 1, count_type=1, delta_always_zero=True, cycle=tuple(1000000 + i for i in range(255)))
    yield dear.begun()
    for _ in range(count):
        yield dear.sets()
        dear.number = 0
        dear.idr_id ^= 1
        yield dear.slice(ue(3) + "111", idr=True)


def set_each(size):
    return sets_stream(3000 * size), 3000 * size + 1


def gaps_stream(count):
    dear = Dear(1, 1, references=MOST_REFERENCES, gaps=True)
    yield dear.begun()
    for _ in range(count):
        dear.next(FRAME_NUMBERS - 1)
        yield dear.slice(ue(0) + ue(5 + 3) + "111")


def widest_gaps(size):
    return gaps_stream(8000 * size), 8000 * size + 1


def greatest_stream(count):
    dear = Dear(GREATEST_COLUMNS, GREATEST_ROWS)
    yield dear.begun()
    for _ in range(count):
        yield dear.skipped()


def greatest_skipped(size):
    return greatest_stream(10 * size), GREATEST_COLUMNS * GREATEST_ROWS * (10 * size + 1)


def greatest_begun(size):
    """A few bytes that make the program take the memory of level 5.2, of so many frames: one macroblock, and the end."""
    dear = Dear(GREATEST_COLUMNS, GREATEST_ROWS)
    return iter([dear.sets(), dear.slice(ue(3) + "111", idr=True)]), 1


def long_unit(kind, length, pattern):
    """A unit of so many bytes after a picture, in pieces."""
    dear = Dear(1, 1)
    yield dear.begun()
    yield b"\0\0\1" + bytes([kind])
    for _ in range(length // PIECE):
        yield pattern * (PIECE // len(pattern))
    yield b"\x80"


def longest_passed(size):
    return long_unit(FILLER, (size << 27) - PIECE, b"\xff"), 1


def longest_slice(size):
    return long_unit(0x60 | SLICE, (size << 27) - PIECE, b"\xff"), 1


def longest_escaped(size):
    return long_unit(0x60 | SLICE, (size << 27) - PIECE, b"\0\0\3\1"), 1


# Of each the answer that it must have.
CASES = {
    "small_parts": (small_parts, "yes"),
    "sixteen_references": (sixteen_references, "yes"),
    "longest_levels": (longest_levels, "yes"),
    "pcm": (pcm, "yes"),
    "slice_each": (slice_each, "yes"),
    "greatest_slices": (greatest_slices, "yes"),
    "operations": (operations, "yes"),
    "empty_units": (empty_units, "yes"),
    "set_each": (set_each, "yes"),
    "widest_gaps": (widest_gaps, "yes"),
    "greatest_skipped": (greatest_skipped, "yes"),
    "greatest_begun": (greatest_begun, "no"),
    "longest_passed": (longest_passed, "yes"),
    "longest_slice": (longest_slice, "no"),
    "longest_escaped": (longest_escaped, "no"),
}
