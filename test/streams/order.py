"""The order in which a legal stream's frames are written, read anew from its bytes: counts (8.2.1), gaps (8.2.5.2), marking (8.2.5.3, 8.2.5.4)
and bumping (C.4.4, C.4.5). It knows nothing of `h264v`, and reads no slice data. A stream that is not legal may give anything."""
import dataclasses

from .bits import Bits, passed_picture_information

SLICE, IDR, SEQUENCE, PICTURE = 1, 5, 7, 8
# No header that this reads is longer, in bytes.
LONGEST_HEADER = 2048
# MaxDpbMbs by level_idc (table A-1)
MAX_DPB_MBS = {9: 396, 10: 396, 11: 900, 12: 2376, 13: 2376, 20: 2376, 21: 4752, 22: 8100, 30: 8100, 31: 18000, 32: 20480, 40: 32768, 41: 32768}
MAX_DPB_MBS |= {42: 34816, 50: 110400, 51: 184320, 52: 184320}
MOST_FRAMES = 16


def after_header(unit):
    """The bits of a unit after its header, without emulation prevention bytes (7.3.1)."""
    return Bits(unit[1:LONGEST_HEADER].replace(b"\0\0\3", b"\0\0"))


@dataclasses.dataclass
class Sequence:
    """What a sequence parameter set says of the order of output (7.3.2.1.1, E.1.1)."""

    number_bits: int = 0
    count_type: int = 0
    lsb_bits: int = 0
    no_deltas: int = 0
    non_ref_offset: int = 0
    bottom_offset: int = 0
    cycle: tuple = ()
    references: int = 0
    size: int = 0


def passed_hrd(bits):
    """Reads HRD parameters (E.1.2)."""
    schedules = bits.ue() + 1
    bits.u(8)
    for _ in range(schedules):
        bits.ue(), bits.ue(), bits.u(1)
    bits.u(20)


def buffering_in_vui(bits):
    """max_dec_frame_buffering of a VUI; None where it has none (E.1.1)."""
    passed_picture_information(bits)
    if bits.u(1):
        bits.u(65)
    nal = bits.u(1)
    if nal:
        passed_hrd(bits)
    vcl = bits.u(1)
    if vcl:
        passed_hrd(bits)
    if nal or vcl:
        bits.u(1)
    bits.u(1)
    if not bits.u(1):
        return None
    bits.u(1)
    for _ in range(5):
        bits.ue()
    return bits.ue()


def sequence_of(bits):
    """Reads a sequence parameter set: its id, and what it says."""
    bits.u(8)
    flags, level = bits.u(8), bits.u(8)
    number, s = bits.ue(), Sequence()
    s.number_bits = bits.ue() + 4
    s.count_type = bits.ue()
    if s.count_type == 0:
        s.lsb_bits = bits.ue() + 4
    elif s.count_type == 1:
        s.no_deltas, s.non_ref_offset, s.bottom_offset = bits.u(1), bits.se(), bits.se()
        s.cycle = tuple(bits.se() for _ in range(bits.ue()))
    s.references = bits.ue()
    bits.u(1)
    macroblocks = (bits.ue() + 1) * (bits.ue() + 1)
    bits.u(2)
    if bits.u(1):
        bits.ue(), bits.ue(), bits.ue(), bits.ue()
    is_1b = level == 11 and flags & 0x10
    buffering = buffering_in_vui(bits) if bits.u(1) else None
    level_frames = min(MAX_DPB_MBS[10 if is_1b else level] // macroblocks, MOST_FRAMES)
    s.size = max(1, level_frames if buffering is None else buffering)
    return number, s


@dataclasses.dataclass
class Slice:
    """What a slice header says of the order of output (7.3.3)."""

    first_mb: int
    pps: int
    frame_num: int
    idr: bool
    reference: int
    idr_pic_id: int = 0
    lsb: int = 0
    delta_bottom: int = 0
    deltas: tuple = (0, 0)
    no_output: int = 0
    long_term: int = 0
    operations: tuple = ()

    def begins_after(self, other):
        """Whether it begins a picture (7.4.1.2.4)."""
        def names(it):
            return it.frame_num, it.pps, it.idr, it.lsb, it.delta_bottom, it.deltas, it.idr and it.idr_pic_id

        return other is None or names(self) != names(other) or (self.reference == 0) != (other.reference == 0)


def passed_modification(bits):
    """Reads ref_pic_list_modification() (7.3.3.1)."""
    if bits.u(1):
        while bits.ue() != 3:
            bits.ue()


def passed_weights(bits, active):
    """Reads pred_weight_table() of a P slice in 4:2:0 (7.3.3.2)."""
    bits.ue(), bits.ue()
    for _ in range(active):
        if bits.u(1):
            bits.se(), bits.se()
        if bits.u(1):
            for _ in range(4):
                bits.se()


def operations_of(bits):
    """The operations of dec_ref_pic_marking() (7.3.3.3), each with its values."""
    found = []
    if bits.u(1):
        while operation := bits.ue():
            values = {3: 2, 5: 0}.get(operation, 1)
            found.append((operation, *(bits.ue() for _ in range(values))))
    return tuple(found)


def slice_of(unit, pictures, sequences):
    """Reads a slice header up to the marking, and its sequence parameter set."""
    bits, header = after_header(unit), unit[0]
    kind, reference = header & 31, header >> 5 & 3
    first, slice_type, pps = bits.ue(), bits.ue() % 5, bits.ue()
    sequence_id, bottom_present, active, weighted = pictures[pps]
    s = sequences[sequence_id]
    it = Slice(first, pps, bits.u(s.number_bits), kind == IDR, reference)
    if it.idr:
        it.idr_pic_id = bits.ue()
    if s.count_type == 0:
        it.lsb = bits.u(s.lsb_bits)
        it.delta_bottom = bits.se() if bottom_present else 0
    if s.count_type == 1 and not s.no_deltas:
        first_delta = bits.se()
        it.deltas = (first_delta, bits.se() if bottom_present else 0)
    if slice_type == 0:
        if bits.u(1):
            active = bits.ue() + 1
        passed_modification(bits)
        if weighted:
            passed_weights(bits, active)
    if reference and it.idr:
        it.no_output, it.long_term = bits.u(1), bits.u(1)
    elif reference:
        it.operations = operations_of(bits)
    return it, s


@dataclasses.dataclass
class Frame:
    """A frame in the picture buffer."""

    frame_num: int
    count: int = 0
    order: int = 0
    short: bool = False
    long_index: int | None = None
    waits: bool = False

    def is_reference(self):
        return self.short or self.long_index is not None


class Decoder:
    """The picture buffer and the counts of the pictures so far; `written` are the counts of the frames that were written."""

    def __init__(self):
        self.frames, self.written, self.decoded, self.long_limit = [], [], 0, 0
        self.msb = self.lsb = self.offset = self.number = self.reference_number = 0

    def frame_offset(self, frame_num, s):
        return self.offset + (1 << s.number_bits if self.number > frame_num else 0)

    def count_of(self, it, s):
        """TopFieldOrderCnt and BottomFieldOrderCnt (8.2.1.1 to 8.2.1.3)."""
        if it.idr:
            self.msb = self.lsb = self.offset = self.number = 0
        if s.count_type == 0:
            most, msb = 1 << s.lsb_bits, self.msb
            if it.lsb < self.lsb and self.lsb - it.lsb >= most // 2:
                msb += most
            elif it.lsb > self.lsb and it.lsb - self.lsb > most // 2:
                msb -= most
            if it.reference:
                self.msb, self.lsb = msb, it.lsb
            return msb + it.lsb, msb + it.lsb + it.delta_bottom
        self.offset, self.number = self.frame_offset(it.frame_num, s), it.frame_num
        number = self.offset + it.frame_num
        if s.count_type == 2:
            top = 0 if it.idr else 2 * number - (not it.reference)
            return top, top
        number = number if s.cycle else 0
        number -= number > 0 and not it.reference
        expected = 0 if it.reference else s.non_ref_offset
        if number > 0:
            whole, rest = divmod(number - 1, len(s.cycle))
            expected += whole * sum(s.cycle) + sum(s.cycle[: rest + 1])
        top = expected + it.deltas[0]
        return top, top + s.bottom_offset + it.deltas[1]

    def write(self, frame):
        self.written.append(frame.count)
        frame.waits = False

    def drop(self):
        self.frames = [it for it in self.frames if it.waits or it.is_reference()]

    def next_waiting(self):
        return min((it for it in self.frames if it.waits), key=lambda it: (it.count, it.order), default=None)

    def flush(self):
        while (frame := self.next_waiting()) is not None:
            self.write(frame)
        self.frames = []

    def store(self, frame, size):
        """Puts a frame into the buffer, after bumping (C.4.5.1 to C.4.5.3)."""
        self.drop()
        while len(self.frames) >= size:
            first = self.next_waiting()
            if frame.waits and not frame.is_reference() and (first is None or frame.count < first.count):
                self.write(frame)
                return
            if first is None:
                return
            self.write(first)
            self.drop()
        self.frames.append(frame)

    def slide(self, s, frame_num):
        """The sliding window (8.2.5.3)."""
        shorts = [it for it in self.frames if it.short]
        if sum(it.is_reference() for it in self.frames) >= max(s.references, 1) and shorts:
            oldest = min(shorts, key=lambda it: it.frame_num - (1 << s.number_bits if it.frame_num > frame_num else 0))
            oldest.short = False

    def fill_gap(self, it, s):
        """Frames of missing numbers (8.2.5.2)."""
        most = 1 << s.number_bits
        if it.idr or it.frame_num in (self.reference_number, (self.reference_number + 1) % most):
            return
        number = (self.reference_number + 1) % most
        while number != it.frame_num:
            self.slide(s, number)
            if s.count_type:
                self.offset, self.number = self.frame_offset(number, s), number
            self.store(Frame(number, short=True), s.size)
            self.reference_number = number
            number = (number + 1) % most

    def unmark_index(self, index):
        for it in self.frames:
            if it.long_index == index:
                it.long_index = None

    def mark(self, it, s, frame):
        """The marking of a reference picture by operations (8.2.5.4); whether operation 5 was among them."""
        most, resets = 1 << s.number_bits, False

        def named(difference):
            number = (it.frame_num - difference - 1) % most
            return next(f for f in self.frames if f.short and f.frame_num == number)

        for operation, *values in it.operations:
            if operation == 1:
                named(values[0]).short = False
            elif operation == 2:
                self.unmark_index(values[0])
            elif operation == 3:
                held = named(values[0])
                self.unmark_index(values[1])
                held.short, held.long_index = False, values[1]
            elif operation == 4:
                for f in self.frames:
                    if f.long_index is not None and f.long_index >= values[0]:
                        f.long_index = None
            elif operation == 5:
                resets = True
                for f in self.frames:
                    f.short, f.long_index = False, None
            elif operation == 6:
                self.unmark_index(values[0])
                frame.long_index = values[0]
        frame.short = frame.long_index is None
        return resets

    def decode(self, it, s):
        """A picture whose first slice this is."""
        self.fill_gap(it, s)
        top, bottom = self.count_of(it, s)
        frame = Frame(it.frame_num, min(top, bottom), self.decoded, waits=True)
        self.decoded += 1
        resets = False
        if it.idr:
            if it.no_output:
                self.frames = []
            self.flush()
            frame.short, frame.long_index = not it.long_term, 0 if it.long_term else None
        elif it.reference and it.operations:
            resets = self.mark(it, s, frame)
        elif it.reference:
            self.slide(s, it.frame_num)
            frame.short = True
        if resets:
            self.flush()
            least = frame.count
            frame.count, frame.frame_num = 0, 0
            self.msb, self.lsb, self.offset, self.number = 0, top - least, 0, 0
        self.store(frame, s.size)
        if it.reference:
            self.reference_number = frame.frame_num


def counts_written(stream):
    """The counts of a legal stream's frames, in the order in which they are written."""
    pictures, sequences, decoder, last = {}, {}, Decoder(), None
    for unit in stream.split(b"\0\0\1")[1:]:
        unit = unit.rstrip(b"\0")
        kind = unit[0] & 31
        if kind == SEQUENCE:
            number, found = sequence_of(after_header(unit))
            sequences[number] = found
        elif kind == PICTURE:
            bits = after_header(unit)
            number, sequence = bits.ue(), bits.ue()
            bits.u(1)
            bottom, _, active = bits.u(1), bits.ue(), bits.ue() + 1
            bits.ue()
            pictures[number] = (sequence, bottom, active, bits.u(1))
        elif kind in (SLICE, IDR):
            it, s = slice_of(unit, pictures, sequences)
            if it.begins_after(last):
                decoder.decode(it, s)
            last = it
        if 6 <= kind <= 11:
            last = None
    decoder.flush()
    return decoder.written
