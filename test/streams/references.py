"""Reference frames, order counts and the picture buffer (8.2.1, 8.2.4, 8.2.5, C.4.5), as far as a writer of legal streams has to know them."""
import dataclasses

OPERATIONS = 6


@dataclasses.dataclass
class Held:
    """A frame in the picture buffer."""

    frame_num: int
    count: int
    short: bool = True
    long_index: int | None = None
    exists: bool = True  # no frame of a gap
    waits: bool = False  # for output

    def is_reference(self):
        return self.short or self.long_index is not None


class Counts:
    """Picture order counts: the state of the three types, of the pictures so far."""

    def __init__(self, sps):
        self.sps = sps
        self.msb = self.lsb = self.offset = self.number = 0

    def of_type_0(self, lsb, idr):
        """TopFieldOrderCnt and its PicOrderCntMsb (8.2.1.1)."""
        most = 1 << self.sps.lsb_bits
        before_msb, before = (0, 0) if idr else (self.msb, self.lsb)
        if lsb < before and before - lsb >= most // 2:
            return before_msb + most + lsb, before_msb + most
        if lsb > before and lsb - before > most // 2:
            return before_msb - most + lsb, before_msb - most
        return before_msb + lsb, before_msb

    def frame_offset(self, frame_num, idr):
        """FrameNumOffset (8.2.1.2)."""
        if idr:
            return 0
        return self.offset + (1 << self.sps.frame_num_bits if self.number > frame_num else 0)

    def expected(self, frame_num, idr, is_reference):
        """The count of type 1 before its deltas (8.2.1.2)."""
        cycle, base = self.sps.cycle, 0
        number = self.frame_offset(frame_num, idr) + frame_num if cycle else 0
        if not is_reference and number > 0:
            number -= 1
        if number > 0:
            whole, rest = divmod(number - 1, len(cycle))
            base = whole * sum(cycle) + sum(cycle[: rest + 1])
        return base if is_reference else base + self.sps.non_ref_offset

    def of_type_2(self, frame_num, idr, is_reference):
        if idr:
            return 0
        return 2 * (self.frame_offset(frame_num, idr) + frame_num) - (not is_reference)

    def passed(self, frame_num, idr):
        """A picture or a frame of a gap has had this frame_num."""
        self.offset, self.number = self.frame_offset(frame_num, idr), frame_num

    def restarted(self, lsb):
        """Operation 5 was in the picture before, whose top field has this count now."""
        self.msb, self.lsb, self.offset, self.number = 0, lsb, 0, 0


class Buffer:
    """The picture buffer: what is held, and which counts were written."""

    def __init__(self, sps):
        self.sps, self.frames = sps, []
        self.size = max(1, sps.dpb_frames())
        self.written, self.long_limit, self.rising = None, 0, True

    def copy(self):
        other = Buffer(self.sps)
        other.frames = [dataclasses.replace(it) for it in self.frames]
        other.written, other.long_limit = self.written, self.long_limit
        return other

    def shorts(self):
        return [it for it in self.frames if it.short]

    def longs(self):
        return [it for it in self.frames if it.long_index is not None]

    def write(self, frame):
        """Writes a frame, and notes whether counts rise."""
        self.rising = self.rising and (self.written is None or frame.count > self.written)
        self.written = frame.count
        frame.waits = False

    def is_in_order(self):
        """Whether counts rise in what was written, and in what waits after it."""
        return self.rising and all(self.written is None or it.count > self.written for it in self.frames if it.waits)

    def drop_idle(self):
        self.frames = [it for it in self.frames if it.is_reference() or it.waits]

    def flush(self):
        """All that waits is written, and nothing is held (an IDR picture, or operation 5)."""
        for frame in sorted((it for it in self.frames if it.waits), key=lambda it: it.count):
            self.write(frame)
        self.frames, self.written = [], None

    def make_room(self):
        """Bumping (C.4.5.3)."""
        self.drop_idle()
        while len(self.frames) >= self.size:
            waiting = [it for it in self.frames if it.waits]
            if not waiting:
                return False
            self.write(min(waiting, key=lambda it: it.count))
            self.drop_idle()
        return True

    def store(self, frame):
        """The picture that was decoded takes its place, or is written at once (C.4.5.1, C.4.5.2). Whether there was a place."""
        frame.waits = frame.exists
        self.drop_idle()
        if not frame.is_reference():
            waiting = [it.count for it in self.frames if it.waits]
            while len(self.frames) >= self.size and waiting and min(waiting) < frame.count:
                self.write(min((it for it in self.frames if it.waits), key=lambda it: it.count))
                self.drop_idle()
                waiting = [it.count for it in self.frames if it.waits]
            if len(self.frames) >= self.size:
                self.write(frame)
                return True
        elif not self.make_room():
            return False
        self.frames.append(frame)
        return True

    def slide(self, frame_num):
        """The sliding window (8.2.5.3), before a picture of this frame_num is held."""
        shorts = self.shorts()
        if len(shorts) + len(self.longs()) < max(1, self.sps.references):
            return True
        if not shorts:
            return False
        min(shorts, key=lambda it: self.number_of(it, frame_num)).short = False
        return True

    def number_of(self, frame, frame_num):
        """FrameNumWrap, which is PicNum for frames (8.2.4.1)."""
        return frame.frame_num - (1 << self.sps.frame_num_bits if frame.frame_num > frame_num else 0)

    def initial_list(self, frame_num):
        """The initial list of a P slice (8.2.4.2.1)."""
        shorts = sorted(self.shorts(), key=lambda it: -self.number_of(it, frame_num))
        return shorts + sorted(self.longs(), key=lambda it: it.long_index)
