"""Small streams that are legal by construction, each from its seed: every tool of the profile by chance."""
import random

from .macroblocks import Picture, SliceData
from .references import Buffer, Counts, Held
from .sets import picture_set_by_chance, sequence_by_chance
from .words import Unit

SLICE, IDR, SEI, DELIMITER, END_OF_SEQUENCE, FILLER = 1, 5, 6, 9, 10, 12
P_TYPE, I_TYPE, ALL_SLICES = 0, 2, 5
TRIES = 40


class Marking:
    """The marking of a reference picture (7.3.3.3), and what it does to the buffer."""

    def __init__(self, stream, frame):
        self.s, self.chance, self.frame = stream, stream.chance, frame
        self.operations, self.reset = [], False

    def held(self):
        return len({id(it) for it in self.s.buffer.shorts() + self.s.buffer.longs()})

    def unmark_index(self, index):
        for it in self.s.buffer.longs():
            if it.long_index == index:
                it.long_index = None

    def difference(self, frame):
        return self.frame.frame_num - self.s.buffer.number_of(frame, self.frame.frame_num) - 1

    def forget_short(self):
        frame = self.chance.choice(self.s.buffer.shorts())
        self.operations.append((1, self.difference(frame)))
        frame.short = False

    def forget_long(self):
        frame = self.chance.choice(self.s.buffer.longs())
        self.operations.append((2, frame.long_index))
        frame.long_index = None

    def keep_long(self):
        frame = self.chance.choice([it for it in self.s.buffer.shorts() if it.exists])
        index = self.chance.randrange(self.s.buffer.long_limit)
        self.operations.append((3, self.difference(frame), index))
        self.unmark_index(index)
        frame.short, frame.long_index = False, index

    def limit(self):
        self.s.buffer.long_limit = self.chance.randint(0, self.s.sps.references)
        self.operations.append((4, self.s.buffer.long_limit))
        for it in self.s.buffer.longs():
            if it.long_index >= self.s.buffer.long_limit:
                it.long_index = None

    def keep_this(self):
        index = self.chance.randrange(self.s.buffer.long_limit)
        self.operations.append((6, index))
        self.unmark_index(index)
        self.frame.short, self.frame.long_index = False, index

    def forget_all(self):
        self.operations.append((5,))
        self.reset, self.s.buffer.long_limit = True, 0
        self.s.buffer.flush()

    def may(self):
        """The operations that can be met now."""
        buffer, used = self.s.buffer, {it[0] for it in self.operations}
        ways = [self.forget_short] if buffer.shorts() else []
        ways += [self.forget_long] if buffer.longs() else []
        ways += [self.limit] if 4 not in used else []
        if buffer.long_limit and any(it.exists for it in buffer.shorts()):
            ways += [self.keep_long] * 2
        return ways

    def by_chance(self):
        """Operations by chance, after which there is a place for the picture."""
        chance, buffer = self.chance, self.s.buffer
        if chance.random() < 0.12:
            self.forget_all()
            return
        for _ in range(chance.choice([0, 1, 1, 2, 3, 5])):
            ways = self.may()
            if ways:
                chance.choice(ways)()
        if buffer.long_limit and chance.random() < 0.4:
            self.keep_this()
        while self.held() >= max(1, self.s.sps.references):
            (self.forget_short if buffer.shorts() else self.forget_long)()

    def put(self, out):
        names = {1: ["difference_of_pic_nums_minus1"], 2: ["long_term_pic_num"], 3: ["difference_of_pic_nums_minus1", "long_term_frame_idx"]}
        names |= {4: ["max_long_term_frame_idx_plus1"], 5: [], 6: ["long_term_frame_idx"]}
        out.u("adaptive_ref_pic_marking_mode_flag", 1, bool(self.operations))
        for operation, *values in self.operations:
            out.ue("memory_management_control_operation", operation)
            for name, value in zip(names[operation], values):
                out.ue(name, value)
        if self.operations:
            out.ue("memory_management_control_operation", 0)


class Stream:
    """A stream in the making: its units, and the state that a decoder would have."""

    def __init__(self, seed, main_ip=False):
        self.chance = random.Random(seed)
        self.sps = sequence_by_chance(self.chance, main_ip)
        ids = self.chance.choice([(0,), (0, 1), (3, 255)])
        self.sets = [picture_set_by_chance(self.chance, self.sps, i, main_ip and self.chance.random() < 0.8) for i in ids]
        self.buffer, self.counts = Buffer(self.sps), Counts(self.sps)
        self.units, self.used, self.tags = [self.sps.unit(), *(it.unit() for it in self.sets)], set(), set()
        self.last_number = self.idr_id = 0
        self.after_other = False  # the picture before was no reference
        self.pictures, self.last_sign = 0, None
        self.below = False  # operation 5 was there since the last IDR picture

    # What stands between pictures

    def put_others(self, idr):
        """Units that are no slices, before a picture."""
        chance = self.chance
        if idr and self.pictures and chance.random() < 0.2:
            self.units.append(Unit(0, END_OF_SEQUENCE))
        if chance.random() < 0.2:
            out = Unit(0, DELIMITER)
            out.u("primary_pic_type", 3, 7)
            self.units.insert(len(self.units) if self.pictures else 0, out)
        if chance.random() < 0.1:
            self.units += [self.sps.unit()] if not self.sps.vui else []
            self.units += [it.unit() for it in self.sets]
        if chance.random() < 0.1:
            out = Unit(0, SEI)
            for value in [5, 18, *range(18)]:
                out.u("sei_byte", 8, value)
            self.units.append(out)

    # The picture's numbers

    def gap(self):
        """How many numbers are missing before the next picture."""
        if not self.sps.gaps or self.chance.random() < 0.7:
            return 0
        most = 1 << self.sps.frame_num_bits
        return min(most - 2, self.chance.choice([1, 1, 2, self.sps.references, self.chance.randint(1, self.sps.references + 2)]))

    def fill(self, count):
        """Frames of a gap (8.2.5.2); whether each can be held."""
        most = 1 << self.sps.frame_num_bits
        for _ in range(count):
            number = (self.last_number + 1) % most
            if any(it.frame_num == number for it in self.buffer.shorts()) or not self.buffer.slide(number):
                return False
            if not self.buffer.store(Held(number, 0, exists=False)):
                return False
            self.counts.passed(number, False)
            self.last_number = number
        if count > self.sps.references:
            self.tags.add("wide gap")
        if count and self.after_other:
            self.tags.add("gap after no reference")
        if count:
            self.tags.add("gap")
        return True

    def count_of(self, number, idr, is_reference, pps):
        """The elements of a count by chance, TopFieldOrderCnt and PicOrderCntMsb, and the frame's count (8.2.1)."""
        chance, sps, counts = self.chance, self.sps, self.counts
        if sps.count_type == 2:
            count = counts.of_type_2(number, idr, is_reference)
            return [], count, 0, count
        bottom = chance.choice([0, 0, 1, -1, 3]) if pps.bottom_counts else 0
        bottom = abs(bottom) if idr else bottom
        if sps.count_type == 0:
            step = chance.choice([2, 2, 4, 6, 1, -1, -2, -4, 7])
            lsb = 0 if idr else (max(self.used, default=0) + step) % (1 << sps.lsb_bits)
            top, msb = counts.of_type_0(lsb, idr)
            elements = [("pic_order_cnt_lsb", lsb)] + [("delta_pic_order_cnt_bottom", bottom)] * pps.bottom_counts
            return elements, top, msb, min(top, top + bottom)
        expected, between = counts.expected(number, idr, is_reference), sps.bottom_offset
        if sps.delta_always_zero:
            return [], expected, 0, min(expected, expected + between)
        first = max(0, -between - bottom) if idr else chance.choice([0, 0, 1, 2, -1, chance.randint(-4, 12)])
        elements = [("delta_pic_order_cnt", first)] + [("delta_pic_order_cnt", bottom)] * pps.bottom_counts
        return elements, expected + first, 0, min(expected + first, expected + first + between + bottom)

    def is_good(self, head):
        """Whether a picture of this count is written in the order of counts."""
        count, number = head["value"], head["number"]
        if count in self.used or not -(2**31) <= count < 2**31:
            return False
        trial = self.buffer.copy()
        trial.slide(number)
        frame = Held(number, count, short=head["ref_idc"] > 0)
        return trial.store(frame) and trial.rising and (trial.written is None or trial.written <= count)

    # Slices

    def modified(self, out, number, active):
        """Modifications of the initial list by chance (8.2.4.3), and the list."""
        chance, most = self.chance, 1 << self.sps.frame_num_bits
        places = (self.buffer.initial_list(number) + [None] * active)[:active]
        named = [it for it in self.buffer.shorts() + self.buffer.longs() if it.exists]
        count = chance.randint(1, active) if named and chance.random() < 0.4 else 0
        out.u("ref_pic_list_modification_flag_l0", 1, count > 0)
        before = number
        for i in range(count):
            frame = chance.choice(named)
            if frame.long_index is not None:
                out.ue("modification_of_pic_nums_idc", 2)
                out.ue("long_term_pic_num", frame.long_index)
            else:
                way, wanted = chance.randrange(2), self.buffer.number_of(frame, number) % most
                out.ue("modification_of_pic_nums_idc", way)
                out.ue("abs_diff_pic_num_minus1", ((wanted - before if way else before - wanted) - 1) % most)
                before = wanted
            places = places[:i] + [frame] + [it for it in places[i:] if it is not frame]
            places = (places + [None])[:active]
        if count:
            out.ue("modification_of_pic_nums_idc", 3)
        return places

    def put_weights(self, out, active):
        """Explicit weights (7.3.3.2)."""
        chance = self.chance
        out.ue("luma_log2_weight_denom", chance.randrange(8))
        out.ue("chroma_log2_weight_denom", chance.randrange(8))
        for _ in range(active):
            for plane, values in (("luma", 1), ("chroma", 2)):
                given = chance.random() < 0.5
                out.u(f"{plane}_weight_l0_flag", 1, given)
                for _ in range(2 * values if given else 0):
                    out.se(f"{plane}_weight_or_offset", chance.choice([chance.randint(-128, 127), chance.randint(0, 64)]))

    def put_list(self, out, pps, number):
        """What a P slice says of its list: the places that may be referred to, and how many there are."""
        chance = self.chance
        active = chance.choice([pps.default_active, min(16, chance.randint(1, self.sps.references + 1))])
        out.u("num_ref_idx_active_override_flag", 1, active != pps.default_active)
        if active != pps.default_active:
            out.ue("num_ref_idx_l0_active_minus1", active - 1)
        places = self.modified(out, number, active)
        if pps.weighted:
            self.put_weights(out, active)
        return [i for i, it in enumerate(places) if it is not None and it.exists], active

    def put_filter(self, out, pps):
        if not pps.filter_control:
            return
        off = self.chance.choice([0, 0, 1, 2])
        out.ue("disable_deblocking_filter_idc", off)
        if off != 1:
            for name in ("slice_alpha_c0_offset_div2", "slice_beta_offset_div2"):
                out.se(name, self.chance.randint(-6, 6))

    def slice_unit(self, head, picture, macroblocks):
        """A slice of so many macroblocks."""
        chance, pps = self.chance, head["pps"]
        out = Unit(head["ref_idc"], IDR if head["idr"] else SLICE)
        is_p = not head["idr"] and self.sps.references > 0 and chance.random() < 0.85
        out.ue("first_mb_in_slice", picture.coded)
        out.ue("slice_type", P_TYPE if is_p else chance.choice([I_TYPE, I_TYPE + ALL_SLICES]) if head["alone"] else I_TYPE)
        out.ue("pic_parameter_set_id", pps.set_id)
        out.u("frame_num", self.sps.frame_num_bits, head["number"])
        if head["idr"]:
            out.ue("idr_pic_id", self.idr_id)
        for name, value in head["count"]:
            if name == "pic_order_cnt_lsb":
                out.u(name, self.sps.lsb_bits, value)
            else:
                out.se(name, value)
        usable, active = self.put_list(out, pps, head["number"]) if is_p else ([], 0)
        longs = self.buffer.longs()
        if is_p and sum(it.long_index >= len(longs) for it in longs) > 1:
            self.tags.add("long-term indices above their number")
        self.put_marking(out, head)
        qp = chance.choice([pps.qp, chance.randint(0, 51), min(51, pps.qp + 4)])
        out.se("slice_qp_delta", qp - pps.qp)
        self.put_filter(out, pps)
        ways = {"number": picture.coded, "is_p": is_p, "qp": qp, "usable": usable, "active": active}
        SliceData(picture, out, chance, ways).put(macroblocks)
        return out

    def put_marking(self, out, head):
        if head["idr"]:
            out.u("no_output_of_prior_pics_flag", 1, 0)
            out.u("long_term_reference_flag", 1, head["frame"].long_index is not None)
        elif head["ref_idc"]:
            head["marking"].put(out)

    # Pictures

    def begun(self):
        """A picture's kind and numbers: the head of its slices."""
        chance = self.chance
        most, idr = 1 << self.sps.frame_num_bits, self.pictures == 0 or chance.random() < 0.1
        missing = 0 if idr else self.gap()
        for _ in range(TRIES):
            is_reference = idr or chance.random() < 0.7 or self.sps.count_type == 2 and self.after_other
            number = 0 if idr else (self.last_number + 1 + missing) % most
            pps = chance.choice(self.sets)
            if not idr and (any(it.frame_num == number for it in self.buffer.shorts()) or missing and self.copy_fails(missing)):
                missing, idr = 0, True
                continue
            head = self.head(idr, number, is_reference, pps, missing)
            if self.sign(head) == self.last_sign:
                continue
            if idr or self.with_filled(missing, lambda head=head: self.is_good(head)):
                return head
        return self.head(True, 0, True, chance.choice(self.sets), 0)

    def head(self, idr, number, is_reference, pps, missing):
        """What the slices of a picture say of it."""
        elements, top, msb, value = self.count_of(number, idr, is_reference, pps)
        ref_idc = self.chance.randint(1, 3) if is_reference else 0
        return {"idr": idr, "pps": pps, "number": number, "ref_idc": ref_idc, "count": elements, "top": top, "msb": msb, "value": value, "missing": missing}

    def sign(self, head):
        """What tells a picture from the one before (7.4.1.2.4)."""
        return head["idr"] and self.idr_id, head["pps"].set_id, head["number"], head["ref_idc"] > 0, head["count"]

    def with_filled(self, missing, ask):
        """What `ask` says once a gap is filled, of a buffer that is then as before."""
        kept = self.buffer, self.last_number, set(self.tags), (self.counts.offset, self.counts.number)
        self.buffer = kept[0].copy()
        filled = self.fill(missing)
        answer = ask() if filled and self.buffer.rising else False
        self.buffer, self.last_number, self.tags = kept[:3]
        self.counts.offset, self.counts.number = kept[3]
        return answer

    def copy_fails(self, missing):
        return not self.with_filled(missing, lambda: True)

    def marked(self, head):
        """Marks the picture before its slices are written, so that they can say it; the lists of its slices come of the buffer before."""
        frame, before = Held(head["number"], head["value"], short=head["ref_idc"] > 0), self.buffer.copy()
        head["frame"], head["marking"] = frame, Marking(self, frame)
        if head["idr"]:
            self.buffer.flush()
            self.buffer.long_limit = 0
            if self.sps.references > 0 and self.chance.random() < 0.3:
                frame.short, frame.long_index, self.buffer.long_limit = False, 0, 1
        elif head["ref_idc"]:
            if self.chance.random() < 0.5 or not self.buffer.slide(head["number"]):
                head["marking"].by_chance()
                if not head["marking"].operations:
                    self.buffer.slide(head["number"])
        return before

    def kept(self, head):
        """The state after the picture."""
        frame, idr = head["frame"], head["idr"]
        self.counts.passed(head["number"], idr)
        if head["ref_idc"]:
            self.last_number = head["number"]
            if self.sps.count_type == 0:
                self.counts.msb, self.counts.lsb = head["msb"], dict(head["count"])["pic_order_cnt_lsb"]
        if idr:
            self.used, self.below = set(), False
        if head["marking"].reset:
            self.counts.restarted(head["top"] - head["value"])
            self.last_number, frame.frame_num, frame.count, self.used = 0, 0, 0, set()
            self.tags.add("operation 5")
            self.below = True
        if self.below and frame.count < 0:
            self.tags.add("count below that of operation 5")
        self.used.add(frame.count)
        self.after_other = not head["ref_idc"]
        return self.buffer.store(frame) and self.buffer.is_in_order()

    def put_picture(self):
        """One picture; whether the stream is still legal."""
        head = self.begun()
        self.fill(head["missing"])
        if head["idr"]:
            self.idr_id = (self.idr_id + 1) % 65536
        self.last_sign = self.sign(head)
        self.put_others(head["idr"])
        before = self.marked(head)
        after, self.buffer = self.buffer, before
        picture, count = Picture(self.sps, head["pps"]), self.sps.width * self.sps.height
        cuts = sorted(self.chance.sample(range(1, count), min(count - 1, self.chance.choice([0, 0, 1, 3])))) + [count]
        head["alone"] = len(cuts) == 1
        for cut in cuts:
            self.units.append(self.slice_unit(head, picture, cut - picture.coded))
        self.buffer = after
        self.pictures += 1
        return self.kept(head)


def stream(seed, main_ip=False):
    """The units of a legal stream, and what is special in it."""
    made = Stream(seed, main_ip)
    for _ in range(made.chance.randint(1, 9)):
        length = len(made.units)
        if not made.put_picture():
            del made.units[length:]
            break
    return made.units, made.tags
