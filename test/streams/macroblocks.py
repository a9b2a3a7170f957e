"""Slice data (7.3.4, 7.3.5): macroblocks by chance, each legal where it stands.

Blocks of 4x4 samples have coordinates in the picture, in units of four samples. What a neighbour says is asked by such a coordinate."""
from .words import levels, pattern_numbers

NOT_CODED, I4X4, I16X16, PCM, INTER = range(5)
PCM_TOTAL = 16
DC_MODE = 2
# The blocks of a macroblock in decoding order, as columns and rows (6.4.3).
BLOCKS = [(0, 0), (1, 0), (0, 1), (1, 1), (2, 0), (3, 0), (2, 1), (3, 1), (0, 2), (1, 2), (0, 3), (1, 3), (2, 2), (3, 2), (2, 3), (3, 3)]
# The samples that a mode of Intra 4x4 needs: of the left block (A), the upper one (B), the one between (D).
NEEDS_4X4 = ["B", "A", "", "B", "ABD", "ABD", "ABD", "B", "A"]
NEEDS_16X16 = ["B", "A", "", "ABD"]
NEEDS_CHROMA = ["", "A", "B", "ABD"]
# The parts of each sub_mb_type: column, row, width and height in a block of 8x8.
SUB_PARTS = [[(0, 0, 2, 2)], [(0, 0, 2, 1), (0, 1, 2, 1)], [(0, 0, 1, 2), (1, 0, 1, 2)], [(0, 0, 1, 1), (1, 0, 1, 1), (0, 1, 1, 1), (1, 1, 1, 1)]]
PARTS = [[(0, 0, 4, 4)], [(0, 0, 4, 2), (0, 2, 4, 2)], [(0, 0, 2, 4), (2, 0, 2, 4)]]
QUARTERS = [(0, 0), (2, 0), (0, 2), (2, 2)]
GREATEST_NORM = 29  # of normAdjust (8.5.9)
GREATEST_VALUE = 2**15 - 33  # with the 32 that rounds a sample (8.5.12.2)
ACROSS = 8191
CHROMA_QP = [29, 30, 31, 32, 32, 33, 34, 34, 35, 35, 36, 36, 37, 37, 37, 38, 38, 38, 39, 39, 39, 39]  # from qPI 30 on (Table 8-15)


def chroma_qp(qp, offset):
    index = max(0, min(51, qp + offset))
    return index if index < 30 else CHROMA_QP[index - 30]


def budget(qp):
    """The greatest sum of a block's levels by which no value of its transform can leave 16 bits."""
    return GREATEST_VALUE // (GREATEST_NORM << qp // 6)


class Picture:
    """What is kept of the macroblocks of a picture so far."""

    def __init__(self, sps, pps):
        self.sps, self.pps = sps, pps
        self.columns, self.rows = sps.width, sps.height
        count = self.columns * self.rows
        self.kinds = [NOT_CODED] * count
        self.slices = [-1] * count
        self.totals = [{}, {}, {}]  # total_coeff of the blocks of Y, Cb and Cr
        self.modes, self.motion = {}, {}  # Intra4x4PredMode; reference index and vector
        self.coded = 0

    def mb_at(self, x, y, per=4):
        """The address of the macroblock with this block, or None outside the picture."""
        column, row = x // per, y // per
        return row * self.columns + column if 0 <= column < self.columns and 0 <= row < self.rows else None

    def available(self, address, x, y, per=4):
        """The macroblock of this block if it is available to one of this address (6.4.8)."""
        other = self.mb_at(x, y, per)
        if other is None or other > address or self.slices[other] != self.slices[address]:
            return None
        return other


class SliceData:
    """The writer of one slice's data."""

    def __init__(self, picture, out, chance, ways):
        """`ways` has the slice's own: its number, whether it is P, its qp, and the places of its list that may be referred to and how many there are."""
        self.p, self.out, self.chance, self.ways = picture, out, chance, ways
        self.qp, self.run = ways["qp"], 0
        self.greatest_down = 4 * picture_limit(picture.sps) - 1

    # What neighbours say

    def total_near(self, plane, x, y, per):
        """nC (9.2.1)."""
        near = []
        for dx, dy in ((-1, 0), (0, -1)):
            mb = self.p.available(self.mb, x + dx, y + dy, per)
            if mb is not None:
                near.append(PCM_TOTAL if self.p.kinds[mb] == PCM else self.p.totals[plane].get((x + dx, y + dy), 0))
        return (sum(near) + 1) // 2 if len(near) == 2 else sum(near)

    def samples(self, x, y):
        """Which of A, B and D give samples to intra prediction of a block here."""
        found = ""
        for letter, dx, dy in (("A", -1, 0), ("B", 0, -1), ("D", -1, -1)):
            mb = self.p.available(self.mb, x + dx, y + dy)
            if mb is not None and not (self.p.kinds[mb] == INTER and self.p.pps.constrained_intra):
                found += letter
        return found

    def mode_near(self, x, y):
        """The mode of a neighbour, or None where the DC mode is to be supposed for both (8.3.1.1)."""
        mb = self.p.available(self.mb, x, y)
        if mb is None or self.p.kinds[mb] == INTER and self.p.pps.constrained_intra:
            return None
        return self.p.modes.get((x, y), DC_MODE) if self.p.kinds[mb] == I4X4 else DC_MODE

    def motion_near(self, x, y):
        """Reference index and vector of a neighbour; None where it is not available (8.4.1.3.2)."""
        mb = self.p.available(self.mb, x, y)
        if mb is None or mb == self.mb and (x, y) not in self.p.motion:
            return None
        return self.p.motion.get((x, y), (-1, (0, 0)))

    # Vectors

    def neighbours(self, x, y, width):
        """The neighbours A, B and C of a part; D in the place of C where that is not available."""
        a, b = self.motion_near(x - 1, y), self.motion_near(x, y - 1)
        c = self.motion_near(x + width, y - 1)
        return a, b, c if c is not None else self.motion_near(x - 1, y - 1)

    def predicted(self, part, index, shape):
        """The predicted vector of a part; `shape` is the macroblock's width and height in blocks, or of its sub-macroblock's part (8.4.1.3)."""
        x, y, width, _ = part
        a, b, c = self.neighbours(x, y, width)
        if shape == (4, 2):
            near = b if y % 4 == 0 else a
        elif shape == (2, 4):
            near = a if x % 4 == 0 else c
        else:
            near = None
        if near is not None and near[0] == index:
            return near[1]
        if b is None and c is None and a is not None:
            return a[1]
        same = [it[1] for it in (a, b, c) if it is not None and it[0] == index]
        if len(same) == 1:
            return same[0]
        return tuple(sorted(it[1][i] if it is not None else 0 for it in (a, b, c))[1] for i in (0, 1))

    def skipped(self):
        """The vector of a skipped macroblock (8.4.1.1)."""
        x, y = self.x, self.y
        a, b, _ = self.neighbours(x, y, 4)
        if a is None or b is None or a == (0, (0, 0)) or b == (0, (0, 0)):
            return 0, 0
        return self.predicted((x, y, 4, 4), 0, (4, 4))

    def wanted(self, x, y):
        """A vector by chance: small, to the borders and beyond, or at an end of its range."""
        chance, way = self.chance, self.chance.random()
        if way < 0.5:
            vector = (chance.randint(-12, 12), chance.randint(-12, 12))
        elif way < 0.9:
            ends = [(x, 4 * self.p.columns), (y, 4 * self.p.rows)]
            edges = [(-16 * at - chance.randint(-12, 120), 16 * (end - at) + chance.randint(-40, 90)) for at, end in ends]
            vector = tuple(chance.choice([near, far, chance.randint(-9, 9)]) for near, far in edges)
        else:
            across = chance.choice([-ACROSS - 1, ACROSS, 0, chance.randint(-ACROSS, ACROSS)])
            vector = (across, chance.choice([-self.greatest_down - 1, self.greatest_down, 0]))
        down = max(-self.greatest_down - 1, min(self.greatest_down, vector[1]))
        return vector[0], down

    def put_vector(self, part, index, shape):
        x, y, width, height = part
        near, vector = self.predicted(part, index, shape), self.wanted(x, y)
        if self.chance.random() < 0.3 and abs(near[1]) <= self.greatest_down and abs(near[0]) <= ACROSS:
            vector = near
        for name, want, was in zip(("mvd_l0_x", "mvd_l0_y"), vector, near):
            self.out.se(name, want - was)
        for block in ((x + i, y + j) for i in range(width) for j in range(height)):
            self.p.motion[block] = (index, vector)

    def put_index(self):
        index = self.chance.choice(self.ways["usable"])
        if self.ways["active"] > 1:
            self.out.te("ref_idx_l0", self.ways["active"] - 1, index)
        return index

    # Residuals

    def levels(self, most, sum_left):
        """Levels by chance in scan order, of a sum that the budget allows."""
        chance, out = self.chance, []
        for _ in range(most):
            if chance.random() < self.density and sum_left > 0:
                size = min(sum_left, chance.choice([1, 1, 1, 2, 3, chance.randint(1, 20), chance.randint(1, sum_left)]))
                sum_left -= size
                out.append(chance.choice([-size, size]))
            else:
                out.append(0)
        return out

    def put_block(self, levels, rows):
        """A residual block (7.3.5.3.2); `rows` are those of its coeff_token. The number of its coefficients."""
        out, found = self.out, [(i, level) for i, level in enumerate(levels) if level]
        total, ones = len(found), 0
        for _, level in reversed(found):
            if abs(level) != 1 or ones == 3:
                break
            ones += 1
        out.word("coeff_token", "CoeffToken.antt", f"coeff_token_{rows}", 4 * total + ones)
        if total == 0:
            return 0
        put_levels(out, [level for _, level in reversed(found)], ones)
        put_runs(out, [i for i, _ in found], len(levels))
        return total

    def put_plane_block(self, plane, place, levels, per=4):
        near = self.total_near(plane, *place, per)
        rows = "nc0" if near < 2 else "nc2" if near < 4 else "nc4" if near < 8 else "nc8"
        return self.put_block(levels, rows)

    def put_luma(self, pattern, whole):
        """Luma of a macroblock: with its own block of DC levels where it is predicted whole."""
        chance, most, left = self.chance, 15 if whole else 16, budget(self.qp)
        if whole:
            dc = self.levels(16, left // 2)
            self.put_plane_block(0, (self.x, self.y), dc)
            left -= sum(map(abs, dc))
        for i, (column, row) in enumerate(BLOCKS):
            if pattern >> i // 4 & 1:
                place = (self.x + column, self.y + row)
                self.density = chance.choice([0, 0.1, 0.3, 0.9, 1])
                self.p.totals[0][place] = self.put_plane_block(0, place, self.levels(most, left))

    def put_chroma(self, pattern):
        left = budget(max(self.qp, chroma_qp(self.qp, self.p.pps.chroma_offset)))
        sums = []
        for _ in range(2):
            dc = self.levels(4, left // 2)
            sums.append(left - sum(map(abs, dc)))
            self.put_block(dc, "chroma_dc")
        if pattern < 2:
            return
        for plane, rest in zip((1, 2), sums):
            for column, row in BLOCKS[:4]:
                place = (self.x // 2 + column, self.y // 2 + row)
                self.p.totals[plane][place] = self.put_plane_block(plane, place, self.levels(15, rest), 2)

    def put_residual(self, pattern, whole=False):
        """mb_qp_delta and the residual of a macroblock, of the coded_block_pattern."""
        if not pattern and not whole:
            return
        delta = self.chance.choice([0, 0, 0, self.chance.randint(-3, 3), self.chance.randint(-26, 25)])
        self.out.se("mb_qp_delta", delta)
        self.qp = (self.qp + delta + 52) % 52
        self.density = self.chance.choice([0.1, 0.3, 0.6, 1])
        self.put_luma(pattern & 15, whole)
        if pattern >> 4:
            self.put_chroma(pattern >> 4)

    def put_pattern(self, kind):
        numbers = pattern_numbers(kind)
        pattern = self.chance.choice([0, 0, 15, 47, self.chance.choice(list(numbers))])
        self.out.ue("coded_block_pattern", numbers[pattern])
        self.put_residual(pattern)

    # Macroblocks

    def put_type(self, number):
        if self.ways["is_p"]:
            self.out.ue("mb_skip_run", self.run)
            self.run = 0
        self.out.ue("mb_type", number)

    def put_chroma_mode(self):
        here = self.samples(self.x, self.y)
        modes = [i for i, needs in enumerate(NEEDS_CHROMA) if set(needs) <= set(here)]
        self.out.ue("intra_chroma_pred_mode", self.chance.choice(modes))

    def intra(self, number):
        return number + (5 if self.ways["is_p"] else 0)

    def put_i4x4(self):
        self.put_type(self.intra(0))
        self.p.kinds[self.mb] = I4X4
        for column, row in BLOCKS:
            x, y = self.x + column, self.y + row
            near = [self.mode_near(x - 1, y), self.mode_near(x, y - 1)]
            supposed = DC_MODE if None in near else min(near)
            here = self.samples(x, y)
            mode = self.chance.choice([i for i, needs in enumerate(NEEDS_4X4) if set(needs) <= set(here)])
            self.out.u("prev_intra4x4_pred_mode_flag", 1, mode == supposed)
            if mode != supposed:
                self.out.u("rem_intra4x4_pred_mode", 3, mode - (mode > supposed))
            self.p.modes[x, y] = mode
        self.put_chroma_mode()
        self.put_pattern("intra")

    def put_i16x16(self):
        here = self.samples(self.x, self.y)
        mode = self.chance.choice([i for i, needs in enumerate(NEEDS_16X16) if set(needs) <= set(here)])
        luma, chroma = self.chance.choice([0, 15]), self.chance.randrange(3)
        self.put_type(self.intra(1 + mode + 4 * chroma + (12 if luma else 0)))
        self.p.kinds[self.mb] = I16X16
        self.put_chroma_mode()
        self.put_residual(luma | chroma << 4, whole=True)

    def put_pcm(self):
        self.put_type(self.intra(25))
        self.p.kinds[self.mb] = PCM
        self.out.align()
        base = self.chance.randint(1, 200)
        for _ in range(384):
            self.out.u("pcm_sample", 8, base + self.chance.randint(0, 55))

    def put_parts(self):
        """A macroblock of one or two parts."""
        number = self.chance.randrange(3)
        self.put_type(number)
        self.p.kinds[self.mb] = INTER
        parts = PARTS[number]
        indices = [self.put_index() for _ in parts]
        for (x, y, width, height), index in zip(parts, indices):
            self.put_vector((self.x + x, self.y + y, width, height), index, (width, height))
        self.put_pattern("inter")

    def put_quarters(self):
        """A macroblock of four sub-macroblocks, each with its own parts."""
        first_alone = 0 in self.ways["usable"] and self.chance.random() < 0.3
        self.put_type(4 if first_alone else 3)
        self.p.kinds[self.mb] = INTER
        types = [self.chance.randrange(4) for _ in range(4)]
        for number in types:
            self.out.ue("sub_mb_type", number)
        indices = [0 if first_alone else self.put_index() for _ in range(4)]
        for (dx, dy), number, index in zip(QUARTERS, types, indices):
            for x, y, width, height in SUB_PARTS[number]:
                self.put_vector((self.x + dx + x, self.y + dy + y, width, height), index, (0, 0))
        self.put_pattern("inter")

    def may_skip(self):
        """Whether a skipped macroblock here is legal: it refers to a held picture, by a vector within its range."""
        if not self.ways["is_p"] or 0 not in self.ways["usable"]:
            return False
        x, y = self.skipped()
        return -ACROSS - 1 <= x <= ACROSS and -self.greatest_down - 1 <= y <= self.greatest_down

    def skip(self):
        self.p.kinds[self.mb] = INTER
        vector = self.skipped()
        for column, row in BLOCKS:
            self.p.motion[self.x + column, self.y + row] = (0, vector)
        self.run += 1

    def put_macroblock(self):
        """The next macroblock of the picture."""
        p = self.p
        self.mb = p.coded
        self.x, self.y = 4 * (self.mb % p.columns), 4 * (self.mb // p.columns)
        p.slices[self.mb] = self.ways["number"]
        p.coded += 1
        ways = [self.put_i4x4, self.put_i4x4, self.put_i16x16, self.put_i16x16, self.put_pcm if self.chance.random() < 0.3 else self.put_i4x4]
        if self.ways["is_p"] and self.ways["usable"]:
            ways += [self.put_parts] * 6 + [self.put_quarters] * 5
        if self.may_skip():
            ways += [self.skip] * 5
        self.chance.choice(ways)()

    def put(self, count):
        """So many macroblocks, and what was skipped last."""
        for _ in range(count):
            self.put_macroblock()
        if self.run:
            self.out.ue("mb_skip_run", self.run)


def picture_limit(sps):
    """The greatest vertical vector of the level, in luma samples."""
    return levels()[sps.level][2]


def put_levels(out, levels, ones):
    """The levels of a block, the last in scan order first (9.2.2)."""
    for level in levels[:ones]:
        out.u("trailing_ones_sign_flag", 1, level < 0)
    suffix_length = 1 if len(levels) > 10 and ones < 3 else 0
    for i, level in enumerate(levels[ones:]):
        code = 2 * level - 2 if level > 0 else -2 * level - 1
        if i == 0 and ones < 3:
            code -= 2
        put_level(out, code, suffix_length)
        suffix_length = max(suffix_length, 1)
        if abs(level) > 3 << suffix_length - 1 and suffix_length < 6:
            suffix_length += 1


def put_level(out, code, length):
    """level_prefix and level_suffix of a levelCode (9.2.2.1)."""
    escape = 15 << length if length else 30
    if code >= escape:
        prefix, size, suffix = 15, 12, code - escape
    elif length == 0 and code >= 14:
        prefix, size, suffix = 14, 4, code - 14
    else:
        prefix, size, suffix = code >> length, length, code & (1 << length) - 1
    out.u("level_prefix", prefix + 1, 1)
    if size:
        out.u("level_suffix", size, suffix)


def put_runs(out, places, room):
    """total_zeros and run_before of a block with its coefficients at these places of the scan (9.2.3)."""
    total = len(places)
    zeros = places[-1] + 1 - total
    if total < room:
        rows = f"total_zeros_chroma_dc_{total}" if room == 4 else f"total_zeros_{total}"
        out.word("total_zeros", "TotalZeros.antt", rows, zeros)
    for i in range(total - 1, 0, -1):
        if zeros == 0:
            return
        run = places[i] - places[i - 1] - 1
        out.word("run_before", "RunBefore.antt", f"run_before_{min(zeros, 7)}", run)
        zeros -= run
