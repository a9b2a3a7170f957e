"""The coded picture buffer of a stream by fractions (C.1 to C.3, A.3.1): which access units break which rule.

This follows the standard, and takes nothing from the program."""
import dataclasses
from fractions import Fraction
from math import ceil, floor

from .bits import Bits, passed_picture_information

SEI, SET, FILLER = 6, 7, 12
SLICES = (1, 5)
BUFFERING_PERIOD, PIC_TIMING = 0, 1
DELAY_CLOCK = 90000
SHORTEST = Fraction(1, 172)  # seconds between two frames (A.3.1)
# MaxMBPS of Table A-1 by level_idc, 9 for level 1b; MinCR where it is not 2
MAX_MBPS = {
    9: 1485, 10: 1485, 11: 3000, 12: 6000, 13: 11880, 20: 11880, 21: 19800, 22: 20250, 30: 40500, 31: 108000, 32: 216000,
    40: 245760, 41: 245760, 42: 522240, 50: 589824, 51: 983040, 52: 2073600,
}  # fmt: skip
MIN_CR = {31: 4, 32: 4, 40: 4}


def units(stream):
    """The units of a byte stream: the place of the first byte, and the bytes."""
    found, start = [], stream.find(b"\0\0\1")
    while start >= 0:
        after = stream.find(b"\0\0\1", start + 3)
        found.append((start + 3, stream[start + 3 : after if after >= 0 else len(stream)].rstrip(b"\0")))
        start = after
    return found


def rbsp(unit):
    """The RBSP of a unit (7.3.1)."""
    kept, zeros = bytearray(), 0
    for byte in unit[1:]:
        if zeros < 2 or byte != 3:
            kept.append(byte)
            zeros = zeros + 1 if byte == 0 else 0
        else:
            zeros = 0
    return bytes(kept)


@dataclasses.dataclass
class Hrd:
    """hrd_parameters(): each schedule's BitRate, CpbSize and cbr_flag, and the lengths of delays (E.1.2, E.2.2)."""

    schedules: list
    initial_length: int
    removal_length: int
    output_length: int

    @staticmethod
    def read(bits):
        count, rate_scale, size_scale = bits.ue() + 1, bits.u(4), bits.u(4)
        schedules = [((bits.ue() + 1) << 6 + rate_scale, (bits.ue() + 1) << 4 + size_scale, bits.u(1)) for _ in range(count)]
        hrd = Hrd(schedules, bits.u(5) + 1, bits.u(5) + 1, bits.u(5) + 1)
        bits.u(5)
        return hrd


@dataclasses.dataclass
class Set:
    """What a sequence parameter set says of schedules, and the bit of nal_hrd_parameters_present_flag."""

    level: int
    size: int  # PicSizeInMbs
    tick: Fraction | None = None  # t_c in seconds
    flags_at: int = 0
    hrd: dict = dataclasses.field(default_factory=dict)  # by "nal" and "vcl"
    fixed_rate: int = 0
    low_delay: int = 0
    has_structure: int = 0

    @staticmethod
    def read(data):
        bits = Bits(data)
        bits.u(8)
        constraints, level = bits.u(8), bits.u(8)
        bits.ue(), bits.ue()
        kind = bits.ue()
        if kind == 0:
            bits.ue()
        elif kind == 1:
            bits.u(1), bits.ue(), bits.ue(), [bits.ue() for _ in range(bits.ue())]
        bits.ue(), bits.u(1)
        size = (bits.ue() + 1) * (bits.ue() + 1)
        bits.u(2)
        if bits.u(1):
            [bits.ue() for _ in range(4)]
        found = Set(9 if level == 11 and constraints & 0x10 else level, size)
        if bits.u(1):
            found.read_vui(bits)
        return found

    def read_vui(self, bits):
        passed_picture_information(bits)
        if bits.u(1):
            ticks, scale = bits.u(32), bits.u(32)
            self.tick = Fraction(ticks, scale) if ticks and scale else None
            self.fixed_rate = bits.u(1)
        self.flags_at = bits.at
        for kind in ("nal", "vcl"):
            if bits.u(1):
                self.hrd[kind] = Hrd.read(bits)
        if self.hrd:
            self.low_delay = bits.u(1)
        self.has_structure = bits.u(1)

    def allows(self, pic_struct):
        """Whether a frame may be shown so (table D-1)."""
        return pic_struct == 0 or 3 <= pic_struct <= (8 if self.fixed_rate else 6)


@dataclasses.dataclass
class AccessUnit:
    bit: int  # of its first unit
    start: int  # its first byte in the byte stream
    slices: int = 0  # bytes
    sizes: dict = dataclasses.field(default_factory=lambda: {"nal": 0, "vcl": 0})  # bytes
    initial: dict | None = None  # initial_cpb_removal_delay and its offset, by "nal" and "vcl"
    removal: int | None = None  # cpb_removal_delay
    known: Set | None = None


def messages(data):
    """The payloadType and the payload of each message of SEI."""
    at = 0
    while at < len(data) - 1:
        values = []
        for _ in range(2):
            value = 0
            while data[at] == 255:
                value, at = value + 255, at + 1
            values, at = values + [value + data[at]], at + 1
        yield values[0], data[at : at + values[1]]
        at += values[1]


def note_message(unit, known, kind, payload):
    bits = Bits(payload)
    if kind == BUFFERING_PERIOD:
        bits.ue()
        first, fits = {}, True
        for name, hrd in known.hrd.items():
            for i, (rate, size, _) in enumerate(hrd.schedules):
                delay, offset = bits.u(hrd.initial_length), bits.u(hrd.initial_length)
                fits = fits and 0 < delay * rate <= DELAY_CLOCK * size
                if i == 0:
                    first[name] = (delay, offset)
        if fits:
            unit.initial = first
    elif kind == PIC_TIMING and known.hrd:
        hrd = known.hrd.get("nal") or known.hrd["vcl"]
        removal = bits.u(hrd.removal_length)
        bits.u(hrd.output_length)
        if not known.has_structure or known.allows(bits.u(4)):
            unit.removal = removal


def access_units(stream):
    """The access units of a stream (7.4.1.2.3). Its pictures begin with macroblock 0."""
    found, known, past, open_unit = [], None, 0, False
    for at, unit in units(stream):
        kind = unit[0] & 31
        begins = kind in (SEI, SET, 8, 9) or 14 <= kind <= 18
        if not open_unit and (begins or kind in SLICES and unit[1] & 128):
            start = 0 if not found else at - 4 if past < at - 3 else at - 3
            found.append(AccessUnit(8 * at, start))
        open_unit = begins or open_unit and kind not in SLICES
        past = at + len(unit)
        last = found[-1]
        last.slices += len(unit) if 1 <= kind <= 5 else 0
        last.sizes["vcl"] += len(unit) if 1 <= kind <= 5 or kind == FILLER else 0
        if kind == SET:
            known = Set.read(rbsp(unit))
        last.known = known
        if kind == SEI and known:
            for message in messages(rbsp(unit)):
                note_message(last, known, *message)
    for unit, after in zip(found, [it.start for it in found[1:]] + [len(stream)]):
        unit.sizes["nal"] = after - unit.start
    return found


class Buffer:
    """The buffer of one schedule, up to an access unit whose time is not known."""

    def __init__(self, kind, first):
        self.kind, known = kind, first.known
        self.rate, self.size, self.constant = known.hrd[kind].schedules[0]
        self.tick, self.low_delay = known.tick, known.low_delay
        self.mbps, self.min_cr, self.mbs = MAX_MBPS[known.level], MIN_CR.get(known.level, 2), known.size
        self.removals, self.bits, self.arrived = [], [], Fraction(0)
        self.period, self.initial = Fraction(0), first.initial[kind]

    def times(self, unit):
        """t_r,n and t_ai of an access unit (C.1.1, C.1.2); None where the first is not known."""
        if not self.removals:
            return Fraction(self.initial[0], DELAY_CLOCK), Fraction(0)
        if unit.removal is None:
            return None
        removal = self.period + self.tick * unit.removal
        if removal <= self.removals[-1]:
            return None
        stay = unit.initial[self.kind][0] if unit.initial else sum(self.initial)
        return removal, self.arrived if self.constant else max(self.arrived, removal - Fraction(stay, DELAY_CLOCK))

    def held(self, time, begins):
        """The bits in the buffer before what is removed at this time."""
        return (time - begins) * self.rate + sum(bits for removal, bits in zip(self.removals, self.bits) if removal >= time)

    def broken(self, unit, removal, begins, ends):
        late = removal < ends
        if late and not self.low_delay:
            yield "BufferUnderflow"
        if any(self.held(time, begins) > self.size for time in [ends] + [it for it in self.removals if begins < it < ends]):
            yield "BufferOverflow"
        time = removal - self.removals[-1] if self.removals else max(Fraction(self.mbs, self.mbps), SHORTEST)
        if time < max(Fraction(self.mbs, self.mbps), SHORTEST):
            yield "RemovalRate"
        if unit.slices * self.min_cr > 384 * self.mbps * time and not (late and self.low_delay):
            yield "MinCompression"
        if self.removals and unit.initial:
            wait, delay = DELAY_CLOCK * (removal - self.arrived), unit.initial[self.kind][0]
            if delay > ceil(wait) or self.constant and delay < floor(wait):
                yield "InitialDelay"

    def take(self, unit):
        """The rules that an access unit breaks, and whether the schedule can be followed after it."""
        times = self.times(unit)
        if times is None:
            return [], False
        removal, begins = times
        ends = begins + Fraction(8 * unit.sizes[self.kind], self.rate)
        rules = list(self.broken(unit, removal, begins, ends))
        if unit.initial:
            self.period, self.initial = removal, unit.initial[self.kind]
        self.arrived = ends
        self.removals.append(removal)
        self.bits.append(8 * unit.sizes[self.kind])
        return rules, not (self.low_delay and removal < ends)


def findings(stream):
    """The first bit where each rule on the coded picture buffer is broken, and at how many places. The stream has one sequence parameter set."""
    places, all_units = {}, access_units(stream)
    first = all_units[0]
    if not first.known or not first.known.tick or not first.initial:
        return {}
    for kind in first.known.hrd:
        buffer = Buffer(kind, first)
        for unit in all_units:
            rules, goes_on = buffer.take(unit)
            for rule in rules:
                places.setdefault(rule, set()).add(unit.bit)
            if not goes_on:
                break
    return {rule: (min(bits), len(bits)) for rule, bits in places.items()}
