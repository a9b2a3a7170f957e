"""Other HRD parameters, times and delays in a stream that has NAL HRD parameters with one schedule, by chance."""
import dataclasses

from .bits import Bits
from .schedules import BUFFERING_PERIOD, FILLER, PIC_TIMING, SEI, SET, SLICES, Set, messages, rbsp, units
from .words import ue

MOST = 2**32 - 1
TIMES_LENGTH = 65  # num_units_in_tick, time_scale and fixed_frame_rate_flag


def as_bits(data):
    return "".join(f"{byte:08b}" for byte in data)


def as_bytes(text):
    """Bits as bytes, with bit_equal_to_one and zeros up to a whole byte where they end within one."""
    text += "1" + "0" * (7 - len(text) % 8) if len(text) % 8 else ""
    return bytes(int(text[i : i + 8], 2) for i in range(0, len(text), 8))


def escaped(data):
    """An RBSP with its emulation prevention bytes (7.4.1)."""
    out, zeros = bytearray(), 0
    for byte in data:
        if zeros >= 2 and byte <= 3:
            out.append(3)
            zeros = 0
        out.append(byte)
        zeros = zeros + 1 if byte == 0 else 0
    return bytes(out)


@dataclasses.dataclass
class Change:
    """What is changed in a whole stream."""

    rate: float  # times BitRate
    size: float  # times CpbSize
    constant: int | None  # cbr_flag
    kinds: tuple  # the HRD parameters: NAL, VCL, or both
    ticks: int  # times num_units_in_tick
    scale: int  # times time_scale
    low_delay: bool
    delays: float  # times each initial_cpb_removal_delay
    removals: float  # the part of cpb_removal_delays that are raised
    filled: float  # the part of slices that filler data follow

    @staticmethod
    def by(chance):
        pick = chance.choice
        return Change(
            pick([1, 1, 0.5, 0.8, 0.95, 1.05, 1.3, 2]),
            pick([1, 1, 1, 0.7, 1.5, 3]),
            pick([None, 0, 1]),
            pick([("nal",), ("nal",), ("vcl",), ("nal", "vcl")]),
            pick([1, 1, 2, 3]),
            pick([1, 1, 4, 10, 30, 37, 1000]),
            chance.random() < 0.15,
            pick([1, 1, 0.6, 0.9, 1.1]),
            pick([0, 0, 0, 0.02]),
            pick([0, 0, 0, 0.2]),
        )


def changed_hrd(change, bits):
    """hrd_parameters() from this bit on: the changed ones, and the bit after them."""
    start = bits.at
    bits.ue(), bits.u(8)
    scales_end = bits.at
    rate, size, constant = bits.ue() + 1, bits.ue() + 1, bits.u(1)
    lengths = bits.text[bits.at : bits.at + 20]
    bits.u(20)
    values = ue(max(int(rate * change.rate), 1) - 1) + ue(max(int(size * change.size), 1) - 1)
    return bits.text[start:scales_end] + values + str(constant if change.constant is None else change.constant) + lengths


def changed_set(change, data, known):
    """The RBSP of a set with other HRD parameters."""
    text = as_bits(data)
    bits = Bits(data, known.flags_at + 1)
    hrd = changed_hrd(change, bits)
    low_delay, rest = text[bits.at + 1], text[bits.at + 2 : text.rindex("1")]
    times = text[known.flags_at - TIMES_LENGTH : known.flags_at]
    ticks, scale, fixed = int(times[:32], 2), int(times[32:64], 2), times[64]
    head = text[: known.flags_at - TIMES_LENGTH] + f"{min(ticks * change.ticks, MOST):032b}{min(scale * change.scale, MOST):032b}"
    flags = "".join("1" + hrd if kind in change.kinds else "0" for kind in ("nal", "vcl"))
    end = rest + "1"
    text = head + ("0" if change.low_delay else fixed) + flags + ("1" if change.low_delay else low_delay) + end
    return as_bytes(text + "0" * (-len(text) % 8))


def changed_payload(change, chance, known, kind, payload):
    hrd, text, bits = known.hrd["nal"], as_bits(payload), Bits(payload)
    if kind == BUFFERING_PERIOD:
        bits.ue()
        at, length = bits.at, hrd.initial_length
        delay = bits.u(length)
        if chance.random() < 0.7:
            delay = min(max(int(delay * change.delays), 1), 2**length - 1)
        delays = f"{delay:0{length}b}" + text[at + length : at + 2 * length]
        return as_bytes(text[:at] + delays * len(change.kinds))
    if kind == PIC_TIMING and chance.random() < change.removals:
        length = hrd.removal_length
        delay = min(bits.u(length) + chance.choice([1, 2, 5]), 2**length - 1)
        return as_bytes(f"{delay:0{length}b}" + text[length:])
    return payload


def coded(value):
    """payloadType or payloadSize (7.3.2.3.1)."""
    return b"\xff" * (value // 255) + bytes([value % 255])


def changed_messages(change, chance, known, data):
    out = b""
    for kind, payload in messages(data):
        payload = changed_payload(change, chance, known, kind, payload)
        out += coded(kind) + coded(len(payload)) + payload
    return out + b"\x80"


def rescheduled(stream, chance):
    """The stream with changes by chance. It is the same where it has no NAL HRD parameters."""
    change, known, out, past = Change.by(chance), None, bytearray(), 0
    for at, unit in units(stream):
        kind, data = unit[0] & 31, unit[1:]
        if kind == SET:
            known = Set.read(rbsp(unit))
        has_schedule = known is not None and "nal" in known.hrd and known.tick is not None
        if has_schedule and kind == SET:
            data = escaped(changed_set(change, rbsp(unit), known))
        elif has_schedule and kind == SEI:
            data = escaped(changed_messages(change, chance, known, rbsp(unit)))
        out += stream[past:at] + unit[:1] + data
        past = at + len(unit)
        ends = past >= len(stream) or stream[past : past + 1] == b"\0" and stream[past : past + 4] == b"\0\0\0\1"
        if has_schedule and kind in SLICES and ends and chance.random() < change.filled:
            out += b"\0\0\1" + bytes([FILLER]) + b"\xff" * chance.randint(1, 3000) + b"\x80"
    return bytes(out + stream[past:])
