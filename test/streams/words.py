"""Code words and units: elements as bits, with what another value of each would be (7.3, 9.1, 9.2).

The tables are those of crates/h264_tables/specs, which are to be read beside the standard."""
import functools
import pathlib
import re

SPECS = pathlib.Path(__file__).resolve().parents[2] / "crates" / "h264_tables" / "specs"
ROW = re.compile(r"row (\d+) (\d+) (\d+)")
GOLOMB = re.compile(r"golomb_rows \d+ (\d+) \(([^)]*)\[\]\)")
MB_SIDE = 16


def section(file, name):
    """The text of the definition `name` in a file of specs."""
    text = (SPECS / file).read_text()
    return re.search(rf"^{name} =\n(.*?)(?=^\w|^--|\Z)", text, re.M | re.S).group(1)


@functools.cache
def table(file, name):
    """The words of a table by their values, as texts of bits."""
    rows = ROW.findall(section(file, name))
    return {int(value): format(int(bits), f"0{length}b") for length, bits, value in rows}


@functools.cache
def pattern_numbers(kind):
    """The codeNum of each coded_block_pattern, for `intra` or `inter` (Table 9-4)."""
    patterns = [value for _, values in GOLOMB.findall(section("CodedBlockPattern.antt", f"coded_block_pattern_{kind}")) for value in values.split("∷")]
    return {int(value): number for number, value in enumerate(it for it in patterns if it.strip())}


@functools.cache
def levels():
    """MaxFS, MaxDpbMbs and the greatest vertical vector in luma samples, by level_idc; 9 is level 1b (Table A-1)."""
    rows = re.findall(r"level_row (\d+) (\d+) (\d+) (\d+) ∷", section("Level.antt", "level_rows"))
    return {int(row[0]): tuple(map(int, row[1:])) for row in rows}


def ue(value):
    """The Exp-Golomb word of a codeNum."""
    word = format(value + 1, "b")
    return "0" * (len(word) - 1) + word


def se_number(value):
    """The codeNum of a signed value (9.1.1)."""
    return 2 * value - 1 if value > 0 else -2 * value


def spelled(code, size, value):
    """The bits of a value in u, ue, se or te; of a word of a table, which `size` then names by file and name."""
    if code == "u":
        return format(value, f"0{size}b") if size else ""
    if code == "ue":
        return ue(value)
    if code == "se":
        return ue(se_number(value))
    if code == "te":
        return ue(value) if size > 1 else str(1 - value)
    return table(*size)[value]


def another(code, size, value, chance):
    """Another value of an element, or the same where there is no other."""
    if code == "word":
        return chance.choice(list(table(*size)))
    if code == "u":
        return chance.choice([value ^ (1 << chance.randrange(size)), chance.randrange(1 << size)]) if size else value
    if code == "te" and size == 1:
        return 1 - value
    near = value + chance.choice([-2, -1, 1, 2])
    far = chance.choice([0, 1, 3, 15, 16, 31, 51, 255, 65535, 2**20, 2**31 - 1])
    other = chance.choice([near, near, -value, far, -far])
    return other if code == "se" else max(0, other)


class Unit:
    """The elements of a unit, in their order: each its name, code, size, value and bits."""

    def __init__(self, ref_idc, kind):
        self.header = ref_idc << 5 | kind
        self.elements = []
        self.length = 0

    def put(self, name, code, size, value):
        bits = spelled(code, size, value)
        self.elements.append((name, code, size, value, bits))
        self.length += len(bits)

    def u(self, name, size, value):
        self.put(name, "u", size, int(value))

    def ue(self, name, value):
        self.put(name, "ue", 0, value)

    def se(self, name, value):
        self.put(name, "se", 0, value)

    def te(self, name, greatest, value):
        self.put(name, "te", greatest, value)

    def word(self, name, file, rows, value):
        self.put(name, "word", (file, rows), value)

    def align(self):
        """Zeros up to a whole byte."""
        if self.length % 8:
            self.u("pcm_alignment_zero_bit", -self.length % 8, 0)

    def changed(self, chance, front=None):
        """The unit with another value at one of its elements, or of so many at its front. The words after it stay whole."""
        other = Unit(0, 0)
        other.header = self.header
        at = chance.randrange(min(front or len(self.elements), len(self.elements))) if self.elements else 0
        for i, (name, code, size, value, _) in enumerate(self.elements):
            other.put(name, code, size, another(code, size, value, chance) if i == at else value)
        return other

    def has_long_word(self):
        """Whether a word of Exp-Golomb has more than 32 bits."""
        return any(code in ("ue", "se") and len(bits) > 32 for _, code, _, _, bits in self.elements)

    def bytes(self):
        """The start code and the unit, with its trailing bits."""
        bits = "".join(it[4] for it in self.elements) + "1"
        return framed(self.header, bits if self.header & 31 not in (10, 11) else "")


def packed(bits):
    """Bits as bytes, with zeros after the last."""
    bits += "0" * (-len(bits) % 8)
    return int(bits, 2).to_bytes(len(bits) // 8, "big") if bits else b""


def escaped(rbsp):
    """An RBSP with its emulation prevention bytes (7.4.1)."""
    return re.sub(rb"\0\0(?=[\0-\3])", b"\0\0\3", rbsp)


def framed(header, bits):
    """A start code, and the unit of this header and these bits of an RBSP."""
    return b"\0\0\0\1" + bytes([header]) + escaped(packed(bits))
