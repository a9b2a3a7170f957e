"""Elements of the syntax, read from bytes (7.2, 9.1)."""
EXTENDED_SAR = 255


class Bits:
    """Reads elements from bytes without emulation prevention, from a bit on; past their end come zeros."""

    def __init__(self, data, at=0):
        self.text, self.at = "".join(f"{byte:08b}" for byte in data) + "0" * 512, at

    def u(self, size):
        self.at += size
        return int(self.text[self.at - size : self.at] or "0", 2)

    def ue(self):
        zeros = self.text.index("1", self.at) - self.at
        self.at += zeros
        return self.u(zeros + 1) - 1

    def se(self):
        number = self.ue()
        return (number + 1) // 2 if number % 2 else -(number // 2)


def passed_picture_information(bits):
    """Reads a VUI up to its timing (E.1.1)."""
    if bits.u(1) and bits.u(8) == EXTENDED_SAR:
        bits.u(32)
    if bits.u(1):
        bits.u(1)
    if bits.u(1):
        bits.u(4)
        if bits.u(1):
            bits.u(24)
    if bits.u(1):
        bits.ue(), bits.ue()
