#!/usr/bin/env python3
"""slices.py SIZE TOTAL: writes a stream of about TOTAL bytes to standard output: the parameter sets of pictures of 176 by 144 samples, and pictures of
one slice each, every sixteenth an IDR picture and the others of P slices. A slice has SIZE bytes. Its header is whole; random bytes stand for its data, which
`h264v headers` does not read."""
import random
import sys


class Bits:
    def __init__(self):
        self.text = ""

    def u(self, length, value):
        self.text += format(value, f"0{length}b") if length else ""

    def ue(self, value):
        word = format(value + 1, "b")
        self.text += "0" * (len(word) - 1) + word

    def se(self, value):
        self.ue(2 * value - 1 if value > 0 else -2 * value)

    def bytes(self, fill):
        """The bits up to a whole byte, which is filled up with these."""
        text = self.text + fill * (-len(self.text) % 8)
        return bytes(int(text[i : i + 8], 2) for i in range(0, len(text), 8))


def unit(header, rbsp):
    """A start code, and the unit of this header and RBSP (7.3.1)."""
    out, zeros = bytearray(b"\0\0\0\1" + bytes([header])), 0
    for byte in rbsp:
        if zeros == 2 and byte <= 3:
            out.append(3)
            zeros = 0
        out.append(byte)
        zeros = zeros + 1 if byte == 0 else 0
    return bytes(out)


def sequence_parameter_set():
    b = Bits()
    b.u(8, 66), b.u(8, 0xC0), b.u(8, 40)  # profile_idc, constraint flags, level_idc
    b.ue(0), b.ue(4)  # seq_parameter_set_id, log2_max_frame_num_minus4
    b.ue(0), b.ue(4)  # pic_order_cnt_type, log2_max_pic_order_cnt_lsb_minus4
    b.ue(2), b.u(1, 0)  # max_num_ref_frames, gaps_in_frame_num_value_allowed_flag
    b.ue(10), b.ue(8)  # the size in macroblocks, each less 1
    b.u(4, 0b1000), b.u(1, 1)  # frame_mbs_only_flag, three flags that are 0; the stop bit
    return unit(0x67, b.bytes("0"))


def picture_parameter_set():
    b = Bits()
    b.ue(0), b.ue(0), b.u(2, 0)  # the ids, entropy_coding_mode_flag, bottom_field_pic_order_in_frame_present_flag
    b.ue(0), b.ue(0), b.ue(0)  # num_slice_groups_minus1, num_ref_idx_l0 and l1_default_active_minus1
    b.u(3, 0), b.se(0), b.se(0), b.se(0)  # weighted prediction, pic_init_qp and qs, chroma_qp_index_offset
    b.u(3, 0b100), b.u(1, 1)  # deblocking_filter_control_present_flag, two flags that are 0; the stop bit
    return unit(0x68, b.bytes("0"))


def picture(number, idr_pic_id, size):
    """The picture of this frame_num, below 16: an IDR picture if it is 0."""
    b, idr = Bits(), number == 0
    b.ue(0), b.ue(7 if idr else 5), b.ue(0), b.u(8, number)  # first_mb_in_slice, slice_type, pic_parameter_set_id, frame_num
    if idr:
        b.ue(idr_pic_id)
    b.u(8, 2 * number)  # pic_order_cnt_lsb
    b.u(2 if idr else 3, 0)  # the flags of an IDR picture's marking; else of the list's size and changes, and of marking
    b.se(0), b.ue(0), b.se(0), b.se(0)  # slice_qp_delta, disable_deblocking_filter_idc, the filter's offsets
    front = b.bytes("1")
    return unit(0x65 if idr else 0x61, front + random.randbytes(max(0, size - len(front) - 2)) + b"\x80")


size, total = int(sys.argv[1]), int(sys.argv[2])
random.seed(1)
pictures = b"".join(picture(number, idr_pic_id, size) for idr_pic_id in (0, 1) for number in range(16))
sys.stdout.buffer.write(sequence_parameter_set() + picture_parameter_set())
for _ in range(total // len(pictures) + 1):
    sys.stdout.buffer.write(pictures)
