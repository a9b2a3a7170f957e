"""Parameter sets (7.3.2.1, 7.3.2.2, E.1.1), by chance or as given."""
import dataclasses

from .words import MB_SIDE, Unit, levels

SET_KIND, PICTURE_SET_KIND = 7, 8
BASELINE, MAIN, EXTENDED = 66, 77, 88
EXTENDED_SAR = 255
GREATEST_DPB = 16


@dataclasses.dataclass
class Sequence:
    """A sequence parameter set."""

    width: int  # in macroblocks
    height: int
    level: int = 40
    profile: int = BASELINE
    set_id: int = 0
    frame_num_bits: int = 4
    count_type: int = 0
    lsb_bits: int = 8
    delta_always_zero: bool = False
    non_ref_offset: int = 0
    bottom_offset: int = 0
    cycle: tuple = ()
    references: int = 1
    gaps: bool = False
    crop: tuple = ()  # left, right, top, bottom, in pairs of samples
    vui: bool = False
    buffering: int | None = None  # max_dec_frame_buffering
    chance: object = None  # gives the values of the VUI that nothing depends on

    def dpb_frames(self):
        """The places of the picture buffer: max_dec_frame_buffering, else MaxDpbFrames (A.3.1)."""
        if self.buffering is not None:
            return self.buffering
        return min(GREATEST_DPB, levels()[self.level][1] // (self.width * self.height))

    def unit(self):
        out = Unit(3, SET_KIND)
        out.u("profile_idc", 8, self.profile)
        for i in range(6):
            out.u(f"constraint_set{i}_flag", 1, i <= 1 and self.profile != MAIN or self.profile == EXTENDED and i == 2)
        out.u("reserved_zero_2bits", 2, 0)
        out.u("level_idc", 8, self.level)
        out.ue("seq_parameter_set_id", self.set_id)
        out.ue("log2_max_frame_num_minus4", self.frame_num_bits - 4)
        self.put_counts(out)
        out.ue("max_num_ref_frames", self.references)
        out.u("gaps_in_frame_num_value_allowed_flag", 1, self.gaps)
        out.ue("pic_width_in_mbs_minus1", self.width - 1)
        out.ue("pic_height_in_map_units_minus1", self.height - 1)
        out.u("frame_mbs_only_flag", 1, 1)
        out.u("direct_8x8_inference_flag", 1, 1)
        out.u("frame_cropping_flag", 1, bool(self.crop))
        for side, offset in zip(("left", "right", "top", "bottom"), self.crop):
            out.ue(f"frame_crop_{side}_offset", offset)
        out.u("vui_parameters_present_flag", 1, self.vui)
        if self.vui:
            put_vui(out, self)
        return out

    def put_counts(self, out):
        out.ue("pic_order_cnt_type", self.count_type)
        if self.count_type == 0:
            out.ue("log2_max_pic_order_cnt_lsb_minus4", self.lsb_bits - 4)
        if self.count_type == 1:
            out.u("delta_pic_order_always_zero_flag", 1, self.delta_always_zero)
            out.se("offset_for_non_ref_pic", self.non_ref_offset)
            out.se("offset_for_top_to_bottom_field", self.bottom_offset)
            out.ue("num_ref_frames_in_pic_order_cnt_cycle", len(self.cycle))
            for offset in self.cycle:
                out.se("offset_for_ref_frame", offset)


def put_hrd(out, chance):
    """Parameters of a reference decoder (E.1.2)."""
    count = chance.choice([1, 1, 2, 32])
    out.ue("cpb_cnt_minus1", count - 1)
    out.u("bit_rate_scale", 4, chance.randrange(16))
    out.u("cpb_size_scale", 4, chance.randrange(16))
    for i in range(count):
        out.ue("bit_rate_value_minus1", 1000 * (i + 1))
        out.ue("cpb_size_value_minus1", 1000 * (count - i))
        out.u("cbr_flag", 1, chance.randrange(2))
    for name in ("initial_cpb_removal_delay_length_minus1", "cpb_removal_delay_length_minus1", "dpb_output_delay_length_minus1", "time_offset_length"):
        out.u(name, 5, chance.randrange(32))


def put_signal(out, chance):
    """What the samples stand for: shape, overscan, colour and the place of chroma."""
    shape = chance.choice([0, 1, 13, EXTENDED_SAR])
    out.u("aspect_ratio_info_present_flag", 1, 1)
    out.u("aspect_ratio_idc", 8, shape)
    if shape == EXTENDED_SAR:
        out.u("sar_width", 16, 4)
        out.u("sar_height", 16, 3)
    out.u("overscan_info_present_flag", 1, 1)
    out.u("overscan_appropriate_flag", 1, chance.randrange(2))
    out.u("video_signal_type_present_flag", 1, 1)
    out.u("video_format", 3, 5)
    out.u("video_full_range_flag", 1, 0)
    out.u("colour_description_present_flag", 1, 1)
    for name in ("colour_primaries", "transfer_characteristics", "matrix_coefficients"):
        out.u(name, 8, chance.choice([1, 5, 6]))
    out.u("chroma_loc_info_present_flag", 1, 1)
    out.ue("chroma_sample_loc_type_top_field", chance.randrange(6))
    out.ue("chroma_sample_loc_type_bottom_field", chance.randrange(6))


def put_vui(out, sps):
    """Video usability information, with the picture buffer's size where the set gives it."""
    chance = sps.chance
    put_signal(out, chance)
    out.u("timing_info_present_flag", 1, 1)
    out.u("num_units_in_tick", 32, 1)
    out.u("time_scale", 32, 50)
    out.u("fixed_frame_rate_flag", 1, 1)
    kinds = chance.choice([(0, 0), (1, 0), (0, 1), (1, 1)])
    for kind, name in zip(kinds, ("nal", "vcl")):
        out.u(f"{name}_hrd_parameters_present_flag", 1, kind)
        if kind:
            put_hrd(out, chance)
    if any(kinds):
        out.u("low_delay_hrd_flag", 1, 0)
    out.u("pic_struct_present_flag", 1, 0)
    out.u("bitstream_restriction_flag", 1, sps.buffering is not None)
    if sps.buffering is None:
        return
    out.u("motion_vectors_over_pic_boundaries_flag", 1, 1)
    for name in ("max_bytes_per_pic_denom", "max_bits_per_mb_denom"):
        out.ue(name, 0)
    for name in ("log2_max_mv_length_horizontal", "log2_max_mv_length_vertical"):
        out.ue(name, 16)
    out.ue("max_num_reorder_frames", sps.buffering)
    out.ue("max_dec_frame_buffering", sps.buffering)


@dataclasses.dataclass
class PictureSet:
    """A picture parameter set."""

    set_id: int = 0
    sequence_id: int = 0
    bottom_counts: bool = False  # bottom_field_pic_order_in_frame_present_flag
    default_active: int = 1  # num_ref_idx_l0_default_active_minus1 and one
    weighted: bool = False
    qp: int = 26
    chroma_offset: int = 0
    filter_control: bool = True
    constrained_intra: bool = False

    def unit(self):
        out = Unit(3, PICTURE_SET_KIND)
        out.ue("pic_parameter_set_id", self.set_id)
        out.ue("seq_parameter_set_id", self.sequence_id)
        out.u("entropy_coding_mode_flag", 1, 0)
        out.u("bottom_field_pic_order_in_frame_present_flag", 1, self.bottom_counts)
        out.ue("num_slice_groups_minus1", 0)
        out.ue("num_ref_idx_l0_default_active_minus1", self.default_active - 1)
        out.ue("num_ref_idx_l1_default_active_minus1", 0)
        out.u("weighted_pred_flag", 1, self.weighted)
        out.u("weighted_bipred_idc", 2, 0)
        out.se("pic_init_qp_minus26", self.qp - 26)
        out.se("pic_init_qs_minus26", 0)
        out.se("chroma_qp_index_offset", self.chroma_offset)
        out.u("deblocking_filter_control_present_flag", 1, self.filter_control)
        out.u("constrained_intra_pred_flag", 1, self.constrained_intra)
        out.u("redundant_pic_cnt_present_flag", 1, 0)
        return out


def sequence_by_chance(chance, main_ip=False):
    """A small sequence parameter set with any of its tools."""
    width, height = chance.randint(1, 5), chance.randint(1, 4)
    count_type = chance.choice([0, 0, 1, 2])
    sps = Sequence(width, height, chance.choice([10, 11, 13, 21, 30, 31, 40, 51, 52]), chance=chance)
    sps.profile = MAIN if main_ip else chance.choice([BASELINE, BASELINE, EXTENDED])
    sps.set_id = chance.choice([0, 0, 1, 31])
    sps.frame_num_bits = chance.choice([4, 5, 8, 16])
    sps.count_type, sps.lsb_bits = count_type, chance.choice([4, 6, 8, 16])
    if count_type == 1:
        sps.delta_always_zero = chance.random() < 0.4
        sps.non_ref_offset = chance.choice([0, -1, -3, 1])
        sps.bottom_offset = chance.choice([0, 1] if sps.delta_always_zero else [0, 1, -1])  # else an IDR picture's count would not be 0
        sps.cycle = tuple(chance.randint(2, 6) for _ in range(chance.randrange(4)))
    sps.references = chance.choice([0, 1, 1, 1, 2, 2, 3, 3, 4, 4, 16, 16])
    sps.gaps = chance.random() < 0.3
    if chance.random() < 0.3:
        sps.crop = tuple(chance.randrange(MB_SIDE // 4) for _ in range(4))
    sps.vui = chance.random() < 0.3
    if sps.vui and chance.random() < 0.6:
        sps.buffering = chance.randint(max(1, sps.references), sps.dpb_frames())
    return sps


def picture_set_by_chance(chance, sps, set_id, weighted=False):
    """A picture parameter set for a sequence."""
    return PictureSet(
        set_id,
        sps.set_id,
        bottom_counts=chance.random() < 0.3,
        default_active=max(1, chance.choice([1, 1, min(2, sps.references), min(16, 2 * sps.references)])),
        weighted=weighted,
        qp=chance.choice([chance.randint(0, 51), chance.randint(18, 38)]),
        chroma_offset=chance.choice([0, 0, chance.randint(-12, 12)]),
        filter_control=chance.random() < 0.7,
        constrained_intra=chance.random() < 0.4,
    )
