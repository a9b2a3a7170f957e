//! A sink of any type, so that all but the fastest commands share one copy of the decoder.
use crate::h264_base::{ElementName, Elements, Failed, SliceType};
use crate::h264_dpb::{FrameOut, FrameSink, Rectangle};
use crate::h264_plane::Frame;
use crate::h264_units::NalUnitType;

pub struct Aside<'a>(pub &'a mut dyn FrameSink);

impl Elements for Aside<'_> {
    fn element(&mut self, name: ElementName, bit: u64, value: i64) -> Result<(), Failed> {
        self.0.element(name, bit, value)
    }
}

impl FrameOut for Aside<'_> {
    fn frame(&mut self, count: i32, frame: &Frame, rectangle: Rectangle) -> Result<(), Failed> {
        self.0.frame(count, frame, rectangle)
    }
}

impl FrameSink for Aside<'_> {
    fn unit(&mut self, byte: u64, nal_unit_type: NalUnitType, nal_ref_idc: u8, length: u64) -> Result<(), Failed> {
        self.0.unit(byte, nal_unit_type, nal_ref_idc, length)
    }

    fn slice(&mut self, byte: u64, first_mb: u32, slice_type: SliceType, frame_num: u32, count: i32) -> Result<(), Failed> {
        self.0.slice(byte, first_mb, slice_type, frame_num, count)
    }

    fn note_places_taken(&mut self, places: usize) {
        self.0.note_places_taken(places);
    }
}
