/// A sample of 8 or more bits.
pub(crate) trait Pixel: Copy + Into<i32> {
    fn from_i32(v: i32) -> Self;
    fn try_as_u8_slice(s: &[Self]) -> Option<&[u8]>;
    fn try_as_u8_slice_mut(s: &mut [Self]) -> Option<&mut [u8]>;
    fn try_as_u16_slice(s: &[Self]) -> Option<&[u16]>;
    fn try_as_u16_slice_mut(s: &mut [Self]) -> Option<&mut [u16]>;
}

pub(crate) trait BitDepth: Copy {
    type Pixel: Pixel;
    const BPC: u32;
    fn pixel_clip(self, v: i32) -> Self::Pixel;
    fn bitdepth_max(self) -> i32;
}
