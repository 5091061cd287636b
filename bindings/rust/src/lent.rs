//! What a unit is opened with, and what is lent with each call.

/// The bits of [`Unit::edges`]. Higher ones are ignored.
pub mod edges {
    /// Samples to the left are lent.
    pub const LEFT: usize = 1;
    /// The plane goes on to the right.
    pub const RIGHT: usize = 2;
    /// Two saved rows above are lent.
    pub const TOP: usize = 4;
    /// Two saved rows below are lent.
    pub const BOTTOM: usize = 8;
    /// Saved rows for the whole border above are lent (four of luma, two of chroma). Wins over `TOP`.
    pub const TOP_INTEGRATED: usize = 16;
    /// The rows below are the plane's own. Wins over `BOTTOM`.
    pub const BOTTOM_INTEGRATED: usize = 32;
}

/// Where a unit lies in its plane, and its borders in theirs. A [`State`](crate::State) keeps these numbers.
#[derive(Clone, Copy, Debug, Default, PartialEq, Eq)]
pub struct Unit {
    /// samples in a row: 4, 8, .. 64
    pub w: usize,
    /// rows: 4, 8, .. 64
    pub h: usize,
    /// the sum of [`edges`] bits; tealdust's `edges`, widened
    pub edges: usize,
    /// bytes from a row to the next, also of the saved rows; tealdust's `stride`
    pub stride: usize,
    /// the place of the first sample in the plane; tealdust's `p_off`
    pub off: usize,
    /// the place of the first saved row's first sample above; tealdust's `lpf_off`
    pub top_off: usize,
    /// the same below; tealdust's `lpf_bottom_off`
    pub bottom_off: usize,
}

/// What is lent from around a unit. A list that no edge bit calls for is not looked at and may be empty.
#[derive(Clone, Copy, Debug, Default)]
pub struct Borders<'a> {
    /// six bytes for each row; `left.as_flattened()` of tealdust's
    pub left: &'a [u8],
    /// saved rows above; tealdust's `lpf`
    pub top: &'a [u8],
    /// saved rows below; tealdust's `lpf_bottom`
    pub bottom: &'a [u8],
}

/// Sets of filter numbers and what chooses between them for each block: `F` is `i8` for user sets (18 numbers each), `i16`
/// for pretrained ones (13 each).
#[derive(Clone, Copy, Debug, Default)]
pub struct Classes<'a, F> {
    /// whole sets, one after another; `filters.as_flattened()` of tealdust's
    pub filters: &'a [F],
    /// the class of each class index; tealdust's constant `PC_WIENER_LUT_TO_CLASS`
    pub map: &'a [u8],
    /// the set of each class; tealdust's `subclass_lut`
    pub subclass: &'a [u8],
    /// one mask for each block row; tealdust's `noskip_mask`
    pub noskip: &'a [u16],
    /// the quantizer
    pub base_q: i32,
}

/// Where the luma of a chroma unit lies. A [`State`](crate::State) keeps these numbers.
#[derive(Clone, Copy, Debug, Default, PartialEq, Eq)]
pub struct LumaUnit {
    /// bytes from a luma row to the next, also of the saved ones; tealdust's `lstride`
    pub stride: usize,
    /// the place of the first luma sample; tealdust's `luma_off`
    pub off: usize,
    /// the place of the first saved luma row's first sample above; tealdust's `luma_top_off`
    pub top_off: usize,
    /// the same below; tealdust's `luma_bottom_off`
    pub bottom_off: usize,
    /// horizontal subsampling: 0 or 1
    pub ss_hor: usize,
    /// vertical subsampling: 0 or 1, and 1 only where `ss_hor` is
    pub ss_ver: usize,
    /// how two luma rows become one: 0 the mean of 2 by 2, 1 of two rows, 2 the upper row; tealdust's `ds_flt`
    pub kind: usize,
}

/// The luma that is lent to a chroma unit.
#[derive(Clone, Copy, Debug, Default)]
pub struct Luma<'a> {
    /// the luma plane; tealdust's `luma`
    pub plane: &'a [u8],
    /// saved luma rows above; tealdust's `luma_top`
    pub top: &'a [u8],
    /// saved luma rows below; tealdust's `luma_bottom`
    pub bottom: &'a [u8],
}
