use crate::{Refusal, raw};

/// A class index with its parts. Of bins `[a, b, c, d]` the index is 512 a + 64 b + 8 c + d.
#[repr(C)]
#[derive(Clone, Copy, Debug, Default, PartialEq, Eq)]
pub struct ClassIndex {
    /// 0 to 4095: the entry of the map that leads to the class
    pub index: u32,
    /// 0 to 36: for each of the nine neighbours whose noskip bit is 0, 16 for the block itself, 4 at a side, 1 at a corner
    pub skip_sum: u32,
    /// 0 to 7 each: that of the first quantizer term, then those of the vertical feature, the falling and the rising one with
    /// their terms
    pub bins: [u32; 4],
}

/// The class index of block (`bx`, `by`) of a unit with `bh` block rows, with its parts. `rows` are ten of 76 bytes, the unit's
/// first sample at byte 6; the fifth of `indices` names the block's first row.
///
/// ```
/// use gihvendu::{ClassIndex, Refusal, get_class_lut_idx_8bpc};
///
/// let (rows, indices) = ([50; 760], [0, 1, 2, 3, 4, 5, 6, 7, 8, 9]);
/// let class = get_class_lut_idx_8bpc(&rows, &indices, &[0], 4000, 0, 0, 1)?;
/// assert_eq!(class, ClassIndex { index: 1664, skip_sum: 36, bins: [3, 2, 0, 0] });
/// assert_eq!(get_class_lut_idx_8bpc(&rows, &indices, &[0], 0, 0, 1, 1), Err(Refusal::Block));
///
/// // A plot of the first bin: a bar for each of its values, with a # for each quantizer of 0, 250, .. 9750 that gives it.
/// let mut bars = [const { String::new() }; 8];
/// for q in (0..10_000).step_by(250) {
///     let class = get_class_lut_idx_8bpc(&rows, &indices, &[0xffff], q, 0, 0, 1)?;
///     bars[class.bins[0] as usize].push('#');
/// }
/// for (bin, bar) in bars.iter().enumerate() {
///     println!("{bin} {bar}");
/// }
/// assert_eq!(bars, ["######", "####", "#####", "####", "#####", "####", "####", "########"]);
/// # Ok::<(), Refusal>(())
/// ```
pub fn get_class_lut_idx_8bpc(
    rows: &[u8],
    indices: &[usize; 10],
    noskip: &[u16],
    base_q: i32,
    bx: usize,
    by: usize,
    bh: usize,
) -> Result<ClassIndex, Refusal> {
    let answer = raw::gihvendu_get_class_lut_idx_8bpc(rows, indices, noskip, base_q, bx, by, bh);
    Refusal::check(answer.status).map(|()| answer.class_index)
}
