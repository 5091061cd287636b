use crate::call::call;
use crate::raw::Restored;
use crate::{Borders, Classes, Luma, LumaUnit, Pieces, Refusal, Unit};

fn pieces(answer: Restored) -> Result<Pieces, Refusal> {
    Refusal::check(answer.status).map(|()| answer.pieces)
}

/// Restores a luma unit in place of tealdust's function of this name. `filter` has 16 numbers, `skip` four for each block
/// row (`ll_mask.as_flattened()`).
///
/// ```
/// use gihvendu::{Borders, Unit, ns_wiener_single_y_8bpc};
///
/// let mut plane = [10, 10, 10, 10, 20, 20, 20, 20, 40, 40, 40, 40, 80, 80, 80, 80];
/// let unit = Unit { w: 4, h: 4, stride: 4, ..Unit::default() };
/// let mut filter = [0; 16];
/// filter[0] = 64;
/// let pieces = ns_wiener_single_y_8bpc(&mut plane, &unit, &Borders::default(), &filter, &[0; 4])?;
/// assert_eq!(pieces, 4);
/// assert_eq!(plane, [15, 15, 15, 15, 25, 25, 25, 25, 50, 50, 50, 50, 60, 60, 60, 60]);
/// # Ok::<(), gihvendu::Refusal>(())
/// ```
pub fn ns_wiener_single_y_8bpc(
    plane: &mut [u8],
    unit: &Unit,
    borders: &Borders<'_>,
    filter: &[i8],
    skip: &[u16],
) -> Result<Pieces, Refusal> {
    pieces(call!(gihvendu_ns_wiener_single_y_8bpc, plane, unit, borders, skip, filter filter))
}

/// Restores a unit with user sets in place of tealdust's function of this name.
///
/// ```
/// use gihvendu::{Borders, Classes, Unit, ns_wiener_multi_8bpc};
///
/// // One set for all classes: the first 16 of its 18 numbers are a luma filter.
/// let mut filters = [0i8; 18];
/// filters[0] = 64;
/// let classes = Classes { filters: &filters, map: &[0; 4096], subclass: &[0], noskip: &[0], base_q: 0 };
/// let mut plane = [10, 10, 10, 10, 20, 20, 20, 20, 40, 40, 40, 40, 80, 80, 80, 80];
/// let unit = Unit { w: 4, h: 4, stride: 4, ..Unit::default() };
/// let pieces = ns_wiener_multi_8bpc(&mut plane, &unit, &Borders::default(), &classes, &[0; 4])?;
/// assert_eq!(pieces, 4);
/// assert_eq!(plane, [15, 15, 15, 15, 25, 25, 25, 25, 50, 50, 50, 50, 60, 60, 60, 60]);
/// # Ok::<(), gihvendu::Refusal>(())
/// ```
pub fn ns_wiener_multi_8bpc(
    plane: &mut [u8],
    unit: &Unit,
    borders: &Borders<'_>,
    classes: &Classes<'_, i8>,
    skip: &[u16],
) -> Result<Pieces, Refusal> {
    pieces(call!(gihvendu_ns_wiener_multi_8bpc, plane, unit, borders, skip, classes classes))
}

/// Restores a unit with pretrained sets in place of tealdust's function of this name.
///
/// ```
/// use gihvendu::{Borders, Classes, Unit, pc_wiener_8bpc};
///
/// // A set of zeros is not neutral: it gives 0. The block that the mask's first bit names keeps its samples.
/// let classes = Classes { filters: &[0i16; 13], map: &[0; 4096], subclass: &[0], noskip: &[0], base_q: 0 };
/// let mut plane = [9; 8 * 4];
/// let unit = Unit { w: 8, h: 4, stride: 8, ..Unit::default() };
/// let pieces = pc_wiener_8bpc(&mut plane, &unit, &Borders::default(), &classes, &[1, 0, 0, 0])?;
/// assert_eq!(pieces, 4);
/// assert_eq!(plane, *[[9, 9, 9, 9, 0, 0, 0, 0]; 4].as_flattened());
/// # Ok::<(), gihvendu::Refusal>(())
/// ```
pub fn pc_wiener_8bpc(
    plane: &mut [u8],
    unit: &Unit,
    borders: &Borders<'_>,
    classes: &Classes<'_, i16>,
    skip: &[u16],
) -> Result<Pieces, Refusal> {
    pieces(call!(gihvendu_pc_wiener_8bpc, plane, unit, borders, skip, classes classes))
}

/// Restores a chroma unit in place of tealdust's function of this name. `filter` has 18 numbers: 6 for chroma, 12 for luma.
///
/// ```
/// use gihvendu::{Borders, Luma, LumaUnit, Unit, ns_wiener_single_uv_8bpc};
///
/// // 4:2:0 over flat luma, which adds nothing.
/// let luma_unit = LumaUnit { stride: 8, ss_hor: 1, ss_ver: 1, ..LumaUnit::default() };
/// let luma = Luma { plane: &[77; 8 * 8], ..Luma::default() };
/// let mut filter = [5; 18];
/// filter[..6].copy_from_slice(&[64, 0, 0, 0, 0, 0]);
/// let mut plane = [10, 10, 10, 10, 20, 20, 20, 20, 40, 40, 40, 40, 80, 80, 80, 80];
/// let unit = Unit { w: 4, h: 4, stride: 4, ..Unit::default() };
/// let pieces =
///     ns_wiener_single_uv_8bpc(&mut plane, &unit, &Borders::default(), &filter, &luma_unit, &luma, &[0; 4])?;
/// assert_eq!(pieces, 4);
/// assert_eq!(plane, [15, 15, 15, 15, 25, 25, 25, 25, 50, 50, 50, 50, 60, 60, 60, 60]);
/// # Ok::<(), gihvendu::Refusal>(())
/// ```
pub fn ns_wiener_single_uv_8bpc(
    plane: &mut [u8],
    unit: &Unit,
    borders: &Borders<'_>,
    filter: &[i8],
    luma_unit: &LumaUnit,
    luma: &Luma<'_>,
    skip: &[u16],
) -> Result<Pieces, Refusal> {
    pieces(
        call!(gihvendu_ns_wiener_single_uv_8bpc, plane, unit, borders, skip, filter filter, luma luma_unit, luma),
    )
}
