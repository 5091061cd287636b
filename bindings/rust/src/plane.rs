use crate::{Pieces, Refusal, raw};

/// The units that a luma plane is cut into, and how many of them [`restore_plane`] restores.
///
/// The plane's rows have no gaps, so its stride is `w`. Units go row by row from the top left; at the right and below they
/// are smaller where the plane ends.
///
/// ```
/// use gihvendu::PlaneUnits;
///
/// // 100 by 60 samples are two units, 64 wide and 36 wide. A block row has 25 blocks: two numbers of 16 bits.
/// let all = PlaneUnits::all(100, 60);
/// assert_eq!((all.total(), all.skip_len(), all.scratch_len()), (2, 15 * 2, 8 * 100));
///
/// // The first row of units of 16: seven, the last of them 4 wide. Four such rows, the last 12 high, make the plane.
/// let some = PlaneUnits { unit: 16, count: 7, ..all };
/// assert_eq!((some.total(), some.skip_len(), some.scratch_len()), (7 * 4, 15 * 2, 8 * 100));
/// ```
#[derive(Clone, Copy, Debug, Default, PartialEq, Eq)]
pub struct PlaneUnits {
    /// samples in a row of the plane: 4, 8, .. 1,024
    pub w: usize,
    /// rows of the plane: 4, 8, .. 1,024
    pub h: usize,
    /// samples in a row of a unit, and its rows: 4, 8, .. 64
    pub unit: usize,
    /// the units that are restored, from the first on: 0 is none, and what is over [`PlaneUnits::total`] is all
    pub count: usize,
}

impl PlaneUnits {
    /// The most samples in a row of a plane, and the most rows.
    pub const SIDE_LIMIT: usize = 1024;
    /// The most samples in a row of a unit, and the most rows.
    pub const UNIT_LIMIT: usize = 64;

    /// All units of a plane of `w` by `h` samples, in the largest size. Where all are restored every size gives the same
    /// samples.
    pub fn all(w: usize, h: usize) -> PlaneUnits {
        PlaneUnits {
            w,
            h,
            unit: PlaneUnits::UNIT_LIMIT,
            count: usize::MAX,
        }
    }

    /// How many units the plane is cut into; 0 where [`Refusal::PlaneSides`] applies.
    pub fn total(&self) -> usize {
        self.if_sized(|p| p.w.div_ceil(p.unit) * p.h.div_ceil(p.unit))
    }

    /// The numbers that the masks take; 0 where [`Refusal::PlaneSides`] applies, whatever is lent.
    pub fn skip_len(&self) -> usize {
        self.if_sized(|p| p.h / 4 * p.w.div_ceil(64))
    }

    /// The bytes that the scratch list takes; 0 where [`Refusal::PlaneSides`] applies, whatever is lent.
    pub fn scratch_len(&self) -> usize {
        self.if_sized(|p| 8 * p.w)
    }

    /// A number of sides and a unit size within their limits, so that it neither wraps nor asks for much memory.
    fn if_sized(&self, number: impl Fn(&PlaneUnits) -> usize) -> usize {
        let is_sized = |side: usize, limit| side.is_multiple_of(4) && (4..=limit).contains(&side);
        let plane =
            is_sized(self.w, PlaneUnits::SIDE_LIMIT) && is_sized(self.h, PlaneUnits::SIDE_LIMIT);
        if plane && is_sized(self.unit, PlaneUnits::UNIT_LIMIT) {
            number(self)
        } else {
            0
        }
    }
}

/// Restores a luma plane in place, unit by unit. No border is lent: each sample becomes what the luma filter gives over the
/// plane as it was before the call, whose border samples repeat at its four sides. Units that are not restored keep their
/// samples, and so do bytes behind the plane.
///
/// - `filter` has 16 numbers, as that of [`ns_wiener_single_y_8bpc`](crate::ns_wiener_single_y_8bpc).
/// - `skip` has one bit for each block of the plane, the lowest bit leftmost: a 1 leaves the block as it is. Each block row
///   begins a new number: [`PlaneUnits::skip_len`] numbers or more. Bits behind the last block of a row are ignored.
/// - `scratch` has [`PlaneUnits::scratch_len`] bytes or more, which are written over with no matter what. A refused call
///   leaves them too as they were.
///
/// Two calls do not make one: the second would read what the first restored.
///
/// ```
/// use gihvendu::{PlaneUnits, Refusal, restore_plane};
///
/// // 4 by 8 samples, two units of 4 by 4. This filter gives the mean of the samples above and below, a half rounded up:
/// // (10 + 41 + 1) / 2 = 26 in the second row. Above the first row stands itself once more, and so below the last.
/// let before = [[10; 4], [20; 4], [41; 4], [80; 4], [90; 4], [60; 4], [30; 4], [0; 4]];
/// let after = [[15; 4], [26; 4], [50; 4], [66; 4], [70; 4], [60; 4], [30; 4], [15; 4]];
/// let mut filter = [0; 16];
/// filter[0] = 64;
/// let all = PlaneUnits { unit: 4, ..PlaneUnits::all(4, 8) };
/// let mut scratch = vec![0; all.scratch_len()];
/// let mut run = |units: &PlaneUnits, skip: &[u16]| {
///     let mut plane = before;
///     let pieces = restore_plane(plane.as_flattened_mut(), units, &filter, skip, &mut scratch)?;
///     Ok((pieces, plane))
/// };
/// assert_eq!(run(&all, &[0, 0])?, (8, after));
///
/// // The first unit alone is restored, from the old samples of the second.
/// let first = PlaneUnits { count: 1, ..all };
/// let mixed = [after[0], after[1], after[2], after[3], before[4], before[5], before[6], before[7]];
/// assert_eq!(run(&first, &[0, 0])?, (4, mixed));
///
/// // The same with the block of the second unit masked; a mask too few is refused.
/// assert_eq!(run(&all, &[0, 1])?, (4, mixed));
/// assert_eq!(run(&all, &[0]), Err(Refusal::Masks));
/// # Ok::<(), Refusal>(())
/// ```
pub fn restore_plane(
    plane: &mut [u8],
    units: &PlaneUnits,
    filter: &[i8],
    skip: &[u16],
    scratch: &mut [u8],
) -> Result<Pieces, Refusal> {
    let u = units;
    let answer =
        raw::gihvendu_restore_plane(plane, u.w, u.h, u.unit, u.count, filter, skip, scratch);
    Refusal::check(answer.status).map(|()| answer.pieces)
}
