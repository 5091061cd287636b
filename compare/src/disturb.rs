//! Units and states moved to the limits of the table of refusals and past them.

use gihvendu::raw::State;

use crate::random::Random;
use crate::units::Unit;

/// A list one entry longer or shorter.
fn resize<T: Clone + Default>(list: &mut Vec<T>, by: isize) -> bool {
    let Some(len) = list.len().checked_add_signed(by) else {
        return false;
    };
    let more = list.last().cloned().unwrap_or_default();
    list.resize(len, more);
    true
}

fn shift(number: &mut usize, by: isize) -> bool {
    match number.checked_add_signed(by) {
        Some(moved) => *number = moved,
        None => return false,
    }
    true
}

/// The lengths and numbers of a unit that the table puts a limit to.
#[derive(Clone, Copy, Debug, PartialEq, Eq)]
pub(crate) enum Knob {
    Width,
    Height,
    Stride,
    LumaStride,
    Plane,
    Left,
    Top,
    Bottom,
    LumaPlane,
    LumaTop,
    LumaBottom,
    Skip,
    Noskip,
    Map,
    Subclass,
    Filters,
    Offset,
    TopOffset,
    BottomOffset,
    LumaOffset,
    LumaTopOffset,
    LumaBottomOffset,
    SubsamplingAcross,
    SubsamplingDown,
    Kind,
}

pub(crate) const KNOBS: [Knob; 25] = [
    Knob::Width,
    Knob::Height,
    Knob::Stride,
    Knob::LumaStride,
    Knob::Plane,
    Knob::Left,
    Knob::Top,
    Knob::Bottom,
    Knob::LumaPlane,
    Knob::LumaTop,
    Knob::LumaBottom,
    Knob::Skip,
    Knob::Noskip,
    Knob::Map,
    Knob::Subclass,
    Knob::Filters,
    Knob::Offset,
    Knob::TopOffset,
    Knob::BottomOffset,
    Knob::LumaOffset,
    Knob::LumaTopOffset,
    Knob::LumaBottomOffset,
    Knob::SubsamplingAcross,
    Knob::SubsamplingDown,
    Knob::Kind,
];

impl Knob {
    /// The number that is turned, where it is not a list's length.
    fn number(self, u: &mut Unit) -> Option<&mut usize> {
        Some(match self {
            Knob::Width => &mut u.w,
            Knob::Height => &mut u.h,
            Knob::Stride => &mut u.stride,
            Knob::LumaStride => &mut u.luma_stride,
            Knob::Offset => &mut u.off,
            Knob::TopOffset => &mut u.top_off,
            Knob::BottomOffset => &mut u.bottom_off,
            Knob::LumaOffset => &mut u.luma_off,
            Knob::LumaTopOffset => &mut u.luma_top_off,
            Knob::LumaBottomOffset => &mut u.luma_bottom_off,
            Knob::SubsamplingAcross => &mut u.ss_hor,
            Knob::SubsamplingDown => &mut u.ss_ver,
            Knob::Kind => &mut u.kind,
            _ => return None,
        })
    }

    /// Turns it by a step up or down; whether it can be.
    pub fn turn(self, u: &mut Unit, by: isize) -> bool {
        if let Some(number) = self.number(u) {
            return shift(number, by);
        }
        match self {
            Knob::Plane => resize(&mut u.plane, by),
            Knob::Left => resize(&mut u.left, by),
            Knob::Top => resize(&mut u.top, by),
            Knob::Bottom => resize(&mut u.bottom, by),
            Knob::LumaPlane => resize(&mut u.luma_plane, by),
            Knob::LumaTop => resize(&mut u.luma_top, by),
            Knob::LumaBottom => resize(&mut u.luma_bottom, by),
            Knob::Skip => resize(&mut u.skip, by),
            Knob::Noskip => resize(&mut u.noskip, by),
            Knob::Map => resize(&mut u.map, by),
            Knob::Subclass => resize(&mut u.subclass, by),
            _ => resize(&mut u.filters, by),
        }
    }
}

/// A number near a limit of the table, near where a sum would wrap, or near the one that it was.
fn near_limit(r: &mut Random, was: usize, stride: usize) -> usize {
    let small = r.below(5);
    match r.below(8) {
        0 => was.wrapping_add(small),
        1 => was.wrapping_sub(small),
        2 => [0, 4, 64, 68, 65_536][r.below(5)] + small - small.min(2),
        3 => usize::MAX - small,
        4 => 1 << (60 + r.below(4)),
        // this many rows further down the place is one in the list again, if sums wrap
        5 => was.wrapping_sub(stride.wrapping_mul(r.below(70))),
        6 => (usize::MAX / (1 + r.below(70))).wrapping_add(small),
        _ => r.next() as usize,
    }
}

/// Moves one thing of a unit.
pub(crate) fn unit(r: &mut Random, u: &mut Unit) {
    let knob = KNOBS[r.below(KNOBS.len())];
    let stride = u.stride;
    match r.below(12) {
        0 => u.edges ^= 1 << r.below(6),
        1 => u.edges ^= (r.next() as usize) << 6,
        2 if !u.map.is_empty() => {
            let entry = r.below(u.map.len());
            u.map[entry] = [u.subclass.len() as u8, 255][r.below(2)];
        }
        3 if !u.subclass.is_empty() => {
            let entry = r.below(u.subclass.len());
            u.subclass[entry] = (u.filters.len() / 13 + r.below(3)).saturating_sub(2) as u8;
        }
        _ => {
            let steps = r.within(-5, 5) as isize;
            match knob.number(u) {
                Some(number) => *number = near_limit(r, *number, stride),
                None => drop(knob.turn(u, steps)),
            }
        }
    }
}

/// Moves one thing of a state, which may make it another unit's, or none.
pub(crate) fn state(r: &mut Random, s: &mut State) {
    let near = |r: &mut Random, limits: &[usize]| match r.below(8) {
        0 => usize::MAX - r.below(3),
        1 => r.next() as usize,
        _ => limits[r.below(limits.len())],
    };
    let h = s.given.h;
    match r.below(8) {
        0 => s.op = near(r, &[0, 1, 2, 3, 4, 5]),
        1 => s.done = near(r, &[0, 1, h, h.wrapping_add(1), h.wrapping_sub(1)]),
        2 => s.next = near(r, &[0, 4, 5, 8, 9]),
        3 => s.indices[r.below(10)] = near(r, &[0, 4, 5, 9, 10]),
        4 => s.classes[r.below(16)] = near(r, &[0, 1, 2, 3, 4, 5, 6]) as u8,
        5 => s.rows[r.below(1080)] ^= 1 + r.below(255) as u8,
        6 => s.given.edges ^= (r.next() as usize) << 6,
        _ => s.given.kind = near(r, &[0, 1, 2, 3]),
    }
}
