//! A plane cut into units, each lent its borders and its masks from the untouched plane.

use std::ops::Range;

#[cfg(feature = "linked")]
use gihvendu::raw::{self, Restored};

use crate::exec_context::ExecContext;
use crate::looprestoration::{
    LR_HAVE_BOTTOM_INTEGRATED, LR_HAVE_LEFT, LR_HAVE_RIGHT, LR_HAVE_TOP_INTEGRATED,
    ns_wiener_single_y_8bpc,
};

/// What no left bit calls for: the Rust indexes it.
const UNREAD: u8 = 171;

/// A unit of the plane: where it lies, and which of the plane's lists are its own.
pub(crate) struct Part {
    off: usize,
    w: usize,
    h: usize,
    edges: u8,
    /// the same column four rows above; 0 where there are none
    top_off: usize,
    /// its first left list
    left: usize,
    /// its first block row's masks
    masks: usize,
}

/// A plane cut into units.
pub(crate) struct Cut {
    stride: usize,
    untouched: Vec<u8>,
    filter: [i8; 16],
    left: Vec<[u8; 6]>,
    masks: Vec<[u16; 4]>,
    /// row by row from the top left
    pub units: Vec<Part>,
}

impl Cut {
    /// A plane of w by h samples, cut into units of at most `unit` by `unit`.
    pub fn new(
        untouched: &[u8],
        (w, h): (usize, usize),
        unit: usize,
        filter: [i8; 16],
        skip: &[u16],
    ) -> Cut {
        let mut cut = Cut {
            stride: w,
            untouched: untouched.to_vec(),
            filter,
            left: Vec::new(),
            masks: Vec::new(),
            units: Vec::new(),
        };
        for y in (0..h).step_by(unit) {
            for x in (0..w).step_by(unit) {
                cut.add((x, y), (unit.min(w - x), unit.min(h - y)), h, skip);
            }
        }
        cut
    }

    fn add(&mut self, (x, y): (usize, usize), (w, h): (usize, usize), rows: usize, skip: &[u16]) {
        let bit = |bit: u8, there: bool| if there { bit } else { 0 };
        let edges = bit(LR_HAVE_LEFT, x > 0)
            | bit(LR_HAVE_RIGHT, x + w < self.stride)
            | bit(LR_HAVE_TOP_INTEGRATED, y > 0)
            | bit(LR_HAVE_BOTTOM_INTEGRATED, y + h < rows);
        let off = y * self.stride + x;
        self.units.push(Part {
            off,
            w,
            h,
            edges,
            top_off: off.saturating_sub(4 * self.stride),
            left: self.left.len(),
            masks: self.masks.len(),
        });
        for row in y..y + h {
            let mut list = [UNREAD; 6];
            if x > 0 {
                let at = row * self.stride + x;
                list[2..].copy_from_slice(&self.untouched[at - 4..at]);
            }
            self.left.push(list);
        }
        for block_row in y / 4..(y + h) / 4 {
            let mask = shifted(skip, block_row, self.stride, x / 4);
            self.masks.push([mask, !mask, 0, u16::MAX]);
        }
    }

    /// Restores a unit by the Rust. All but what was restored above and to the left has to be untouched.
    pub fn by_rust(&self, exec: &ExecContext, unit: &Part, plane: &mut [u8]) {
        ns_wiener_single_y_8bpc(
            exec,
            plane,
            unit.off,
            self.stride,
            &self.left[unit.left..],
            &self.untouched,
            unit.top_off,
            &[],
            0,
            unit.w,
            unit.h,
            &self.filter,
            unit.edges,
            &self.masks[unit.masks..],
        );
    }

    /// The same by the port's function of a whole unit.
    #[cfg(feature = "linked")]
    pub fn by_port(&self, unit: &Part, plane: &mut [u8]) -> Restored {
        raw::gihvendu_ns_wiener_single_y_8bpc(
            plane,
            unit.off,
            self.stride,
            self.left[unit.left..].as_flattened(),
            &self.untouched,
            unit.top_off,
            &[],
            0,
            unit.w,
            unit.h,
            &self.filter,
            usize::from(unit.edges),
            self.masks[unit.masks..].as_flattened(),
        )
    }

    /// The places of a unit's samples, row by row.
    pub fn rows(&self, unit: &Part) -> impl Iterator<Item = Range<usize>> {
        let (off, w, stride) = (unit.off, unit.w, self.stride);
        (0..unit.h).map(move |y| off + y * stride..off + y * stride + w)
    }

    /// The pieces of a unit: four for each clear bit of its masks that is below w / 4.
    pub fn pieces(&self, unit: &Part) -> usize {
        let blocks = (1u32 << (unit.w / 4)) - 1;
        let masks = &self.masks[unit.masks..][..unit.h / 4];
        let clear = |mask: &[u16; 4]| (!u32::from(mask[0]) & blocks).count_ones() as usize;
        4 * masks.iter().map(clear).sum::<usize>()
    }

    /// The plane after its first `count` units, each restored by the Rust over the untouched plane, and their pieces.
    pub fn restored(&self, exec: &ExecContext, count: usize) -> (Vec<u8>, usize) {
        let (mut plane, mut restored) = (self.untouched.clone(), self.untouched.clone());
        let mut pieces = 0;
        for unit in self.units.iter().take(count) {
            self.by_rust(exec, unit, &mut plane);
            for row in self.rows(unit) {
                restored[row.clone()].copy_from_slice(&plane[row.clone()]);
                plane[row.clone()].copy_from_slice(&self.untouched[row]);
            }
            pieces += self.pieces(unit);
        }
        // The rectangles were put back: the Rust has to have left all else.
        assert!(plane == self.untouched, "the Rust writes its unit alone");
        (restored, pieces)
    }
}

/// The skip bits of a block row from a block on. They may go on in the row's next number.
fn shifted(skip: &[u16], block_row: usize, w: usize, block: usize) -> u16 {
    let size = w.div_ceil(64);
    let row = &skip[block_row * size..][..size];
    let number = |i: usize| u32::from(*row.get(i).unwrap_or(&0));
    let both = number(block / 16) | number(block / 16 + 1) << 16;
    (both >> (block % 16)) as u16
}
