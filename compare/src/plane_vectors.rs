//! The planes of `vectors`: luma planes and what the Rust makes of them unit by unit, beside the definition of a whole plane.

use std::fmt::Write;

use crate::cuts::Cut;
use crate::exec_context::ExecContext;
use crate::random::Random;
use crate::vectors::{field, integer};

const HEAD: &str = "
-- What the reference makes of random luma planes, each unit over the untouched plane, beside what the definition says of the whole: every byte, and the pieces.
record PlaneVector : Type 0 where
  w : ℕ
  h : ℕ
  -- the unit size, and how many units are restored
  u : ℕ
  count : ℕ
  filter : List ℤ
  skip : List ℕ
  plane : List ℕ
  -- the list after the units were restored, with what stands behind the plane
  expected : List ℕ
  pieces : ℕ

holds_plane : PlaneVector → Bool
holds_plane v =
    same (plane_after v.w v.h v.u v.count v.plane v.skip v.filter) v.expected &&
    eqb (plane_pieces v.w v.h v.u v.count v.skip) v.pieces
";

/// The definition's own names that the computation goes through.
const UNFOLDED: &str =
    "sum_z sum_n rounded padded_in skip_bit final_in across unit_number plane_after piece_at plane_pieces";

/// The bytes behind a plane.
const BEHIND: usize = 5;

/// Columns and rows.
type Sides = (usize, usize);

/// The size of the units, and how many of them are restored.
type Units = (usize, usize);

/// All units, the largest.
const WHOLE: Units = (64, usize::MAX);

/// The planes, and the units that each is restored in. The first has one of two side by side, then small ones by a count past
/// all. The second has 17 blocks to a row, and a unit that lies across two skip numbers. In the third they stop within the
/// second row of units, whose last is narrower or is not.
const PLAN: [(Sides, &[Units]); 3] = [
    ((12, 8), &[(8, 1), (4, 9)]),
    ((68, 8), &[(12, 6)]),
    ((20, 12), &[(8, 4), (4, 7)]),
];

/// What a plane is restored from.
#[derive(Clone)]
struct Plane {
    w: usize,
    h: usize,
    bytes: Vec<u8>,
    filter: [i8; 16],
    skip: Vec<u16>,
}

impl Plane {
    fn random(r: &mut Random, (w, h): Sides) -> Plane {
        let taps = r.taps(16, 127);
        Plane {
            w,
            h,
            bytes: r.bytes(w * h + BEHIND),
            filter: std::array::from_fn(|k| taps[k] as i8),
            skip: (0..h / 4 * w.div_ceil(64))
                .map(|_| r.next() as u16)
                .collect(),
        }
    }

    /// The bytes after the first units, by the Rust, and their pieces.
    fn restored(&self, exec: &ExecContext, (unit, count): Units) -> (Vec<u8>, usize) {
        Cut::new(&self.bytes, (self.w, self.h), unit, self.filter, &self.skip).restored(exec, count)
    }

    fn masked(&self, block_row: usize, block: usize) -> bool {
        self.skip[block_row * self.w.div_ceil(64) + block / 16] >> (block % 16) & 1 == 1
    }

    /// The samples of a block, by their places.
    fn block(&self, block_row: usize, block: usize) -> impl Iterator<Item = usize> {
        let (first, w) = (4 * block_row * self.w + 4 * block, self.w);
        (0..16).map(move |i| first + i / 4 * w + i % 4)
    }

    /// Whether each row has masked blocks and others, and its 17th block is not as the first or the 16th: those that it would
    /// be taken for where the row's second number is not found.
    fn mixed(&self) -> bool {
        let blocks = self.w / 4;
        (0..self.h / 4).all(|row| {
            let masked = |block| self.masked(row, block);
            (0..blocks).any(masked)
                && !(0..blocks).all(masked)
                && (blocks <= 16 || [0, 15].iter().all(|&block| masked(block) != masked(16)))
        })
    }

    /// The samples by the Rust, masked ones too, where the plane stands in a frame as wide as the filter reaches. The frame
    /// repeats the nearest sample, inverted where `other` says so of a row and a column of the frame.
    fn framed(&self, exec: &ExecContext, other: impl Fn(usize, usize) -> bool) -> Vec<u8> {
        let (w, h) = (self.w + 8, self.h + 8);
        let sample = |i: usize| {
            let (y, x) = (i / w, i % w);
            let (row, column) = (y.clamp(4, h - 5) - 4, x.clamp(4, w - 5) - 4);
            let nearest = self.bytes[row * self.w + column];
            if other(y, x) { !nearest } else { nearest }
        };
        let frame = Plane {
            w,
            h,
            bytes: (0..w * h).map(sample).collect(),
            filter: self.filter,
            skip: vec![0; h / 4 * w.div_ceil(64)],
        };
        let (after, _) = frame.restored(exec, WHOLE);
        let rows = after.chunks(w).skip(4).take(self.h);
        rows.flat_map(|row| &row[4..w - 4]).copied().collect()
    }

    /// Whether the Rust gives other bytes without any one of the filter's numbers.
    fn filtered(&self, exec: &ExecContext) -> bool {
        let (own, _) = self.restored(exec, WHOLE);
        (0..16).all(|k| {
            let mut less = self.clone();
            less.filter[k] = 0;
            less.restored(exec, WHOLE).0 != own
        })
    }

    /// Whether the bytes say which blocks are masked, since the filter changes each, and what stands beyond the sides: with
    /// other samples there the Rust gives others.
    fn bordered(&self, exec: &ExecContext) -> bool {
        let (w, h) = (self.w, self.h);
        let blocks = || (0..h / 4).flat_map(|row| (0..w / 4).map(move |block| (row, block)));
        let repeated = self.framed(exec, |_, _| false);
        let differs = |(row, block): (usize, usize), other: &[u8]| {
            self.block(row, block).any(|i| repeated[i] != other[i])
        };
        let told = |side: &dyn Fn(usize, usize) -> bool| {
            let other = self.framed(exec, side);
            blocks().any(|at| !self.masked(at.0, at.1) && differs(at, &other))
        };
        blocks().all(|at| differs(at, &self.bytes))
            && told(&|y, _| y < 4)
            && told(&|y, _| y >= h + 4)
            && told(&|_, x| x < 4)
            && told(&|_, x| x >= w + 4)
    }

    /// Whether these units say how many they are: with fewer, and with more where there are more, the Rust gives other bytes.
    fn counts(&self, exec: &ExecContext, (unit, count): Units) -> bool {
        let all = self.w.div_ceil(unit) * self.h.div_ceil(unit);
        let (own, _) = self.restored(exec, (unit, count));
        let mut others = (0..=all).filter(|&n| n != count.min(all));
        others.all(|n| self.restored(exec, (unit, n)).0 != own)
    }

    /// Whether the plane's bytes, restored in these units, say something of all that they are made of.
    fn tells(&self, exec: &ExecContext, all_units: &[Units]) -> bool {
        self.mixed()
            && self.filtered(exec)
            && self.bordered(exec)
            && all_units.iter().all(|&units| self.counts(exec, units))
    }
}

fn write_plane(out: &mut String, k: usize, p: &Plane, units: Units, exec: &ExecContext) {
    let (expected, pieces) = p.restored(exec, units);
    let _ = writeln!(out, "\nplane{k} : PlaneVector\nplane{k} = record {{");
    for (name, number) in [("w", p.w), ("h", p.h), ("u", units.0), ("count", units.1)] {
        let _ = writeln!(out, "  {name} = {number};");
    }
    field(out, "  ", "filter", &p.filter, |&c| integer(c.into()));
    field(out, "  ", "skip", &p.skip, u16::to_string);
    field(out, "  ", "plane", &p.bytes, u8::to_string);
    field(out, "  ", "expected", &expected, u8::to_string);
    let _ = write!(
        out,
        "  pieces = {pieces};\n}}\n\n\
         plane{k}-holds : holds_plane plane{k} ≡ true\n\
         unfolding holds_plane same plane{k} {UNFOLDED}\n\
         plane{k}-holds = refl\n"
    );
}

/// The planes of the plan, drawn apart from the units.
pub(crate) fn planes(seed: u64) -> String {
    let r = &mut Random::new(!seed);
    let exec = &ExecContext::new();
    let mut out = HEAD.to_string();
    let mut k = 0;
    for (sides, all_units) in PLAN {
        let plane = loop {
            let plane = Plane::random(r, sides);
            if plane.tells(exec, all_units) {
                break plane;
            }
        };
        for &units in all_units {
            write_plane(&mut out, k, &plane, units, exec);
            k += 1;
        }
    }
    out
}
