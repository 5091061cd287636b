//! Random units, and the Rust run on them.

use std::ops::Range;

use crate::exec_context::ExecContext;
use crate::looprestoration::{
    ns_wiener_multi_8bpc, ns_wiener_single_uv_8bpc, ns_wiener_single_y_8bpc, pc_wiener_8bpc,
};
use crate::random::Random;
use crate::tables::PC_WIENER_LUT_TO_CLASS;

#[derive(Clone, Copy, Debug, PartialEq, Eq)]
pub(crate) enum Operation {
    Luma,
    User,
    Pretrained,
    Chroma,
}

pub(crate) const OPERATIONS: [Operation; 4] = [
    Operation::Luma,
    Operation::User,
    Operation::Pretrained,
    Operation::Chroma,
];

impl Operation {
    /// The Rust's function, without its ending.
    pub fn name(self) -> &'static str {
        match self {
            Operation::Luma => "ns_wiener_single_y",
            Operation::User => "ns_wiener_multi",
            Operation::Pretrained => "pc_wiener",
            Operation::Chroma => "ns_wiener_single_uv",
        }
    }

    /// Whether the unit's blocks have classes.
    pub fn classed(self) -> bool {
        matches!(self, Operation::User | Operation::Pretrained)
    }

    /// The samples of a border.
    pub fn border(self) -> usize {
        if self == Operation::Chroma { 2 } else { 4 }
    }
}

/// A unit: what it is opened with, and what is lent. Made here it is not refused, and lists that its edge bits leave unused
/// are empty.
#[derive(Clone, Debug, PartialEq, Eq)]
pub(crate) struct Unit {
    pub op: Operation,
    pub w: usize,
    pub h: usize,
    pub edges: usize,
    pub stride: usize,
    pub luma_stride: usize,
    pub off: usize,
    pub top_off: usize,
    pub bottom_off: usize,
    pub luma_off: usize,
    pub luma_top_off: usize,
    pub luma_bottom_off: usize,
    pub ss_hor: usize,
    pub ss_ver: usize,
    pub kind: usize,
    pub plane: Vec<u8>,
    pub left: Vec<u8>,
    pub top: Vec<u8>,
    pub bottom: Vec<u8>,
    pub luma_plane: Vec<u8>,
    pub luma_top: Vec<u8>,
    pub luma_bottom: Vec<u8>,
    pub skip: Vec<u16>,
    pub noskip: Vec<u16>,
    pub map: Vec<u8>,
    pub subclass: Vec<u8>,
    pub filters: Vec<i64>,
    pub q: i32,
    /// the least lengths of `plane`, `top`, `bottom`, `luma_plane`, `luma_top` and `luma_bottom`
    pub least: [usize; 6],
}

/// Rows of lent bytes: `above` samples before the first row and the least length that takes all, sometimes a little more
/// of both.
struct Rows {
    off: usize,
    least: usize,
    bytes: Vec<u8>,
}

/// How the lists of a unit lie: its stride is less than `room` over the least one, and no list's offset is under `first`.
/// Where they are given, both strides are not drawn but are this, nor the pair and kind of a chroma unit.
#[derive(Clone, Copy, Default)]
pub(crate) struct Spacing {
    pub room: usize,
    pub first: usize,
    pub stride: Option<usize>,
    pub subsampling: Option<(usize, usize, usize)>,
}

/// Samples of one unit: any, or all near to one value, where its classes differ most.
#[derive(Clone, Copy)]
enum Shades {
    Any,
    Near(i64, i64),
}

impl Shades {
    fn bytes(self, r: &mut Random, n: usize) -> Vec<u8> {
        match self {
            Shades::Any => r.bytes(n),
            Shades::Near(base, spread) => r.near(base, spread, n),
        }
    }
}

fn lend(
    r: &mut Random,
    shades: Shades,
    rows: usize,
    stride: usize,
    before: usize,
    row: usize,
) -> Rows {
    if rows == 0 {
        return Rows {
            off: r.below(9),
            least: 0,
            bytes: Vec::new(),
        };
    }
    let off = before + r.below(4);
    let least = off + (rows - 1) * stride + row;
    let len = least + [0, 0, 1, 3][r.below(4)];
    Rows {
        off,
        least,
        bytes: shades.bytes(r, len),
    }
}

impl Unit {
    /// A unit of an operation. `edge_set` is one of 64; higher bits are added at times.
    pub fn random(r: &mut Random, op: Operation, edge_set: u8) -> Unit {
        let size = |r: &mut Random| [4, 4, 4, 4, 8, 8, 8, 8, 12][r.below(9)];
        let (mut w, mut h) = (size(r), size(r));
        if w * h > 64 {
            *[&mut w, &mut h][r.below(2)] = 4;
        }
        Unit::sized(r, op, edge_set, w, h)
    }

    pub fn sized(r: &mut Random, op: Operation, edge_set: u8, w: usize, h: usize) -> Unit {
        let spacing = Spacing {
            room: 4,
            first: 1,
            ..Spacing::default()
        };
        Unit::spaced(r, op, edge_set, w, h, spacing)
    }

    pub fn spaced(
        r: &mut Random,
        op: Operation,
        edge_set: u8,
        w: usize,
        h: usize,
        spacing: Spacing,
    ) -> Unit {
        let (chroma, classed, e) = (op == Operation::Chroma, op.classed(), op.border());
        let edges = usize::from(edge_set) | if r.once_in(3) { r.below(4) << 6 } else { 0 };
        let bit = |k: u8| edges >> k & 1 != 0;
        let beside = |k: u8, n: usize| if bit(k) { n } else { 0 };
        let drawn = w + beside(1, e) + r.below(spacing.room);
        let stride = spacing.stride.unwrap_or(drawn);
        let shades = if classed && !r.once_in(3) {
            Shades::Near(r.within(10, 245), r.within(0, 24))
        } else {
            Shades::Any
        };

        let top_rows = if chroma {
            if bit(2) || bit(4) { 2 } else { 0 }
        } else if bit(4) {
            4
        } else {
            beside(2, 2)
        };
        let bottom_rows = if bit(5) { 0 } else { beside(3, 2) };
        let before = |n: usize| n.max(spacing.first);
        let own = lend(
            r,
            shades,
            h + beside(5, e),
            stride,
            before(0),
            w + beside(1, e),
        );
        let top = lend(
            r,
            shades,
            top_rows,
            stride,
            before(beside(0, e)),
            w + beside(1, e),
        );
        let bottom = lend(
            r,
            shades,
            bottom_rows,
            stride,
            before(beside(0, e)),
            w + beside(1, e),
        );

        let (ss_hor, ss_ver) = [(0, 0), (1, 0), (1, 1), (1, 1)][r.below(4)];
        let (ss_hor, ss_ver, kind) = if chroma {
            let drawn = (ss_hor, ss_ver, r.below(3));
            spacing.subsampling.unwrap_or(drawn)
        } else {
            (0, 0, 0)
        };
        let v = 1 << ss_ver;
        let one_less = usize::from(ss_ver == 1 && kind == 2);
        let luma_row = (w << ss_hor) + beside(1, 4);
        let drawn = match (chroma, r.below(6)) {
            (false, _) => r.below(9),
            (true, 0) => r.below(8),
            (true, _) => luma_row + r.below(6),
        };
        let luma_stride = spacing.stride.unwrap_or(drawn);
        let above = beside(4, 2 * v) * luma_stride + beside(0, 4);
        let luma_rows = if chroma {
            v * (h + beside(5, 2)) - one_less
        } else {
            0
        };
        let luma = lend(r, shades, luma_rows, luma_stride, before(above), luma_row);
        let luma_top_rows = if !chroma || bit(4) || !bit(2) {
            0
        } else {
            2 - one_less
        };
        let luma_top = lend(
            r,
            shades,
            luma_top_rows,
            luma_stride,
            before(beside(0, 4)),
            luma_row,
        );
        let luma_bottom_rows = if chroma { bottom_rows } else { 0 };
        let luma_bottom = lend(
            r,
            shades,
            luma_bottom_rows,
            luma_stride,
            before(beside(0, 4)),
            luma_row,
        );

        let sets = if classed { 1 + r.below(5) } else { 1 };
        let filters = match op {
            Operation::Luma => r.taps(16, 127),
            Operation::Chroma => r.taps(18, 127),
            Operation::User => (0..sets).flat_map(|_| r.taps(18, 127)).collect(),
            Operation::Pretrained => (0..sets)
                .flat_map(|_| {
                    let limit = if r.once_in(2) { 32_767 } else { 127 };
                    r.taps(13, limit)
                })
                .collect(),
        };
        Unit {
            op,
            w,
            h,
            edges,
            stride,
            luma_stride,
            off: own.off,
            top_off: top.off,
            bottom_off: bottom.off,
            luma_off: luma.off,
            luma_top_off: luma_top.off,
            luma_bottom_off: luma_bottom.off,
            ss_hor,
            ss_ver,
            kind,
            plane: own.bytes,
            left: if bit(0) {
                shades.bytes(r, 6 * h)
            } else {
                Vec::new()
            },
            top: top.bytes,
            bottom: bottom.bytes,
            luma_plane: luma.bytes,
            luma_top: luma_top.bytes,
            luma_bottom: luma_bottom.bytes,
            skip: r.masks(h),
            noskip: if classed { r.masks(h / 4) } else { Vec::new() },
            map: if classed {
                PC_WIENER_LUT_TO_CLASS.to_vec()
            } else {
                Vec::new()
            },
            subclass: if classed {
                (0..64).map(|_| r.below(sets) as u8).collect()
            } else {
                Vec::new()
            },
            filters,
            q: if classed { r.quantizer() } else { 0 },
            least: [
                own.least,
                top.least,
                bottom.least,
                luma.least,
                luma_top.least,
                luma_bottom.least,
            ],
        }
    }

    /// The plane after the Rust restored the unit.
    pub fn restored(&self) -> Vec<u8> {
        let mut plane = self.plane.clone();
        self.for_rust().restore(&ExecContext::new(), &mut plane);
        plane
    }

    /// The lists in the Rust's types, with no more than the unit lends.
    pub fn as_lent(&self) -> ForRust<'_> {
        ForRust {
            unit: self,
            left: self.left.as_chunks::<6>().0.to_vec(),
            masks: self.skip.as_chunks::<4>().0.to_vec(),
            luma: self.luma_plane.clone(),
            luma_top: self.luma_top.clone(),
            luma_bottom: self.luma_bottom.clone(),
            narrow: self.narrow(),
            wide: self.wide(),
        }
    }

    /// The lists in the Rust's types. The Rust indexes `left` without the left bit too, and in kind 0 one luma column too
    /// many: it is lent those.
    pub fn for_rust(&self) -> ForRust<'_> {
        let mut lent = self.as_lent();
        lent.left.resize(self.h, [171; 6]);
        for luma in [&mut lent.luma, &mut lent.luma_top, &mut lent.luma_bottom] {
            luma.push(211);
        }
        lent
    }

    /// Other filters in the place of those that were drawn: each set has the next shape, from `shape` on. The last number of a
    /// pretrained set is of no tap, and any one at times.
    #[cfg(feature = "linked")]
    pub fn reshape_filters(&mut self, r: &mut Random, shape: usize) {
        let (size, limit) = match self.op {
            Operation::Luma => (16, 127),
            Operation::User | Operation::Chroma => (18, 127),
            Operation::Pretrained => (13, 32_767),
        };
        for (k, set) in self.filters.chunks_mut(size).enumerate() {
            set.copy_from_slice(&r.filter(shape + k, size, limit));
            if self.op == Operation::Pretrained && r.once_in(2) {
                set[size - 1] = r.within(-limit - 1, limit);
            }
        }
    }

    /// The filters of luma, user and chroma units.
    pub fn narrow(&self) -> Vec<i8> {
        self.filters.iter().map(|&c| c as i8).collect()
    }

    /// The filters of pretrained units.
    pub fn wide(&self) -> Vec<i16> {
        self.filters.iter().map(|&c| c as i16).collect()
    }

    /// The pieces of some of the unit's rows: one for each clear bit of a row's mask that is below w / 4.
    pub fn pieces(&self, rows: Range<usize>) -> usize {
        let blocks = (1u32 << (self.w / 4)) - 1;
        rows.map(|y| (!u32::from(self.skip[y / 4 * 4]) & blocks).count_ones() as usize)
            .sum()
    }

    /// The rectangle of a plane, row by row.
    pub fn rectangle(&self, plane: &[u8]) -> Vec<u8> {
        (0..self.h)
            .flat_map(|y| &plane[self.off + y * self.stride..][..self.w])
            .copied()
            .collect()
    }
}

/// A unit with its lists as the Rust takes them.
pub(crate) struct ForRust<'a> {
    unit: &'a Unit,
    left: Vec<[u8; 6]>,
    masks: Vec<[u16; 4]>,
    luma: Vec<u8>,
    luma_top: Vec<u8>,
    luma_bottom: Vec<u8>,
    narrow: Vec<i8>,
    wide: Vec<i16>,
}

impl ForRust<'_> {
    /// Restores the unit in a plane.
    pub fn restore(&self, exec: &ExecContext, plane: &mut [u8]) {
        let u = self.unit;
        macro_rules! restored {
            ($name:ident, $filters:expr $(, $more:expr)*) => {
                $name(
                    exec, plane, u.off, u.stride, &self.left, &u.top, u.top_off, &u.bottom, u.bottom_off, u.w, u.h, $filters, $($more,)*
                    u.edges as u8, &self.masks,
                )
            };
        }
        match u.op {
            Operation::Luma => restored!(
                ns_wiener_single_y_8bpc,
                self.narrow.as_array::<16>().expect("16 numbers")
            ),
            Operation::User => restored!(
                ns_wiener_multi_8bpc,
                self.narrow.as_chunks::<18>().0,
                &u.subclass,
                &u.noskip,
                u.q
            ),
            Operation::Pretrained => restored!(
                pc_wiener_8bpc,
                self.wide.as_chunks::<13>().0,
                &u.subclass,
                &u.noskip,
                u.q
            ),
            Operation::Chroma => restored!(
                ns_wiener_single_uv_8bpc,
                self.narrow.as_array::<18>().expect("18 numbers"),
                &self.luma,
                u.luma_off,
                u.luma_stride,
                &self.luma_top,
                u.luma_top_off,
                &self.luma_bottom,
                u.luma_bottom_off,
                u.ss_hor,
                u.ss_ver,
                u.kind as i32
            ),
        }
    }
}
