//! The units of the Rattle program `traps`: the limits of w and h, and a unit for each trap of docs/SCOPE.md, restored by the
//! Rust. Each trap's unit is such that the wrong reading gives other bytes: the Rust, lent what a wrong program would read,
//! shows that.

use std::fmt::Write;

use crate::replay::pieces;
use crate::units::{Operation, Unit};

const STRIDE: usize = 68;
const LUMA_STRIDE: usize = 132;

/// Byte `i` of a list.
fn byte(list: usize, i: usize) -> u8 {
    ((i * 73 + i / 4 * 31 + list * 57) % 256) as u8
}

/// Byte `i` of the plane of a classed unit.
fn close(i: usize) -> u8 {
    (60 + (i * 73 + i / 4 * 31) % 60) as u8
}

/// Number `i` of the filters.
fn number(i: usize) -> i64 {
    (i * 5 + i / 13) as i64 % 16 - 6
}

/// A unit with no edge bit or with the bottom one. The saved borders have four rows.
fn unit(op: Operation, w: usize, h: usize) -> Unit {
    let classed = op == Operation::User || op == Operation::Pretrained;
    let list = |list: usize, n: usize| (0..n).map(|i| byte(list, i)).collect::<Vec<u8>>();
    let plane = 64 * STRIDE;
    Unit {
        op,
        w,
        h,
        edges: 0,
        stride: STRIDE,
        luma_stride: LUMA_STRIDE,
        off: 0,
        top_off: 0,
        bottom_off: 0,
        luma_off: 0,
        luma_top_off: 0,
        luma_bottom_off: 0,
        ss_hor: 1,
        ss_ver: 0,
        kind: 0,
        plane: if classed {
            (0..plane).map(close).collect()
        } else {
            list(0, plane)
        },
        left: Vec::new(),
        top: Vec::new(),
        bottom: list(1, 4 * STRIDE),
        luma_plane: list(2, 64 * LUMA_STRIDE),
        luma_top: Vec::new(),
        luma_bottom: list(3, 4 * LUMA_STRIDE),
        skip: vec![0; 64],
        noskip: vec![0xffff; 16],
        map: Vec::new(),
        subclass: (0..64).map(|i| i % 4).collect(),
        filters: match op {
            Operation::Luma => (0..16).map(number).collect(),
            Operation::User => (0..72).map(number).collect(),
            Operation::Pretrained => (0..52).map(number).collect(),
            Operation::Chroma => (0..18).map(number).collect(),
        },
        q: 0,
        least: [0; 6],
    }
}

/// What the program writes of a unit that is restored.
fn restored(out: &mut String, title: &str, u: &Unit) -> Vec<u8> {
    let plane = u.restored();
    answer(out, title, u, 0, &plane);
    plane
}

/// The rows of the rectangle; of a refused unit four samples of four rows, which are as they were.
fn answer(out: &mut String, title: &str, u: &Unit, status: u8, plane: &[u8]) {
    let (w, h, pieces) = match status {
        0 => (u.w, u.h, pieces(u)),
        _ => (4, 4, 0),
    };
    let _ = writeln!(out, "{title} w={} h={} edges={}", u.w, u.h, u.edges);
    let _ = writeln!(out, "status={status}\nfiltered={pieces}");
    for row in plane.chunks(u.stride).take(h) {
        let digits: String = row[..w].iter().map(|b| format!("{b:02x}")).collect();
        let _ = writeln!(out, "row={digits}");
    }
}

/// Holds the rectangles of two planes to be different.
fn differ(u: &Unit, title: &str, right: &[u8], wrong: &[u8]) {
    assert!(
        u.rectangle(right) != u.rectangle(wrong),
        "{title}: the wrong reading gives the same bytes"
    );
}

/// The card of docs/SCOPE.md, and the samples that a program would give that reads the rows above as it has restored them.
fn row_above(out: &mut String) {
    let mut u = unit(Operation::Luma, 4, 4);
    u.stride = 4;
    u.plane = [10, 20, 40, 80].map(|v| [v; 4]).concat();
    u.filters = vec![0; 16];
    u.filters[0] = 64;
    let title = "row above: y";
    let right = restored(out, title, &u);
    let mut wrong = u.clone();
    for y in 0..4 {
        let row = 4 * y..4 * y + 4;
        let once = wrong.restored();
        wrong.plane[row.clone()].copy_from_slice(&once[row]);
    }
    assert!(right[4] == 25 && wrong.plane[4] == 28);
    differ(&u, title, &right, &wrong.plane);
}

/// The noskip bits from w/4 on are read. Clipped to the unit's width, the last bit inside would stand for them.
fn noskip_column(out: &mut String, op: Operation, name: &str, w: usize) {
    let title = format!("noskip column: {name}");
    let mut u = unit(op, w, 4);
    u.noskip = vec![(1 << (w / 4)) - 1; 16];
    u.q = -2000;
    let right = restored(out, &title, &u);
    let clipped = Unit {
        noskip: vec![0xffff; 16],
        ..u.clone()
    };
    differ(&u, &title, &right, &clipped.restored());
}

/// Sets of zeros give zeros, and not the samples as they were.
fn zero_set(out: &mut String) {
    let mut u = unit(Operation::Pretrained, 8, 4);
    u.filters = vec![0; 52];
    let right = restored(out, "zero set: p", &u);
    assert!(u.rectangle(&right).iter().all(|&b| b == 0));
    differ(&u, "zero set: p", &right, &u.plane);
}

/// Four saved rows.
struct Saved<'a> {
    bytes: &'a [u8],
    stride: usize,
    w: usize,
}

impl Saved<'_> {
    fn row(&self, y: usize) -> &[u8] {
        &self.bytes[y * self.stride..][..self.w]
    }

    /// Puts so many rows into a plane, from row `at` on. Where `two` is true the second stands for those after it.
    fn below(&self, plane: &mut [u8], at: usize, rows: usize, two: bool) {
        for y in 0..rows {
            let row = self.row(if two { y.min(1) } else { y });
            plane[(at + y) * self.stride..][..self.w].copy_from_slice(row);
        }
    }
}

/// The unit with the integrated bit, over planes that have the saved rows below it.
fn integrated(u: &Unit, two: bool) -> Vec<u8> {
    let mut other = u.clone();
    other.edges = 32;
    let own = Saved {
        bytes: &u.bottom,
        stride: STRIDE,
        w: u.w,
    };
    let luma = Saved {
        bytes: &u.luma_bottom,
        stride: LUMA_STRIDE,
        w: u.w << u.ss_hor,
    };
    own.below(&mut other.plane, u.h, 4, two);
    luma.below(&mut other.luma_plane, u.h << u.ss_ver, 4, two);
    other.restored()
}

/// Of a saved border below only rows 0 and 1 are read. A program that reads rows 2 and 3 too gives what the integrated bit
/// gives where the plane itself has these four rows below the unit.
fn bottom_rows(out: &mut String, title: &str, mut u: Unit) {
    u.edges = 8;
    let right = restored(out, title, &u);
    assert!(u.rectangle(&right) == u.rectangle(&integrated(&u, true)));
    differ(&u, title, &right, &integrated(&u, false));
}

/// The unit with the right bit, where each row goes on with one of its samples and each luma row with one of its own.
fn widened(u: &Unit, luma_column: usize) -> Vec<u8> {
    let mut other = u.clone();
    other.edges = 2;
    for row in other.plane.chunks_mut(STRIDE) {
        let last = row[u.w - 1];
        row[u.w..u.w + 2].fill(last);
    }
    for row in other.luma_plane.chunks_mut(LUMA_STRIDE) {
        let repeated = row[luma_column];
        row[2 * u.w..2 * u.w + 4].fill(repeated);
    }
    other.restored()
}

/// Past the unit's end luma repeats its last sampled column, the even one. A program that repeats the last column gives what
/// the right bit gives where that column stands there.
fn last_luma_column(out: &mut String, title: &str, ss_ver: usize, kind: usize) {
    let mut u = unit(Operation::Chroma, 4, 4);
    (u.ss_ver, u.kind) = (ss_ver, kind);
    let right = restored(out, title, &u);
    assert!(u.rectangle(&right) == u.rectangle(&widened(&u, 2 * u.w - 2)));
    differ(&u, title, &right, &widened(&u, 2 * u.w - 1));
}

/// The limits of w and h.
fn limits(out: &mut String, operations: &[(Operation, &str)]) {
    for (w, h, status) in [
        (4, 4, 0),
        (64, 4, 0),
        (0, 4, 1),
        (6, 4, 1),
        (68, 4, 1),
        (4, 64, 0),
        (4, 0, 2),
        (4, 68, 2),
        (6, 68, 1),
    ] {
        for &(op, name) in operations {
            let u = unit(op, w, h);
            let title = format!("limits: {name}");
            if status == 0 {
                restored(out, &title, &u);
            } else {
                answer(out, &title, &u, status, &u.plane);
            }
        }
    }
}

/// The file stdout of the Rattle program.
pub(crate) fn lines() -> String {
    let (y, n) = ((Operation::Luma, "y"), (Operation::User, "n"));
    let (p, c) = ((Operation::Pretrained, "p"), (Operation::Chroma, "c"));
    let mut out = String::new();
    row_above(&mut out);
    bottom_rows(&mut out, "bottom rows: y", unit(y.0, 4, 4));
    limits(&mut out, &[y]);
    for w in [4, 8] {
        for (op, name) in [n, p] {
            noskip_column(&mut out, op, name, w);
        }
    }
    zero_set(&mut out);
    bottom_rows(&mut out, "bottom rows: n", unit(n.0, 4, 4));
    bottom_rows(&mut out, "bottom rows: p", unit(p.0, 4, 4));
    limits(&mut out, &[n, p]);
    for kind in 0..3 {
        let mut u = unit(c.0, 4, 4);
        (u.ss_ver, u.kind) = (1, kind);
        bottom_rows(&mut out, &format!("bottom rows: c 4:2:0 kind {kind}"), u);
    }
    last_luma_column(&mut out, "last luma column: c 4:2:2", 0, 0);
    last_luma_column(&mut out, "last luma column: c 4:2:0 kind 1", 1, 1);
    last_luma_column(&mut out, "last luma column: c 4:2:0 kind 2", 1, 2);
    limits(&mut out, &[c]);
    out
}
