//! A second reading of the table of refusals: every row that the padding rules name is looked up in its list,
//! over integers that do not wrap.

use gihvendu::raw::{self, Given};

use crate::units::{Operation, Unit};

const LEFT: usize = 1;
const RIGHT: usize = 2;
const TOP: usize = 4;
const BOTTOM: usize = 8;
const TOP_INTEGRATED: usize = 16;
const BOTTOM_INTEGRATED: usize = 32;

/// A list with rows of samples.
#[derive(Clone, Copy, PartialEq, Eq)]
enum List {
    Plane,
    Top,
    Bottom,
}

/// A row of a list.
type Row = (List, i128);

/// A row that lies somewhere: where its first sample is, counted in rows from an offset, and the columns that are read.
struct Reading {
    off: usize,
    stride: usize,
    len: usize,
    first: i128,
    last: i128,
}

impl Reading {
    fn inside(&self, row: i128) -> bool {
        let at = self.off as i128 + row * self.stride as i128;
        0 <= at + self.first && at + self.last < self.len as i128
    }
}

fn has(g: &Given, bit: usize) -> bool {
    g.edges & bit != 0
}

/// "Luma r < 0 .. Chroma .. Luma r >= h": where row r of the unit's own plane comes from.
fn own_row(op: Operation, g: &Given, r: i128) -> Row {
    let h = g.h as i128;
    if r < 0 {
        let chroma = op == Operation::Chroma;
        return match (has(g, TOP_INTEGRATED), has(g, TOP)) {
            (true, _) if !chroma => (List::Top, r + 4),
            (_, true) if !chroma => (List::Top, (r + 2).max(0)),
            (false, false) => (List::Plane, 0),
            _ => (List::Top, r + 2),
        };
    }
    if r < h || has(g, BOTTOM_INTEGRATED) {
        (List::Plane, r)
    } else if has(g, BOTTOM) {
        (List::Bottom, (r - h).min(1))
    } else {
        (List::Plane, h - 1)
    }
}

/// The luma rows that row r of a chroma unit is made of.
fn luma_rows(g: &Given, r: i128) -> Vec<Row> {
    let h = g.h as i128;
    // the second of two rows is read by the means of kinds 0 and 1
    let two = |list: List, upper: i128| {
        let both = g.ss_ver == 1 && g.kind != 2;
        let rows = if both {
            upper..upper + 2
        } else {
            upper..upper + 1
        };
        rows.map(|row| (list, row)).collect()
    };
    let own = |r: i128| two(List::Plane, r << g.ss_ver);
    if r < 0 && !has(g, TOP_INTEGRATED) {
        return match (has(g, TOP), r, g.ss_ver) {
            (false, _, _) => own(0),
            (true, -2, _) => vec![(List::Top, 0)],
            (true, _, 0) => vec![(List::Top, 1)],
            (true, _, _) => two(List::Top, 0),
        };
    }
    if r >= h && !has(g, BOTTOM_INTEGRATED) {
        return match (has(g, BOTTOM), r - h) {
            (false, _) => own(h - 1),
            (true, 0) => two(List::Bottom, 0),
            (true, _) => vec![(List::Bottom, 1)],
        };
    }
    own(r)
}

/// 5, 7 and 8: whether a sample of this list of the own plane lies outside that is padded from (or written: those of rows
/// 0 to h - 1 are padded from too).
fn own_outside(op: Operation, g: &Given, list: List, off: usize, len: usize) -> bool {
    let e = op.border() as i128;
    (-e..g.h as i128 + e).any(|r| {
        let (from, row) = own_row(op, g, r);
        // rows 0 to h - 1 and their repeats take the left list
        let by_list = from == List::Plane && row < g.h as i128;
        let reading = Reading {
            off,
            stride: g.stride,
            len,
            first: if has(g, LEFT) && !by_list { -e } else { 0 },
            last: g.w as i128 - 1 + if has(g, RIGHT) { e } else { 0 },
        };
        from == list && !reading.inside(row)
    })
}

/// 11: the same of the luma plane and of its saved borders.
fn luma_outside(g: &Given, list: List, off: usize, len: usize) -> bool {
    let reading = Reading {
        off,
        stride: g.luma_stride,
        len,
        first: if has(g, LEFT) { -4 } else { 0 },
        last: ((g.w as i128) << g.ss_hor) - 1 + if has(g, RIGHT) { 4 } else { 0 },
    };
    (-2..g.h as i128 + 2)
        .flat_map(|r| luma_rows(g, r))
        .any(|(from, row)| from == list && !reading.inside(row))
}

/// The numbers of one set of a classed unit.
fn set(op: Operation) -> usize {
    if op == Operation::User { 18 } else { 13 }
}

fn filters_wrong(u: &Unit) -> bool {
    match u.op {
        Operation::Luma => u.filters.len() != 16,
        Operation::Chroma => u.filters.len() != 18,
        _ => {
            let sets = u.filters.len() / set(u.op);
            u.map.len() != 4096
                || u.map.iter().any(|&c| usize::from(c) >= u.subclass.len())
                || u.subclass.iter().any(|&s| usize::from(s) >= sets)
                || !u.filters.len().is_multiple_of(set(u.op))
        }
    }
}

/// The status of a unit with these numbers that is lent what `u` lends: what an opening and a whole unit answer.
pub(crate) fn unit_status(g: &Given, u: &Unit) -> u8 {
    let chroma = u.op == Operation::Chroma;
    let size = |v: usize| (4..=64).contains(&v) && v.is_multiple_of(4);
    let right = if has(g, RIGHT) { u.op.border() } else { 0 };
    let luma = |list, off, bytes: &Vec<u8>| luma_outside(g, list, off, bytes.len());
    let own = |list, off, bytes: &Vec<u8>| own_outside(u.op, g, list, off, bytes.len());
    if !size(g.w) {
        1
    } else if !size(g.h) {
        2
    } else if g.stride < g.w + right || g.stride > 65_536 || (chroma && g.luma_stride > 65_536) {
        3
    } else if chroma && (![(0, 0), (1, 0), (1, 1)].contains(&(g.ss_hor, g.ss_ver)) || g.kind > 2) {
        4
    } else if own(List::Plane, g.off, &u.plane) {
        5
    } else if has(g, LEFT) && u.left.len() < 6 * g.h {
        6
    } else if own(List::Top, g.top_off, &u.top) {
        7
    } else if own(List::Bottom, g.bottom_off, &u.bottom) {
        8
    } else if u.skip.len() < g.h || (u.op.classed() && u.noskip.len() < g.h / 4) {
        9
    } else if filters_wrong(u) {
        10
    } else if chroma
        && (luma(List::Plane, g.luma_off, &u.luma_plane)
            || luma(List::Top, g.luma_top_off, &u.luma_top)
            || luma(List::Bottom, g.luma_bottom_off, &u.luma_bottom))
    {
        11
    } else {
        0
    }
}

/// The status of an advance of the operation of `u`, lent what it lends.
pub(crate) fn advance_status(state: &raw::State, u: &Unit) -> u8 {
    let (op, index, next) = match u.op {
        Operation::Luma => (1, 9, 8),
        Operation::User => (2, 9, 8),
        Operation::Pretrained => (3, 9, 8),
        Operation::Chroma => (4, 4, 4),
    };
    let class_past = |&class: &u8| usize::from(class) >= u.filters.len() / set(u.op);
    if state.op != op
        || state.done > state.given.h
        || state.indices.iter().any(|&i| i > index)
        || state.next > next
        || (u.op.classed() && state.classes.iter().any(class_past))
    {
        13
    } else {
        unit_status(&state.given, u)
    }
}

/// The status of the class index.
pub(crate) fn class_status(
    rows: &[u8],
    indices: &[usize; 10],
    noskip: &[u16],
    (bx, by, bh): (usize, usize, usize),
) -> u8 {
    if bx > 15 || !(1..=16).contains(&bh) || by >= bh {
        12
    } else if rows.len() < 760 || indices.iter().any(|&i| i > 9) {
        5
    } else if noskip.len() < bh {
        9
    } else {
        0
    }
}
