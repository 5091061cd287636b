//! Random runs of each leaf of the port against the Rust on the same data.

use std::panic::{AssertUnwindSafe, catch_unwind};

use gihvendu::{ClassIndex, raw};

use crate::class_parts;
use crate::exec_context::ExecContext;
use crate::looprestoration::{
    backup_row_8bpc, backup_row_lpf_8bpc, backup_row_luma_8bpc, get_qval_given_tskip,
};
use crate::random::{FILTER_SHAPES, Random};
use crate::runs::{self, CHROMA_ROWS, LUMA_ROW, ROW, ROWS};
use crate::written::Written;

const DONE: u8 = 0;
const OUTSIDE: u8 = 5;

/// What came of the runs of one leaf.
struct Tally {
    name: &'static str,
    /// status 0, all bytes compared
    done: usize,
    /// refused, nothing written, and the Rust does not run either
    refused: usize,
    /// refused, nothing written, where the Rust runs: a condition of the port that the Rust does not need
    stricter: usize,
    differ: usize,
}

impl Tally {
    fn new(name: &'static str) -> Tally {
        Tally {
            name,
            done: 0,
            refused: 0,
            stricter: 0,
            differ: 0,
        }
    }

    /// One run. `expected` is what the Rust leaves of the written list, where it runs; `inside` says that nothing is
    /// outside on any reading; `kept` that the lists that are only read are as before.
    fn judge(
        &mut self,
        status: u8,
        expected: Option<Vec<u8>>,
        inside: bool,
        dst: &Written,
        kept: bool,
    ) {
        let good = match (status, &expected) {
            (DONE, Some(expected)) => dst.now() == expected,
            (OUTSIDE, _) => dst.now() == dst.before && !inside,
            _ => false,
        };
        if !good || !kept || !dst.around_kept() {
            self.differ += 1;
        } else if status == DONE {
            self.done += 1;
        } else if expected.is_none() {
            self.refused += 1;
        } else {
            self.stricter += 1;
        }
    }
}

/// What the Rust leaves of a list, and nothing where it panics.
fn by_rust(before: &[u8], run: impl FnOnce(&mut [u8])) -> Option<Vec<u8>> {
    let mut list = before.to_vec();
    catch_unwind(AssertUnwindSafe(|| run(&mut list)))
        .ok()
        .map(|()| list)
}

/// The numbers of a call; each may be moved off its place, and `inside` tells whether any was.
struct Chance<'a> {
    r: &'a mut Random,
    inside: bool,
}

impl<'a> Chance<'a> {
    fn new(r: &'a mut Random) -> Self {
        Chance { r, inside: true }
    }

    /// A length of at least `least`, at times one or a few less.
    fn length(&mut self, least: usize) -> usize {
        match self.r.below(16) {
            0 if least > 0 => {
                self.inside = false;
                least - 1
            }
            1 if self.r.once_in(4) => {
                self.inside = false;
                self.r.below(least + 1)
            }
            2..7 => least + self.r.below(9),
            _ => least,
        }
    }

    /// A number, at times another one near by or at the end of its type.
    fn number(&mut self, v: usize) -> usize {
        match self.r.below(40) {
            0 => {
                self.inside = false;
                v.saturating_sub(1 + self.r.below(4))
            }
            1 => {
                self.inside = false;
                v + 1 + self.r.below(8)
            }
            2 if self.r.once_in(4) => {
                self.inside = false;
                usize::MAX - self.r.below(80)
            }
            _ => v,
        }
    }

    /// Ten row indices below `rows`, at times one outside.
    fn indices(&mut self, rows: usize) -> [usize; 10] {
        let mut indices: [usize; 10] = std::array::from_fn(|_| self.r.below(rows));
        if self.r.once_in(16) {
            self.inside = false;
            let k = self.r.below(10);
            indices[k] = [rows, rows + 1 + self.r.below(20), usize::MAX][self.r.below(3)];
        }
        indices
    }
}

/// `n`: a multiple of 4 up to 64 or any number up to there.
fn run_length(r: &mut Random) -> usize {
    if r.once_in(3) {
        r.below(65)
    } else {
        4 * (1 + r.below(16))
    }
}

fn filter<const N: usize, T: TryFrom<i64>>(r: &mut Random, limit: i64) -> [T; N] {
    let shape = r.below(FILTER_SHAPES);
    let numbers = r.filter(shape, N, limit);
    std::array::from_fn(|i| {
        T::try_from(numbers[i])
            .ok()
            .expect("a number within its limit")
    })
}

/// A filter run over ten rows, the Rust's and the port's.
fn ten_rows<const N: usize, T: Copy + PartialEq>(
    t: &mut Tally,
    r: &mut Random,
    c: [T; N],
    rust: impl Fn(&mut [u8], &[u8], &[usize; 10], usize, &[T; N], usize),
    port: impl Fn(&mut [u8], &[u8], &[usize; 10], usize, &[T; N], usize) -> u8,
) {
    let n = run_length(r);
    let mut chance = Chance::new(r);
    let rows_len = chance.length(ROWS);
    let indices = chance.indices(10);
    let col0 = 4 + chance.r.below(ROW - 8 - n + 1);
    let (dst_len, col0, n) = (chance.length(n), chance.number(col0), chance.number(n));
    let inside = chance.inside;
    let rows = r.bytes(rows_len);
    let mut dst = Written::new(r.bytes(dst_len));
    let expected = by_rust(&dst.before, |d| rust(d, &rows, &indices, col0, &c, n));
    let lent = (rows.clone(), indices, c);
    let status = port(dst.list(), &rows, &indices, col0, &c, n);
    t.judge(status, expected, inside, &dst, lent == (rows, indices, c));
}

fn ns_run(t: &mut Tally, exec: &ExecContext, r: &mut Random) {
    let c: [i8; 16] = filter(r, 127);
    let rust = |d: &mut [u8], rows: &[u8], indices: &[usize; 10], col0, c: &[i8; 16], n| {
        runs::ns_run(exec, d, rows, indices, col0, c, n)
    };
    ten_rows(t, r, c, rust, raw::gihvendu_ns_wiener_fir_run);
}

fn pc_run(t: &mut Tally, exec: &ExecContext, r: &mut Random) {
    let limit = if r.once_in(2) { 32_767 } else { 127 };
    let mut c: [i16; 13] = filter(r, limit);
    if r.once_in(2) {
        c[12] = r.next() as i16;
    }
    let rust = |d: &mut [u8], rows: &[u8], indices: &[usize; 10], col0, c: &[i16; 13], n| {
        runs::pc_run(exec, d, rows, indices, col0, c, n)
    };
    ten_rows(t, r, c, rust, raw::gihvendu_pc_wiener_fir_run);
}

fn uv_run(t: &mut Tally, exec: &ExecContext, r: &mut Random) {
    let c: [i8; 18] = filter(r, 127);
    let n = run_length(r);
    let mut chance = Chance::new(r);
    let rows_len = chance.length(CHROMA_ROWS);
    let indices = chance.indices(5);
    let step = 1 + chance.r.below(2);
    let col0 = 2 + chance.r.below(ROW - 4 - n + 1);
    let lcol0 = 4 + chance.r.below(LUMA_ROW - 8 - n * step + 1);
    let step = if chance.r.once_in(40) {
        chance.inside = false;
        chance.r.below(200)
    } else {
        step
    };
    let dst_len = chance.length(n);
    let (col0, lcol0, n) = (chance.number(col0), chance.number(lcol0), chance.number(n));
    let inside = chance.inside;
    let rows = r.bytes(rows_len);
    let mut dst = Written::new(r.bytes(dst_len));
    let expected = by_rust(&dst.before, |d| {
        runs::uv_run(exec, d, &rows, &indices, col0, lcol0, step, &c, n)
    });
    let lent = (rows.clone(), indices, c);
    let status =
        raw::gihvendu_ns_wiener_uv_fir_run(dst.list(), &rows, &indices, col0, lcol0, step, &c, n);
    t.judge(status, expected, inside, &dst, lent == (rows, indices, c));
}

/// The edge bits, at times with higher ones.
fn edge_bits(r: &mut Random) -> usize {
    r.below(64) | if r.once_in(3) { r.below(64) << 6 } else { 0 }
}

fn beside(edges: usize, bit: usize, e: usize) -> usize {
    if edges >> bit & 1 != 0 { e } else { 0 }
}

fn own_row(t: &mut Tally, r: &mut Random) {
    let edges = edge_bits(r);
    let (w, e) = (1 + r.below(70), r.below(7));
    let (o, src_o, left_off) = (e + r.below(8), r.below(30), e + r.below(8));
    let mut chance = Chance::new(r);
    let dst_len = chance.length(o + w + e);
    let src_len = chance.length(src_o + w + beside(edges, 1, e));
    let left_len = chance.length(beside(edges, 0, left_off));
    let (o, src_o, left_off) = (
        chance.number(o),
        chance.number(src_o),
        chance.number(left_off),
    );
    let (w, e) = (chance.number(w), chance.number(e));
    let inside = chance.inside;
    let (src, left) = (r.bytes(src_len), r.bytes(left_len));
    let mut dst = Written::new(r.bytes(dst_len));
    let expected = by_rust(&dst.before, |d| {
        backup_row_8bpc(d, o, &src, src_o, &left, left_off, w, e, edges as u8)
    });
    let lent = (src.clone(), left.clone());
    let status =
        raw::gihvendu_backup_row_8bpc(dst.list(), o, &src, src_o, &left, left_off, w, e, edges);
    t.judge(status, expected, inside, &dst, lent == (src, left));
}

fn saved_row(t: &mut Tally, r: &mut Random) {
    let edges = edge_bits(r);
    let (w, e) = (1 + r.below(70), r.below(7));
    let (o, src_o) = (e + r.below(8), beside(edges, 0, e) + r.below(30));
    let mut chance = Chance::new(r);
    let dst_len = chance.length(o + w + e);
    let src_len = chance.length(src_o + w + beside(edges, 1, e));
    let (o, src_o) = (chance.number(o), chance.number(src_o));
    let (w, e) = (chance.number(w), chance.number(e));
    let inside = chance.inside;
    let src = r.bytes(src_len);
    let mut dst = Written::new(r.bytes(dst_len));
    let expected = by_rust(&dst.before, |d| {
        backup_row_lpf_8bpc(d, o, &src, src_o, w, e, edges as u8)
    });
    let lent = src.clone();
    let status = raw::gihvendu_backup_row_lpf_8bpc(dst.list(), o, &src, src_o, w, e, edges);
    t.judge(status, expected, inside, &dst, lent == src);
}

fn luma_row(t: &mut Tally, r: &mut Random) {
    let edges = edge_bits(r);
    let (ss_hor, ss_ver) = [(0, 0), (1, 0), (1, 1), (1, 1)][r.below(4)];
    let kind = r.below(3);
    let two_rows = ss_ver == 1 && kind != 2;
    let even_only = ss_ver == 1 && kind == 0;
    let w = if ss_hor == 1 {
        2 + 2 * r.below(64)
    } else {
        1 + r.below(64)
    };
    let stride = if r.once_in(4) { 0 } else { r.below(200) };
    let (o, src_o) = (4 + r.below(6), beside(edges, 0, 4) + r.below(30));
    let from_saved = r.once_in(2);
    let mut chance = Chance::new(r);
    let dst_len = chance.length(o + w + 4);
    let below = if two_rows { stride } else { 0 };
    let src_len = chance.length(src_o + below + w + beside(edges, 1, 4));
    let (o, src_o, stride) = (
        chance.number(o),
        chance.number(src_o),
        chance.number(stride),
    );
    let inside = chance.inside;
    let src = r.bytes(src_len);
    let other_len = r.below(300);
    let other = r.bytes(other_len);
    let (plane, saved) = if from_saved {
        (other, src.clone())
    } else {
        (src.clone(), other)
    };
    let mut dst = Written::new(r.bytes(dst_len));
    // With the right bit the Rust reads one column too many in kind 0: it is lent that.
    let mut wider = src;
    if even_only && edges & 2 != 0 {
        wider.push(r.below(256) as u8);
    }
    let mut expected = by_rust(&dst.before, |d| {
        backup_row_luma_8bpc(
            d,
            o,
            &wider,
            src_o,
            stride,
            w,
            edges as u8,
            ss_hor,
            ss_ver,
            kind as i32,
        )
    });
    // In kind 0 the port fills the even columns only and leaves the odd ones.
    if let (true, Some(expected)) = (even_only, &mut expected) {
        for x in (o - 3..o + w + 4).step_by(2) {
            expected[x] = dst.before[x];
        }
    }
    let lent = (plane.clone(), saved.clone());
    let status = raw::gihvendu_backup_row_luma_8bpc(
        dst.list(),
        o,
        &plane,
        &saved,
        from_saved,
        src_o,
        stride,
        w,
        edges,
        ss_hor,
        ss_ver,
        kind,
    );
    t.judge(status, expected, inside, &dst, lent == (plane, saved));
}

/// All statuses of the class index are in the table of refusals, so they are compared too; its parts against a second reading, and
/// zeros where it is refused.
fn class_index(t: &mut Tally, r: &mut Random) {
    let bh = 1 + r.below(16);
    let (bx, by) = (r.below(16), r.below(bh));
    let q = r.quantizer();
    let mut chance = Chance::new(r);
    let (rows_len, indices) = (chance.length(ROWS), chance.indices(10));
    let noskip_len = chance.length(bh);
    let bh = if chance.r.once_in(30) {
        0
    } else {
        chance.number(bh)
    };
    let (bx, by) = (chance.number(bx), chance.number(by));
    let rows = r.bytes(rows_len);
    let noskip = r.masks(noskip_len);
    let status = if bx > 15 || bh == 0 || bh > 16 || by >= bh {
        12
    } else if rows.len() < ROWS || indices.iter().any(|&i| i > 9) {
        OUTSIDE
    } else if noskip.len() < bh {
        9
    } else {
        DONE
    };
    let lent = (rows.clone(), indices, noskip.clone());
    let got = raw::gihvendu_get_class_lut_idx_8bpc(&rows, &indices, &noskip, q, bx, by, bh);
    let read = if status == DONE {
        class_parts::class_index(&rows, &indices, &noskip, q, (bx, by, bh))
    } else {
        ClassIndex::default()
    };
    let good = (got.status, got.class_index) == (status, read)
        && (status != DONE
            || read.index == runs::class_index(&rows, &indices, &noskip, q, bx, by, bh));
    if !good || lent != (rows, indices, noskip) {
        t.differ += 1;
    } else if status == DONE {
        t.done += 1;
    } else {
        t.refused += 1;
    }
}

fn quantizer_term(t: &mut Tally, r: &mut Random) {
    // Without skip an odd multiple of 4,096 gives a half before the division by 8,192, for every term.
    let (q, skip) = match r.below(4) {
        0 => (4096 * (2 * r.within(-1024, 1023) as i32 + 1), 0),
        1 => (r.next() as i32, r.below(256) as u8),
        _ => (r.quantizer(), r.below(256) as u8),
    };
    let i = if r.once_in(10) {
        [4, 5, 1 << 32, usize::MAX][r.below(4)]
    } else {
        r.below(4)
    };
    let got = raw::gihvendu_get_qval_given_tskip(q, skip, i);
    let status = if i > 3 { OUTSIDE } else { DONE };
    let good = got.status == status
        && (status != DONE || got.value == get_qval_given_tskip(q, i32::from(skip), i, 0));
    match (good, status) {
        (false, _) => t.differ += 1,
        (true, DONE) => t.done += 1,
        (true, _) => t.refused += 1,
    }
}

/// `count` runs of each leaf; whether none differs.
pub(crate) fn compare(seed: u64, count: usize) -> bool {
    let exec = ExecContext::new();
    let mut r = Random::new(seed);
    std::panic::set_hook(Box::new(|_| {}));
    let mut all = true;
    println!(
        "{:<22}{:>10}{:>10}{:>10}{:>10}",
        "leaf", "done", "refused", "stricter", "differ"
    );
    type Leaf<'a> = (&'static str, Box<dyn Fn(&mut Tally, &mut Random) + 'a>);
    let leaves: [Leaf<'_>; 8] = [
        ("ns_wiener_fir_run", Box::new(|t, r| ns_run(t, &exec, r))),
        ("pc_wiener_fir_run", Box::new(|t, r| pc_run(t, &exec, r))),
        ("ns_wiener_uv_fir_run", Box::new(|t, r| uv_run(t, &exec, r))),
        ("backup_row", Box::new(own_row)),
        ("backup_row_lpf", Box::new(saved_row)),
        ("backup_row_luma", Box::new(luma_row)),
        ("get_class_lut_idx", Box::new(class_index)),
        ("get_qval_given_tskip", Box::new(quantizer_term)),
    ];
    for (name, leaf) in leaves {
        let mut t = Tally::new(name);
        for _ in 0..count {
            leaf(&mut t, &mut r);
        }
        println!(
            "{:<22}{:>10}{:>10}{:>10}{:>10}",
            t.name, t.done, t.refused, t.stricter, t.differ
        );
        all &= t.differ == 0;
    }
    let _ = std::panic::take_hook();
    all
}
