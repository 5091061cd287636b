//! Where the Rust behaves otherwise: each intended difference at a smallest input, and what both do there.

use std::fmt;
use std::panic::{AssertUnwindSafe, catch_unwind};

use gihvendu::{get_class_lut_idx_8bpc, raw};

use crate::calls;
use crate::exec_context::ExecContext;
use crate::looprestoration::{backup_row_8bpc, backup_row_luma_8bpc, get_qval_given_tskip};
use crate::runs::{self, ROWS};
use crate::tables::PC_WIENER_LUT_TO_CLASS;
use crate::units::{Operation, Unit};

#[derive(Clone, Debug, PartialEq, Eq)]
enum Outcome {
    Works,
    Panics,
    Refuses(u8),
    Leaves(Vec<u8>),
}

use Outcome::{Leaves, Panics, Refuses, Works};

impl fmt::Display for Outcome {
    fn fmt(&self, f: &mut fmt::Formatter<'_>) -> fmt::Result {
        match self {
            Works => f.pad("works"),
            Panics => f.pad("panics"),
            Refuses(number) => f.pad(&format!("refuses: {number}")),
            Leaves(bytes) => f.pad(&format!("{bytes:?}")),
        }
    }
}

fn by_rust<T>(run: impl FnOnce() -> T) -> Outcome {
    match catch_unwind(AssertUnwindSafe(run)) {
        Ok(_) => Works,
        Err(_) => Panics,
    }
}

fn status(number: u8) -> Outcome {
    if number == 0 { Works } else { Refuses(number) }
}

/// A 4 by 4 unit of flat samples, 4:2:0 with the mean of two rows where it is chroma, whose lists are as short as may be.
fn smallest(op: Operation, edges: usize) -> Unit {
    let beside = |bit: usize, n: usize| if edges & bit == 0 { 0 } else { n };
    let flat = |n: usize| vec![100; n];
    let chroma = op == Operation::Chroma;
    let (stride, luma_stride) = (4 + beside(2, op.border()), 8 + beside(2, 4));
    let filters = match op {
        Operation::Luma => 16,
        Operation::Pretrained => 13,
        _ => 18,
    };
    Unit {
        op,
        w: 4,
        h: 4,
        edges,
        stride,
        luma_stride,
        off: 0,
        top_off: 0,
        bottom_off: 0,
        luma_off: 0,
        luma_top_off: 0,
        luma_bottom_off: 0,
        ss_hor: 1,
        ss_ver: 1,
        kind: 1,
        plane: flat(4 * stride),
        left: flat(beside(1, 6 * 4)),
        top: flat(beside(4, 2 * stride)),
        bottom: flat(beside(8, 2 * stride)),
        luma_plane: flat(if chroma { 8 * luma_stride } else { 0 }),
        luma_top: flat(beside(4, 2 * luma_stride)),
        luma_bottom: flat(beside(8, 2 * luma_stride)),
        skip: vec![0; 4],
        noskip: vec![0],
        map: PC_WIENER_LUT_TO_CLASS.to_vec(),
        subclass: vec![0; 64],
        filters: vec![1; filters],
        q: 0,
        least: [0; 6],
    }
}

/// What the Rust and the port do with a unit.
fn both(exec: &ExecContext, u: &Unit, lent_more: bool) -> (Outcome, Outcome) {
    let lent = if lent_more { u.for_rust() } else { u.as_lent() };
    let rust = by_rust(|| lent.restore(exec, &mut u.plane.clone()));
    let port = calls::whole(u).answer;
    (rust, status(port.err().unwrap_or(0)))
}

/// Units that are off in one thing: its name, the unit, and what both are expected to do.
fn units() -> Vec<(&'static str, Unit, Outcome, Outcome)> {
    let unit = |op, edges, change: &dyn Fn(&mut Unit)| {
        let mut u = smallest(op, edges);
        change(&mut u);
        u
    };
    let luma = |edges, change: &dyn Fn(&mut Unit)| unit(Operation::Luma, edges, change);
    let user = |change: &dyn Fn(&mut Unit)| unit(Operation::User, 0, change);
    let chroma = |edges, change: &dyn Fn(&mut Unit)| unit(Operation::Chroma, edges, change);
    let six_wide = |u: &mut Unit| (u.w, u.stride, u.plane) = (6, 6, vec![100; 24]);
    let six_high = |u: &mut Unit| {
        (u.h, u.plane) = (6, vec![100; 24]);
        (u.left, u.skip) = (vec![100; 36], vec![0; 8]);
    };
    let far = |u: &mut Unit| (u.stride, u.plane) = (65_537, vec![100; 3 * 65_537 + 4]);
    // With the left bit the luma starts four samples in.
    let short_luma = |u: &mut Unit| (u.luma_off, u.luma_plane) = (4, vec![100; 4 + 64 - 1]);
    let kind_0 = |more: usize| {
        move |u: &mut Unit| {
            (u.kind, u.luma_off, u.luma_plane) = (0, 4, vec![100; 4 + 8 * 12 + more]);
        }
    };
    // All samples are flat, so that every block has one class, which is not the last.
    let unreached = |u: &mut Unit| u.subclass[63] = 1;
    vec![
        ("w = 6", luma(0, &six_wide), Works, Refuses(1)),
        ("w = 0", luma(0, &|u| u.w = 0), Panics, Refuses(1)),
        ("h = 6", luma(0, &six_high), Works, Refuses(2)),
        (
            "stride 3 under w = 4",
            luma(0, &|u| u.stride = 3),
            Works,
            Refuses(3),
        ),
        ("stride 65,537", luma(0, &far), Works, Refuses(3)),
        (
            "pair (0, 1)",
            chroma(0, &|u| u.ss_hor = 0),
            Works,
            Refuses(4),
        ),
        ("kind 3", chroma(0, &|u| u.kind = 3), Works, Refuses(4)),
        (
            "plane one short",
            luma(0, &|u| u.plane.truncate(15)),
            Panics,
            Refuses(5),
        ),
        (
            "left one row short",
            luma(1, &|u| u.left.truncate(18)),
            Panics,
            Refuses(6),
        ),
        (
            "top one short",
            luma(4, &|u| u.top.truncate(7)),
            Panics,
            Refuses(7),
        ),
        (
            "bottom one short",
            luma(8, &|u| u.bottom.truncate(7)),
            Panics,
            Refuses(8),
        ),
        (
            "skip one short",
            luma(0, &|u| u.skip.truncate(3)),
            Panics,
            Refuses(9),
        ),
        ("no noskip", user(&|u| u.noskip.clear()), Panics, Refuses(9)),
        (
            "a subclass past the sets",
            user(&|u| u.subclass.fill(1)),
            Panics,
            Refuses(10),
        ),
        (
            "the same, not reached",
            user(&unreached),
            Works,
            Refuses(10),
        ),
        (
            "luma one short",
            chroma(1, &short_luma),
            Panics,
            Refuses(11),
        ),
        ("no left list, no left bit", luma(0, &|_| {}), Panics, Works),
        (
            "kind 0, luma to its last sample",
            chroma(3, &kind_0(0)),
            Panics,
            Works,
        ),
        (
            "kind 0, luma one byte longer",
            chroma(3, &kind_0(1)),
            Works,
            Works,
        ),
    ]
}

/// The same of leaves.
fn leaves(exec: &ExecContext) -> Vec<(&'static str, [Outcome; 2], [Outcome; 2])> {
    let (rows, noskip) = ([100; ROWS], [0; 16]);
    let indices = [0, 1, 2, 3, 4, 5, 6, 7, 8, 9];
    let class = |bx, by, bh| {
        let port = get_class_lut_idx_8bpc(&rows, &indices, &noskip, 0, bx, by, bh);
        [
            by_rust(|| runs::class_index(&rows, &indices, &noskip, 0, bx, by, bh)),
            status(port.map_or_else(|refusal| refusal.number(), |_| 0)),
        ]
    };
    let run = |col0: usize, indices: &[usize; 10]| {
        let (c, mut dst) = ([0; 13], [0]);
        let port = raw::gihvendu_pc_wiener_fir_run(&mut dst, &rows, indices, col0, &c, 1);
        [
            by_rust(|| runs::pc_run(exec, &mut dst, &rows, indices, col0, &c, 1)),
            status(port),
        ]
    };
    let no_samples = {
        let mut dst = [0; 8];
        let port = raw::gihvendu_backup_row_8bpc(&mut dst, 4, &[9], 0, &[], 0, 0, 4, 0);
        [
            by_rust(|| backup_row_8bpc(&mut dst, 4, &[9], 0, &[], 0, 0, 4, 0)),
            status(port),
        ]
    };
    // Columns -4 to 5 of two samples with the left and the right bit; the Rust is lent the one column more.
    let odd_columns = {
        let src: Vec<u8> = (0..22).map(|i| 10 * (i % 11)).collect();
        let (mut rust, mut port) = ([255; 10], [255; 10]);
        backup_row_luma_8bpc(&mut rust, 4, &src, 4, 11, 2, 3, 1, 1, 0);
        raw::gihvendu_backup_row_luma_8bpc(&mut port, 4, &src, &[], false, 4, 11, 2, 3, 1, 1, 0);
        [Leaves(rust.to_vec()), Leaves(port.to_vec())]
    };
    let columns = [5, 15, 25, 35, 45, 255, 65, 75, 85, 95].to_vec();
    let even = [5, 255, 25, 255, 45, 255, 65, 255, 85, 255].to_vec();
    let term = raw::gihvendu_get_qval_given_tskip(0, 0, 4).status;
    let fourth = [by_rust(|| get_qval_given_tskip(0, 0, 4, 0)), status(term)];
    vec![
        (
            "class index, bx = 16",
            class(16, 0, 1),
            [Works, Refuses(12)],
        ),
        (
            "class index, no block rows",
            class(0, 0, 0),
            [Panics, Refuses(12)],
        ),
        (
            "class index, by = block rows",
            class(0, 1, 1),
            [Works, Refuses(12)],
        ),
        ("term 4", fourth, [Panics, Refuses(5)]),
        ("a row index of 10", run(6, &[10; 10]), [Panics, Refuses(5)]),
        (
            "pretrained run at column 3",
            run(3, &indices),
            [Works, Refuses(5)],
        ),
        ("padding of no samples", no_samples, [Panics, Refuses(5)]),
        (
            "kind 0, odd columns",
            odd_columns,
            [Leaves(columns), Leaves(even)],
        ),
    ]
}

/// Prints each; whether all are as said.
pub(crate) fn compare() -> bool {
    let exec = ExecContext::new();
    std::panic::set_hook(Box::new(|_| {}));
    let mut all = true;
    println!("{:<34}{:<44}port", "input", "Rust");
    let mut line = |name: &str, got: [Outcome; 2], expected: [Outcome; 2]| {
        let as_said = got == expected;
        let note = if as_said { "" } else { "  (not as said)" };
        println!("{name:<34}{:<44}{}{note}", got[0], got[1]);
        all &= as_said;
    };
    for (name, u, rust, port) in units() {
        // The two readings of too much show where the Rust is lent no more than the port; elsewhere it is lent them.
        let lent_more = port != Works && u.left.is_empty();
        let got = both(&exec, &u, lent_more);
        line(name, [got.0, got.1], [rust, port]);
    }
    for (name, got, expected) in leaves(&exec) {
        line(name, got, expected);
    }
    let _ = std::panic::take_hook();
    all
}
