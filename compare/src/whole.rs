//! Random whole units, restored by the port and by the Rust on copies of the same plane.

use crate::calls::{self, Ran};
use crate::exec_context::ExecContext;
use crate::random::Random;
use crate::units::{OPERATIONS, Operation, Spacing, Unit};

const LEFT: usize = 1;
const BOTTOM_INTEGRATED: usize = 32;

/// What came of the units of one operation.
#[derive(Default)]
struct Tally {
    /// restored by both, all bytes of the plane and the pieces compared
    units: usize,
    /// of these with left samples, the bottom integrated and a stride under w + e: a border sample is one of the rectangle
    tight: usize,
    /// calls with a list one shorter than its least length that gave the table's number and changed nothing
    refused: usize,
    differ: usize,
}

/// Whether the port makes of a unit what the Rust does: every byte of the plane, and the pieces. Says how the first of
/// some units differs.
pub(crate) fn same_as_rust(exec: &ExecContext, u: &Unit, first: bool) -> bool {
    let mut expected = u.plane.clone();
    u.for_rust().restore(exec, &mut expected);
    judge(u, calls::whole(u), (Ok(u.pieces(0..u.h)), &expected), first)
}

/// Whether a run answered and left what is expected, and kept all else.
pub(crate) fn judge(
    u: &Unit,
    ran: Ran,
    (answer, plane): (Result<usize, u8>, &[u8]),
    first: bool,
) -> bool {
    let good = ran.answer == answer && ran.plane == plane && ran.kept;
    if !good && first {
        let at = (0..plane.len()).find(|&i| ran.plane[i] != plane[i]);
        let (got, kept) = (ran.answer, ran.kept);
        eprintln!("{got:?} for {answer:?}, first byte {at:?}, kept {kept}: {u:?}");
    }
    good
}

/// The unit with one list that is one shorter than its least length, and the refusal's number.
fn shorter(r: &mut Random, u: &Unit) -> (Unit, u8) {
    let mut u = u.clone();
    let status = loop {
        let list = r.below(12);
        if let Some(&least) = u.least.get(list) {
            if least == 0 {
                continue;
            }
            let rows = [
                &mut u.plane,
                &mut u.top,
                &mut u.bottom,
                &mut u.luma_plane,
                &mut u.luma_top,
                &mut u.luma_bottom,
            ];
            rows[list].truncate(least - 1);
            break [5, 7, 8, 11, 11, 11][list];
        }
        match list {
            6 if !u.left.is_empty() => {
                u.left.truncate(6 * u.h - 1);
                break 6;
            }
            7 => {
                u.skip.truncate(u.h - 1);
                break 9;
            }
            8 if u.op.classed() => {
                u.noskip.truncate(u.h / 4 - 1);
                break 9;
            }
            9 => {
                u.filters.pop();
                break 10;
            }
            10 if u.op.classed() => {
                u.subclass.pop();
                break 10;
            }
            11 if u.op.classed() => {
                u.map.pop();
                break 10;
            }
            _ => {}
        }
    };
    (u, status)
}

/// A unit of any size, of the edge sets and of the shapes of filters in turn.
pub(crate) fn draw(r: &mut Random, op: Operation, k: usize) -> Unit {
    let (w, h) = if r.once_in(2) {
        (4 + 4 * r.below(16), 4 + 4 * r.below(16))
    } else {
        (4 + 4 * r.below(3), 4 + 4 * r.below(3))
    };
    let spacing = Spacing {
        room: [4, 4, 4, 100][r.below(4)],
        ..Spacing::default()
    };
    let mut u = Unit::spaced(r, op, (k % 64) as u8, w, h, spacing);
    u.reshape_filters(r, k);
    u
}

/// `count` units of each operation, every third also with a list that is too short; whether none differs.
pub(crate) fn compare(seed: u64, count: usize) -> bool {
    let exec = ExecContext::new();
    let mut r = Random::new(seed);
    let mut all = true;
    println!(
        "{:<22}{:>10}{:>10}{:>10}{:>10}",
        "operation", "units", "tight", "refused", "differ"
    );
    for op in OPERATIONS {
        let mut t = Tally::default();
        for k in 0..count {
            let u = draw(&mut r, op, k);
            t.units += 1;
            t.differ += usize::from(!same_as_rust(&exec, &u, t.differ == 0));
            let both = LEFT | BOTTOM_INTEGRATED;
            t.tight += usize::from(u.edges & both == both && u.stride < u.w + op.border());
            if k % 3 == 0 {
                let (u, status) = shorter(&mut r, &u);
                let good = judge(&u, calls::whole(&u), (Err(status), &u.plane), t.differ == 0);
                t.refused += usize::from(good);
                t.differ += usize::from(!good);
            }
        }
        println!(
            "{:<22}{:>10}{:>10}{:>10}{:>10}",
            op.name(),
            t.units,
            t.tight,
            t.refused,
            t.differ
        );
        all &= t.differ == 0;
    }
    all
}
