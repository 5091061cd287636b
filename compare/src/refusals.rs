//! Every refusal, at the limit and one step past it, and random units and states near the limits: statuses as a second
//! reading of the table gives them, and nothing written where refused.

use std::panic::{AssertUnwindSafe, catch_unwind};

use gihvendu::{State, get_class_lut_idx_8bpc, raw};

use crate::calls;
use crate::disturb::{self, KNOBS, Knob};
use crate::exec_context::ExecContext;
use crate::random::Random;
use crate::runs::{self, ROWS};
use crate::table;
use crate::units::{OPERATIONS, Operation, Spacing, Unit};
use crate::whole::{judge, same_as_rust};

/// What came of the calls of one operation: how many for each status 0 to 13, and how many differ.
#[derive(Default)]
struct Tally {
    statuses: [usize; 14],
    differ: usize,
}

impl Tally {
    fn add(&mut self, status: u8, good: bool) {
        self.statuses[usize::from(status)] += 1;
        self.differ += usize::from(!good);
    }

    fn print(&self, name: &str) {
        print!("{name:<28}");
        for count in self.statuses {
            print!("{count:>8}");
        }
        println!("{:>8}", self.differ);
    }
}

struct Run {
    exec: ExecContext,
    r: Random,
}

impl Run {
    /// A whole unit: restored as the Rust does it, or refused.
    fn whole(&mut self, t: &mut Tally, u: &Unit) {
        let status = table::unit_status(&calls::given(u), u);
        let first = t.differ == 0;
        let good = if status == 0 {
            let run = || same_as_rust(&self.exec, u, first);
            catch_unwind(AssertUnwindSafe(run)).unwrap_or(false)
        } else {
            judge(u, calls::whole(u), (Err(status), &u.plane), first)
        };
        t.add(status, good);
    }

    /// An opening: a state of the unit's numbers, or of zeros.
    fn open(&mut self, t: &mut Tally, u: &Unit) {
        let given = calls::given(u);
        let status = table::unit_status(&given, u);
        let begun = calls::open(u);
        let good = match begun.answer {
            Ok(_) => status == 0 && begun.state.given == given && begun.state.done == 0,
            Err(number) => status == number && begun.state == raw::State::default(),
        };
        t.add(status, good && begun.kept);
    }

    /// An advance of a state that may be forged: it goes on, or hands the state back as it came.
    fn advance(&mut self, t: &mut Tally, u: &Unit, state: raw::State) {
        let status = table::advance_status(&state, u);
        let count = [0, 1, 2, 5, 64, usize::MAX][self.r.below(6)];
        let mut after = State::from(state.clone());
        let ran = calls::advance(u, &mut after, count, &u.plane);
        let after = raw::State::from(after);
        let good = if status == 0 {
            let g = state.given;
            let rows = state.done..state.done.saturating_add(count).min(g.h);
            let mut expected = state.clone();
            expected.done = rows.end;
            (expected.next, expected.classes) = (after.next, after.classes);
            (expected.indices, expected.rows) = (after.indices, after.rows);
            ran.kept
                && ran.answer
                    == Ok(Unit {
                        w: g.w,
                        ..u.clone()
                    }
                    .pieces(rows.clone()))
                && expected == after
                && outside_kept(&g, rows, &u.plane, &ran.plane)
        } else {
            after == state && judge(u, ran, (Err(status), &u.plane), t.differ == 0)
        };
        t.add(status, good);
    }

    /// A class index near its limits.
    fn class_index(&mut self, t: &mut Tally) {
        let r = &mut self.r;
        let near = |r: &mut Random, v: usize| match r.below(12) {
            0 => v.wrapping_sub(1),
            1 => v + 1,
            2 => usize::MAX - r.below(3),
            _ => v,
        };
        let bh = [1, 2, 4, 16][r.below(4)];
        let bx = [0, 1, 14, 15][r.below(4)];
        let by = [0, bh - 1][r.below(2)];
        let block = (near(r, bx), near(r, by), near(r, bh));
        let rows = [ROWS, ROWS, ROWS, ROWS - 1, ROWS + 1, 0][r.below(6)];
        let (rows, masks) = (r.bytes(rows), near(r, bh).min(20));
        let noskip = r.masks(masks);
        let mut indices = std::array::from_fn(|_| r.below(10));
        if r.once_in(8) {
            indices[r.below(10)] = [10, 11, usize::MAX][r.below(3)];
        }
        let q = r.quantizer();
        let status = table::class_status(&rows, &indices, &noskip, block);
        let (bx, by, bh) = block;
        let got = get_class_lut_idx_8bpc(&rows, &indices, &noskip, q, bx, by, bh);
        let good = if status == 0 {
            let rust = runs::class_index(&rows, &indices, &noskip, q, bx, by, bh);
            got.is_ok_and(|class| class.index == rust)
        } else {
            got.is_err_and(|refusal| refusal.number() == status)
        };
        t.add(status, good);
    }
}

/// Whether all bytes but the samples of these rows are as before.
fn outside_kept(g: &raw::Given, rows: std::ops::Range<usize>, before: &[u8], after: &[u8]) -> bool {
    let mut expected = before.to_vec();
    for y in rows {
        let row = g.off + y * g.stride..g.off + y * g.stride + g.w;
        expected[row.clone()].copy_from_slice(&after[row]);
    }
    expected == after
}

/// A unit whose lists end where they may, or little further. `far`: of the least size and the greatest strides.
fn draw(r: &mut Random, op: Operation, far: bool) -> Unit {
    let size = |r: &mut Random| if far { 4 } else { [4, 8, 12, 64][r.below(4)] };
    let (w, h) = (size(r), size(r));
    let (edges, room) = (r.below(64) as u8, 1 + r.below(4));
    let spacing = Spacing {
        room,
        stride: far.then_some(65_536),
        ..Spacing::default()
    };
    Unit::spaced(r, op, edges, w, h, spacing)
}

/// A state with one number at its limit, and one past it.
fn state_limit(u: &Unit, opened: &raw::State, k: usize) -> (raw::State, raw::State) {
    let (mut at, mut past) = (opened.clone(), opened.clone());
    let rows = if u.op == Operation::Chroma { 5 } else { 10 };
    match k % 4 {
        0 => (at.done, past.done) = (u.h, u.h + 1),
        1 => (at.next, past.next) = ((rows - 1).min(8), rows.min(9)),
        2 => (at.indices[k / 4 % 10], past.indices[k / 4 % 10]) = (rows - 1, rows),
        _ if u.op.classed() => {
            let sets = u.filters.len() / if u.op == Operation::User { 18 } else { 13 };
            let class = k / 4 % 16;
            (at.classes[class], past.classes[class]) = (sets as u8 - 1, sets as u8);
        }
        // any number but the operation's own, which is one more than its place
        _ => past.op = (u.op as usize + 2 + k / 4 % 5) % 6,
    }
    (at, past)
}

/// The unit moved by single steps as far as it is not refused, and one step further.
fn limit(u: &Unit, knob: Knob, by: isize) -> Option<(Unit, Unit)> {
    let mut at = u.clone();
    for _ in 0..200 {
        let mut past = at.clone();
        if !knob.turn(&mut past, by) {
            return None;
        }
        if table::unit_status(&calls::given(&past), &past) != 0 {
            return Some((at, past));
        }
        at = past;
    }
    None
}

/// `count` units of each operation at all their limits, and as many disturbed ones; whether none differs.
pub(crate) fn compare(seed: u64, count: usize) -> bool {
    let mut run = Run {
        exec: ExecContext::new(),
        r: Random::new(seed),
    };
    print!("{:<28}", "operation");
    (0..14).for_each(|status| print!("{status:>8}"));
    println!("{:>8}", "differ");
    let mut differ = 0;
    let mut print = |name: String, t: &Tally| {
        t.print(&name);
        differ += t.differ;
    };
    for op in OPERATIONS {
        let (mut limits, mut whole) = (Tally::default(), Tally::default());
        let (mut open, mut advance) = (Tally::default(), Tally::default());
        for k in 0..count {
            let knob = KNOBS[k % KNOBS.len()];
            let far = matches!(knob, Knob::Stride | Knob::LumaStride) && run.r.once_in(4);
            let u = draw(&mut run.r, op, far);
            for (at, past) in [-1, 1].into_iter().filter_map(|by| limit(&u, knob, by)) {
                run.whole(&mut limits, &at);
                run.whole(&mut limits, &past);
            }
            let opened = calls::open(&u).state;
            let (at, past) = state_limit(&u, &opened, k);
            run.advance(&mut limits, &u, at);
            run.advance(&mut limits, &u, past);
            let mut disturbed = u;
            for _ in 0..1 + run.r.below(2) {
                disturb::unit(&mut run.r, &mut disturbed);
            }
            run.whole(&mut whole, &disturbed);
            run.open(&mut open, &disturbed);
            let mut state = opened;
            state.given = calls::given(&disturbed);
            for _ in 0..run.r.below(3) {
                disturb::state(&mut run.r, &mut state);
            }
            run.advance(&mut advance, &disturbed, state);
        }
        print(format!("{}, limits", op.name()), &limits);
        print(format!("{}, whole", op.name()), &whole);
        print(format!("{}, open", op.name()), &open);
        print(format!("{}, advance", op.name()), &advance);
    }
    let mut t = Tally::default();
    (0..count).for_each(|_| run.class_index(&mut t));
    print("get_class_lut_idx".to_string(), &t);
    differ == 0
}
