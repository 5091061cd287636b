//! Random units restored in random lists of advances, with refused calls and overwritten rows in between, against the
//! Rust's one call.

use gihvendu::{State, raw};

use crate::calls::{self, advance};
use crate::disturb;
use crate::exec_context::ExecContext;
use crate::random::Random;
use crate::table;
use crate::units::{OPERATIONS, Operation, Unit};
use crate::whole::{draw, judge};

/// What came of the units of one operation.
#[derive(Default)]
struct Tally {
    units: usize,
    advances: usize,
    /// of these by no rows, or of a finished unit
    idle: usize,
    refused: usize,
    /// samples written over
    written: usize,
    differ: usize,
}

/// A unit on its way, beside what its plane has to hold.
struct History<'a> {
    unit: &'a Unit,
    /// the plane that the Rust restored
    restored: &'a [u8],
    state: State,
    plane: Vec<u8>,
    expected: Vec<u8>,
    done: usize,
}

impl<'a> History<'a> {
    fn new(unit: &'a Unit, restored: &'a [u8], state: State) -> Self {
        History {
            unit,
            restored,
            state,
            plane: unit.plane.clone(),
            expected: unit.plane.clone(),
            done: 0,
        }
    }

    /// The places of a row's samples.
    fn row(&self, y: usize) -> std::ops::Range<usize> {
        let at = self.unit.off + y * self.unit.stride;
        at..at + self.unit.w
    }

    /// Whether the state says how far the unit is.
    fn told(&self) -> bool {
        self.state.rows_done() == self.done && self.state.finished() == (self.done == self.unit.h)
    }

    /// The unit's own advance: the rows that it finishes have the Rust's samples, all else is as it was.
    fn advance(&mut self, count: usize) -> bool {
        let from = self.done;
        self.done = from.saturating_add(count).min(self.unit.h);
        for y in from..self.done {
            let row = self.row(y);
            self.expected[row.clone()].copy_from_slice(&self.restored[row]);
        }
        let ran = advance(self.unit, &mut self.state, count, &self.plane);
        self.plane.clone_from(&ran.plane);
        let pieces = self.unit.pieces(from..self.done);
        judge(self.unit, ran, (Ok(pieces), &self.expected), true) && self.told()
    }

    /// A call that the table refuses, of any operation, lent anything, over this plane or another: nothing changes.
    fn refused(&mut self, r: &mut Random) -> bool {
        let count = r.below(80);
        let before = self.state.clone();
        let (mut lent, status) = loop {
            let mut lent = self.unit.clone();
            if r.once_in(4) {
                lent.op = OPERATIONS[r.below(4)];
            }
            for _ in 0..1 + r.below(2) {
                disturb::unit(r, &mut lent);
            }
            let status = table::advance_status(&raw::State::from(before.clone()), &lent);
            if status != 0 {
                break (lent, status);
            }
        };
        // A disturbed unit's plane may have another length: the call is over another plane then.
        let plane = if lent.plane.len() == self.plane.len() {
            &self.plane
        } else {
            &lent.plane.clone()
        };
        lent.plane.clone_from(plane);
        let ran = advance(&lent, &mut self.state, count, plane);
        judge(&lent, ran, (Err(status), plane), true) && self.state == before && self.told()
    }

    /// Any bytes on some samples of a finished row; how many.
    fn write(&mut self, r: &mut Random) -> usize {
        let row = self.row(r.below(self.done));
        let from = row.start + r.below(row.len());
        let to = from + 1 + r.below(row.end - from);
        for at in from..to {
            let sample = r.next() as u8;
            (self.plane[at], self.expected[at]) = (sample, sample);
        }
        to - from
    }

    /// Whether the state is the one that a single advance by the same rows would have handed back.
    fn as_in_one(&self, mut opened: State) -> bool {
        let ran = advance(self.unit, &mut opened, self.done, &self.unit.plane);
        ran.answer.is_ok() && opened == self.state
    }
}

/// How far an advance is to go.
fn count(r: &mut Random, h: usize) -> usize {
    match r.below(8) {
        0 => 0,
        1..4 => 1,
        4 => 1 + r.below(4),
        5 => r.below(h + 2),
        6 => usize::MAX - r.below(3),
        _ => 1 + r.below(9),
    }
}

/// What is done after the opening and after each event of a list: it may replace the state, and says whether that went as it
/// has to.
type Between<'a> = &'a mut dyn FnMut(&mut State) -> bool;

/// One unit in a random list; whether all of it is as it has to be.
fn history(
    t: &mut Tally,
    r: &mut Random,
    exec: &ExecContext,
    u: &Unit,
    between: Between<'_>,
) -> bool {
    let mut restored = u.plane.clone();
    u.for_rust().restore(exec, &mut restored);
    let begun = calls::open(u);
    let Ok(opened) = begun.answer else {
        return false;
    };
    let mut history = History::new(u, &restored, opened.clone());
    let mut good = begun.kept && history.told() && between(&mut history.state);
    // Some lists end before the unit is finished; others go on after it for a while.
    let steps = 1 + r.below(2 * u.h + 8);
    let slow = r.once_in(2);
    for _ in 0..steps {
        if history.done == u.h && r.once_in(4) {
            break;
        }
        good &= match r.below(8) {
            0 | 1 => {
                t.refused += 1;
                history.refused(r)
            }
            2 | 3 if history.done > 0 => {
                t.written += history.write(r);
                true
            }
            _ => {
                let rows = if slow { r.below(3) } else { count(r, u.h) };
                t.advances += 1;
                t.idle += usize::from(rows == 0 || history.done == u.h);
                history.advance(rows)
            }
        };
        good &= between(&mut history.state);
    }
    good && history.as_in_one(opened)
}

/// `count` units of each operation; whether none differs.
pub(crate) fn compare(seed: u64, count: usize) -> bool {
    run(seed, count, &mut |_| true)
}

/// The same with something more between the events.
pub(crate) fn run(seed: u64, count: usize, between: Between<'_>) -> bool {
    let exec = ExecContext::new();
    let mut r = Random::new(seed);
    let mut all = true;
    println!(
        "{:<22}{:>10}{:>10}{:>10}{:>10}{:>10}{:>10}",
        "operation", "units", "advances", "idle", "refused", "written", "differ"
    );
    for op in OPERATIONS {
        let mut t = Tally::default();
        for k in 0..count {
            let u = draw(&mut r, op, k);
            t.units += 1;
            let good = history(&mut t, &mut r, &exec, &u, between);
            t.differ += usize::from(!good);
        }
        print_line(op, &t);
        all &= t.differ == 0;
    }
    all
}

fn print_line(op: Operation, t: &Tally) {
    println!(
        "{:<22}{:>10}{:>10}{:>10}{:>10}{:>10}{:>10}",
        op.name(),
        t.units,
        t.advances,
        t.idle,
        t.refused,
        t.written,
        t.differ
    );
}
