//! The refusals of a whole plane, at each limit and past it, one fault alone and several at once: statuses as a second
//! reading of the table gives them, and nothing written where refused.

use crate::exec_context::ExecContext;
use crate::planes::{Call, Readings, SIZES, skip_numbers};
use crate::random::Random;

/// The statuses, as they are told first.
const STATUSES: [u8; 6] = [0, 15, 5, 9, 10, 16];

/// Sides at their limits, off them, and so large that their product wraps.
const SIDES: [usize; 20] = [
    0,
    1,
    2,
    3,
    4,
    5,
    6,
    8,
    1_020,
    1_022,
    1_023,
    1_024,
    1_025,
    1_026,
    1_028,
    65_536,
    1 << 32,
    1 << 63,
    usize::MAX - 3,
    usize::MAX,
];

/// The same of unit sizes.
const UNITS: [usize; 20] = [
    0,
    1,
    2,
    3,
    4,
    5,
    6,
    8,
    60,
    62,
    63,
    64,
    65,
    66,
    68,
    128,
    1 << 32,
    1 << 63,
    usize::MAX - 3,
    usize::MAX,
];

/// Planes whose lists are tried at their limits: the smallest, one and two numbers to a block row, the longest sides.
const PLANES: [(usize, usize); 6] = [
    (4, 4),
    (64, 8),
    (68, 8),
    (1_024, 12),
    (4, 1_024),
    (1_020, 8),
];

/// The faults: two sides, the unit size, and the lengths of four lists.
const FAULTS: usize = 7;

/// The table's lines of a whole plane. No product wraps, since the sides come first.
fn status(c: &Call) -> u8 {
    let within = |v: usize, most: usize| (4..=most).contains(&v) && v.is_multiple_of(4);
    if !within(c.w, 1_024) || !within(c.h, 1_024) || !within(c.unit, 64) {
        15
    } else if c.plane.len() < c.w * c.h {
        5
    } else if c.skip.len() < skip_numbers(c.w, c.h) {
        9
    } else if c.filter.len() != 16 {
        10
    } else if c.scratch.len() < 8 * c.w {
        16
    } else {
        0
    }
}

/// What came of some calls: how many for each status, and how many differ.
#[derive(Default)]
struct Tally {
    statuses: [usize; STATUSES.len()],
    differ: usize,
}

struct Run<'a> {
    exec: &'a ExecContext,
    r: &'a mut Random,
    /// calls so far, which the shapes of filters go round with
    calls: usize,
}

impl Run<'_> {
    /// A call with lists that are long enough for sides that are a little too long; for others they are of some plane.
    fn lent(&mut self, (w, h): (usize, usize), unit: usize) -> Call {
        let near = |side: usize| if side > 1_028 { 8 } else { side.max(1) };
        let mut c = Call::new(self.r, (near(w), near(h)), unit, self.calls);
        (c.w, c.h, c.count) = (w, h, [0, 1, 2, usize::MAX][self.r.below(4)]);
        self.calls += 1;
        c
    }

    /// The call has its status, and does what both readings say or changes nothing.
    fn ask(&mut self, t: &mut Tally, c: &Call) {
        let (status, first) = (status(c), t.differ == 0);
        let good = if status == 0 {
            Readings::new(self.exec, c).judge(c, first)
        } else {
            c.refused(status, first)
        };
        let at = STATUSES.iter().position(|&s| s == status);
        t.statuses[at.expect("a status of the table")] += 1;
        t.differ += usize::from(!good);
    }

    /// All pairs of sides, and all unit sizes.
    fn numbers(&mut self, t: &mut Tally) {
        for (i, w) in SIDES.into_iter().enumerate() {
            for (j, h) in SIDES.into_iter().enumerate() {
                let c = self.lent((w, h), 4 + 4 * ((i + j) % SIZES));
                self.ask(t, &c);
            }
        }
        for unit in UNITS {
            for sides in PLANES {
                let c = self.lent(sides, unit);
                self.ask(t, &c);
            }
        }
    }

    /// Each list as short as may be, one shorter and empty; a filter of one more.
    fn lengths(&mut self, t: &mut Tally) {
        for sides in PLANES {
            let unit = 4 + 4 * self.r.below(SIZES);
            let c = self.lent(sides, unit);
            self.ask(t, &c);
            for list in 3..FAULTS {
                for by in [1, usize::MAX] {
                    let mut c = c.clone();
                    shorten(&mut c, list, by);
                    self.ask(t, &c);
                }
            }
            let mut c = c;
            c.filter.push(0);
            self.ask(t, &c);
        }
    }

    /// Every set of faults.
    fn sets(&mut self, t: &mut Tally) {
        for sides in PLANES {
            for set in 0..1 << FAULTS {
                let unit = 4 + 4 * self.r.below(SIZES);
                let mut c = self.lent(sides, unit);
                for fault in (0..FAULTS).filter(|fault| set >> fault & 1 != 0) {
                    shorten(&mut c, fault, 1);
                }
                self.ask(t, &c);
            }
        }
    }

    /// A small plane with up to three of its numbers and lengths moved a little, or a number far.
    fn moved(&mut self, t: &mut Tally) {
        let side = |r: &mut Random| 4 + 4 * r.below(20);
        let (sides, unit) = ((side(self.r), side(self.r)), 4 + 4 * self.r.below(SIZES));
        let mut c = self.lent(sides, unit);
        for _ in 0..self.r.below(4) {
            let by = self.r.within(-4, 4) as isize;
            match self.r.below(FAULTS) {
                fault @ 0..3 => {
                    let far = [SIDES, UNITS][fault / 2][self.r.below(20)];
                    let number = number(&mut c, fault);
                    let near = number.wrapping_add_signed(by);
                    *number = [near, near, far][self.r.below(3)];
                }
                3 => resize(&mut c.plane, by),
                4 => resize(&mut c.skip, by),
                5 => resize(&mut c.filter, by),
                _ => resize(&mut c.scratch, by),
            }
        }
        self.ask(t, &c);
    }
}

/// One of the three numbers that have limits.
fn number(c: &mut Call, fault: usize) -> &mut usize {
    [&mut c.w, &mut c.h, &mut c.unit][fault]
}

/// Makes a number or a list less by some, or nothing.
fn shorten(c: &mut Call, fault: usize, by: usize) {
    fn cut<T>(list: &mut Vec<T>, by: usize) {
        list.truncate(list.len().saturating_sub(by));
    }
    match fault {
        0..3 => *number(c, fault) -= by,
        3 => cut(&mut c.plane, by),
        4 => cut(&mut c.skip, by),
        5 => cut(&mut c.filter, by),
        _ => cut(&mut c.scratch, by),
    }
}

/// A list some entries longer or shorter.
fn resize<T: Clone + Default>(list: &mut Vec<T>, by: isize) {
    list.resize(list.len().saturating_add_signed(by), T::default());
}

/// All limits, and `count` planes that are moved near them; whether nothing differs.
pub(crate) fn compare(exec: &ExecContext, r: &mut Random, count: usize) -> bool {
    let mut run = Run { exec, r, calls: 0 };
    let mut tallies: [Tally; 4] = Default::default();
    run.numbers(&mut tallies[0]);
    run.lengths(&mut tallies[1]);
    run.sets(&mut tallies[2]);
    (0..count).for_each(|_| run.moved(&mut tallies[3]));
    print!("\n{:<28}", "status");
    STATUSES.iter().for_each(|status| print!("{status:>8}"));
    println!("{:>8}", "differ");
    let names = ["sides and unit sizes", "lengths", "sets of faults", "moved"];
    for (name, t) in names.into_iter().zip(&tallies) {
        print!("{name:<28}");
        t.statuses.iter().for_each(|count| print!("{count:>8}"));
        println!("{:>8}", t.differ);
    }
    tallies.iter().all(|t| t.differ == 0)
}
