//! Random luma planes restored by one call of the port, against the Rust unit by unit and against a second reading of the
//! rule, sample by sample.

use gihvendu::raw::{self, Restored};

use crate::cuts::Cut;
use crate::exec_context::ExecContext;
use crate::plane_refusals;
use crate::random::Random;
use crate::written::Written;

/// The unit sizes: 4, 8, .. 64.
pub(crate) const SIZES: usize = 16;

/// Planes of no more samples are restored by every unit size.
const SMALL: usize = 4_096;

/// The taps of the luma filter as (dy, dx), as the scope lists them.
const TAPS: [(isize, isize); 16] = [
    (1, 0),
    (0, 1),
    (2, 0),
    (0, 2),
    (1, 1),
    (-1, 1),
    (2, 1),
    (2, -1),
    (1, 2),
    (1, -2),
    (3, 0),
    (0, 3),
    (4, 0),
    (0, 4),
    (3, 3),
    (3, -3),
];

/// What a call is given and lent.
#[derive(Clone)]
pub(crate) struct Call {
    pub w: usize,
    pub h: usize,
    pub unit: usize,
    pub count: usize,
    pub plane: Vec<u8>,
    pub filter: Vec<i8>,
    pub skip: Vec<u16>,
    pub scratch: Vec<u8>,
}

/// What a call answers and leaves.
struct After {
    answer: Restored,
    plane: Vec<u8>,
}

/// The numbers of the skip list that a plane needs: each block row starts a new one.
pub(crate) fn skip_numbers(w: usize, h: usize) -> usize {
    h / 4 * w.div_ceil(64)
}

impl Call {
    /// A call with lists as short as may be, of the shapes of filters in turn.
    pub fn new(r: &mut Random, (w, h): (usize, usize), unit: usize, shape: usize) -> Call {
        let filter = r.filter(shape, 16, 127);
        let skip = skip(r, w, skip_numbers(w, h));
        Call {
            w,
            h,
            unit,
            count: usize::MAX,
            plane: r.bytes(w * h),
            filter: filter.iter().map(|&c| c as i8).collect(),
            skip,
            scratch: r.bytes(8 * w),
        }
    }

    /// A random call, its lists often longer than they must be: by whole rows too, which look like rows of the plane.
    fn random(r: &mut Random, k: usize) -> Call {
        let unit = 4 + 4 * (k % SIZES);
        let sides = sides(r, unit);
        let mut c = Call::new(r, sides, unit, k);
        let more = [0, 0, 1, 7, 5 * c.w][r.below(5)];
        c.plane.extend(r.bytes(more));
        let more = [0, 0, 1, 5][r.below(4)];
        c.skip.extend(r.masks(more));
        let more = [0, 0, 1, c.w][r.below(4)];
        c.scratch.extend(r.bytes(more));
        c
    }

    /// What the port makes of it, and whether nothing else is written: around the plane and the scratch or, where refused,
    /// in the scratch.
    fn by_port(&self) -> (After, bool) {
        let lent = (self.filter.clone(), self.skip.clone());
        let mut plane = Written::new(self.plane.clone());
        let mut scratch = Written::new(self.scratch.clone());
        let answer = raw::gihvendu_restore_plane(
            plane.list(),
            self.w,
            self.h,
            self.unit,
            self.count,
            &lent.0,
            &lent.1,
            scratch.list(),
        );
        let kept = plane.around_kept()
            && scratch.around_kept()
            && (&lent.0, &lent.1) == (&self.filter, &self.skip)
            && (answer.status == 0 || scratch.now() == self.scratch);
        let plane = plane.now().to_vec();
        (After { answer, plane }, kept)
    }

    /// Whether the port answers and leaves what each of some readings expects. Says how the first that differs does.
    fn judge(&self, expected: &[(&str, After)], first: bool) -> bool {
        let (after, kept) = self.by_port();
        let good = |e: &After| kept && (after.answer, &after.plane) == (e.answer, &e.plane);
        for (whose, e) in expected.iter().filter(|(_, e)| first && !good(e)) {
            let at = (0..self.plane.len()).find(|&i| after.plane[i] != e.plane[i]);
            let place = at.map(|i| (i / self.w.max(1), i % self.w.max(1)));
            let (w, h, unit, count) = (self.w, self.h, self.unit, self.count);
            let lengths = (self.plane.len(), self.skip.len(), self.filter.len());
            eprintln!(
                "{:?} for {:?} of {whose}, first byte at row and column {place:?}, kept {kept}: {w} by {h} in units of {unit}, \
                 count {count}, plane, skip and filter {lengths:?}, scratch {}",
                after.answer,
                e.answer,
                self.scratch.len()
            );
        }
        expected.iter().all(|(_, e)| good(e))
    }

    /// Whether the port refuses it with this status and changes nothing.
    pub fn refused(&self, status: u8, first: bool) -> bool {
        let answer = Restored { status, pieces: 0 };
        let plane = self.plane.clone();
        self.judge(&[("the table", After { answer, plane })], first)
    }
}

/// Sides of a plane: up to three units, up to 64, some hundreds, or 1,024 in one direction.
fn sides(r: &mut Random, unit: usize) -> (usize, usize) {
    let side = |r: &mut Random, most: usize| 4 + 4 * r.below(most / 4);
    match r.below(16) {
        0..7 => (side(r, 3 * unit), side(r, 3 * unit)),
        7..11 => (side(r, 64), side(r, 64)),
        11..13 => (side(r, 320), side(r, 320)),
        13 => (64 + side(r, 320), side(r, 24)),
        14 => (1_024, side(r, 3 * unit)),
        _ => (side(r, 3 * unit), 1_024),
    }
}

/// Skip bits: none, all, any, few or most. At times the bits past the width, which are ignored, are others.
fn skip(r: &mut Random, w: usize, n: usize) -> Vec<u16> {
    let mut skip = if r.once_in(6) {
        vec![u16::MAX; n]
    } else {
        r.masks(n)
    };
    let past = if w.is_multiple_of(64) {
        0
    } else {
        u16::MAX << (w / 4 % 16)
    };
    let turned = [0, past, r.next() as u16 & past][r.below(3)];
    let size = w.div_ceil(64);
    for last in skip.iter_mut().skip(size - 1).step_by(size) {
        *last ^= turned;
    }
    skip
}

/// The luma rule at sample (y, x) over the plane as it was: beyond its sides the nearest sample repeats.
fn rule(c: &Call, y: usize, x: usize) -> u8 {
    let s = |dy: isize, dx: isize| {
        let row = y.saturating_add_signed(dy).min(c.h - 1);
        let column = x.saturating_add_signed(dx).min(c.w - 1);
        i32::from(c.plane[row * c.w + column])
    };
    let m = s(0, 0);
    let tap = |(&(dy, dx), &number): (&(isize, isize), &i8)| {
        (s(dy, dx) + s(-dy, -dx) - 2 * m) * i32::from(number)
    };
    let sum = 128 * m + TAPS.iter().zip(&c.filter).map(tap).sum::<i32>();
    ((sum + 64) >> 7).clamp(0, 255) as u8
}

/// What two readings make of one plane.
pub(crate) struct Readings {
    /// the plane's units, which the Rust restored each over the untouched plane
    cut: Cut,
    by_rust: Vec<u8>,
    /// the rule at every sample, masked or not
    by_rule: Vec<u8>,
}

impl Readings {
    pub fn new(exec: &ExecContext, c: &Call) -> Readings {
        let filter = *c.filter.as_array().expect("16 numbers");
        let cut = Cut::new(&c.plane, (c.w, c.h), c.unit, filter, &c.skip);
        let (by_rust, _) = cut.restored(exec, usize::MAX);
        let samples = (0..c.w * c.h).map(|i| rule(c, i / c.w, i % c.w));
        Readings {
            cut,
            by_rust,
            by_rule: samples.collect(),
        }
    }

    /// The first units by the Rust.
    fn rust(&self, c: &Call) -> After {
        let mut plane = c.plane.clone();
        let mut pieces = 0;
        for unit in self.cut.units.iter().take(c.count) {
            for row in self.cut.rows(unit) {
                plane[row.clone()].copy_from_slice(&self.by_rust[row]);
            }
            pieces += self.cut.pieces(unit);
        }
        let answer = Restored { status: 0, pieces };
        After { answer, plane }
    }

    /// The samples whose unit is among the first and whose skip bit is 0, by the rule.
    fn rule(&self, c: &Call) -> After {
        let mut plane = c.plane.clone();
        let mut samples = 0;
        for (i, &sample) in self.by_rule.iter().enumerate() {
            let (y, x) = (i / c.w, i % c.w);
            let unit = y / c.unit * c.w.div_ceil(c.unit) + x / c.unit;
            let number = c.skip[y / 4 * c.w.div_ceil(64) + x / 4 / 16];
            if unit < c.count && number >> (x / 4 % 16) & 1 == 0 {
                plane[i] = sample;
                samples += 1;
            }
        }
        let pieces = samples / 4;
        let answer = Restored { status: 0, pieces };
        After { answer, plane }
    }

    /// Whether the port does what both readings say. A call by another unit size has to be of all units: the Rust's are of the
    /// size that the readings were made by.
    pub fn judge(&self, c: &Call, first: bool) -> bool {
        let expected = [
            ("the Rust", self.rust(c)),
            ("the second reading", self.rule(c)),
        ];
        c.judge(&expected, first)
    }
}

/// What came of the calls by one unit size.
#[derive(Clone, Copy, Default)]
struct Tally {
    /// drawn for this size; by the others they are restored whole
    planes: usize,
    calls: usize,
    units: usize,
    pieces: usize,
    differ: usize,
}

impl Tally {
    fn add(&mut self, c: &Call, readings: &Readings, first: bool) {
        self.calls += 1;
        self.units += c.count.min(c.w.div_ceil(c.unit) * c.h.div_ceil(c.unit));
        let units = readings.cut.units.iter().take(c.count);
        self.pieces += units.map(|unit| readings.cut.pieces(unit)).sum::<usize>();
        self.differ += usize::from(!readings.judge(c, first));
    }
}

/// Counts of units: none, one, fewer than all, whole rows of units, all but one, all, a few more, far more, and the most.
fn counts(r: &mut Random, across: usize, all: usize) -> [usize; 9] {
    let (fewer, rows) = (r.below(all), across * r.below(all / across + 1));
    let (more, far) = (all + 1 + r.below(9), 1 << r.within(20, 63));
    [0, 1, fewer, rows, all - 1, all, more, far, usize::MAX]
}

/// One plane by all counts of units, and whole by another unit size or, where it is small, by all others.
fn plane(tallies: &mut [Tally; SIZES], r: &mut Random, exec: &ExecContext, mut c: Call) {
    let readings = Readings::new(exec, &c);
    let mut add = |c: &Call| {
        let first = tallies.iter().all(|t| t.differ == 0);
        tallies[c.unit / 4 - 1].add(c, &readings, first);
    };
    for count in counts(r, c.w.div_ceil(c.unit), readings.cut.units.len()) {
        c.count = count;
        add(&c);
    }
    let (own, other) = (c.unit / 4 - 1, 1 + r.below(SIZES - 1));
    let small = c.w * c.h <= SMALL;
    for by in (1..SIZES).filter(|&by| small || by == other) {
        (c.unit, c.count) = (4 + 4 * ((own + by) % SIZES), usize::MAX);
        add(&c);
    }
    tallies[own].planes += 1;
}

/// `count` planes in units of the sizes in turn, then the refusals; whether nothing differs.
pub(crate) fn compare(seed: u64, count: usize) -> bool {
    let exec = ExecContext::new();
    let mut r = Random::new(seed);
    let mut tallies = [Tally::default(); SIZES];
    for k in 0..count {
        let c = Call::random(&mut r, k);
        plane(&mut tallies, &mut r, &exec, c);
    }
    println!(
        "{:<28}{:>10}{:>10}{:>12}{:>12}{:>10}",
        "units of", "planes", "calls", "units", "pieces", "differ"
    );
    for (k, t) in tallies.iter().enumerate() {
        println!(
            "{:<28}{:>10}{:>10}{:>12}{:>12}{:>10}",
            format!("{0} by {0}", 4 + 4 * k),
            t.planes,
            t.calls,
            t.units,
            t.pieces,
            t.differ
        );
    }
    let refused = plane_refusals::compare(&exec, &mut r, count);
    refused && tallies.iter().all(|t| t.differ == 0)
}
