//! A whole luma plane: each sample by the rule over the padded plane, each unit as the whole-unit function restores it over
//! an untouched copy with its borders lent, and each refusal at its limit and beside it.

use gihvendu::{
    Borders, Pieces, PlaneUnits, Refusal, Unit, edges, ns_wiener_single_y_8bpc, restore_plane,
};

/// `WIENER_NS_CONFIG_Y` of docs/SCOPE.md, 'One sample'.
const TAPS: [(isize, isize); 16] = [
    (1, 0),
    (0, 1),
    (2, 0),
    (0, 2),
    (1, 1),
    (-1, 1),
    (2, 1),
    (2, -1),
    (1, 2),
    (1, -2),
    (3, 0),
    (0, 3),
    (4, 0),
    (0, 4),
    (3, 3),
    (3, -3),
];

/// Numbers that look random and are the same in every run.
struct Noise(u64);

impl Noise {
    fn next(&mut self) -> u64 {
        self.0 = self
            .0
            .wrapping_mul(6_364_136_223_846_793_005)
            .wrapping_add(1_442_695_040_888_963_407);
        self.0 >> 33
    }
}

/// A plane and all that is lent with it, in the least lengths.
#[derive(Clone)]
struct Sample {
    units: PlaneUnits,
    plane: Vec<u8>,
    filter: Vec<i8>,
    skip: Vec<u16>,
    scratch: Vec<u8>,
}

impl Sample {
    /// `w` by `h` samples of all values, of which some half are the least or the most; a quarter of the blocks masked.
    fn of(w: usize, h: usize, unit: usize) -> Sample {
        let units = PlaneUnits {
            unit,
            ..PlaneUnits::all(w, h)
        };
        let mut noise = Noise((w * 1_000_003 + h * 101 + 7) as u64);
        let mut byte = || match noise.next() % 4 {
            0 => 0,
            1 => 255,
            _ => noise.next() as u8,
        };
        let plane = (0..w * h).map(|_| byte()).collect();
        let skip = (0..units.skip_len()).map(|_| (noise.next() & noise.next()) as u16);
        Sample {
            skip: skip.collect(),
            // Small enough that many results are neither 0 nor 255.
            filter: (0..16).map(|_| (noise.next() % 21) as i8 - 10).collect(),
            scratch: vec![0x5a; units.scratch_len()],
            plane,
            units,
        }
    }

    /// The plane and the pieces after a call, or its refusal, which must leave the plane and the scratch list as they were.
    fn restored(&self) -> Result<(Pieces, Vec<u8>), Refusal> {
        let (mut plane, mut scratch) = (self.plane.clone(), self.scratch.clone());
        let answer = restore_plane(
            &mut plane,
            &self.units,
            &self.filter,
            &self.skip,
            &mut scratch,
        );
        assert!(answer.is_ok() || (plane == self.plane && scratch == self.scratch));
        answer.map(|pieces| (pieces, plane))
    }

    /// Whether the block at this place of the plane is masked.
    fn is_masked(&self, bx: usize, by: usize) -> bool {
        self.skip[by * self.units.w.div_ceil(64) + bx / 16] >> (bx % 16) & 1 == 1
    }

    /// All units by the rule for one sample. Nothing here knows of units.
    fn by_rule(&self) -> (Pieces, Vec<u8>) {
        let (w, h) = (self.units.w, self.units.h);
        let (mut pieces, mut after) = (0, self.plane.clone());
        for (y, x) in (0..h).flat_map(|y| (0..w).map(move |x| (y, x))) {
            if self.is_masked(x / 4, y / 4) {
                continue;
            }
            let s = |dy: isize, dx: isize| {
                let row = y.saturating_add_signed(dy).min(h - 1);
                let column = x.saturating_add_signed(dx).min(w - 1);
                i32::from(self.plane[row * w + column])
            };
            let m = s(0, 0);
            let taps = TAPS.iter().zip(&self.filter);
            let changes =
                taps.map(|(&(dy, dx), &c)| (s(dy, dx) + s(-dy, -dx) - 2 * m) * i32::from(c));
            let sum = 128 * m + changes.sum::<i32>();
            after[y * w + x] = ((sum + 64) >> 7).clamp(0, 255) as u8;
            pieces += usize::from(x % 4 == 0);
        }
        (pieces, after)
    }

    /// The first units, each by the whole-unit function over an untouched copy; the others stay.
    fn by_units(&self) -> (Pieces, Vec<u8>) {
        let PlaneUnits { w, h, unit, count } = self.units;
        let (mut pieces, mut after) = (0, self.plane.clone());
        let places = (0..h)
            .step_by(unit)
            .flat_map(|y| (0..w).step_by(unit).map(move |x| (y, x)));
        for (y, x) in places.take(count) {
            let (own_pieces, plane) = self.one_unit(x, y);
            pieces += own_pieces;
            let columns = x..(x + unit).min(w);
            for row in y..(y + unit).min(h) {
                let own = row * w + columns.start..row * w + columns.end;
                after[own.clone()].copy_from_slice(&plane[own]);
            }
        }
        (pieces, after)
    }

    /// A copy of the plane in which the unit that begins at column `x` of row `y` is restored, with every border lent that
    /// the plane has.
    fn one_unit(&self, x: usize, y: usize) -> (Pieces, Vec<u8>) {
        let PlaneUnits { w, h, unit, .. } = self.units;
        let (own_w, own_h) = (unit.min(w - x), unit.min(h - y));
        let bit = |bit: usize, holds: bool| if holds { bit } else { 0 };
        let place = Unit {
            w: own_w,
            h: own_h,
            edges: bit(edges::LEFT, x > 0)
                | bit(edges::RIGHT, x + own_w < w)
                | bit(edges::TOP_INTEGRATED, y > 0)
                | bit(edges::BOTTOM_INTEGRATED, y + own_h < h),
            stride: w,
            off: y * w + x,
            top_off: y.saturating_sub(4) * w + x,
            bottom_off: 0,
        };
        // The last four of six bytes are used; the other two are none of the plane's.
        let left = |row: usize| [[1, 2].as_slice(), &self.plane[row * w + x - 4..][..4]].concat();
        let left: Vec<u8> = match x {
            0 => Vec::new(),
            _ => (y..y + own_h).flat_map(left).collect(),
        };
        let borders = Borders {
            left: &left,
            top: &self.plane,
            bottom: &[],
        };
        let mask = |by: usize| {
            let masked = (0..own_w / 4).filter(|bx| self.is_masked(x / 4 + bx, y / 4 + by));
            [masked.map(|bx| 1 << bx).sum(), 0, 0, 0]
        };
        let skip: Vec<[u16; 4]> = (0..own_h / 4).map(mask).collect();
        let mut plane = self.plane.clone();
        let skip = skip.as_flattened();
        let pieces = ns_wiener_single_y_8bpc(&mut plane, &place, &borders, &self.filter, skip);
        (pieces.expect("no unit is refused"), plane)
    }
}

/// Sides at both limits and between, in units that fit and that do not.
#[test]
fn by_the_rule() {
    for (w, h, unit) in [
        (4, 4, 4),
        (4, 4, 64),
        (64, 64, 64),
        (68, 60, 64),
        (136, 88, 40),
        (1024, 8, 60),
        (8, 1024, 12),
    ] {
        let sample = Sample::of(w, h, unit);
        assert_eq!(sample.restored(), Ok(sample.by_rule()), "{w} by {h}");
    }
}

/// The largest filter numbers, where sums are far from a sample's range on both sides.
#[test]
fn large_filters() {
    let both = [127, -128].repeat(8);
    for filter in [vec![127; 16], vec![-128; 16], both] {
        let mut sample = Sample::of(72, 20, 16);
        sample.filter = filter;
        assert_eq!(sample.restored(), Ok(sample.by_rule()));
    }
}

/// The first units are restored whole, from the old samples of the others, and those stay old. Units of 40 begin at blocks
/// 0, 10, 20 and 30 of a row, whose masks are in numbers of 16 bits: two of the four lie across two numbers.
#[test]
fn first_units() {
    let mut sample = Sample::of(136, 88, 40);
    let total = 4 * 3;
    assert_eq!(sample.units.total(), total);
    let mut planes = vec![sample.plane.clone()];
    for count in 0..=total + 1 {
        sample.units.count = count;
        let (pieces, plane) = sample.by_units();
        assert_eq!(sample.restored(), Ok((pieces, plane.clone())), "{count}");
        planes.push(plane);
    }
    // None at 0; with each unit more another plane; no more behind the last.
    assert_eq!(planes[0], planes[1]);
    assert!(planes[1..=total + 1].windows(2).all(|w| w[0] != w[1]));
    assert_eq!(planes[total + 1], planes[total + 2]);
    for count in [usize::MAX, 1 << 63, 1 << 32] {
        sample.units.count = count;
        assert_eq!(sample.restored(), Ok(sample.by_rule()));
    }
}

/// The smallest units at every count, and one unit that is larger than the plane.
#[test]
fn small_and_large_units() {
    let mut sample = Sample::of(12, 8, 4);
    for count in 0..=6 {
        sample.units.count = count;
        assert_eq!(sample.restored(), Ok(sample.by_units()));
    }
    let mut sample = Sample::of(12, 8, 64);
    for count in [0, 1, 2] {
        sample.units.count = count;
        assert_eq!(sample.restored(), Ok(sample.by_units()));
    }
}

#[test]
fn every_unit_size() {
    let mut sample = Sample::of(132, 72, 64);
    let expected = sample.by_rule();
    for unit in (4..=64).step_by(4) {
        sample.units.unit = unit;
        assert_eq!(sample.restored().as_ref(), Ok(&expected), "{unit}");
        assert_eq!(sample.by_units(), expected, "{unit}");
    }
}

/// One block alone is restored, wherever it lies, and four pieces are counted.
#[test]
fn one_block() {
    let (w, h) = (136, 12);
    let mut sample = Sample::of(w, h, 40);
    for (bx, by) in (0..h / 4).flat_map(|by| (0..w / 4).map(move |bx| (bx, by))) {
        sample.skip.fill(0xffff);
        sample.skip[by * 3 + bx / 16] -= 1 << (bx % 16);
        let (pieces, plane) = sample.restored().unwrap();
        assert_eq!((pieces, &plane), (4, &sample.by_rule().1));
        assert_ne!(plane, sample.plane);
    }
}

/// No bit behind the last block of a row matters, and no number behind the last mask.
#[test]
fn ignored_masks() {
    for (w, bits) in [(4, 1), (60, 15), (64, 16), (68, 1), (136, 2)] {
        let mut sample = Sample::of(w, 20, 20);
        let per_row = w.div_ceil(64);
        let expected = sample.restored();
        for flip in [0xffff_u32, 0x5555] {
            for last in sample.skip.iter_mut().skip(per_row - 1).step_by(per_row) {
                *last ^= (flip << bits) as u16;
            }
            assert_eq!(sample.restored(), expected);
        }
        sample.skip.extend([0xffff; 9]);
        assert_eq!(sample.restored(), expected);
    }
}

/// All blocks masked: nothing is restored, and nothing is refused for that.
#[test]
fn all_masked() {
    let mut sample = Sample::of(68, 8, 8);
    sample.skip.fill(0xffff);
    assert_eq!(sample.restored(), Ok((0, sample.plane.clone())));
}

/// Bytes behind the plane stay, and nothing depends on them, nor on what the scratch list holds or how long it is.
#[test]
fn behind_the_plane() {
    let mut sample = Sample::of(68, 20, 12);
    let (pieces, mut expected) = sample.restored().unwrap();
    for bytes in [1..100, 150..250] {
        sample.plane.extend(bytes.clone());
        expected.extend(bytes.clone());
        sample.scratch.extend(bytes);
        assert_eq!(sample.restored(), Ok((pieces, expected.clone())));
    }
    sample.scratch.fill(0xc3);
    assert_eq!(sample.restored(), Ok((pieces, expected)));
}

/// What a call answers that is changed from one that passes with lists in their least lengths.
fn changed(change: impl Fn(&mut Sample)) -> Result<Pieces, Refusal> {
    let mut sample = Sample::of(68, 12, 8);
    assert!(sample.restored().is_ok());
    change(&mut sample);
    sample.restored().map(|(pieces, _)| pieces)
}

fn shorten<T>(list: &mut Vec<T>) {
    list.truncate(list.len() - 1);
}

/// Numbers that are no side of a plane and no unit size.
const NO_SIDES: [usize; 16] = [
    0,
    1,
    2,
    3,
    5,
    6,
    7,
    66,
    1022,
    1023,
    1025,
    1028,
    (1 << 32) + 8,
    (1 << 63) + 8,
    usize::MAX - 3,
    usize::MAX,
];

#[test]
fn plane_sides_15() {
    for side in NO_SIDES {
        let sides = [
            changed(|s| s.units.w = side),
            changed(|s| s.units.h = side),
            changed(|s| (s.units.w, s.units.h) = (side, side)),
            changed(|s| s.units.unit = side),
        ];
        assert_eq!(sides, [Err(Refusal::PlaneSides); 4], "{side}");
    }
    for unit in [62, 63, 65, 68, 72, 1024] {
        let answer = changed(|s| s.units.unit = unit);
        assert_eq!(answer, Err(Refusal::PlaneSides), "{unit}");
    }
    // At both limits.
    for (w, h, unit) in [(4, 4, 4), (1024, 4, 4), (4, 1024, 64), (1024, 1024, 64)] {
        assert!(Sample::of(w, h, unit).restored().is_ok());
    }
}

#[test]
fn plane_5() {
    assert_eq!(changed(|s| shorten(&mut s.plane)), Err(Refusal::Plane));
    assert_eq!(changed(|s| s.plane.clear()), Err(Refusal::Plane));
    assert!(changed(|s| s.plane.push(0)).is_ok());
    // 68 × 12 bytes are 204 rows of 4.
    let with_rows = |h: usize| changed(|s| (s.units.w, s.units.h, s.skip) = (4, h, vec![0; 52]));
    assert_eq!(with_rows(208), Err(Refusal::Plane));
    assert_eq!(with_rows(204), Ok(204));
}

/// Two numbers for each of three block rows; one for each where a row has 16 blocks.
#[test]
fn masks_9() {
    assert_eq!(changed(|s| s.skip.truncate(5)), Err(Refusal::Masks));
    assert_eq!(changed(|s| s.skip.clear()), Err(Refusal::Masks));
    assert!(changed(|s| s.skip.truncate(6)).is_ok());
    assert!(changed(|s| s.skip.push(0)).is_ok());
    let narrower = |n: usize| changed(|s| (s.units.w, s.skip) = (64, vec![0; n]));
    assert_eq!(narrower(2), Err(Refusal::Masks));
    assert_eq!(narrower(3), Ok(16 * 12));
}

#[test]
fn filters_10() {
    for n in [0, 1, 15, 17, 18, 32] {
        assert_eq!(changed(|s| s.filter = vec![1; n]), Err(Refusal::Filters));
    }
    assert!(changed(|s| s.filter = vec![1; 16]).is_ok());
}

#[test]
fn scratch_16() {
    for n in [0, 8, 8 * 68 - 1] {
        assert_eq!(changed(|s| s.scratch.truncate(n)), Err(Refusal::Scratch));
    }
    assert!(changed(|s| s.scratch.truncate(8 * 68)).is_ok());
    assert!(changed(|s| s.scratch.push(0)).is_ok());
}

type Fault = (Refusal, fn(&mut Sample));

/// Every set of faults, by any count of units: the one that comes first in this order is told.
#[test]
fn order() {
    let faults: [Fault; 5] = [
        (Refusal::PlaneSides, |s| s.units.unit = 68),
        (Refusal::Plane, |s| shorten(&mut s.plane)),
        (Refusal::Masks, |s| shorten(&mut s.skip)),
        (Refusal::Filters, |s| shorten(&mut s.filter)),
        (Refusal::Scratch, |s| shorten(&mut s.scratch)),
    ];
    for set in 0..1 << faults.len() {
        let held = || {
            (0..faults.len())
                .filter(|k| set >> k & 1 == 1)
                .map(|k| faults[k])
        };
        for count in [0, 1, usize::MAX] {
            let answer = changed(|s| {
                s.units.count = count;
                held().for_each(|(_, fault)| fault(s));
            });
            let first = held().next().map(|(refusal, _)| refusal);
            assert_eq!(answer.err(), first, "{set:05b}");
        }
    }
}

/// The lengths that are handed out are the least that pass, and off the limits they are 0 and do not wrap.
#[test]
fn lengths() {
    for (w, h) in [(4, 4), (64, 8), (68, 8), (128, 4), (132, 4), (1024, 4)] {
        let sample = Sample::of(w, h, 4);
        assert!(sample.restored().is_ok());
        let mut less = sample.clone();
        shorten(&mut less.skip);
        assert_eq!(less.restored(), Err(Refusal::Masks));
        let mut less = sample;
        shorten(&mut less.scratch);
        assert_eq!(less.restored(), Err(Refusal::Scratch));
    }
    for side in NO_SIDES {
        let all = PlaneUnits::all(8, 8);
        for units in [
            PlaneUnits { w: side, ..all },
            PlaneUnits { h: side, ..all },
            PlaneUnits { unit: side, ..all },
        ] {
            assert_eq!(
                (units.total(), units.skip_len(), units.scratch_len()),
                (0, 0, 0)
            );
        }
    }
    let most = PlaneUnits {
        unit: 4,
        ..PlaneUnits::all(1024, 1024)
    };
    assert_eq!(
        (most.total(), most.skip_len(), most.scratch_len()),
        (65_536, 4_096, 8_192)
    );
}
