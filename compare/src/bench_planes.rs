//! Time of a whole luma plane by one call, beside the same units one by one, by the port and by the Rust.

use std::hint::black_box;
use std::time::Instant;

use gihvendu::raw;

use crate::bench::Sort;
use crate::cuts::Cut;
use crate::exec_context::ExecContext;
use crate::random::Random;

const SIDE: usize = 1_024;

/// A batch is a whole plane, which takes long: there are fewer of them than of units.
const BATCHES: usize = 60;

/// Restores a plane.
type Way<'a> = &'a dyn Fn(&mut [u8]);

/// The least nanoseconds of some ways to restore a plane, by turns. Each starts from the untouched plane, and all must leave
/// the same.
fn measure<const N: usize>(untouched: &[u8], ways: [Way<'_>; N]) -> [f64; N] {
    let mut planes = [(); N].map(|()| untouched.to_vec());
    let mut least = [f64::MAX; N];
    for _ in 0..BATCHES {
        for ((way, plane), least) in ways.iter().zip(&mut planes).zip(&mut least) {
            plane.copy_from_slice(untouched);
            let start = Instant::now();
            way(black_box(plane));
            *least = least.min(start.elapsed().as_nanos() as f64);
        }
        assert!(planes.iter().all(|p| *p == planes[0]), "they differ");
    }
    least
}

/// A plane without masks in units of one size, by filters of one sort. The borders and masks of single units are made
/// beforehand.
fn line(exec: &ExecContext, unit: usize, sort: Sort) {
    let mut r = Random::new(13);
    let untouched: Vec<u8> = (0..SIDE * SIDE).map(|_| r.below(256) as u8).collect();
    let filter: [i8; 16] = std::array::from_fn(|_| sort.number(&mut r, 127) as i8);
    assert!(Sort::of(filter.map(i16::from)) == sort);
    let skip = [0; SIDE / 4 * SIDE / 64];
    let cut = Cut::new(&untouched, (SIDE, SIDE), unit, filter, &skip);
    let rust = |plane: &mut [u8]| {
        for part in black_box(&cut).units.iter() {
            cut.by_rust(exec, part, plane);
        }
    };
    let units = |plane: &mut [u8]| {
        for part in black_box(&cut).units.iter() {
            assert!(cut.by_port(part, plane).status == 0);
        }
    };
    let whole = |plane: &mut [u8]| {
        let mut scratch = [0; 8 * SIDE];
        let answer = raw::gihvendu_restore_plane(
            plane,
            SIDE,
            SIDE,
            black_box(unit),
            usize::MAX,
            &filter,
            &skip,
            &mut scratch,
        );
        assert!(answer.status == 0 && answer.pieces == SIDE * SIDE / 4);
    };
    let [rust, units, whole] = measure(&untouched, [&rust, &units, &whole]);
    println!(
        "{:<26}{unit:>6}{rust:>12.0}{units:>12.0}{whole:>12.0}{:>12.3}{:>12.3}",
        sort.name(),
        whole / units,
        whole / rust
    );
}

pub(crate) fn run() {
    let exec = black_box(ExecContext::new());
    println!(
        "\n{:<26}{:>6}{:>12}{:>12}{:>12}{:>12}{:>12}",
        "1,024 by 1,024", "unit", "Rust ns", "units ns", "plane ns", "plane/units", "plane/Rust"
    );
    for unit in [64, 4] {
        for sort in [Sort::Small, Sort::Large] {
            line(&exec, unit, sort);
        }
    }
}
