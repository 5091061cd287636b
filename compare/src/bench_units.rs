//! Time per unit of the Rust's scalar functions and of the port's, and what restoring row by row costs.

use std::hint::black_box;
use std::time::Instant;

use crate::bench::{BATCHES, line};
use crate::calls::{Filters, ForPort};
use crate::exec_context::ExecContext;
use crate::random::Random;
use crate::units::{ForRust, OPERATIONS, Operation, Spacing, Unit};

/// The least nanoseconds per unit of two ways to restore units, in batches that take turns. Each batch starts from the
/// units' own planes, and both ways must leave the same.
fn measure_units(
    units: &[Unit],
    first: impl Fn(usize, &mut [u8]),
    second: impl Fn(usize, &mut [u8]),
) -> (f64, f64) {
    let planes: Vec<Vec<u8>> = units.iter().map(|u| u.plane.clone()).collect();
    let mut planes = (planes.clone(), planes);
    let batch = |run: &dyn Fn(usize, &mut [u8]), planes: &mut [Vec<u8>]| {
        for (u, plane) in units.iter().zip(&mut *planes) {
            plane.copy_from_slice(&u.plane);
        }
        let start = Instant::now();
        for (k, plane) in planes.iter_mut().enumerate() {
            run(black_box(k), black_box(plane));
        }
        start.elapsed().as_nanos() as f64 / units.len() as f64
    };
    let mut least = (f64::MAX, f64::MAX);
    for _ in 0..BATCHES {
        least.0 = least.0.min(batch(&first, &mut planes.0));
        least.1 = least.1.min(batch(&second, &mut planes.1));
        assert!(planes.0 == planes.1, "the two differ");
    }
    least
}

/// Units of `size` by `size` samples with no masks and all edge bits but the integrated ones: luma, classed, and chroma in
/// its three pairs, subsampled vertically in all kinds.
fn bench_units(size: usize) -> Vec<(String, Vec<Unit>)> {
    const EDGES: u8 = 15;
    let count = if size == 64 { 8 } else { 64 };
    let series = OPERATIONS[..3]
        .iter()
        .map(|&op| (op.name().to_string(), op, (0, 0, 0)))
        .chain(
            [
                ("uv, 4:4:4", (0, 0, 0)),
                ("uv, 4:2:2", (1, 0, 0)),
                ("uv, 4:2:0, kind 0", (1, 1, 0)),
                ("uv, 4:2:0, kind 1", (1, 1, 1)),
                ("uv, 4:2:0, kind 2", (1, 1, 2)),
            ]
            .map(|(name, subsampling)| (name.to_string(), Operation::Chroma, subsampling)),
        );
    series
        .map(|(name, op, subsampling)| {
            let mut r = Random::new(11);
            let spacing = Spacing {
                room: 4,
                first: 1,
                stride: None,
                subsampling: Some(subsampling),
            };
            let units = (0..count).map(|_| {
                let mut u = Unit::spaced(&mut r, op, EDGES, size, size, spacing);
                u.skip.fill(0);
                u
            });
            (name, units.collect())
        })
        .collect()
}

fn for_port<'a>(units: &'a [Unit], filters: &'a [Filters]) -> Vec<ForPort<'a>> {
    let pairs = units.iter().zip(filters);
    pairs.map(|(u, f)| ForPort::new(u, f)).collect()
}

/// Whole units by the Rust and by the port.
fn units() {
    let exec = &black_box(ExecContext::new());
    for size in [64, 4] {
        for (name, units) in bench_units(size) {
            let by_rust: Vec<ForRust<'_>> = units.iter().map(Unit::for_rust).collect();
            let filters: Vec<Filters> = units.iter().map(Filters::new).collect();
            let by_port = for_port(&units, &filters);
            let least = measure_units(
                &units,
                |k, plane| by_rust[k].restore(exec, plane),
                |k, plane| assert!(by_port[k].restore(plane).is_ok()),
            );
            line(&name, size, least);
        }
    }
}

/// What it costs the port to restore a 64 by 64 unit row by row.
fn advances() {
    const SIZE: usize = 64;
    println!(
        "\n{:<26}{:>12}{:>12}{:>12}{:>12}",
        "64 by 64", "whole ns", "by rows ns", "rows/whole", "ns a row"
    );
    for (name, units) in bench_units(SIZE) {
        let filters: Vec<Filters> = units.iter().map(Filters::new).collect();
        let by_port = for_port(&units, &filters);
        let (whole, rows) = measure_units(
            &units,
            |k, plane| assert!(by_port[k].restore(plane).is_ok()),
            |k, plane| {
                let mut state = by_port[k].open(plane).expect("it is not refused");
                for _ in 0..SIZE {
                    assert!(by_port[k].advance(&mut state, 1, plane).is_ok());
                }
            },
        );
        let each = (rows - whole) / SIZE as f64;
        println!(
            "{name:<26}{whole:>12.1}{rows:>12.1}{:>12.3}{each:>12.1}",
            rows / whole
        );
    }
}

pub(crate) fn run() {
    units();
    advances();
}
