//! Random states that no unit need have: what their texts tell.

use crate::random::Random;
use crate::texts::{CHROMA, ROWS, State, slot_limits};
use crate::units::{Operation, Unit};

/// A number of any length: at times the greatest, the least, or at the end of so many digits or bits.
fn number(r: &mut Random) -> u64 {
    match r.below(6) {
        0 => u64::MAX - r.below(3) as u64,
        1 => r.below(3) as u64,
        2 => 10u64.pow(1 + r.below(19) as u32) - r.below(2) as u64,
        3 => (1 << r.below(64)) - r.below(2) as u64,
        4 => r.next() >> r.below(64),
        _ => r.next(),
    }
}

/// At times one of two ends, else a number up to the greatest.
fn within(r: &mut Random, most: u64) -> u64 {
    match r.below(4) {
        0 => 0,
        1 => most,
        _ => r.next() % most.saturating_add(1).max(1),
    }
}

fn numbers<const N: usize>(r: &mut Random) -> [u64; N] {
    std::array::from_fn(|_| number(r))
}

fn rows(r: &mut Random) -> [u8; ROWS] {
    std::array::from_fn(|_| r.next() as u8)
}

/// The number that a state has for its operation.
pub(crate) fn op(operation: Operation) -> u64 {
    operation as u64 + 1
}

/// Any numbers in a state's shape, and any bytes.
pub(crate) fn any(r: &mut Random, operation: Operation) -> State {
    let op = op(operation);
    let (index, next) = slot_limits(op);
    let h = number(r);
    State {
        op,
        w: number(r),
        h,
        edges: number(r),
        done: within(r, h),
        classes: std::array::from_fn(|_| within(r, 255) as u8),
        indices: std::array::from_fn(|_| within(r, index)),
        next: within(r, next),
        rows: rows(r),
        strides: numbers(r),
        offsets: numbers(r),
        pair: numbers(r),
        kind: number(r),
    }
}

/// Numbers such as a unit has that was opened and advanced; what its operation does not use is 0.
pub(crate) fn likely(r: &mut Random, operation: Operation) -> State {
    let edge_set = r.below(64) as u8;
    let u = Unit::random(r, operation, edge_set);
    let op = op(operation);
    let chroma = op == CHROMA;
    let slots = if chroma { 5 } else { 9 };
    let first = r.below(slots);
    let luma = |number: usize| if chroma { number as u64 } else { 0 };
    State {
        op,
        w: u.w as u64,
        h: u.h as u64,
        edges: u.edges as u64,
        done: r.below(u.h + 1) as u64,
        classes: std::array::from_fn(|_| {
            if operation.classed() {
                r.below(5) as u8
            } else {
                0
            }
        }),
        indices: std::array::from_fn(|k| ((first + k) % slots) as u64),
        next: first as u64,
        rows: rows(r),
        strides: [u.stride as u64, luma(u.luma_stride)],
        offsets: [
            u.off as u64,
            u.top_off as u64,
            u.bottom_off as u64,
            luma(u.luma_off),
            luma(u.luma_top_off),
            luma(u.luma_bottom_off),
        ],
        pair: [u.ss_hor as u64, u.ss_ver as u64],
        kind: u.kind as u64,
    }
}

/// The least numbers, or the greatest, that a state can have.
pub(crate) fn end(operation: Operation, greatest: bool) -> State {
    let op = op(operation);
    let (index, next) = slot_limits(op);
    if !greatest {
        return State { op, ..State::ZEROS };
    }
    State {
        op,
        w: u64::MAX,
        h: u64::MAX,
        edges: u64::MAX,
        done: u64::MAX,
        classes: [255; 16],
        indices: [index; 10],
        next,
        rows: [255; ROWS],
        strides: [u64::MAX; 2],
        offsets: [u64::MAX; 6],
        pair: [u64::MAX; 2],
        kind: u64::MAX,
    }
}

/// A number that is past a limit: next to it, or anywhere.
fn past(r: &mut Random, limit: u64) -> u64 {
    match r.below(3) {
        0 => limit + 1,
        1 => u64::MAX,
        _ => limit + 1 + r.next() % (u64::MAX - limit),
    }
}

/// One to three numbers past the limits of a state's shape.
pub(crate) fn none(r: &mut Random, operation: Operation) -> State {
    let mut state = any(r, operation);
    let (index, next) = slot_limits(state.op);
    for _ in 0..1 + r.below(3) {
        match r.below(3) {
            0 => {
                state.h = state.h.min(u64::MAX - 1);
                state.done = past(r, state.h);
            }
            1 => state.next = past(r, next),
            _ => state.indices[r.below(10)] = past(r, index),
        }
    }
    state
}
