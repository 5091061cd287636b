//! A second reading of the class index and its parts: features, skip sum, terms and bins, each as the scope's paper says it, over
//! integers that do not wrap.

use std::array::from_fn;

use gihvendu::ClassIndex;

use crate::runs::ROW;

/// The weights of a term for 32t, q and their product, and its offset.
const TERMS: [([i128; 3], i128); 4] = [
    ([-527, 15325, 321], -547),
    ([26436, -17705, 17905], -21565),
    ([366, -147, -194], -573),
    ([202, -267, -179], -680),
];

/// How much above stands to the side, and below to the other, and the factor: vertical, then the two diagonals.
const FEATURES: [(isize, i128); 3] = [(0, 3739), (1, 3273), (-1, 3074)];

/// A block of a unit: by its column and row, and the unit's block rows.
pub(crate) type Block = (usize, usize, usize);

fn feature(rows: &[u8], indices: &[usize; 10], bx: usize, side: isize) -> i128 {
    let sample = |r: isize, c: isize| {
        let row = indices[(4 + r) as usize];
        i128::from(rows[ROW * row + (6 + 4 * bx as isize + c) as usize])
    };
    let mut sum = 0;
    for r in -1..=4 {
        for c in -1..=4 {
            let (up, down) = (sample(r - 1, c + side), sample(r + 1, c - side));
            sum += (up - 2 * sample(r, c) + down).abs();
        }
    }
    sum
}

/// What is further than an i32 reaches becomes its end.
fn saturated(v: i128) -> i128 {
    v.clamp(i32::MIN.into(), i32::MAX.into())
}

fn term(q: i32, t: i128, i: usize) -> i128 {
    let q = i128::from(q);
    let product = (t * q + 128).div_euclid(256);
    let (w, offset) = TERMS[i];
    let v = w[0] * 32 * t + w[1] * q + w[2] * product;
    saturated(255 * (offset + v.signum() * ((v.abs() + 4096) / 8192)))
}

fn bin(v: i128) -> u32 {
    let raised = saturated(v.max(0) + 8192);
    ((raised / 16384).min(255) / 32) as u32
}

/// The nine neighbours one by one.
fn skip_sum(noskip: &[u16], (bx, by, bh): Block) -> u32 {
    let near =
        |at: usize, step: isize, last: usize| (at as isize + step).clamp(0, last as isize) as usize;
    let mut sum = 0;
    for i in -1..=1_isize {
        for j in -1..=1_isize {
            let bit = noskip[near(by, i, bh - 1)] >> near(bx, j, 15) & 1;
            if bit == 0 {
                sum += [16, 4, 1][(i.abs() + j.abs()) as usize];
            }
        }
    }
    sum
}

/// The class index of a block over ten rows, with its parts.
pub(crate) fn class_index(
    rows: &[u8],
    indices: &[usize; 10],
    noskip: &[u16],
    q: i32,
    block: Block,
) -> ClassIndex {
    let skip_sum = skip_sum(noskip, block);
    let t = 7 * i128::from(skip_sum);
    let bins = from_fn(|i| match i {
        0 => bin(term(q, t, 0)),
        _ => {
            let (side, factor) = FEATURES[i - 1];
            let scaled = factor * feature(rows, indices, block.0, side);
            bin(saturated(scaled + term(q, t, i)))
        }
    });
    ClassIndex {
        index: bins.iter().fold(0, |index, bin| 8 * index + bin),
        skip_sum,
        bins,
    }
}
