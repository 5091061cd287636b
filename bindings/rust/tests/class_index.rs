//! The parts of a class index, by the samples of the scope, by hand and by the printed skip sums.

use gihvendu::{ClassIndex, get_class_lut_idx_8bpc, raw};

const INDICES: [usize; 10] = [0, 1, 2, 3, 4, 5, 6, 7, 8, 9];

/// Of flat rows.
fn flat(noskip: &[u16], q: i32, block: (usize, usize, usize)) -> (u32, u32, [u32; 4]) {
    let (bx, by, bh) = block;
    let class = get_class_lut_idx_8bpc(&[90; 760], &INDICES, noskip, q, bx, by, bh).unwrap();
    (class.index, class.skip_sum, class.bins)
}

#[test]
fn samples_of_the_scope() {
    let block = (3, 2, 16);
    assert_eq!(flat(&[0xffff; 16], 0, block), (0, 0, [0, 0, 0, 0]));
    assert_eq!(flat(&[0; 16], 0, block), (128, 36, [0, 2, 0, 0]));
    assert_eq!(flat(&[0xffff; 16], 4000, block), (1536, 0, [3, 0, 0, 0]));
    assert_eq!(flat(&[1], 0, (0, 0, 1)).1, 6);
}

/// Each neighbour's share alone: its bit is 0, all others are 1.
#[test]
fn shares() {
    for (row, shares) in [[1, 4, 1], [4, 16, 4], [1, 4, 1]].into_iter().enumerate() {
        for (column, share) in shares.into_iter().enumerate() {
            let mut noskip = [0xffff; 3];
            noskip[row] &= !(1 << (6 + column));
            assert_eq!(flat(&noskip, 0, (7, 1, 3)).1, share);
        }
    }
}

/// Each pattern of noskip bits around a block: its skip sum is the line of that number that the program skip_sums prints.
#[test]
fn printed_skip_sums() {
    let printed = include_str!("../../../crates/skip_sums/stdout");
    assert_eq!(printed.lines().count(), 512);
    for (pattern, line) in printed.lines().enumerate() {
        let noskip = [0, 3, 6].map(|row| ((pattern >> row & 7) << 6) as u16);
        assert_eq!(flat(&noskip, 0, (7, 1, 3)).1.to_string(), line);
    }
}

/// Rows of one sample each, but for row 1 of the block: each sample there bends by twice the step, and so do those in the rows
/// above and below by the step. Six columns of (20 + 40 + 20) are 480 for each of the three features.
#[test]
fn three_features() {
    let mut rows = [100; 760];
    rows[5 * 76..6 * 76].fill(120);
    let class = get_class_lut_idx_8bpc(&rows, &INDICES, &[0xffff], 0, 0, 0, 1).unwrap();
    // 480 x 3739, 3273 and 3074 less 255 x 21565, 573 and 680: below 0, 1,424,925 and 1,302,120.
    let bins = [0, 0, 2, 2];
    assert_eq!((class.skip_sum, class.bins, class.index), (0, bins, 18));
}

#[test]
fn zeros_where_refused() {
    let answer = raw::gihvendu_get_class_lut_idx_8bpc(&[90; 760], &INDICES, &[0], 4000, 0, 1, 1);
    assert_eq!(
        (answer.status, answer.class_index),
        (12, ClassIndex::default())
    );
}
