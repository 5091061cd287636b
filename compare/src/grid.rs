//! Every width and height with every set of edge bits, for each operation, each pair and kind, and each
//! shape of masks; the other choices go round. And the class index at every block, and of every pattern of noskip bits.

use gihvendu::get_class_lut_idx_8bpc;

use crate::class_parts::{self, Block};
use crate::exec_context::ExecContext;
use crate::random::Random;
use crate::runs::{self, ROWS};
use crate::skip_sums;
use crate::units::{OPERATIONS, Operation, Spacing, Unit};
use crate::whole::same_as_rust;

const SIZES: usize = 16;
const EDGE_SETS: usize = 64;

/// Every pair with every kind, also where the pair leaves the kind unused.
const SUBSAMPLINGS: [(usize, usize, usize); 9] = [
    (0, 0, 0),
    (0, 0, 1),
    (0, 0, 2),
    (1, 0, 0),
    (1, 0, 1),
    (1, 0, 2),
    (1, 1, 0),
    (1, 1, 1),
    (1, 1, 2),
];

/// None masked, all masked, all but one, every second, any.
const MASKS: usize = 5;

fn masks(r: &mut Random, shape: usize, n: usize) -> Vec<u16> {
    let one = !(1 << r.below(16));
    let every_second = [0x5555, 0xaaaa][r.below(2)];
    (0..n)
        .map(|_| match shape {
            0 => 0,
            1 => 0xffff,
            2 => one,
            3 => every_second,
            _ => r.next() as u16,
        })
        .collect()
}

const QUANTIZERS: [i32; 6] = [0, i32::MIN, i32::MAX, -1, 4_000, 40_000];

fn quantizer(r: &mut Random, k: usize) -> i32 {
    let drawn = r.quantizer();
    *QUANTIZERS.get(k % 9).unwrap_or(&drawn)
}

/// How the lists lie: the stride at its limit, a little above, far above, and for the smallest units both at their greatest;
/// offsets from 0 and from far inside.
fn spacing(k: usize, small: bool, subsampling: (usize, usize, usize)) -> Spacing {
    Spacing {
        room: [1, 4, 100][k % 3],
        first: [0, 0, 5, 1_000][k % 4],
        stride: (small && k.is_multiple_of(7)).then_some(65_536),
        subsampling: Some(subsampling),
    }
}

/// All units of one operation: how many there are, and how many differ.
fn units(exec: &ExecContext, r: &mut Random, op: Operation) -> (usize, usize) {
    let (mut k, mut differ) = (0, 0);
    let subsamplings = if op == Operation::Chroma {
        &SUBSAMPLINGS[..]
    } else {
        &SUBSAMPLINGS[..1]
    };
    for size in 0..SIZES * SIZES {
        let (w, h) = (4 + 4 * (size % SIZES), 4 + 4 * (size / SIZES));
        for edges in 0..EDGE_SETS {
            for &subsampling in subsamplings {
                for shape in 0..MASKS {
                    let lie = spacing(k, w + h == 8, subsampling);
                    let mut u = Unit::spaced(r, op, edges as u8, w, h, lie);
                    u.skip = masks(r, shape, u.skip.len());
                    u.noskip = masks(r, (k / MASKS) % MASKS, u.noskip.len());
                    u.reshape_filters(r, k);
                    u.q = quantizer(r, k);
                    differ += usize::from(!same_as_rust(exec, &u, differ == 0));
                    k += 1;
                }
            }
        }
    }
    (k, differ)
}

/// A class index over flat, mixed or extreme samples: against the Rust, and with its parts against a second reading.
fn same_index(r: &mut Random, noskip: &[u16], turn: usize, block: Block) -> bool {
    let (bx, by, bh) = block;
    let q = quantizer(r, turn);
    let rows = r.bytes(ROWS);
    let first = r.below(10);
    let indices = std::array::from_fn(|i| (first + i) % 10);
    let rust = runs::class_index(&rows, &indices, noskip, q, bx, by, bh);
    let read = class_parts::class_index(&rows, &indices, noskip, q, block);
    let got = get_class_lut_idx_8bpc(&rows, &indices, noskip, q, bx, by, bh);
    got == Ok(read) && read.index == rust
}

/// Every pattern of noskip bits around a block of each column, in the first, the middle and the last of three block rows and in
/// an only one. Bits that lie outside the unit are dropped: there the block sees those of the clipped column or row.
fn patterns(r: &mut Random) -> (usize, usize) {
    let (mut k, mut differ) = (0, 0);
    for pattern in 0..skip_sums::PATTERNS {
        for bx in 0..16 {
            for (by, bh) in [(0, 3), (1, 3), (2, 3), (0, 1)] {
                let mut noskip = masks(r, MASKS - 1, bh);
                for (row, mask) in noskip.iter_mut().enumerate() {
                    let Some(i) = (row + 1).checked_sub(by).filter(|i| *i < 3) else {
                        continue;
                    };
                    let placed = |bits: u16| (u32::from(bits) << bx >> 1) as u16;
                    *mask = *mask & !placed(7) | placed(pattern >> (3 * i) & 7);
                }
                differ += usize::from(!same_index(r, &noskip, k, (bx, by, bh)));
                k += 1;
            }
        }
    }
    (k, differ)
}

/// The class index of every block of units of every height.
fn class_indices(r: &mut Random) -> (usize, usize) {
    let (mut k, mut differ) = (0, 0);
    for bh in 1..=16 {
        for block in 0..16 * bh {
            let (bx, by) = (block % 16, block / 16);
            for shape in 0..MASKS {
                for turn in 0..9 {
                    let noskip = masks(r, shape, bh);
                    differ += usize::from(!same_index(r, &noskip, turn, (bx, by, bh)));
                    k += 1;
                }
            }
        }
    }
    (k, differ)
}

/// The whole grid; whether nothing differs.
pub(crate) fn compare(seed: u64) -> bool {
    let exec = ExecContext::new();
    let mut r = Random::new(seed);
    let mut all = true;
    println!("{:<22}{:>10}{:>10}", "operation", "compared", "differ");
    let mut line = |name: &str, (compared, differ): (usize, usize)| {
        println!("{name:<22}{compared:>10}{differ:>10}");
        all &= differ == 0;
    };
    for op in OPERATIONS {
        line(op.name(), units(&exec, &mut r, op));
    }
    line("get_class_lut_idx", class_indices(&mut r));
    line(".. by pattern", patterns(&mut r));
    all
}
