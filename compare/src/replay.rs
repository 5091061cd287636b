//! The units of the Rattle program `replay`, from the same generator, restored by the Rust: the lines that the program is
//! expected to write.

use crate::stand_ins::tables::class_of;
use crate::units::{OPERATIONS, Operation, Unit};

/// All 64 sets of edge bits, three times for each operation.
const UNITS: usize = 768;

const POOL: usize = 36_864;

fn spread(mut x: u64) -> u64 {
    x ^= x << 13;
    x ^= x >> 7;
    x ^ x << 17
}

fn mix(x: u64) -> u64 {
    let a = spread(x.wrapping_add(0x9e37_79b9_7f4a_7c15));
    let b = spread(a.wrapping_add(0xbf58_476d_1ce4_e5b9));
    b ^ b >> 31
}

/// Number `i` of the list `s` of unit `k`.
fn draw(k: usize, s: u64, i: usize) -> u64 {
    mix(mix(mix(k as u64).wrapping_add(s)).wrapping_add(i as u64))
}

fn below(k: usize, s: u64, most: u64) -> usize {
    (draw(k, s, 0) % most) as usize
}

/// A sample of the pool: any, an end, or close to the others, 4,096 of a kind.
fn sample(i: usize) -> u8 {
    let v = mix(i as u64) as u8;
    match i / 4096 % 4 {
        0 => v,
        1 => [0, 255][usize::from(v % 2)],
        2 => 112 + v % 16,
        _ => 100 + v % 6,
    }
}

fn samples(from: usize, n: usize) -> Vec<u8> {
    (from..from + n).map(sample).collect()
}

fn masks(k: usize, s: u64, n: usize) -> Vec<u16> {
    let shape = draw(k, s, 99) % 6;
    (0..n)
        .map(|i| draw(k, s, i))
        .map(|v| match shape {
            0 | 1 => 0,
            2 => v as u16,
            3 => (v & v >> 16) as u16,
            4 => (v | v >> 16) as u16,
            _ => 65_535,
        })
        .collect()
}

/// The numbers from the middle on are the negative ones, from -1 down.
fn signed(v: u64, bits: u32) -> i64 {
    let (x, half) = ((v % (1 << bits)) as i64, 1 << (bits - 1));
    if x < half { x } else { half - 1 - x }
}

fn narrow(shape: u64, v: u64) -> i64 {
    match shape {
        0 => -128,
        1 => 127,
        2 => [-128, 127][(v % 2) as usize],
        3 => signed(v, 8),
        _ => signed(v % 16 + v / 16 % 2 * 128, 8),
    }
}

fn wide(shape: u64, v: u64) -> i64 {
    match shape {
        0 => -32_768,
        1 => 32_767,
        2 => [-32_768, 32_767][(v % 2) as usize],
        3 => signed(v, 16),
        _ => signed(v % 24 + v / 32 % 2 * 32_768, 16),
    }
}

/// Each set has a shape of its own: sets of 13 are pretrained ones.
fn filters(k: usize, n: usize, set: usize) -> Vec<i64> {
    let number = if set == 13 { wide } else { narrow };
    (0..n)
        .map(|i| number(draw(k, 5, i / set) % 8, draw(k, 4, i)))
        .collect()
}

fn quantizer(k: usize) -> i32 {
    let v = draw(k, 6, 0);
    match draw(k, 6, 1) % 8 {
        0 => i32::MIN,
        1 => i32::MAX,
        2 => signed(v, 32) as i32,
        3 => !((v % 40_000) as i32),
        _ => (v % 6_000) as i32,
    }
}

/// The bytes of so many rows.
fn extent(off: usize, rows: usize, stride: usize, row: usize) -> usize {
    if rows == 0 {
        return 0;
    }
    off + (rows - 1) * stride + row
}

fn side(k: usize, s: u64) -> usize {
    let most = if below(k, 10, 8) == 0 { 16 } else { 4 };
    4 + 4 * below(k, s, most)
}

fn unit(k: usize) -> Unit {
    let op = OPERATIONS[k % 4];
    let edges = k / 4 % 64 + 64 * below(k, 11, 4);
    let beside = |bit: usize, n: usize| if edges & bit == 0 { 0 } else { n };
    let (w, h) = (side(k, 12), side(k, 13));
    let chroma = op == Operation::Chroma;
    let classed = op == Operation::User || op == Operation::Pretrained;
    let e = if chroma { 2 } else { 4 };
    let (left, right) = (beside(1, e), beside(2, e));
    let stride = w + right + below(k, 14, 5);
    let off = below(k, 15, 8);
    let top_off = left + below(k, 16, 8);
    let bottom_off = left + below(k, 17, 8);
    let own_rows = h + beside(32, e);
    let top_rows = if edges & 16 != 0 { e } else { beside(4, 2) };
    let bottom_rows = if edges & 32 != 0 { 0 } else { beside(8, 2) };
    // The classes of a unit differ most where its samples are close to one another.
    let plane_from = if classed {
        8192 + below(k, 30, 8192)
    } else {
        below(k, 30, 16_384)
    };
    let part = |s: u64, n: usize| {
        let from = below(k, s, 16_384);
        assert!(from + n <= POOL);
        samples(from, n)
    };

    let pair = k / 4 % 3;
    let (ss_hor, ss_ver) = [(0, 0), (1, 0), (1, 1)][pair];
    let kind = k / 256 % 3;
    let luma_row = (w << ss_hor) + beside(2, 4);
    let luma_stride = if below(k, 20, 6) == 0 {
        below(k, 21, 8)
    } else {
        luma_row + below(k, 21, 6)
    };
    let above = beside(16, 2 << ss_ver) * luma_stride;
    let luma_off = above + beside(1, 4) + below(k, 22, 8);
    let luma_top_off = beside(1, 4) + below(k, 23, 8);
    let luma_bottom_off = beside(1, 4) + below(k, 24, 8);
    let one_less = usize::from(ss_ver == 1 && kind == 2);
    let luma_rows = (own_rows << ss_ver) - one_less;
    let luma_top_rows = if edges & 16 != 0 {
        0
    } else {
        beside(4, 2 - one_less)
    };
    let luma = |s: u64, off: usize, rows: usize| {
        if chroma {
            part(s, extent(off, rows, luma_stride, luma_row))
        } else {
            Vec::new()
        }
    };

    Unit {
        op,
        w,
        h,
        edges,
        stride,
        luma_stride,
        off,
        top_off,
        bottom_off,
        luma_off,
        luma_top_off,
        luma_bottom_off,
        ss_hor,
        ss_ver,
        kind,
        plane: samples(plane_from, extent(off, own_rows, stride, w + right)),
        left: part(31, beside(1, 6 * h)),
        top: part(32, extent(top_off, top_rows, stride, w + right)),
        bottom: part(33, extent(bottom_off, bottom_rows, stride, w + right)),
        luma_plane: luma(34, luma_off, luma_rows),
        luma_top: luma(35, luma_top_off, luma_top_rows),
        luma_bottom: luma(36, luma_bottom_off, bottom_rows),
        skip: masks(k, 2, h),
        noskip: if classed { masks(k, 3, 16) } else { Vec::new() },
        map: Vec::new(),
        subclass: if classed {
            (0..64).map(|i| (draw(k, 1, i) % 4) as u8).collect()
        } else {
            Vec::new()
        },
        filters: match op {
            Operation::Luma => filters(k, 16, 18),
            Operation::User => filters(k, 72, 18),
            Operation::Pretrained => filters(k, 52, 13),
            Operation::Chroma => filters(k, 18, 18),
        },
        q: if classed { quantizer(k) } else { 0 },
        least: [0; 6],
    }
}

/// Each row has a piece for each unmasked block.
pub(crate) fn pieces(u: &Unit) -> usize {
    (0..u.h)
        .map(|y| {
            let mask = u.skip[y / 4 * 4];
            (0..u.w / 4).filter(|b| mask >> b & 1 == 0).count()
        })
        .sum()
}

/// FNV-1a, 64 bits.
fn digest(bytes: &[u8]) -> u64 {
    bytes.iter().fold(0xcbf2_9ce4_8422_2325, |h, &b| {
        (h ^ u64::from(b)).wrapping_mul(0x0000_0100_0000_01b3)
    })
}

/// Whether the classes of a unit show in its samples.
fn classes_show(u: &Unit, restored: &[u8]) -> bool {
    (0..4).all(|class| {
        let one = Unit {
            subclass: vec![class; 64],
            ..u.clone()
        };
        one.restored() != restored
    })
}

/// The lines of the file stdout. How telling they are goes to standard error.
pub(crate) fn lines() -> String {
    let mut out = String::new();
    let (mut changed, mut classed) = (0, 0);
    // The map that the Rattle program makes is the one that the Rust is compiled with.
    assert!((0..4096).all(|i| usize::from(class_of(i)) == (i * 37 + i / 64) % 64));
    for k in 0..UNITS {
        let u = unit(k);
        let restored = u.restored();
        changed += usize::from(restored != u.plane);
        if !u.subclass.is_empty() {
            classed += usize::from(classes_show(&u, &restored));
        }
        out.push_str(&format!(
            "unit {k} op={} w={} h={} edges={} status=0 pieces={} plane={:016x}\n",
            k % 4 + 1,
            u.w,
            u.h,
            u.edges,
            pieces(&u),
            digest(&restored)
        ));
    }
    eprintln!(
        "{UNITS} units: {changed} changed their plane, {classed} restored by several classes"
    );
    out
}
