//! Time per run of the Rust's scalar functions and of the port's, on the same inputs in one process.

use std::hint::black_box;
use std::time::Instant;

use gihvendu::raw;

use crate::exec_context::ExecContext;
use crate::looprestoration::{backup_row_8bpc, backup_row_luma_8bpc};
use crate::random::Random;
use crate::runs::{self, CHROMA_ROWS, ROW, ROWS};

/// Inputs that a batch goes through in turn, runs to a batch, and batches. A batch is short against the time that a
/// scheduler gives, so that some are not disturbed on a busy machine.
const CASES: usize = 64;
const RUNS: usize = 4 * CASES;
pub(crate) const BATCHES: usize = 800;

/// The rows' first sample.
const ORIGIN: usize = 6;

/// The two sorts of filters that the port's runs tell apart: all numbers within 21, or not. The last number of a pretrained
/// set does not count.
#[derive(Clone, Copy, PartialEq)]
pub(crate) enum Sort {
    Small,
    Large,
}

impl Sort {
    /// The sort of some numbers.
    pub fn of(numbers: impl IntoIterator<Item = i16>) -> Sort {
        if numbers.into_iter().all(|c| (-21..=21).contains(&c)) {
            Sort::Small
        } else {
            Sort::Large
        }
    }

    pub fn name(self) -> &'static str {
        match self {
            Sort::Small => "small",
            Sort::Large => "large",
        }
    }

    /// A number of a filter whose greatest is `greatest`.
    pub fn number(self, r: &mut Random, greatest: i64) -> i16 {
        match self {
            Sort::Small => r.within(-12, 12) as i16,
            Sort::Large => r.within(-greatest - 1, greatest) as i16,
        }
    }
}

struct Case {
    rows: Vec<u8>,
    chroma_rows: Vec<u8>,
    indices: [usize; 10],
    chroma_indices: [usize; 10],
    ns: [i8; 16],
    pc: [i16; 13],
    uv: [i8; 18],
    noskip: [u16; 16],
    q: i32,
    x0: usize,
}

impl Case {
    /// A case for runs of `n` samples. Rows follow each other in a ring, as they do in a unit.
    fn random(r: &mut Random, n: usize, sort: Sort) -> Case {
        let (first, chroma_first) = (r.below(10), r.below(5));
        let any = |r: &mut Random, n: usize| (0..n).map(|_| r.below(256) as u8).collect();
        Case {
            rows: any(r, ROWS),
            chroma_rows: any(r, CHROMA_ROWS),
            indices: std::array::from_fn(|i| (first + i) % 10),
            chroma_indices: std::array::from_fn(|i| (chroma_first + i) % 5),
            ns: std::array::from_fn(|_| sort.number(r, 127) as i8),
            pc: std::array::from_fn(|i| match i {
                12 => r.within(88, 112) as i16,
                _ => sort.number(r, 32_767),
            }),
            uv: std::array::from_fn(|_| sort.number(r, 127) as i8),
            noskip: std::array::from_fn(|_| r.next() as u16),
            q: r.within(0, 6_000) as i32,
            x0: 4 * r.below((64 - n) / 4 + 1),
        }
    }

    /// The sorts of its three filters.
    fn sorts(&self) -> [Sort; 3] {
        [
            Sort::of(self.ns.map(i16::from)),
            Sort::of(self.pc[..12].iter().copied()),
            Sort::of(self.uv.map(i16::from)),
        ]
    }
}

/// The least nanoseconds per run of two functions over the cases, in batches that take turns. Both must answer and leave
/// the same, at every byte or at every second one.
fn measure(
    cases: &[Case],
    every: usize,
    rust: impl Fn(&Case, &mut [u8]) -> u32,
    port: impl Fn(&Case, &mut [u8]) -> u32,
) -> (f64, f64) {
    let mut dst = [[0u8; 2 * ROW]; 2];
    for case in cases {
        let answers = (rust(case, &mut dst[0]), port(case, &mut dst[1]));
        let same = dst[0]
            .iter()
            .step_by(every)
            .eq(dst[1].iter().step_by(every));
        assert!(answers.0 == answers.1 && same, "the two differ");
    }
    let batch = |run: &dyn Fn(&Case, &mut [u8]) -> u32, dst: &mut [u8]| {
        let start = Instant::now();
        for k in 0..RUNS {
            let case = black_box(&cases[k % CASES]);
            black_box(run(case, black_box(dst)));
        }
        start.elapsed().as_nanos() as f64 / RUNS as f64
    };
    let mut least = (f64::MAX, f64::MAX);
    for _ in 0..BATCHES {
        least.0 = least.0.min(batch(&rust, &mut dst[0]));
        least.1 = least.1.min(batch(&port, &mut dst[1]));
    }
    least
}

pub(crate) fn line(name: &str, n: usize, (rust, port): (f64, f64)) {
    println!(
        "{name:<26}{n:>6}{rust:>12.1}{port:>12.1}{:>12.3}",
        port / rust
    );
}

fn cases(seed: u64, n: usize, sort: Sort) -> Vec<Case> {
    let mut r = Random::new(seed);
    let drawn: Vec<Case> = (0..CASES).map(|_| Case::random(&mut r, n, sort)).collect();
    assert!(drawn.iter().flat_map(Case::sorts).all(|s| s == sort));
    drawn
}

/// The three filter runs, by filters of one sort.
fn filter_runs(sort: Sort) {
    let exec = black_box(ExecContext::new());
    let title = |name: &str| format!("{name}, {}", sort.name());
    for n in [64, 16, 4] {
        let cases = cases(n as u64, n, sort);

        macro_rules! ten_rows {
            ($name:literal, $rust:path, $port:path, $filter:ident) => {
                let rust = |c: &Case, d: &mut [u8]| {
                    $rust(
                        &exec,
                        &mut d[..n],
                        &c.rows,
                        &c.indices,
                        ORIGIN + c.x0,
                        &c.$filter,
                        n,
                    );
                    0
                };
                let port = |c: &Case, d: &mut [u8]| {
                    u32::from($port(
                        &mut d[..n],
                        &c.rows,
                        &c.indices,
                        ORIGIN + c.x0,
                        &c.$filter,
                        n,
                    ))
                };
                line(&title($name), n, measure(&cases, 1, rust, port));
            };
        }
        ten_rows!(
            "ns_wiener_fir_run",
            runs::ns_run,
            raw::gihvendu_ns_wiener_fir_run,
            ns
        );
        ten_rows!(
            "pc_wiener_fir_run",
            runs::pc_run,
            raw::gihvendu_pc_wiener_fir_run,
            pc
        );

        for (step, name) in [(1, "uv_fir_run, step 1"), (2, "uv_fir_run, step 2")] {
            let rust = |c: &Case, d: &mut [u8]| {
                runs::uv_run(
                    &exec,
                    &mut d[..n],
                    &c.chroma_rows,
                    &c.chroma_indices,
                    ORIGIN + c.x0,
                    ORIGIN + c.x0 * black_box(step),
                    black_box(step),
                    &c.uv,
                    n,
                );
                0
            };
            let port = |c: &Case, d: &mut [u8]| {
                let status = raw::gihvendu_ns_wiener_uv_fir_run(
                    &mut d[..n],
                    &c.chroma_rows,
                    &c.chroma_indices,
                    ORIGIN + c.x0,
                    ORIGIN + c.x0 * black_box(step),
                    black_box(step),
                    &c.uv,
                    n,
                );
                u32::from(status)
            };
            line(&title(name), n, measure(&cases, 1, rust, port));
        }
    }
}

/// The paddings of a row of the unit and of a luma row.
fn paddings() {
    let cases = cases(7, 64, Sort::Small);
    for w in [64, 16, 4] {
        let rust = |c: &Case, d: &mut [u8]| {
            let src_o = c.indices[0];
            backup_row_8bpc(
                d,
                ORIGIN,
                &c.rows,
                src_o,
                &c.rows[600..606],
                6,
                w,
                4,
                black_box(3),
            );
            0
        };
        let port = |c: &Case, d: &mut [u8]| {
            let status = raw::gihvendu_backup_row_8bpc(
                d,
                ORIGIN,
                &c.rows,
                c.indices[0],
                &c.rows[600..][..6],
                6,
                w,
                4,
                black_box(3),
            );
            u32::from(status)
        };
        line("backup_row", w, measure(&cases, 1, rust, port));
    }
    // In kind 0 the port fills the even columns only.
    for (kind, every, name) in [
        (0, 2, "backup_row_luma, 0"),
        (1, 1, "backup_row_luma, 1"),
        (2, 1, "backup_row_luma, 2"),
    ] {
        let w = 128;
        let rust = |c: &Case, d: &mut [u8]| {
            let src_o = 4 + c.indices[0];
            backup_row_luma_8bpc(d, ORIGIN, &c.rows, src_o, 140, w, black_box(3), 1, 1, kind);
            0
        };
        let port = |c: &Case, d: &mut [u8]| {
            let status = raw::gihvendu_backup_row_luma_8bpc(
                d,
                ORIGIN,
                &c.rows,
                &c.chroma_rows,
                false,
                4 + c.indices[0],
                140,
                w,
                black_box(3),
                1,
                1,
                kind as usize,
            );
            u32::from(status)
        };
        line(name, w, measure(&cases, every, rust, port));
    }
}

fn class_index() {
    let cases = cases(7, 64, Sort::Small);
    let rust = |c: &Case, _: &mut [u8]| {
        runs::class_index(&c.rows, &c.indices, &c.noskip, c.q, c.indices[1], 3, 16)
    };
    let port = |c: &Case, _: &mut [u8]| {
        let answer = raw::gihvendu_get_class_lut_idx_8bpc(
            &c.rows,
            &c.indices,
            &c.noskip,
            c.q,
            c.indices[1],
            3,
            16,
        );
        answer.class_index.index + (u32::from(answer.status) << 16)
    };
    line("get_class_lut_idx", 1, measure(&cases, 1, rust, port));
}

/// The leaves.
pub(crate) fn run() {
    println!(
        "{:<26}{:>6}{:>12}{:>12}{:>12}",
        "run", "n", "Rust ns", "port ns", "port/Rust"
    );
    filter_runs(Sort::Small);
    filter_runs(Sort::Large);
    paddings();
    class_index();
}
