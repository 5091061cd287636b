//! The Rust's three scalar runs and its class index over the port's rows: one flat array and row indices. The taps are
//! built from row references as looprestoration.rs does it. Each panics where the Rust, or a row, is outside.

use std::array::from_fn;

use crate::exec_context::ExecContext;
use crate::filter::{UvLumaTap, WienerTap};
use crate::looprestoration::{
    PC_WIENER_CONFIG, WIENER_NS_CONFIG_UV, WIENER_NS_CONFIG_UV_FROM_Y, WIENER_NS_CONFIG_Y,
    get_class_lut_idx_8bpc,
};

pub(crate) const ROW: usize = 76;
pub(crate) const LUMA_ROW: usize = 140;
pub(crate) const LUMA_AT: usize = 5 * ROW;
pub(crate) const ROWS: usize = 10 * ROW;
pub(crate) const CHROMA_ROWS: usize = LUMA_AT + 5 * LUMA_ROW;

pub(crate) fn ns_run(
    exec: &ExecContext,
    dst: &mut [u8],
    rows: &[u8],
    indices: &[usize; 10],
    col0: usize,
    filter: &[i8; 16],
    n: usize,
) {
    let buffers = rows.as_chunks::<ROW>().0;
    let refs: [&[u8]; 9] = from_fn(|i| &buffers[indices[i]] as &[u8]);
    let taps: [WienerTap; 16] = from_fn(|i| {
        let dy = WIENER_NS_CONFIG_Y[i][0] as i32;
        let dx = WIENER_NS_CONFIG_Y[i][1] as i32;
        WienerTap {
            row_p: refs[(4 + dy) as usize],
            row_m: refs[(4 - dy) as usize],
            dx,
            coef: filter[i] as i32,
        }
    });
    // SAFETY: the function is ns_wiener_fir_run_scalar, which is safe.
    unsafe { (exec.ns_wiener_fir)(dst, refs[4], col0, &taps, n) }
}

pub(crate) fn pc_run(
    exec: &ExecContext,
    dst: &mut [u8],
    rows: &[u8],
    indices: &[usize; 10],
    col0: usize,
    filter: &[i16; 13],
    n: usize,
) {
    let buffers = rows.as_chunks::<ROW>().0;
    let refs: [&[u8]; 9] = from_fn(|i| &buffers[indices[i]] as &[u8]);
    let taps: [WienerTap; 12] = from_fn(|i| {
        let dy = PC_WIENER_CONFIG[i][0] as i32;
        let dx = PC_WIENER_CONFIG[i][1] as i32;
        WienerTap {
            row_p: refs[(4 + dy) as usize],
            row_m: refs[(4 - dy) as usize],
            dx,
            coef: filter[i] as i32,
        }
    });
    // SAFETY: the function is pc_wiener_fir_run_scalar, which is safe.
    unsafe { (exec.pc_wiener_fir)(dst, refs[4], filter[12] as i32, col0, &taps, n) }
}

#[allow(clippy::too_many_arguments)]
pub(crate) fn uv_run(
    exec: &ExecContext,
    dst: &mut [u8],
    rows: &[u8],
    indices: &[usize; 10],
    col0: usize,
    lcol0: usize,
    step: usize,
    filter: &[i8; 18],
    n: usize,
) {
    let (own, luma) = rows.split_at(LUMA_AT);
    let (c_buffers, l_buffers) = (own.as_chunks::<ROW>().0, luma.as_chunks::<LUMA_ROW>().0);
    let c_refs: [&[u8]; 5] = from_fn(|i| &c_buffers[indices[i]] as &[u8]);
    let l_refs: [&[u8]; 5] = from_fn(|i| &l_buffers[indices[5 + i]] as &[u8]);
    let ctaps: [WienerTap; 6] = from_fn(|i| {
        let dy = WIENER_NS_CONFIG_UV[i][0] as i32;
        let dx = WIENER_NS_CONFIG_UV[i][1] as i32;
        WienerTap {
            row_p: c_refs[(2 + dy) as usize],
            row_m: c_refs[(2 - dy) as usize],
            dx,
            coef: filter[i] as i32,
        }
    });
    let ltaps: [UvLumaTap; 12] = from_fn(|i| {
        let dy = WIENER_NS_CONFIG_UV_FROM_Y[i][0] as i32;
        let dx = WIENER_NS_CONFIG_UV_FROM_Y[i][1] as i32;
        UvLumaTap {
            row: l_refs[(2 + dy) as usize],
            ldx: dx * step as i32,
            coef: filter[6 + i] as i32,
        }
    });
    // SAFETY: the function is ns_wiener_uv_fir_run_scalar, which is safe.
    unsafe {
        (exec.ns_wiener_uv_fir)(
            dst, c_refs[2], col0, &ctaps, l_refs[2], lcol0, &ltaps, step, n,
        )
    }
}

pub(crate) fn class_index(
    rows: &[u8],
    indices: &[usize; 10],
    noskip: &[u16],
    base_q: i32,
    bx: usize,
    by: usize,
    bh: usize,
) -> u32 {
    let buffers = rows.as_chunks::<ROW>().0;
    let refs: [&[u8]; 10] = from_fn(|i| &buffers[indices[i]] as &[u8]);
    get_class_lut_idx_8bpc(&refs, 4, 6, noskip, base_q, bx, by, bh) as u32
}
