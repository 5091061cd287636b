use super::rowops_dispatch::GdfPrepRow;
use crate::filter::{
    NsWienerFirFn, NsWienerFirHbdFn, NsWienerUvFirFn, NsWienerUvFirHbdFn, PcWienerFirFn,
    PcWienerFirHbdFn,
};

type Grad<P> = unsafe fn(
    &mut [[u16; 4]],
    usize,
    usize,
    usize,
    [&[P]; 2],
    [&[P]; 2],
    [&[P]; 2],
    usize,
    i32,
    u32,
);

type Grads<'a> = [&'a [[u16; 4]]; 2];

/// The functions that the original chooses by the processor. Those that no 8-bit Wiener unit calls refuse to run.
#[allow(clippy::type_complexity)]
pub(crate) struct ExecContext {
    pub avg: unsafe fn(&mut [u8], &[i16], &[i16], usize, i32, i32),
    pub avg_hbd: unsafe fn(&mut [u16], &[i16], &[i16], usize, i32, i32, i32),
    pub w_avg: unsafe fn(&mut [u8], &[i16], &[i16], usize, i32, i32, i32),
    pub w_avg_hbd: unsafe fn(&mut [u16], &[i16], &[i16], usize, i32, i32, i32, i32),
    pub mask: unsafe fn(&mut [u8], &[i16], &[i16], &[u8], usize, i32, i32),
    pub mask_hbd: unsafe fn(&mut [u16], &[i16], &[i16], &[u8], usize, i32, i32, i32),
    pub blend: unsafe fn(&mut [u8], &[u8], &[u8], usize),
    pub blend_hbd: unsafe fn(&mut [u16], &[u16], &[u8], usize),
    pub morph: unsafe fn(&mut [u8], i32, i32, usize),
    pub morph_hbd: unsafe fn(&mut [u16], i32, i32, usize, i32),
    pub dc_add: unsafe fn(&mut [u8], i32, usize),
    pub dc_add_hbd: unsafe fn(&mut [u16], i32, usize, i32),
    pub row_clip: unsafe fn(&mut [i32], usize, i32, i32, i32, i32),
    pub residual_add: unsafe fn(&mut [u8], &[i32], usize, i32, i32),
    pub residual_add_hbd: unsafe fn(&mut [u16], &[i32], usize, i32, i32, i32),
    pub cctx: unsafe fn(&mut [i32], &mut [i32], i32, i32, usize, i32, i32),
    pub gdf_add: unsafe fn(&mut [u8], &[i8], i32, usize),
    pub gdf_add_hbd: unsafe fn(&mut [u16], &[i8], i32, usize, i32),
    pub gdf_grad: Grad<u8>,
    pub gdf_grad_hbd: Grad<u16>,
    pub gdf_prep_row_8bpc: unsafe fn([&[u8]; 13], usize, usize, Grads<'_>, &mut [i8], &GdfPrepRow),
    pub gdf_prep_row_hbd:
        unsafe fn([&[u16]; 13], usize, usize, Grads<'_>, &mut [i8], &GdfPrepRow, u32, i32),
    pub ns_wiener_fir: NsWienerFirFn,
    pub pc_wiener_fir: PcWienerFirFn,
    pub ns_wiener_uv_fir: NsWienerUvFirFn,
    pub ns_wiener_fir_hbd: NsWienerFirHbdFn,
    pub pc_wiener_fir_hbd: PcWienerFirHbdFn,
    pub ns_wiener_uv_fir_hbd: NsWienerUvFirHbdFn,
}

impl ExecContext {
    pub fn new() -> Self {
        ExecContext {
            avg: |_, _, _, _, _, _| unimplemented!(),
            avg_hbd: |_, _, _, _, _, _, _| unimplemented!(),
            w_avg: |_, _, _, _, _, _, _| unimplemented!(),
            w_avg_hbd: |_, _, _, _, _, _, _, _| unimplemented!(),
            mask: |_, _, _, _, _, _, _| unimplemented!(),
            mask_hbd: |_, _, _, _, _, _, _, _| unimplemented!(),
            blend: |_, _, _, _| unimplemented!(),
            blend_hbd: |_, _, _, _| unimplemented!(),
            morph: |_, _, _, _| unimplemented!(),
            morph_hbd: |_, _, _, _, _| unimplemented!(),
            dc_add: |_, _, _| unimplemented!(),
            dc_add_hbd: |_, _, _, _| unimplemented!(),
            row_clip: |_, _, _, _, _, _| unimplemented!(),
            residual_add: |_, _, _, _, _| unimplemented!(),
            residual_add_hbd: |_, _, _, _, _, _| unimplemented!(),
            cctx: |_, _, _, _, _, _, _| unimplemented!(),
            gdf_add: |_, _, _, _| unimplemented!(),
            gdf_add_hbd: |_, _, _, _, _| unimplemented!(),
            gdf_grad: |_, _, _, _, _, _, _, _, _, _| unimplemented!(),
            gdf_grad_hbd: |_, _, _, _, _, _, _, _, _, _| unimplemented!(),
            gdf_prep_row_8bpc: |_, _, _, _, _, _| unimplemented!(),
            gdf_prep_row_hbd: |_, _, _, _, _, _, _, _| unimplemented!(),
            ns_wiener_fir: crate::filter::ns_wiener_fir_run_scalar,
            pc_wiener_fir: crate::filter::pc_wiener_fir_run_scalar,
            ns_wiener_uv_fir: crate::filter::ns_wiener_uv_fir_run_scalar,
            ns_wiener_fir_hbd: crate::filter::ns_wiener_fir_run_hbd_scalar,
            pc_wiener_fir_hbd: crate::filter::pc_wiener_fir_run_hbd_scalar,
            ns_wiener_uv_fir_hbd: crate::filter::ns_wiener_uv_fir_run_hbd_scalar,
        }
    }
}
