//! On Arm the files always take these: here the scalar functions under their names.
pub(crate) use crate::filter::{
    ns_wiener_fir_run_hbd_scalar as ns_wiener_fir_run_hbd_neon,
    ns_wiener_fir_run_scalar as ns_wiener_fir_run_neon,
    ns_wiener_uv_fir_run_hbd_scalar as ns_wiener_uv_fir_run_hbd_neon,
    ns_wiener_uv_fir_run_scalar as ns_wiener_uv_fir_run_neon,
    pc_wiener_fir_run_hbd_scalar as pc_wiener_fir_run_hbd_neon,
    pc_wiener_fir_run_scalar as pc_wiener_fir_run_neon,
};
use crate::looprestoration::pcw_features_scalar;

pub(crate) unsafe fn pcw_features_8bpc_neon(rows: &[&[u8]], row: usize, x0: usize) -> [i32; 3] {
    pcw_features_scalar(rows, row, x0)
}

pub(crate) unsafe fn pcw_features_hbd_neon(rows: &[&[u16]], row: usize, x0: usize) -> [i32; 3] {
    pcw_features_scalar(rows, row, x0)
}
