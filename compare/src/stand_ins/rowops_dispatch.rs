pub(crate) struct GdfPrepRow {
    pub alpha_base: usize,
    pub weight_base: usize,
    pub bias_idx: usize,
    pub error_lut_base: usize,
    pub scale: i32,
    pub ref_dst_idx: usize,
    pub grad_shift: u32,
}
