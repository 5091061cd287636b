pub(crate) struct Av2Filter {
    pub lr_noskip_mask: [[u16; 4]; 64],
    pub lossless_mask_y: [[u16; 4]; 64],
    pub lossless_mask_uv: [[u16; 4]; 64],
    pub gdf: [u8; 16],
}

pub(crate) struct Av2RestorationUnit {
    pub restoration_type: u8,
    pub ns_filter: [[i8; 32]; 16],
}

pub(crate) struct Av2Restoration {
    pub lr: [[Av2RestorationUnit; 16]; 3],
}
