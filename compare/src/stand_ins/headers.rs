#[derive(Clone, Copy, PartialEq, Eq)]
pub(crate) enum PixelLayout {
    I420,
    I444,
}

pub(crate) struct NsFilters {
    pub frame_filters_on: u8,
    pub num_classes: u8,
    pub filter: [[i8; 18]; 16],
}

pub(crate) struct FhRestorationPlane {
    pub ns: NsFilters,
}
