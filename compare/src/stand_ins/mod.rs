//! Stand-ins for the modules that the three files import: as much of each as makes them compile. Only the three scalar
//! filter runs and the class table are ever used.

pub(crate) mod exec_context;
pub(crate) mod headers;
pub(crate) mod lf_mask;
#[cfg(target_arch = "aarch64")]
pub(crate) mod neon;
pub(crate) mod pixel;
pub(crate) mod rowops_dispatch;
pub(crate) mod tables;
