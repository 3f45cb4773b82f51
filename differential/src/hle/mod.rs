//! The reference's module tree. build.sh puts the reference's own files beside the shims:
//! consts.rs, mem.rs and rsp_s2dex2.rs under their names, rdp.rs as rdp_original.rs.

pub mod consts;
pub mod mem;
pub mod rdp_original;
pub mod rsp_s2dex2;
#[cfg(not(store_only))]
pub mod rsp_s2dex2_noted;

pub mod framebuffer_load;
pub mod gbi;
pub mod interp;
pub mod rdp;
pub mod rsp;
pub mod rsp_f3dex2;
pub mod tmem;

pub use crate::scene::TexRectBounds;
