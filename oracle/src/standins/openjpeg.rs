//! Stands in for `openjpeg.rs`: the names that it passes on, and the memory of a component's samples.

pub use super::c_api_types::*;
pub use super::image::*;
pub use super::types::*;

use super::malloc::{opj_free, opj_malloc};
use core::ffi::c_void;

/// Memory for samples. What the crate answers for 0 bytes cannot be seen in the eight files; here it is memory, so
/// that a component with an empty plane keeps it.
pub unsafe fn opj_image_data_alloc(size: OPJ_SIZE_T) -> *mut c_void {
    opj_malloc(size.max(1))
}

pub unsafe fn opj_image_data_free(data: *mut c_void) {
    opj_free(data);
}
