//! The port's writing, for lists. The comparison and the program behind `oracle/outside` both include this file.

#[link(name = "cuzhantir", kind = "static")]
unsafe extern "C" {}

#[allow(dead_code)]
#[path = "../../../bindings/rust/src/exports.rs"]
mod exports;

use exports::cuzhantir_write;

/// What is handed in, apart from the lists that are written to.
pub struct Request<'a> {
    pub components: &'a [u32],
    pub count: u32,
    /// x0, y0, x1, y1.
    pub corners: [u32; 4],
    pub space: u32,
    pub profile: &'a [u8],
    pub codestream: u64,
}

/// Writes the boxes before a codestream to `d`, and kind, number, place and the number of bytes to `answer`. Answers the
/// number of a refusal, else 0; and 30 where `answer` is too short.
pub fn write(request: &Request, d: &mut [u8], answer: &mut [u64]) -> u32 {
    let [x0, y0, x1, y1] = request.corners;
    // The pointers and lengths are those of slices that live until the call is over.
    unsafe {
        cuzhantir_write(
            request.components.as_ptr(),
            request.components.len(),
            request.count,
            x0,
            y0,
            x1,
            y1,
            request.space,
            request.profile.as_ptr(),
            request.profile.len(),
            request.codestream,
            d.as_mut_ptr(),
            d.len(),
            answer.as_mut_ptr(),
            answer.len(),
        )
    }
}
