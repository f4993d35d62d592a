//! OpenJPEG's box layer, as `boxes.c` gives it.

use oracle::numbers::{index, Numbers};
use oracle::{Component, FinishingRequest, Plane};
use std::ffi::c_void;

#[link(name = "openjpeg_boxes", kind = "static")]
unsafe extern "C" {
    fn openjpeg_read(file: *const u8, length: usize) -> i32;
    fn openjpeg_record(file: *const u8, length: usize, numbers: *mut u32) -> i32;
    fn openjpeg_image(numbers: *const u32, count: u32, samples: *const i32) -> *mut c_void;
    fn openjpeg_destroy(image: *mut c_void);
    fn openjpeg_finish(file: *const u8, length: usize, image: *mut c_void) -> i32;
    fn openjpeg_planes(image: *const c_void) -> u32;
    fn openjpeg_plane(image: *const c_void, index: u32, numbers: *mut u32) -> *const i32;
    fn openjpeg_set(
        image: *mut c_void,
        corners: *const u32,
        space: u32,
        profile: *const u8,
        length: u32,
    );
    fn openjpeg_write(image: *mut c_void, codestream: u32, d: *mut u8, length: usize) -> usize;
}

/// The numbers of an answer that OpenJPEG's record has, in the order of `openjpeg_record`.
const COMPARED: [usize; 23] = [
    index("offset or number"),
    index("h"),
    index("w"),
    index("numcomps"),
    index("bpc"),
    index("c"),
    index("unkc"),
    index("ipr"),
    index("meth"),
    index("precedence"),
    index("approx"),
    index("enumcs"),
    index("held"),
    index("brand"),
    index("minversion"),
    index("cl.count"),
    index("pclr.entries"),
    index("pclr.columns"),
    index("cdef.count"),
    index("state"),
    index("imgstate"),
    index("hasjp2h"),
    index("hasihdr"),
];

/// The library, which was there.
#[derive(Clone, Copy)]
pub struct Library;

pub fn library() -> Option<Library> {
    Some(Library)
}

impl Library {
    /// Whether it takes the file.
    pub fn read(self, file: &[u8]) -> bool {
        // The file lives until the call is over.
        unsafe { openjpeg_read(file.as_ptr(), file.len()) != 0 }
    }

    /// Whether it takes the file and reads these numbers.
    pub fn reads(self, file: &[u8], numbers: &Numbers) -> bool {
        let mut found = [0; COMPARED.len()];
        // As many numbers are written as the list has.
        let accepted =
            unsafe { openjpeg_record(file.as_ptr(), file.len(), found.as_mut_ptr()) != 0 };
        accepted && found == COMPARED.map(|index| numbers[index])
    }

    /// The picture, with samples of its own.
    pub fn image(self, request: &FinishingRequest) -> Image {
        let FinishingRequest {
            components,
            count,
            samples,
            ..
        } = request;
        assert_eq!(components.len(), 13 * *count as usize);
        for numbers in components.chunks(13) {
            let component = Component::from_numbers(numbers.try_into().expect("a record is whole"));
            assert!(component.is_some_and(|component| inside(&component, samples.len())));
        }
        // Every record is in its list, and so are its samples.
        Image(unsafe { openjpeg_image(components.as_ptr(), *count, samples.as_ptr()) })
    }
}

fn inside(component: &Component, samples: usize) -> bool {
    component.data == oracle::NO_DATA
        || u64::from(component.data) + component.area() <= samples as u64
}

/// OpenJPEG's picture, made ahead so that making it takes none of the time.
pub struct Image(*mut c_void);

impl Image {
    /// Reads the file, then finishes the picture in place.
    pub fn finish(&mut self, file: &[u8]) -> bool {
        // The picture is this one's alone, and the file lives until the call is over.
        unsafe { openjpeg_finish(file.as_ptr(), file.len(), self.0) != 0 }
    }

    /// What the picture holds, copied out.
    pub fn planes(&self) -> Vec<Plane> {
        // It looks at the picture, which lives as long as this.
        let count = unsafe { openjpeg_planes(self.0) };
        (0..count).map(|index| self.plane(index)).collect()
    }

    fn plane(&self, index: u32) -> Plane {
        let mut numbers = [0; 13];
        // The index is below the number of planes, and 13 numbers are written.
        let data = unsafe { openjpeg_plane(self.0, index, numbers.as_mut_ptr()) };
        let component = Component::from_numbers(&numbers).expect("a mark has 16 bits");
        let area = component.area() as usize;
        // A plane has as many samples as its area.
        let samples = (!data.is_null()).then(|| unsafe { std::slice::from_raw_parts(data, area) });
        Plane {
            props: component.props,
            samples: samples.map(<[i32]>::to_vec),
        }
    }

    /// What the picture needs more to be written: x0, y0, x1, y1, the colour space, and a profile.
    pub fn set(&mut self, corners: &[u32; 4], space: u32, profile: &[u8]) {
        let length = profile.len() as u32;
        // The lists live until the call is over, and the profile is copied.
        unsafe { openjpeg_set(self.0, corners.as_ptr(), space, profile.as_ptr(), length) }
    }

    /// Writes the boxes before a codestream of this length. Answers how many bytes, 0 for a refusal.
    pub fn write(&mut self, codestream: u32, d: &mut [u8]) -> usize {
        // No byte is written outside `d`.
        unsafe { openjpeg_write(self.0, codestream, d.as_mut_ptr(), d.len()) }
    }
}

impl Drop for Image {
    fn drop(&mut self) {
        // It was made by the same library, and no one else has it.
        unsafe { openjpeg_destroy(self.0) }
    }
}
