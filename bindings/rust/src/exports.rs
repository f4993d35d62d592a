//! The entries as the static library has them. tests/names.rs compares them with the C header's; the comparison with the crate
//! and the bench include this file too.

extern "C" {
    pub fn cuzhantir_read(
        file: *const u8,
        file_len: usize,
        reading: *mut u64,
        reading_len: usize,
    ) -> u32;

    pub fn cuzhantir_finish(
        file: *const u8,
        file_len: usize,
        reading: *const u64,
        reading_len: usize,
        ignore: u32,
        edition2: u32,
        comps: *const u32,
        comps_len: usize,
        count: u32,
        samples: *const i32,
        samples_len: usize,
        records: *mut u32,
        records_len: usize,
        planes: *mut i32,
        planes_len: usize,
        answer: *mut u64,
        answer_len: usize,
    ) -> u32;

    pub fn cuzhantir_picture(
        file: *const u8,
        file_len: usize,
        ignore: u32,
        edition2: u32,
        comps: *const u32,
        comps_len: usize,
        count: u32,
        samples: *const i32,
        samples_len: usize,
        records: *mut u32,
        records_len: usize,
        planes: *mut i32,
        planes_len: usize,
        answer: *mut u64,
        answer_len: usize,
    ) -> u32;

    pub fn cuzhantir_write(
        comps: *const u32,
        comps_len: usize,
        count: u32,
        x0: u32,
        y0: u32,
        x1: u32,
        y1: u32,
        space: u32,
        profile: *const u8,
        profile_len: usize,
        codestream: u64,
        d: *mut u8,
        d_len: usize,
        answer: *mut u64,
        answer_len: usize,
    ) -> u32;
}
