//! Stands in for `math.rs`: what `opj_image_comp_header_update` needs. No answer goes through it.

pub fn opj_uint_max(a: u32, b: u32) -> u32 {
    a.max(b)
}

pub fn opj_uint_min(a: u32, b: u32) -> u32 {
    a.min(b)
}

pub fn opj_uint_adds(a: u32, b: u32) -> u32 {
    a.saturating_add(b)
}

pub fn opj_uint_ceildiv(a: u32, b: u32) -> u32 {
    a.div_ceil(b)
}

pub fn opj_uint_ceildivpow2(a: u32, b: u32) -> u32 {
    (u64::from(a) + (1 << b) - 1 >> b) as u32
}
