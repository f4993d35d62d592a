//! Stands in for `c_api_types.rs`: the C names of plain types, as far as the eight files use them.
//!
//! `opj_image_comp` is the one record here whose fields an answer shows. Its fields and their order are those that
//! `image.rs` gives them in `Default`; `alpha` has 16 bits because `jp2.rs` stores a definition's `typ` in it.
#![allow(non_camel_case_types, non_snake_case)]

pub use super::image::opj_image_t;

use core::ffi::{c_char, c_float, c_int, c_uint, c_void};

pub type OPJ_BOOL = c_int;
pub type OPJ_CHAR = c_char;
pub type OPJ_BYTE = u8;
pub type OPJ_INT32 = i32;
pub type OPJ_UINT16 = u16;
pub type OPJ_UINT32 = u32;
pub type OPJ_UINT64 = u64;
pub type OPJ_FLOAT32 = f32;
pub type OPJ_FLOAT64 = f64;
pub type OPJ_OFF_T = i64;
pub type OPJ_SIZE_T = usize;
pub type size_t = usize;

pub type OPJ_PROG_ORDER = i32;
pub const OPJ_LRCP: OPJ_PROG_ORDER = 0;
pub type OPJ_CINEMA_MODE = c_uint;
pub const OPJ_OFF: OPJ_CINEMA_MODE = 0;
pub type OPJ_RSIZ_CAPABILITIES = c_uint;
pub const OPJ_STD_RSIZ: OPJ_RSIZ_CAPABILITIES = 0;

pub type OPJ_COLOR_SPACE = i32;
pub const OPJ_CLRSPC_UNKNOWN: OPJ_COLOR_SPACE = -1;
pub const OPJ_CLRSPC_SRGB: OPJ_COLOR_SPACE = 1;
pub const OPJ_CLRSPC_GRAY: OPJ_COLOR_SPACE = 2;
pub const OPJ_CLRSPC_SYCC: OPJ_COLOR_SPACE = 3;
pub const OPJ_CLRSPC_EYCC: OPJ_COLOR_SPACE = 4;
pub const OPJ_CLRSPC_CMYK: OPJ_COLOR_SPACE = 5;

pub type opj_msg_callback_fn = unsafe extern "C" fn(*const c_char, *mut c_void);
pub type opj_msg_callback = Option<opj_msg_callback_fn>;
pub type opj_stream_free_user_data_fn = Option<unsafe extern "C" fn(*mut c_void)>;
pub type opj_stream_read_fn =
    Option<unsafe extern "C" fn(*mut c_void, OPJ_SIZE_T, *mut c_void) -> OPJ_SIZE_T>;
pub type opj_stream_write_fn = opj_stream_read_fn;
pub type opj_stream_skip_fn = Option<unsafe extern "C" fn(OPJ_OFF_T, *mut c_void) -> OPJ_OFF_T>;
pub type opj_stream_seek_fn = Option<unsafe extern "C" fn(OPJ_OFF_T, *mut c_void) -> OPJ_BOOL>;

/// One component of a picture. `Clone` and `Default` are in the crate's `image.rs`.
#[repr(C)]
#[derive(Copy, Debug)]
pub struct opj_image_comp {
    pub dx: OPJ_UINT32,
    pub dy: OPJ_UINT32,
    pub w: OPJ_UINT32,
    pub h: OPJ_UINT32,
    pub x0: OPJ_UINT32,
    pub y0: OPJ_UINT32,
    pub prec: OPJ_UINT32,
    pub bpp: OPJ_UINT32,
    pub sgnd: OPJ_UINT32,
    pub resno_decoded: OPJ_UINT32,
    pub factor: OPJ_UINT32,
    pub data: *mut OPJ_INT32,
    pub alpha: OPJ_UINT16,
}
pub type opj_image_comp_t = opj_image_comp;

#[derive(Copy, Clone, Default)]
pub struct opj_poc_t {}

pub struct opj_codestream_index_t {}

pub struct opj_codestream_info_v2_t {}

pub struct opj_dparameters_t {
    pub flags: c_uint,
}

/// The encoder's settings. The JP2 layer looks at `jpip_on` alone.
pub struct opj_cparameters_t {
    pub tile_size_on: OPJ_BOOL,
    pub cp_tx0: c_int,
    pub cp_ty0: c_int,
    pub cp_tdx: c_int,
    pub cp_tdy: c_int,
    pub cp_disto_alloc: c_int,
    pub cp_fixed_alloc: c_int,
    pub cp_fixed_quality: c_int,
    pub cp_matrice: *mut c_int,
    pub cp_comment: *mut c_char,
    pub csty: c_int,
    pub prog_order: OPJ_PROG_ORDER,
    pub POC: [opj_poc_t; 32],
    pub numpocs: OPJ_UINT32,
    pub tcp_numlayers: c_int,
    pub tcp_rates: [c_float; 100],
    pub tcp_distoratio: [c_float; 100],
    pub numresolution: c_int,
    pub cblockw_init: c_int,
    pub cblockh_init: c_int,
    pub mode: c_int,
    pub irreversible: c_int,
    pub roi_compno: c_int,
    pub roi_shift: c_int,
    pub res_spec: c_int,
    pub prcw_init: [c_int; 33],
    pub prch_init: [c_int; 33],
    pub index_on: c_int,
    pub image_offset_x0: c_int,
    pub image_offset_y0: c_int,
    pub subsampling_dx: c_int,
    pub subsampling_dy: c_int,
    pub decod_format: c_int,
    pub cod_format: c_int,
    pub cp_cinema: OPJ_CINEMA_MODE,
    pub max_comp_size: c_int,
    pub cp_rsiz: OPJ_RSIZ_CAPABILITIES,
    pub tp_on: c_char,
    pub tp_flag: c_char,
    pub tcp_mct: c_char,
    pub jpip_on: OPJ_BOOL,
    pub mct_data: *mut c_void,
    pub max_cs_size: c_int,
    pub rsiz: OPJ_UINT16,
}
