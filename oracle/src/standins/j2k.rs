//! Stands in for `j2k.rs`: the codestream's decoder and encoder, which succeed and do nothing.
//!
//! One value here is seen by an answer: a new decoder's `m_numcomps_to_decode` is 0, as finishing asks.

use super::event::opj_event_mgr;
use super::openjpeg::*;
use core::ptr::null_mut;

#[derive(Copy, Clone)]
pub enum J2KState {
    None,
}

#[derive(Copy, Clone)]
pub enum MCTElementType {}

fn opj_j2k_create(m_is_decoder: bool) -> opj_j2k {
    let m_decoder = opj_j2k_dec_t {
        m_state: J2KState::None,
        m_default_tcp: null_mut(),
        m_header_data: null_mut(),
        m_header_data_size: 0,
        m_sot_length: 0,
        m_start_tile_x: 0,
        m_start_tile_y: 0,
        m_end_tile_x: 0,
        m_end_tile_y: 0,
        m_tile_ind_to_dec: -1,
        m_last_sot_read_pos: 0,
        m_last_tile_part: 0,
        m_numcomps_to_decode: 0,
        m_comps_indices_to_decode: null_mut(),
        m_can_decode: false,
        m_discard_tiles: false,
        m_skip_data: false,
        m_nb_tile_parts_correction_checked: false,
        m_nb_tile_parts_correction: false,
    };
    opj_j2k {
        m_is_decoder: m_is_decoder.into(),
        m_specific_param: C2RustUnnamed_2 { m_decoder },
        m_private_image: null_mut(),
        m_output_image: null_mut(),
        m_cp: empty_cp(m_is_decoder),
        cstr_index: null_mut(),
        m_current_tile_number: 0,
        m_tcd: opj_tcd::default(),
        ihdr_w: 0,
        ihdr_h: 0,
        dump_state: 0,
    }
}

fn empty_cp(m_is_decoder: bool) -> opj_cp_t {
    opj_cp_t {
        rsiz: 0,
        tx0: 0,
        ty0: 0,
        tdx: 0,
        tdy: 0,
        comment: null_mut(),
        tw: 0,
        th: 0,
        ppm_markers_count: 0,
        ppm_markers: null_mut(),
        ppm_data: null_mut(),
        ppm_len: 0,
        ppm_data_read: 0,
        ppm_data_current: null_mut(),
        ppm_buffer: null_mut(),
        ppm_data_first: null_mut(),
        ppm_data_size: 0,
        ppm_store: 0,
        ppm_previous: 0,
        tcps: null_mut(),
        m_specific_param: C2RustUnnamed_0 {
            m_dec: opj_decoding_param_t {
                m_reduce: 0,
                m_layer: 0,
            },
        },
        strict: 1,
        ppm: false,
        m_is_decoder,
        allow_different_bit_depth_sign: false,
    }
}

pub(crate) fn opj_j2k_create_decompress() -> Option<opj_j2k> {
    Some(opj_j2k_create(true))
}

pub(crate) fn opj_j2k_create_compress() -> Option<opj_j2k> {
    Some(opj_j2k_create(false))
}

pub(crate) fn opj_j2k_setup_decoder(_: &mut opj_j2k, _: &mut opj_dparameters_t) {}

pub(crate) fn opj_j2k_decoder_set_strict_mode(_: &mut opj_j2k, _: OPJ_BOOL) {}

pub(crate) fn opj_j2k_set_threads(_: &mut opj_j2k, _: OPJ_UINT32) -> OPJ_BOOL {
    1
}

pub(crate) fn opj_j2k_setup_encoder(
    _: &mut opj_j2k,
    _: &mut opj_cparameters_t,
    _: &mut opj_image_t,
    _: &mut opj_event_mgr,
) -> OPJ_BOOL {
    1
}

pub(crate) fn opj_j2k_start_compress(
    _: &mut opj_j2k,
    _: &mut Stream,
    _: &mut opj_image,
    _: &mut opj_event_mgr,
) -> OPJ_BOOL {
    1
}

pub(crate) fn opj_j2k_encode(_: &mut opj_j2k, _: &mut Stream, _: &mut opj_event_mgr) -> OPJ_BOOL {
    1
}

pub(crate) fn opj_j2k_end_compress(
    _: &mut opj_j2k,
    _: &mut Stream,
    _: &mut opj_event_mgr,
) -> OPJ_BOOL {
    1
}

pub(crate) fn opj_j2k_end_decompress(
    _: &mut opj_j2k,
    _: &mut Stream,
    _: &mut opj_event_mgr,
) -> OPJ_BOOL {
    1
}

pub(crate) fn opj_j2k_read_header(
    _: &mut Stream,
    _: &mut opj_j2k,
    _: *mut *mut opj_image_t,
    _: &mut opj_event_mgr,
) -> OPJ_BOOL {
    1
}

pub(crate) fn opj_j2k_decode(
    _: &mut opj_j2k,
    _: &mut Stream,
    _: &mut opj_image,
    _: &mut opj_event_mgr,
) -> OPJ_BOOL {
    1
}

pub(crate) fn opj_j2k_read_tile_header(
    _: &mut opj_j2k,
    _: &mut Stream,
    _: &mut TileInfo,
    _: &mut opj_event_mgr,
) -> bool {
    true
}

pub(crate) fn opj_j2k_write_tile(
    _: &mut opj_j2k,
    _: OPJ_UINT32,
    _: &[u8],
    _: &mut Stream,
    _: &mut opj_event_mgr,
) -> OPJ_BOOL {
    1
}

pub(crate) fn opj_j2k_decode_tile(
    _: &mut opj_j2k,
    _: OPJ_UINT32,
    _: Option<&mut [u8]>,
    _: &mut Stream,
    _: &mut opj_event_mgr,
) -> OPJ_BOOL {
    1
}

pub(crate) fn opj_j2k_get_tile(
    _: &mut opj_j2k,
    _: &mut Stream,
    _: &mut opj_image,
    _: &mut opj_event_mgr,
    _: OPJ_UINT32,
) -> OPJ_BOOL {
    1
}

pub(crate) fn opj_j2k_set_decoded_components(
    _: &mut opj_j2k,
    _: &[u32],
    _: &mut opj_event_mgr,
) -> OPJ_BOOL {
    1
}

pub(crate) fn opj_j2k_set_decode_area(
    _: &mut opj_j2k,
    _: &mut opj_image,
    _: OPJ_INT32,
    _: OPJ_INT32,
    _: OPJ_INT32,
    _: OPJ_INT32,
    _: &mut opj_event_mgr,
) -> OPJ_BOOL {
    1
}

pub(crate) fn opj_j2k_set_decoded_resolution_factor(
    _: &mut opj_j2k,
    _: OPJ_UINT32,
    _: &mut opj_event_mgr,
) -> OPJ_BOOL {
    1
}

pub(crate) fn opj_j2k_encoder_set_extra_options(
    _: &mut opj_j2k,
    _: &[&str],
    _: &mut opj_event_mgr,
) -> bool {
    true
}

pub(crate) fn j2k_get_cstr_index(_: &mut opj_j2k) -> *mut opj_codestream_index_t {
    null_mut()
}

pub(crate) fn j2k_get_cstr_info(_: &mut opj_j2k) -> *mut opj_codestream_info_v2_t {
    null_mut()
}
