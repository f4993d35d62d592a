//! Doors to the private functions of the crate's `jp2.rs`. Each does what its namesake does and no more; the crate's
//! 0 and 1 become `bool`.

use super::*;

pub(crate) fn create(is_decoder: bool) -> opj_jp2 {
    opj_jp2_create(is_decoder.into()).expect("the stand-in codecs are always made")
}

pub(crate) fn read_header_procedure(
    jp2: &mut opj_jp2,
    stream: &mut Stream,
    manager: &mut opj_event_mgr,
) -> bool {
    opj_jp2_read_header_procedure(jp2, stream, manager) != 0
}

/// `Jp2BoxHeader::read` at the front of `bytes`, which afterwards begin behind what was read.
pub(crate) fn read_box_header(bytes: &mut &[u8], max_size: usize) -> Result<Jp2BoxHeader, String> {
    let mut header = Jp2BoxHeader::default();
    header.read(bytes, max_size)?;
    Ok(header)
}

pub(crate) fn write_box_header(header: &Jp2BoxHeader) -> Vec<u8> {
    let mut bytes = Vec::with_capacity(8);
    header.write(&mut bytes);
    bytes
}

pub(crate) fn read_content(
    header: &Jp2BoxHeader,
    jp2: &mut opj_jp2,
    content: &[u8],
    manager: &mut opj_event_mgr,
) -> bool {
    header.read_content(jp2, content, manager).is_ok()
}

pub(crate) fn check_color(
    image: &mut opj_image,
    color: &mut opj_jp2_color,
    manager: &mut opj_event_mgr,
) -> bool {
    opj_jp2_check_color(image, color, manager) != 0
}

/// The color of a new decoder, with these definitions.
pub(crate) fn color(info: Vec<opj_jp2_cdef_info>) -> opj_jp2_color {
    let mut color = create(true).color.clone();
    color.jp2_cdef = Some(opj_jp2_cdef { info });
    color
}

pub(crate) fn apply_cdef(
    image: &mut opj_image,
    color: &mut opj_jp2_color,
    manager: &mut opj_event_mgr,
) {
    opj_jp2_apply_cdef(image, color, manager)
}

pub(crate) fn apply_color_postprocessing(
    jp2: &mut opj_jp2,
    image: &mut opj_image,
    manager: &mut opj_event_mgr,
) -> bool {
    opj_jp2_apply_color_postprocessing(jp2, image, manager) != 0
}

pub(crate) fn setup_encoder(
    jp2: &mut opj_jp2,
    parameters: &mut opj_cparameters_t,
    image: &mut opj_image,
    manager: &mut opj_event_mgr,
) -> bool {
    opj_jp2_setup_encoder(jp2, parameters, image, manager) != 0
}

/// The type that the crate itself gives to a step of its encoder.
type Procedure = fn(&mut opj_jp2, &mut Stream, &mut opj_event_mgr) -> OPJ_BOOL;

pub(crate) const DEFAULT_VALIDATION: Procedure = opj_jp2_default_validation;
pub(crate) const WRITE_JP: Procedure = opj_jp2_write_jp;
pub(crate) const WRITE_FTYP: Procedure = opj_jp2_write_ftyp;
pub(crate) const WRITE_JP2H: Procedure = opj_jp2_write_jp2h;
pub(crate) const SKIP_JP2C: Procedure = opj_jp2_skip_jp2c;
pub(crate) const WRITE_JP2C: Procedure = opj_jp2_write_jp2c;
