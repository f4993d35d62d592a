//! Writing the boxes before a codestream.

use crate::asking::{ask, Message, Outcome};
use crate::event::opj_event_mgr;
use crate::jp2::reach;
use crate::memory::Sink;
use crate::openjpeg::{
    opj_cparameters_t, opj_image, opj_jp2, ICCProfileRef, Stream, OPJ_LRCP, OPJ_OFF, OPJ_STD_RSIZ,
};
use crate::picture::{image_without_samples, Component};
use core::ptr::null_mut;

/// A picture to be written.
#[derive(Clone, Copy, Debug)]
pub struct WritingRequest<'a> {
    /// Of each component the crate looks at `prec`, `sgnd` and `alpha` alone.
    pub components: &'a [Component],
    pub x0: u32,
    pub y0: u32,
    pub x1: u32,
    pub y1: u32,
    pub color_space: u32,
    /// An ICC profile; empty for none.
    pub profile: &'a [u8],
    /// Puts the profile into the record before the writers run. The crate itself never does, and so panics on any
    /// picture with a profile; this shows what its writers make of one.
    pub store_profile: bool,
    /// The codestream's length without its box header. None of it is written.
    pub codestream_length: u32,
}

/// The steps of writing, in order.
#[derive(Clone, Copy, Debug, PartialEq, Eq)]
pub enum Step {
    /// `opj_jp2_setup_encoder`
    Setup,
    /// `opj_jp2_default_validation`
    Validation,
    /// `opj_jp2_write_jp`
    Jp,
    /// `opj_jp2_write_ftyp`
    Ftyp,
    /// `opj_jp2_write_jp2h`
    Jp2h,
    /// `opj_jp2_skip_jp2c` and, after the codestream, `opj_jp2_write_jp2c`
    Jp2c,
}

/// What the crate wrote.
#[derive(Clone, Debug, PartialEq, Eq)]
pub struct Writing {
    pub outcome: Outcome,
    /// The step that failed or panicked, or the last.
    pub step: Step,
    pub messages: Vec<Message>,
    /// All boxes before the codestream, with its header; empty unless it succeeded.
    pub bytes: Vec<u8>,
}

/// Writes the boxes before a codestream, and the codestream's header.
pub fn write(request: &WritingRequest) -> Writing {
    let sink = Sink::default();
    let mut step = Step::Setup;
    let (outcome, messages) = ask(|manager| run(request, &sink, &mut step, manager));
    let bytes = match outcome {
        Outcome::Success => sink.bytes(),
        _ => Vec::new(),
    };
    Writing {
        outcome,
        step,
        messages,
        bytes,
    }
}

pub(crate) fn run(
    request: &WritingRequest,
    sink: &Sink,
    step: &mut Step,
    manager: &mut opj_event_mgr,
) -> bool {
    let mut jp2 = reach::create(false);
    let mut image = image_to_write(request);
    if !reach::setup_encoder(&mut jp2, &mut parameters(), &mut image, manager) {
        return false;
    }
    if request.store_profile {
        jp2.color.set_icc_profile(request.profile.to_vec());
    }
    let mut stream = sink.stream();
    for (next, procedure) in [
        (Step::Validation, reach::DEFAULT_VALIDATION),
        (Step::Jp, reach::WRITE_JP),
        (Step::Ftyp, reach::WRITE_FTYP),
        (Step::Jp2h, reach::WRITE_JP2H),
        (Step::Jp2c, reach::SKIP_JP2C),
    ] {
        *step = next;
        if procedure(&mut jp2, &mut stream, manager) == 0 {
            return false;
        }
    }
    write_jp2c(request, &mut jp2, &mut stream, manager)
}

/// The codestream is skipped in place of being written: its header is told its length from where the stream stands.
fn write_jp2c(
    request: &WritingRequest,
    jp2: &mut opj_jp2,
    stream: &mut Stream,
    manager: &mut opj_event_mgr,
) -> bool {
    stream.skip(request.codestream_length.into()).is_ok()
        && reach::WRITE_JP2C(jp2, stream, manager) != 0
        && stream.flush().is_ok()
}

fn image_to_write(request: &WritingRequest) -> Box<opj_image> {
    let mut image = image_without_samples(request.components);
    image.x0 = request.x0;
    image.y0 = request.y0;
    image.x1 = request.x1;
    image.y1 = request.y1;
    image.color_space = request.color_space as i32;
    image.copy_icc_profile(ICCProfileRef::ICC(request.profile));
    image
}

/// The codestream's settings, of which the JP2 layer reads `jpip_on`: off.
fn parameters() -> opj_cparameters_t {
    opj_cparameters_t {
        tile_size_on: 0,
        cp_tx0: 0,
        cp_ty0: 0,
        cp_tdx: 0,
        cp_tdy: 0,
        cp_disto_alloc: 0,
        cp_fixed_alloc: 0,
        cp_fixed_quality: 0,
        cp_matrice: null_mut(),
        cp_comment: null_mut(),
        csty: 0,
        prog_order: OPJ_LRCP,
        POC: Default::default(),
        numpocs: 0,
        tcp_numlayers: 0,
        tcp_rates: [0.0; 100],
        tcp_distoratio: [0.0; 100],
        numresolution: 0,
        cblockw_init: 0,
        cblockh_init: 0,
        mode: 0,
        irreversible: 0,
        roi_compno: 0,
        roi_shift: 0,
        res_spec: 0,
        prcw_init: [0; 33],
        prch_init: [0; 33],
        index_on: 0,
        image_offset_x0: 0,
        image_offset_y0: 0,
        subsampling_dx: 0,
        subsampling_dy: 0,
        decod_format: 0,
        cod_format: 0,
        cp_cinema: OPJ_OFF,
        max_comp_size: 0,
        cp_rsiz: OPJ_STD_RSIZ,
        tp_on: 0,
        tp_flag: 0,
        tcp_mct: 0,
        jpip_on: 0,
        mct_data: null_mut(),
        max_cs_size: 0,
        rsiz: 0,
    }
}
