//! The header record `opj_jp2`, in plain types.

use crate::openjpeg::{opj_jp2, opj_jp2_pclr, ICCProfile};

/// The whole record, under the crate's names.
#[derive(Clone, Debug, PartialEq, Eq)]
pub struct Record {
    pub w: u32,
    pub h: u32,
    pub bpc: u32,
    pub c: u32,
    pub unk_c: u32,
    pub ipr: u32,
    pub meth: u32,
    pub precedence: u32,
    pub approx: u32,
    pub enumcs: u32,
    pub icc_profile: Profile,
    pub brand: u32,
    pub minversion: u32,
    pub cl: Vec<u32>,
    /// `bpcc` of each component; as many as `ihdr` counted.
    pub comps: Vec<u32>,
    pub jp2_state: u32,
    pub jp2_img_state: u32,
    pub has_jp2h: u8,
    pub has_ihdr: u8,
    pub jp2_has_colr: u8,
    pub jp2_pclr: Option<Palette>,
    pub jp2_cdef: Option<Vec<Definition>>,
}

#[derive(Clone, Debug, PartialEq, Eq)]
pub enum Profile {
    None,
    Icc(Vec<u8>),
    /// The nine or eight numbers that the crate keeps as bytes in the machine's order.
    CieLab(Vec<u32>),
}

#[derive(Clone, Debug, PartialEq, Eq)]
pub struct Palette {
    pub nr_entries: u16,
    pub nr_channels: u8,
    /// Bits of each column.
    pub sizes: Vec<u8>,
    /// 1 for each signed column, else 0.
    pub signs: Vec<u8>,
    /// Row after row, as in the file.
    pub entries: Vec<u32>,
    /// Empty until a `cmap` box is read.
    pub cmap: Vec<Mapping>,
}

#[derive(Clone, Copy, Debug, PartialEq, Eq)]
pub struct Mapping {
    pub cmp: u16,
    pub mtyp: u8,
    pub pcol: u8,
}

#[derive(Clone, Copy, Debug, PartialEq, Eq)]
pub struct Definition {
    pub cn: u16,
    pub typ: u16,
    pub asoc: u16,
}

impl From<&opj_jp2> for Record {
    fn from(jp2: &opj_jp2) -> Self {
        let color = &jp2.color;
        Record {
            w: jp2.w,
            h: jp2.h,
            bpc: jp2.bpc,
            c: jp2.C,
            unk_c: jp2.UnkC,
            ipr: jp2.IPR,
            meth: jp2.meth,
            precedence: jp2.precedence,
            approx: jp2.approx,
            enumcs: jp2.enumcs,
            icc_profile: profile(&color.icc_profile),
            brand: jp2.brand,
            minversion: jp2.minversion,
            cl: jp2.cl.clone(),
            comps: jp2.comps.iter().map(|comp| comp.bpcc).collect(),
            jp2_state: jp2.jp2_state,
            jp2_img_state: jp2.jp2_img_state,
            has_jp2h: jp2.has_jp2h,
            has_ihdr: jp2.has_ihdr,
            jp2_has_colr: color.jp2_has_colr,
            jp2_pclr: color.jp2_pclr.as_ref().map(palette),
            jp2_cdef: color.jp2_cdef.as_ref().map(|cdef| {
                let info = cdef.info.iter();
                info.map(|info| Definition {
                    cn: info.cn,
                    typ: info.typ,
                    asoc: info.asoc,
                })
                .collect()
            }),
        }
    }
}

fn profile(profile: &Option<ICCProfile>) -> Profile {
    match profile {
        None => Profile::None,
        Some(ICCProfile::ICC(bytes)) => Profile::Icc(bytes.clone()),
        Some(ICCProfile::CIELab(bytes)) => Profile::CieLab(
            bytes
                .chunks_exact(4)
                .map(|four| u32::from_ne_bytes(four.try_into().expect("chunks of four")))
                .collect(),
        ),
    }
}

fn palette(pclr: &opj_jp2_pclr) -> Palette {
    let cmap = pclr.cmap.iter();
    Palette {
        nr_entries: pclr.nr_entries,
        nr_channels: pclr.nr_channels,
        sizes: pclr.channel.iter().map(|channel| channel.size).collect(),
        signs: pclr.channel.iter().map(|channel| channel.sign).collect(),
        entries: pclr.entries.clone(),
        cmap: cmap
            .map(|map| Mapping {
                cmp: map.cmp,
                mtyp: map.mtyp,
                pcol: map.pcol,
            })
            .collect(),
    }
}
