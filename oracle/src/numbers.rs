//! What reading answers as a row of numbers, in the order in which the port's `cuzhantir_read` gives them.
//!
//! [`FIELDS`] is the one table of that order. [`expected`] makes the row from the crate's answer; [`record`] goes the
//! other way and makes the crate's record from a row and the file, so that the lists, which the port leaves in the
//! file, are compared number by number too.

use crate::asking::Outcome;
use crate::jp2::reach;
use crate::places::{places, Places};
use crate::reading::Reading;
use crate::record::{Definition, Mapping, Palette, Profile, Record};

/// How many numbers an answer has.
pub const COUNT: usize = 44;

/// An answer: the numbers of [`FIELDS`].
pub type Numbers = [u32; COUNT];

/// Values of the first number.
pub const CODESTREAM: u32 = 0;
pub const ENDED: u32 = 1;
pub const REFUSED: u32 = 2;

/// An answer of the crate, before it is put in a row.
struct Answer<'a> {
    kind: u32,
    /// The codestream's offset, or document 01's number.
    value: u64,
    /// Of a refusal.
    place: u64,
    record: &'a Record,
    places: Places,
}

impl Answer<'_> {
    fn lab(&self) -> &[u32] {
        match &self.record.icc_profile {
            Profile::CieLab(numbers) => numbers,
            _ => &[],
        }
    }

    fn lab_number(&self, index: usize) -> u32 {
        self.lab().get(index).copied().unwrap_or_default()
    }

    fn icc_count(&self) -> usize {
        match &self.record.icc_profile {
            Profile::Icc(bytes) => bytes.len(),
            _ => 0,
        }
    }

    /// A number of the palette, 0 where there is none.
    fn palette(&self, number: fn(&Palette) -> usize) -> u32 {
        self.record.jp2_pclr.as_ref().map_or(0, number) as u32
    }
}

type Field = (&'static str, fn(&Answer) -> u32);

/// The numbers of an answer in their order: each one's name, and what the crate's answer has for it. All places are
/// counted from the start of the file.
const FIELDS: [Field; COUNT] = [
    ("kind", |a| a.kind),
    ("offset or number", |a| a.value as u32),
    ("place", |a| a.place as u32),
    ("h", |a| a.record.h),
    ("w", |a| a.record.w),
    ("numcomps", |a| a.record.comps.len() as u32),
    ("bpc", |a| a.record.bpc),
    ("c", |a| a.record.c),
    ("unkc", |a| a.record.unk_c),
    ("ipr", |a| a.record.ipr),
    ("meth", |a| a.record.meth),
    ("precedence", |a| a.record.precedence),
    ("approx", |a| a.record.approx),
    ("enumcs", |a| a.record.enumcs),
    ("lab 0", |a| a.lab_number(0)),
    ("lab 1", |a| a.lab_number(1)),
    ("lab 2", |a| a.lab_number(2)),
    ("lab 3", |a| a.lab_number(3)),
    ("lab 4", |a| a.lab_number(4)),
    ("lab 5", |a| a.lab_number(5)),
    ("lab 6", |a| a.lab_number(6)),
    ("lab 7", |a| a.lab_number(7)),
    ("lab 8", |a| a.lab_number(8)),
    ("lab count", |a| a.lab().len() as u32),
    ("held", |a| a.record.jp2_has_colr.into()),
    ("brand", |a| a.record.brand),
    ("minversion", |a| a.record.minversion),
    ("cl.place", |a| a.places.cl as u32),
    ("cl.count", |a| a.record.cl.len() as u32),
    ("bpcc.place", |a| a.places.bpcc.place as u32),
    ("bpcc.count", |a| a.places.bpcc.count as u32),
    ("icc.place", |a| a.places.icc as u32),
    ("icc.count", |a| a.icc_count() as u32),
    ("pclr.place", |a| a.places.pclr as u32),
    ("pclr.entries", |a| a.palette(|p| p.nr_entries.into())),
    ("pclr.columns", |a| a.palette(|p| p.nr_channels.into())),
    ("cmap.place", |a| a.places.cmap as u32),
    ("cmap.count", |a| a.palette(|p| p.cmap.len())),
    ("cdef.place", |a| a.places.cdef as u32),
    ("cdef.count", |a| {
        a.record.jp2_cdef.as_ref().map_or(0, Vec::len) as u32
    }),
    ("state", |a| a.record.jp2_state),
    ("imgstate", |a| a.record.jp2_img_state),
    ("hasjp2h", |a| a.record.has_jp2h.into()),
    ("hasihdr", |a| a.record.has_ihdr.into()),
];

/// The name of a number.
pub fn name(index: usize) -> &'static str {
    FIELDS[index].0
}

/// Where in a row the number of this name stands. Only for constants: a name that is not there stops the build.
pub const fn index(name: &str) -> usize {
    let mut at = 0;
    while !same(FIELDS[at].0.as_bytes(), name.as_bytes()) {
        at += 1;
    }
    at
}

const fn same(a: &[u8], b: &[u8]) -> bool {
    let mut at = 0;
    while at < a.len() && at < b.len() && a[at] == b[at] {
        at += 1;
    }
    at == a.len() && at == b.len()
}

/// The row that document 01 asks for, by what the crate made of `file`: the crate's record after success, the record
/// before any box after a refusal. None where the crate panicked or refused for no reason of document 01.
pub fn expected(file: &[u8], reading: &Reading) -> Option<Numbers> {
    if reading.outcome == Outcome::Success {
        let (kind, value) = reading
            .codestream
            .map_or((ENDED, 0), |offset| (CODESTREAM, offset));
        return Some(row(&Answer {
            kind,
            value,
            place: 0,
            record: &reading.record,
            places: places(file),
        }));
    }
    Some(row(&Answer {
        kind: REFUSED,
        value: reading.cause?.into(),
        place: reading.place?,
        record: &Record::from(&reach::create(true)),
        places: Places::default(),
    }))
}

fn row(answer: &Answer) -> Numbers {
    FIELDS.map(|(_, number)| number(answer))
}

/// The crate's record as a row tells it, with its lists read out of `file`. None where a list reaches past the file.
pub fn record(file: &[u8], row: &Numbers) -> Option<Record> {
    const STATE: usize = index("state");
    const IMG_STATE: usize = index("imgstate");
    const HAS_JP2H: usize = index("hasjp2h");
    const HAS_IHDR: usize = index("hasihdr");
    const HELD: usize = index("held");
    const H: usize = index("h");
    const W: usize = index("w");
    const BPC: usize = index("bpc");
    const C: usize = index("c");
    const UNK_C: usize = index("unkc");
    const IPR: usize = index("ipr");
    const METH: usize = index("meth");
    const PRECEDENCE: usize = index("precedence");
    const APPROX: usize = index("approx");
    const ENUMCS: usize = index("enumcs");
    const BRAND: usize = index("brand");
    const MINVERSION: usize = index("minversion");
    Some(Record {
        w: row[W],
        h: row[H],
        bpc: row[BPC],
        c: row[C],
        unk_c: row[UNK_C],
        ipr: row[IPR],
        meth: row[METH],
        precedence: row[PRECEDENCE],
        approx: row[APPROX],
        enumcs: row[ENUMCS],
        icc_profile: profile(file, row, row[METH] == 2 && row[HELD] == 1)?,
        brand: row[BRAND],
        minversion: row[MINVERSION],
        cl: compatible(file, row)?,
        comps: components(file, row)?,
        jp2_state: row[STATE],
        jp2_img_state: row[IMG_STATE],
        has_jp2h: row[HAS_JP2H].try_into().ok()?,
        has_ihdr: row[HAS_IHDR].try_into().ok()?,
        jp2_has_colr: row[HELD].try_into().ok()?,
        jp2_pclr: palette(file, row)?,
        jp2_cdef: definitions(file, row)?,
    })
}

/// `count` bytes from `place` on.
fn part(file: &[u8], place: usize, count: usize) -> Option<&[u8]> {
    file.get(place..place.checked_add(count)?)
}

/// The list at the place `row[at]` with the count `row[at + 1]`, of so many bytes each.
fn list<'a>(file: &'a [u8], row: &Numbers, at: usize, bytes: usize) -> Option<&'a [u8]> {
    part(file, row[at] as usize, row[at + 1] as usize * bytes)
}

/// A number of at most 4 bytes.
fn number(bytes: &[u8]) -> u32 {
    bytes
        .iter()
        .fold(0, |number, byte| number << 8 | u32::from(*byte))
}

fn number16(bytes: &[u8]) -> u16 {
    number(bytes) as u16
}

fn compatible(file: &[u8], row: &Numbers) -> Option<Vec<u32>> {
    const PLACE: usize = index("cl.place");
    Some(list(file, row, PLACE, 4)?.chunks(4).map(number).collect())
}

/// Zeros where no `bpcc` counts, as in the crate.
fn components(file: &[u8], row: &Numbers) -> Option<Vec<u32>> {
    const PLACE: usize = index("bpcc.place");
    const COMPONENTS: usize = index("numcomps");
    let bytes = list(file, row, PLACE, 1)?;
    if bytes.is_empty() {
        return Some(vec![0; row[COMPONENTS] as usize]);
    }
    Some(bytes.iter().map(|byte| u32::from(*byte)).collect())
}

fn profile(file: &[u8], row: &Numbers, by_method_2: bool) -> Option<Profile> {
    const PLACE: usize = index("icc.place");
    const LAB: usize = index("lab 0");
    const LAB_COUNT: usize = index("lab count");
    let numbers = row[LAB..LAB_COUNT].get(..row[LAB_COUNT] as usize)?;
    Some(if !numbers.is_empty() {
        Profile::CieLab(numbers.to_vec())
    } else if by_method_2 {
        Profile::Icc(list(file, row, PLACE, 1)?.to_vec())
    } else {
        Profile::None
    })
}

/// The outer option is none where the palette reaches past the file, the inner where there is none.
fn palette(file: &[u8], row: &Numbers) -> Option<Option<Palette>> {
    const PLACE: usize = index("pclr.place");
    const ENTRIES: usize = index("pclr.entries");
    const COLUMNS: usize = index("pclr.columns");
    let (place, columns) = (row[PLACE] as usize, row[COLUMNS] as usize);
    if columns == 0 {
        return Some(None);
    }
    let widths = part(file, place, columns)?;
    let sizes: Vec<u8> = widths.iter().map(|width| (width & 0x7f) + 1).collect();
    let signs = widths.iter().map(|width| width >> 7).collect();
    let mut rest = file.get(place + columns..)?;
    let mut entries = Vec::new();
    for _ in 0..row[ENTRIES] {
        for size in &sizes {
            let (entry, after) = rest.split_at_checked(entry_bytes(*size))?;
            entries.push(number(entry));
            rest = after;
        }
    }
    Some(Some(Palette {
        nr_entries: row[ENTRIES].try_into().ok()?,
        nr_channels: row[COLUMNS].try_into().ok()?,
        sizes,
        signs,
        entries,
        cmap: mappings(file, row)?,
    }))
}

fn entry_bytes(size: u8) -> usize {
    usize::from(size).div_ceil(8).min(4)
}

fn mappings(file: &[u8], row: &Numbers) -> Option<Vec<Mapping>> {
    const PLACE: usize = index("cmap.place");
    let mappings = list(file, row, PLACE, 4)?.chunks(4);
    let mapping = |bytes: &[u8]| Mapping {
        cmp: number16(&bytes[..2]),
        mtyp: bytes[2],
        pcol: bytes[3],
    };
    Some(mappings.map(mapping).collect())
}

/// As for [`palette`].
fn definitions(file: &[u8], row: &Numbers) -> Option<Option<Vec<Definition>>> {
    const PLACE: usize = index("cdef.place");
    let bytes = list(file, row, PLACE, 6)?;
    if bytes.is_empty() {
        return Some(None);
    }
    let definition = |bytes: &[u8]| Definition {
        cn: number16(&bytes[..2]),
        typ: number16(&bytes[2..4]),
        asoc: number16(&bytes[4..]),
    };
    Some(Some(bytes.chunks(6).map(definition).collect()))
}
