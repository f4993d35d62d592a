//! Boxes, put together by hand.

pub const JP: u32 = 0x6a50_2020;
pub const FTYP: u32 = 0x6674_7970;
pub const JP2H: u32 = 0x6a70_3268;
pub const JP2C: u32 = 0x6a70_3263;
pub const IHDR: u32 = 0x6968_6472;
pub(super) const BPCC: u32 = 0x6270_6363;
pub(super) const COLR: u32 = 0x636f_6c72;
pub(super) const PCLR: u32 = 0x7063_6c72;
pub(super) const CMAP: u32 = 0x636d_6170;
pub(super) const CDEF: u32 = 0x6364_6566;
/// A kind that the crate has no name for.
pub const FREE: u32 = 0x6672_6565;

/// The boxes that are read inside `jp2h`.
pub(super) const CHILDREN: [u32; 6] = [IHDR, BPCC, COLR, PCLR, CMAP, CDEF];

/// Kinds that are skipped: those that the crate names (its own number for UUID and the standard's), and some that it
/// does not.
pub(super) const SKIPPED: [u32; 17] = [
    0x6a70_6970, // jpip
    0x7572_6c20, // url
    0x6474_626c, // dtbl
    0x6a70_3220, // jp2
    0x7265_7320, // res
    0x6a70_3269, // jp2i
    0x786d_6c20, // xml
    0x7575_6994, // UUID in the crate
    0x7575_6964, // uuid
    0x7569_6e66, // uinf
    FREE,
    0,
    1,
    0xffff_ffff,
    0x6a50_201a,
    0x4948_4452, // IHDR, in other letters
    0x6a70_3264,
];

/// What a box says of its length.
#[derive(Clone, Copy)]
pub(super) enum Length {
    /// What its content asks for, in the length field.
    Right,
    /// What its content asks for, as an extended length.
    RightExtended,
    /// This in the length field; not 1.
    Field(u32),
    /// This high word and this low word as an extended length.
    Extended(u32, u32),
}

pub(super) fn boxed(kind: u32, length: Length, content: &[u8]) -> Vec<u8> {
    let count = content.len() as u32;
    let (field, extended) = match length {
        Length::Right => (8 + count, None),
        Length::RightExtended => (1, Some((0, 16 + count))),
        Length::Field(field) => (field, None),
        Length::Extended(high, low) => (1, Some((high, low))),
    };
    let mut bytes = Vec::with_capacity(16 + content.len());
    bytes.extend(field.to_be_bytes());
    bytes.extend(kind.to_be_bytes());
    if let Some((high, low)) = extended {
        bytes.extend(high.to_be_bytes());
        bytes.extend(low.to_be_bytes());
    }
    bytes.extend(content);
    bytes
}

/// A box as most are.
pub fn plain(kind: u32, content: &[u8]) -> Vec<u8> {
    boxed(kind, Length::Right, content)
}
