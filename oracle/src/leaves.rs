//! The smallest parts by themselves: box kinds, box headers, numbers of 1 to 4 bytes.

use crate::asking::catch;
use crate::cio::{opj_read_bytes, opj_write_bytes};
use crate::consts::Jp2BoxType;
use crate::jp2::reach;
use crate::jp2::Jp2BoxHeader;

/// A box kind, from its number and back.
#[derive(Clone, Debug, PartialEq, Eq)]
pub struct Kind {
    /// The crate's name for the kind, `Unknown(n)` for one that it has none for.
    pub name: String,
    /// `Jp2BoxType::to_u32`
    pub number: Option<u32>,
    pub is_file_header: bool,
    pub is_image_header: bool,
}

/// `Jp2BoxType::from` a number, and what the crate says of it.
pub fn kind(number: u32) -> Kind {
    let kind = Jp2BoxType::from(number);
    Kind {
        name: format!("{kind:?}"),
        number: kind.to_u32(),
        is_file_header: kind.is_file_header(),
        is_image_header: kind.is_image_header(),
    }
}

/// A box header as the crate read it.
#[derive(Clone, Copy, Debug, PartialEq, Eq)]
pub struct Header {
    pub length: u32,
    /// The kind's number.
    pub kind: u32,
    pub header_length: u32,
    /// How many bytes were read.
    pub used: usize,
}

/// `Jp2BoxHeader::read` at the front of `bytes`, with the crate's own words where it fails. `max_size` is what a
/// length field of 0 stands for, 0 where that is refused.
pub fn read_header(bytes: &[u8], max_size: usize) -> Result<Header, String> {
    let mut rest = bytes;
    let header = catch(|| reach::read_box_header(&mut rest, max_size))??;
    Ok(Header {
        length: header.length,
        kind: header.ty_u32(),
        header_length: header.header_length,
        used: bytes.len() - rest.len(),
    })
}

/// `Jp2BoxHeader::content_length`, which wraps where the length is below the header's.
pub fn content_length(length: u32, header_length: u32) -> u32 {
    Jp2BoxHeader {
        length,
        ty: Jp2BoxType::default(),
        header_length,
    }
    .content_length()
}

/// The bytes of `Jp2BoxHeader::write`.
pub fn write_header(length: u32, kind: u32) -> Vec<u8> {
    reach::write_box_header(&Jp2BoxHeader {
        length,
        ty: kind.into(),
        header_length: 8,
    })
}

/// `opj_read_bytes` of all of `bytes`; none where the crate panics, which is unless there are 1 to 4.
pub fn read_bytes(bytes: &[u8]) -> Option<u32> {
    let mut value = 0;
    catch(|| opj_read_bytes(bytes.as_ptr(), &mut value, bytes.len() as u32)).ok()?;
    Some(value)
}

/// `opj_write_bytes` of `count` bytes; none where the crate panics, which is unless `count` is 1 to 4.
pub fn write_bytes(value: u32, count: u32) -> Option<Vec<u8>> {
    let mut bytes = [0; 4];
    catch(|| opj_write_bytes(bytes.as_mut_ptr(), value, count)).ok()?;
    Some(bytes[..count as usize].to_vec())
}
