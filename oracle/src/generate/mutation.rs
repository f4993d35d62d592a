//! Small changes to the bytes of a file.

use super::boxes::{CHILDREN, FREE, FTYP, JP, JP2C, JP2H};
use super::random::Random;

/// Changes `file` once; `other` is a file to take a part of.
pub(super) fn mutate(file: &mut Vec<u8>, other: &[u8], random: &mut Random) {
    if file.is_empty() {
        file.extend(other);
        return;
    }
    let place = random.below(file.len());
    match random.below(10) {
        0 => file[place] ^= 1 << random.below(8),
        1 => file[place] = random.pick(&[0, 1, 7, 8, 16, 127, 128, 255]),
        2 => file.truncate(place),
        3 => drop(file.drain(place..end(file.len(), place, random))),
        4 => repeat(file, place, random),
        5 => splice(file, place, other, random),
        6 => file[place] = random.byte(),
        7 => relength(file, random),
        8 => move_box(file, random),
        _ => repeat_box(file, random),
    }
}

/// A place behind `place`, mostly near it.
fn end(length: usize, place: usize, random: &mut Random) -> usize {
    let many = random.pick(&[1, 2, 4, 8, 16, 64]);
    length.min(place + 1 + random.below(many))
}

fn repeat(file: &mut Vec<u8>, place: usize, random: &mut Random) {
    let part = file[place..end(file.len(), place, random)].to_vec();
    file.splice(place..place, part);
}

/// The beginning of `file` and the end of `other`.
fn splice(file: &mut Vec<u8>, place: usize, other: &[u8], random: &mut Random) {
    let from = random.below(other.len() + 1);
    file.truncate(place);
    file.extend(&other[from..]);
}

/// Where a header of a known kind seems to stand.
fn headers(file: &[u8]) -> Vec<usize> {
    let known =
        |kind: u32| CHILDREN.contains(&kind) || [JP, FTYP, JP2H, JP2C, FREE].contains(&kind);
    let kind = |bytes: &[u8]| u32::from_be_bytes([bytes[4], bytes[5], bytes[6], bytes[7]]);
    let windows = file.windows(8).enumerate();
    let headers = windows.filter(|(_, bytes)| known(kind(bytes)));
    headers.map(|(place, _)| place).collect()
}

/// Where the box ends whose header stands at `place`, as far as the file goes.
fn box_end(file: &[u8], place: usize) -> usize {
    let length = u32::from_be_bytes([0, 1, 2, 3].map(|at| file[place + at]));
    file.len().min(place + (length as usize).max(8))
}

/// Another length for a box.
fn relength(file: &mut [u8], random: &mut Random) {
    let headers = headers(file);
    if headers.is_empty() {
        return;
    }
    let place = random.pick(&headers);
    let before = u32::from_be_bytes([0, 1, 2, 3].map(|at| file[place + at]));
    let near = before.wrapping_add(random.below(9) as u32).wrapping_sub(4);
    let length = if random.one_in(2) {
        near
    } else {
        random.number()
    };
    file[place..place + 4].copy_from_slice(&length.to_be_bytes());
}

fn move_box(file: &mut Vec<u8>, random: &mut Random) {
    let headers = headers(file);
    if headers.is_empty() {
        return;
    }
    let place = random.pick(&headers);
    let end = box_end(file, place);
    let part: Vec<u8> = file.drain(place..end).collect();
    insert(file, &part, random);
}

fn repeat_box(file: &mut Vec<u8>, random: &mut Random) {
    let headers = headers(file);
    if headers.is_empty() {
        return;
    }
    let place = random.pick(&headers);
    let part = file[place..box_end(file, place)].to_vec();
    insert(file, &part, random);
}

/// Puts a part before some box, or at the end.
fn insert(file: &mut Vec<u8>, part: &[u8], random: &mut Random) {
    let mut places = headers(file);
    places.push(file.len());
    let place = random.pick(&places);
    file.splice(place..place, part.iter().copied());
}
