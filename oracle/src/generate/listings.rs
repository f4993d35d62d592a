//! Lists of definitions over three channels, each in every order.

use super::arrangements::{orders, Definition};

/// The channels that the definitions are about.
pub const LISTED_CHANNELS: u16 = 3;

/// Of lists of one to three definitions: a colour's typ, both opacities' and the one that says nothing.
const TYPS: [u16; 4] = [0, 1, 2, 65535];
/// The whole picture, each colour, and none.
const ASOCS: [u16; 5] = [0, 1, 2, 3, 65535];

/// Of lists of four definitions, in which all channels can have one and one of them a second.
const FEWER_TYPS: [u16; 2] = [0, 1];
const FEWER_ASOCS: [u16; 4] = [0, 1, 2, 3];

/// All lists of one to three definitions, and of four with fewer typs and asocs. Those that are the same but for their
/// order are given together.
pub fn definition_listings() -> impl Iterator<Item = Vec<Vec<Definition>>> {
    let all = definitions(&TYPS, &ASOCS);
    let fewer = definitions(&FEWER_TYPS, &FEWER_ASOCS);
    let short = (1..=3).flat_map(move |length| choices(&all, length));
    let lists = short.chain(choices(&fewer, 4));
    lists.map(|list| orders(&list))
}

fn definitions(typs: &[u16], asocs: &[u16]) -> Vec<Definition> {
    let mut all = Vec::new();
    for channel in 0..LISTED_CHANNELS {
        for typ in typs {
            all.extend(asocs.iter().map(|asoc| [channel, *typ, *asoc]));
        }
    }
    all
}

/// All ways to choose so many, the same ones again too, whatever their order.
fn choices<T: Copy>(from: &[T], length: usize) -> Vec<Vec<T>> {
    if length == 0 {
        return vec![Vec::new()];
    }
    let mut all = Vec::new();
    for (index, first) in from.iter().enumerate() {
        let rest = choices(&from[index..], length - 1);
        all.extend(rest.into_iter().map(|rest| [&[*first], &rest[..]].concat()));
    }
    all
}
