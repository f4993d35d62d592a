//! Finishing by the port in both editions of the camera rules, on the same pictures and in the same rounds.

use crate::clock::seconds_of_one;
use crate::files::opacity_first;
use crate::finishing::Picture;
use crate::inputs::{many, without_samples};
use crate::port::{EDITION_1, EDITION_2};
use crate::table::EditionTable;
use crate::Disagreement;
use std::cell::RefCell;
use std::hint::black_box;

pub fn time(table: &EditionTable) -> Result<(), Disagreement> {
    for (channels, calls) in [(3, 2000), (64, 500), (256, 200), (16384, 10)] {
        let name = format!("opacity first, {channels} channels");
        let picture = without_samples(channels, &opacity_first(channels));
        time_both(table, name, &picture, calls)?;
    }
    for channels in [4, 16384] {
        let name = format!("{channels} channels, 65535 definitions");
        let picture = without_samples(channels, &many(channels));
        time_both(table, name, &picture, 10)?;
    }
    Ok(())
}

fn time_both(
    table: &EditionTable,
    name: String,
    picture: &Picture,
    calls: u32,
) -> Result<(), Disagreement> {
    let lists = RefCell::new(picture.finished_in_both(&name)?);
    let seconds = |edition2| {
        let mut lists = lists.borrow_mut();
        seconds_of_one(calls, || picture.ours_in(edition2, black_box(&mut lists)))
    };
    let first = Box::new(|| seconds(EDITION_1));
    let second = Box::new(|| seconds(EDITION_2));
    table.time(name, first, second);
    Ok(())
}
