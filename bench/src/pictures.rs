//! Finishing pictures, and reordering their channels.

use crate::clock::{seconds, seconds_of_one};
use crate::files::reversed;
use crate::finishing::{Lists, Picture};
use crate::inputs::{many, many_columns, mixed, three_planes, with_palette, without_samples};
use crate::memory::{always_fresh, used_again};
use crate::table::{Case, Table};
use crate::Disagreement;
use std::cell::RefCell;
use std::hint::black_box;

const SIZES: [(u32, u32); 3] = [(640, 480), (1920, 1080), (4096, 3072)];

pub fn time(table: &mut Table) -> Result<(), Disagreement> {
    always_fresh();
    time_sizes(table, Buffers::Fresh)?;
    used_again();
    time_sizes(table, Buffers::Touched)?;
    for (columns, calls) in [(32, 200), (64, 100), (128, 50), (255, 50)] {
        let name = format!("palette of 1 by {columns}, 1x1");
        time_records(table, &name, &many_columns(columns), calls)?;
    }
    for (channels, calls) in [(4, 1000), (64, 200), (256, 50), (16384, 1)] {
        let name = format!("reorder, {channels} channels");
        let picture = without_samples(channels, &reversed(channels));
        time_records(table, &name, &picture, calls)?;
    }
    for channels in [4, 256, 16384] {
        let name = format!("reorder, {channels} channels, 65535 definitions");
        let picture = without_samples(channels, &many(channels));
        time_records(table, &name, &picture, 1)?;
    }
    Ok(())
}

/// What state the memory for finished samples is in when the time begins.
#[derive(Clone, Copy, PartialEq)]
enum Buffers {
    Fresh,
    Touched,
}

fn time_sizes(table: &mut Table, buffers: Buffers) -> Result<(), Disagreement> {
    for (width, height) in SIZES {
        let name = format!("three planes, {width}x{height}");
        time_samples(table, &name, &three_planes(width, height), buffers)?;
        let name = format!("palette of 256 by 3, {width}x{height}");
        time_samples(table, &name, &with_palette(width, height), buffers)?;
        let name = format!("mixed, 3 looked up and 1 direct, {width}x{height}");
        time_samples(table, &name, &mixed(width, height), buffers)?;
    }
    Ok(())
}

/// The copy is one of the finished samples, to the same destination.
fn time_samples(
    table: &mut Table,
    name: &str,
    picture: &Picture,
    buffers: Buffers,
) -> Result<(), Disagreement> {
    let finished = picture.finished(name)?.samples;
    let lists = RefCell::new(Lists::written(picture));
    let prepared = || {
        let mut lists = lists.borrow_mut();
        if buffers == Buffers::Fresh {
            lists.renew();
        }
        lists
    };
    table.time(Case {
        name: name.to_owned(),
        buffers: match buffers {
            Buffers::Fresh => "fresh",
            Buffers::Touched => "touched",
        },
        ours: Box::new(|| {
            let mut lists = prepared();
            seconds(|| picture.ours(black_box(&mut lists)))
        }),
        theirs: Box::new(|| picture.their_seconds(1)),
        making: None,
        openjpeg: picture.openjpeg_run(1),
        copy: Box::new(|| {
            let mut lists = prepared();
            let destination = black_box(&mut lists.samples[..]);
            seconds(|| destination.copy_from_slice(black_box(&finished)))
        }),
    });
    Ok(())
}

/// The copy is one of the finished records.
fn time_records(
    table: &mut Table,
    name: &str,
    picture: &Picture,
    calls: u32,
) -> Result<(), Disagreement> {
    let mut lists = picture.finished(name)?;
    let finished = lists.records.clone();
    let mut copied = finished.clone();
    table.time(Case {
        name: name.to_owned(),
        buffers: "touched",
        ours: Box::new(|| seconds_of_one(calls, || picture.ours(black_box(&mut lists)))),
        theirs: Box::new(|| picture.their_seconds(calls)),
        making: None,
        openjpeg: picture.openjpeg_run(calls),
        copy: Box::new(|| {
            seconds_of_one(calls, || {
                black_box(&mut copied[..]).copy_from_slice(black_box(&finished))
            })
        }),
    });
    Ok(())
}
