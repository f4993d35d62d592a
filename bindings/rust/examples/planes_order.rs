//! Shows which channel of a JP2 file goes to which plane, what it is, and its mark: `planes_order [FILE [EDITION]]`, by default
//! a shipped sample whose channels are blue, green, red, and edition 1.

use cuzhantir_jp2::{
    finish, read, Asoc, Component, Components, Definition, Edition, Header, Method, Refused, Typ,
};
use std::error::Error;
use std::{env, fs};

const SAMPLE: &str = concat!(env!("CARGO_MANIFEST_DIR"), "/../../samples/gdal-bgr.jp2");

/// What colour `number`, from 1, is called.
fn colour_name(header: &Header<'_>, number: u16) -> String {
    let names: &[&str] = match header.colour().method {
        Method::Enumerated(16) => &["red", "green", "blue"],
        Method::Enumerated(17) => &["grey"],
        Method::Enumerated(18) => &["Y", "Cb", "Cr"],
        _ => &[],
    };
    match names.get(usize::from(number).wrapping_sub(1)) {
        Some(name) => (*name).to_owned(),
        None if names.is_empty() => format!("colour {number}"),
        None => "not told".to_owned(),
    }
}

/// What a channel is by its definition, or by its place where the file defines nothing.
fn channel_name(header: &Header<'_>, channel: u16) -> String {
    let defined = header.definitions().find(|d| d.channel == channel);
    match defined {
        Some(Definition {
            typ: Typ::Opacity | Typ::Premultiplied,
            ..
        }) => "opacity".to_owned(),
        Some(Definition {
            typ: Typ::Colour,
            asoc: Asoc::Colour(number),
            ..
        }) => colour_name(header, number),
        Some(_) => "not told".to_owned(),
        None => colour_name(header, channel.saturating_add(1)),
    }
}

/// The channel on each plane, and the plane's mark. A picture of one sample a component is finished: channels are packed in
/// their order, so where a plane's sample stands says which channel it is.
fn channels(header: &Header<'_>, count: u16, edition: Edition) -> Result<Vec<(u16, u32)>, Refused> {
    let point = |at: u16| Component {
        w: 1,
        h: 1,
        data: Some(at.into()),
        ..Component::default()
    };
    let components: Vec<Component> = (0..count).map(point).collect();
    let samples = vec![0; components.len()];
    let decoded = Components::new(&components, &samples);
    let picture = finish(header, &decoded, false, edition)?;
    Ok(picture
        .planes()
        .filter_map(|plane| {
            let channel = u16::try_from(plane.record.data?).ok()?;
            Some((channel, plane.record.alpha))
        })
        .collect())
}

/// The edition of a name; edition 1 where none is given.
fn edition_named(name: Option<String>) -> Result<Edition, &'static str> {
    match name.as_deref() {
        None | Some("1") => Ok(Edition::One),
        Some("2") => Ok(Edition::Two),
        Some(_) => Err("an edition is 1 or 2"),
    }
}

fn main() -> Result<(), Box<dyn Error>> {
    let path = env::args().nth(1).unwrap_or_else(|| SAMPLE.to_owned());
    let edition = edition_named(env::args().nth(2))?;
    let file = fs::read(&path)?;
    let header = read(&file)?;
    if header.codestream().is_none() {
        return Err("the file ends before a codestream: there is no picture in it".into());
    }
    let image = header.image().ok_or("the file has no image header")?;
    let planes = channels(&header, image.numcomps, edition)?;
    for (plane, (channel, mark)) in planes.into_iter().enumerate() {
        println!(
            "plane {plane}: channel {channel}, {}, mark {mark}",
            channel_name(&header, channel)
        );
    }
    Ok(())
}
