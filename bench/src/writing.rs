//! Writing the boxes before a codestream.

use crate::clock::seconds_of_one;
use crate::openjpeg::{self, Library};
use crate::table::{Case, Run, Table};
use crate::writer;
use crate::Disagreement;
use oracle::written::{self, Handed};
use oracle::{bare, Component, FinishingRequest, Props, WritingRequest, NO_DATA};
use std::hint::black_box;

/// The crate's numbers of colour spaces.
const SRGB: u32 = 1;
const GREY: u32 = 2;

/// The codestream's length. None of it is written.
const CODESTREAM: u32 = 1_000_000;

pub fn time(table: &mut Table) -> Result<(), Disagreement> {
    let grey = Writing::new(vec![component(8, 0)], GREY, 0);
    grey.time(table, "plain grey", 2000)?;
    let opaque = [0, 0, 0, 1].map(|mark| component(8, mark));
    let with_cdef = Writing::new(opaque.to_vec(), SRGB, 0);
    with_cdef.time(table, "4 components with a cdef", 2000)?;
    let depths = (0..16384).map(|number| component(1 + number % 38, 0));
    let with_bpcc = Writing::new(depths.collect(), SRGB, 0);
    with_bpcc.time(table, "16384 components with a bpcc", 20)?;
    let colours = vec![component(8, 0); 3];
    for (length, calls) in [(3144, 1000), (65536, 100)] {
        let with_profile = Writing::new(colours.clone(), SRGB, length);
        with_profile.time(table, &format!("profile of {length} bytes"), calls)?;
    }
    Ok(())
}

fn component(prec: u32, alpha: u16) -> Component {
    let props = Props {
        dx: 1,
        dy: 1,
        w: 640,
        h: 480,
        prec,
        alpha,
        ..Props::default()
    };
    Component {
        props,
        data: NO_DATA,
    }
}

/// What is handed in: to the port and to OpenJPEG as numbers, to the crate as components.
struct Writing {
    handed: Handed,
    components: Vec<Component>,
}

impl Writing {
    /// With a profile of so many bytes, none for 0.
    fn new(components: Vec<Component>, space: u32, profile: usize) -> Self {
        let handed = Handed {
            components: components.iter().flat_map(Component::numbers).collect(),
            count: components.len() as u32,
            x1: 640,
            y1: 480,
            space,
            profile: (0..profile).map(|number| number as u8).collect(),
            codestream: CODESTREAM.into(),
            room: profile + 8 * components.len() + 100,
            ..Handed::default()
        };
        Writing { handed, components }
    }

    /// The copy is one of the written bytes.
    fn time(&self, table: &mut Table, name: &str, calls: u32) -> Result<(), Disagreement> {
        let written = self.written(name)?;
        let mut d = written.clone();
        let mut copied = written.clone();
        table.time(Case {
            name: format!("writing, {name}, {} bytes", written.len()),
            buffers: "hot",
            ours: Box::new(|| seconds_of_one(calls, || self.ours(black_box(&mut d)))),
            theirs: Box::new(|| seconds_of_one(calls, || bare::write(black_box(&self.request())))),
            making: Some(Box::new(|| seconds_of_one(calls, || self.making()))),
            openjpeg: openjpeg::library().map(|library| self.openjpeg_run(library, calls)),
            copy: Box::new(|| {
                seconds_of_one(calls, || {
                    black_box(&mut copied[..]).copy_from_slice(black_box(&written))
                })
            }),
        });
        Ok(())
    }

    /// The bytes that all have to write.
    fn written(&self, name: &str) -> Result<Vec<u8>, Disagreement> {
        let asked = written::answer(&self.handed)?;
        let bare = bare::write(&self.request());
        let mut ours = vec![1; asked.bytes.len()];
        if self.ours(&mut ours) == asked.numbers()
            && ours == asked.bytes
            && bare.as_ref() == Some(&ours)
            && openjpeg::library().is_none_or(|library| self.openjpeg_writes(library, &ours))
        {
            return Ok(ours);
        }
        Err(format!("writing, {name}: the answers differ"))
    }

    /// The port's four numbers.
    fn ours(&self, d: &mut [u8]) -> [u64; 4] {
        let Handed { x0, y0, x1, y1, .. } = self.handed;
        let request = writer::Request {
            components: &self.handed.components,
            count: self.handed.count,
            corners: [x0, y0, x1, y1],
            space: self.handed.space,
            profile: &self.handed.profile,
            codestream: self.handed.codestream,
        };
        let mut answer = [1; 4];
        writer::write(black_box(&request), d, &mut answer);
        answer
    }

    fn request(&self) -> WritingRequest<'_> {
        WritingRequest {
            components: &self.components,
            x0: self.handed.x0,
            y0: self.handed.y0,
            x1: self.handed.x1,
            y1: self.handed.y1,
            color_space: self.handed.space,
            profile: &self.handed.profile,
            store_profile: !self.handed.profile.is_empty(),
            codestream_length: CODESTREAM,
        }
    }

    /// The crate's picture and its profile, which `bare::write` makes before it writes.
    fn making(&self) -> (bare::Image, Vec<u8>) {
        let image = bare::Image::new(black_box(&self.components), &[]);
        let image = image.expect("there are no samples");
        (image, black_box(&self.handed.profile).clone())
    }

    fn openjpeg_image(&self, library: Library) -> openjpeg::Image {
        let Handed { x0, y0, x1, y1, .. } = self.handed;
        let mut image = library.image(&FinishingRequest {
            components: self.handed.components.clone(),
            count: self.handed.count,
            ..FinishingRequest::default()
        });
        image.set(&[x0, y0, x1, y1], self.handed.space, &self.handed.profile);
        image
    }

    fn openjpeg_writes(&self, library: Library, bytes: &[u8]) -> bool {
        let mut d = vec![1; bytes.len()];
        let length = self.openjpeg_image(library).write(CODESTREAM, &mut d);
        length == bytes.len() && d == bytes
    }

    fn openjpeg_run(&self, library: Library, calls: u32) -> Run<'_> {
        let mut image = self.openjpeg_image(library);
        let mut d = vec![1; self.handed.room];
        Box::new(move || seconds_of_one(calls, || image.write(CODESTREAM, black_box(&mut d))))
    }
}
