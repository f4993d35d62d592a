//! Finishing one picture, by the port, by the crate and by OpenJPEG.

use crate::clock::seconds;
use crate::openjpeg::{self, Library};
use crate::port::{self, EDITION_1, EDITION_2};
use crate::table::Run;
use crate::Disagreement;
use oracle::bare::{self, Image};
use oracle::finished::{self, FINISHED};
use oracle::{edition2, Component, FinishingRequest, Plane, NO_DATA};
use std::hint::black_box;

/// What is handed in: to the port and to OpenJPEG as numbers, to the crate as components.
pub struct Picture {
    request: FinishingRequest,
    components: Vec<Component>,
}

/// The port's destinations.
pub struct Lists {
    pub records: Vec<u32>,
    pub samples: Vec<i32>,
}

impl Lists {
    /// Memory that has been written.
    pub fn written(picture: &Picture) -> Self {
        Lists {
            records: vec![1; picture.request.records_room],
            samples: vec![1; picture.request.samples_room],
        }
    }

    /// Puts memory that has not been touched in place of the lists.
    pub fn renew(&mut self) {
        self.records = vec![0; self.records.len()];
        self.samples = vec![0; self.samples.len()];
    }
}

impl Picture {
    /// With as many finished planes and samples.
    pub fn new(
        file: Vec<u8>,
        components: Vec<Component>,
        samples: Vec<i32>,
        planes: usize,
        finished: usize,
    ) -> Self {
        let request = FinishingRequest {
            file,
            ignore: 0,
            components: components.iter().flat_map(Component::numbers).collect(),
            count: components.len() as u32,
            samples,
            records_room: 13 * planes,
            samples_room: finished,
        };
        Picture {
            request,
            components,
        }
    }

    /// The port's four numbers, in edition 1, which is what the others do.
    pub fn ours(&self, lists: &mut Lists) -> [u64; 4] {
        self.ours_in(EDITION_1, lists)
    }

    /// The same in the edition that the flag picks.
    pub fn ours_in(&self, edition2: u32, lists: &mut Lists) -> [u64; 4] {
        let mut answer = [1; 4];
        let Lists { records, samples } = lists;
        let request = black_box(&self.request);
        port::finish(request, black_box(edition2), records, samples, &mut answer);
        answer
    }

    /// The seconds that the crate takes to read the file and to finish the picture, out of as many calls; making the
    /// pictures is not counted.
    pub fn their_seconds(&self, calls: u32) -> f64 {
        of_each(calls, || self.image(), |image| self.theirs(image))
    }

    /// The same for OpenJPEG, where it is there.
    pub fn openjpeg_run(&self, calls: u32) -> Option<Run<'_>> {
        let library = openjpeg::library()?;
        Some(Box::new(move || {
            let image = || library.image(&self.request);
            of_each(calls, image, |image| {
                image.finish(black_box(&self.request.file))
            })
        }))
    }

    fn image(&self) -> Image {
        Image::new(&self.components, &self.request.samples).expect("the samples lie in their list")
    }

    fn theirs(&self, image: &mut Image) -> bool {
        let jp2 = bare::read(black_box(&self.request.file));
        jp2.is_some_and(|mut jp2| bare::finish(&mut jp2, image, false))
    }

    /// The finished picture, which all have to give.
    pub fn finished(&self, name: &str) -> Result<Lists, Disagreement> {
        let mut lists = Lists::written(self);
        let answer = self.ours(&mut lists);
        let planes = lists.records.len() as u64 / 13;
        if answer == [0, 0, 0, planes]
            && self.crate_gives(&lists)
            && openjpeg::library().is_none_or(|library| self.openjpeg_gives(library, &lists))
        {
            return Ok(lists);
        }
        Err(format!("{name}: the answers differ"))
    }

    /// The port's lists, after it has given in both editions what is asked for.
    pub fn finished_in_both(&self, name: &str) -> Result<Lists, Disagreement> {
        let first = finished::answer(&self.request)?;
        let second = edition2::answer(&self.request, &first)?.answer;
        let mut lists = Lists::written(self);
        for (edition2, asked) in [(EDITION_1, first), (EDITION_2, second)] {
            let answer = self.ours_in(edition2, &mut lists);
            if answer != [FINISHED, 0, 0, asked.count]
                || lists.records != asked.records
                || lists.samples != asked.samples
            {
                return Err(format!("{name}: the flag {edition2} gives another answer"));
            }
        }
        Ok(lists)
    }

    fn crate_gives(&self, lists: &Lists) -> bool {
        let mut image = self.image();
        self.theirs(&mut image) && all_alike(&image.planes(), lists)
    }

    fn openjpeg_gives(&self, library: Library, lists: &Lists) -> bool {
        let mut image = library.image(&self.request);
        image.finish(&self.request.file) && all_alike(&image.planes(), lists)
    }
}

/// The seconds of one call, out of as many, each on a thing of its own that is made before and let go after.
fn of_each<T>(calls: u32, make: impl Fn() -> T, run: impl Fn(&mut T) -> bool) -> f64 {
    let mut things: Vec<_> = (0..calls).map(|_| make()).collect();
    let all = seconds(|| black_box(&mut things).iter_mut().all(run));
    all / f64::from(calls)
}

fn all_alike(planes: &[Plane], lists: &Lists) -> bool {
    let records = lists.records.chunks(13);
    records.len() == planes.len()
        && planes
            .iter()
            .zip(records)
            .all(|(plane, record)| alike(plane, record, &lists.samples))
}

fn alike(plane: &Plane, record: &[u32], samples: &[i32]) -> bool {
    let data = record[11];
    let found = match data {
        NO_DATA => None,
        _ => {
            let area = plane.props.w as usize * plane.props.h as usize;
            samples.get(data as usize..data as usize + area)
        }
    };
    plane.props.numbers(data) == record && plane.samples.as_deref() == found
}
