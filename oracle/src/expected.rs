//! What the crate does not say of a picture, in document 01's words: the numbers 29 and 30, the index beside 25 to 28,
//! and the lengths that finished records and samples need. For edition 2, which the crate does not have, 26 counts
//! channel 0 too (request R-2).
//!
//! Nothing here asks the crate. It takes the record that the crate's reading gave, so that the lists are the crate's, and
//! [`Words::fault`] says of 25 to 28 also which applies, so that the crate's own answer can be held against it.

use crate::picture::{Component, FinishingRequest, MARK, NO_DATA, RECORD};
use crate::record::{Definition, Mapping, Record};

/// Records of a picture, at most.
const MOST_RECORDS: u32 = 16384;

/// Samples of a list, at most.
const MOST_SAMPLES: u64 = 4294967294;

/// The crate's mark has no more bits.
const MOST_OF_A_MARK: u32 = 65535;

/// An edition of the camera rules. The first is the crate's behaviour.
#[derive(Clone, Copy, Debug, PartialEq, Eq)]
pub(crate) enum Edition {
    One,
    Two,
}

impl Edition {
    /// Where there are definitions, every channel from this one up has to have one.
    fn first_defined(self) -> usize {
        match self {
            Edition::One => 1,
            Edition::Two => 0,
        }
    }
}

/// A picture with the lists that count for it.
pub(crate) struct Words<'a> {
    request: &'a FinishingRequest,
    /// Those that lie in their list, with the low bits of their marks.
    components: Vec<Component>,
    /// None without a mapping.
    mappings: &'a [Mapping],
    definitions: &'a [Definition],
}

impl<'a> Words<'a> {
    /// With the ignore flag no list counts; a palette without a mapping is dropped.
    pub(crate) fn new(record: &'a Record, request: &'a FinishingRequest) -> Self {
        let palette = record.jp2_pclr.as_ref();
        let mappings = palette.map_or(&[][..], |palette| &palette.cmap);
        let definitions = record.jp2_cdef.as_deref().unwrap_or_default();
        let counts = request.ignore == 0;
        Words {
            request,
            components: components(request),
            mappings: if counts { mappings } else { &[] },
            definitions: if counts { definitions } else { &[] },
        }
    }

    pub(crate) fn components(&self) -> &[Component] {
        &self.components
    }

    /// None where the ignore flag is set.
    pub(crate) fn definitions(&self) -> &'a [Definition] {
        self.definitions
    }

    /// 29: a record or plane outside its list, or too many of either.
    pub(crate) fn outside(&self) -> bool {
        let samples = self.request.samples.len() as u64;
        let inside = |component: &Component| {
            component.data == NO_DATA
                || u128::from(component.data) + u128::from(component.area()) <= u128::from(samples)
        };
        self.request.count > MOST_RECORDS
            || self.components.len() < self.request.count as usize
            || samples > MOST_SAMPLES
            || !self.components.iter().all(inside)
    }

    /// The first number of 25 to 28 that applies, with its index.
    pub(crate) fn fault(&self, edition: Edition) -> Option<(u32, usize)> {
        let faults = [
            (25, self.misnamed()),
            (26, self.undefined(edition)),
            (27, self.mismapped()),
            (28, self.dataless()),
        ];
        let found = |(number, index): (u32, Option<usize>)| Some((number, index?));
        faults.into_iter().find_map(found)
    }

    /// The palette's columns where a mapping exists, else the components.
    pub(crate) fn channels(&self) -> usize {
        match self.mappings.len() {
            0 => self.components.len(),
            columns => columns,
        }
    }

    /// The lowest definition whose channel, or asoc-1 (asoc not 0, 65535), is not below the channels.
    fn misnamed(&self) -> Option<usize> {
        let channels = self.channels();
        let beyond = |definition: &Definition| {
            let colour = !matches!(definition.asoc, 0 | 65535);
            usize::from(definition.cn) >= channels
                || colour && usize::from(definition.asoc) - 1 >= channels
        };
        self.definitions.iter().position(beyond)
    }

    /// The lowest channel that no definition names, from 1 up or, in edition 2, from 0 up.
    fn undefined(&self, edition: Edition) -> Option<usize> {
        if self.definitions.is_empty() {
            return None;
        }
        let mut named = vec![false; self.channels()];
        for definition in self.definitions {
            if let Some(named) = named.get_mut(usize::from(definition.cn)) {
                *named = true;
            }
        }
        (edition.first_defined()..self.channels()).find(|channel| !named[*channel])
    }

    /// The lowest mapping that fails.
    fn mismapped(&self) -> Option<usize> {
        let passes = |(index, mapping): (usize, &Mapping)| {
            let way = (mapping.mtyp, usize::from(mapping.pcol));
            usize::from(mapping.cmp) < self.components.len() && (way == (0, 0) || way == (1, index))
        };
        let mut mappings = self.mappings.iter().enumerate();
        mappings.position(|mapping| !passes(mapping))
    }

    /// The lowest mapping whose component has no data.
    fn dataless(&self) -> Option<usize> {
        let without = |mapping: &Mapping| {
            let component = self.components.get(usize::from(mapping.cmp));
            component.is_some_and(|component| component.data == NO_DATA)
        };
        self.mappings.iter().position(without)
    }

    /// The mark of channel `channel`'s component where the crate cannot hold it. Such a mark stays what it is until a
    /// definition sets it.
    pub(crate) fn large_mark(&self, channel: usize) -> Option<u32> {
        let mapping = self.mappings.get(channel);
        let component = mapping.map_or(channel, |mapping| usize::from(mapping.cmp));
        let mark = self.request.components[RECORD * component + MARK];
        (mark > MOST_OF_A_MARK).then_some(mark)
    }

    /// How many numbers the finished records have.
    pub(crate) fn needed_records(&self) -> usize {
        RECORD * self.channels()
    }

    /// How many samples the finished planes have, for mappings that pass.
    pub(crate) fn needed_samples(&self) -> u64 {
        let size = |component: &Component| match component.data {
            NO_DATA => 0,
            _ => component.area(),
        };
        if self.mappings.is_empty() {
            return self.components.iter().map(size).sum();
        }
        let mapped = self.mappings.iter();
        let mapped = mapped.filter_map(|mapping| self.components.get(usize::from(mapping.cmp)));
        mapped.map(size).sum()
    }

    /// 30 with the needed length: records first, then samples.
    pub(crate) fn too_short(&self) -> Option<u64> {
        let (records, samples) = (self.needed_records(), self.needed_samples());
        if self.request.records_room < records {
            return Some(records as u64);
        }
        let short = samples > MOST_SAMPLES || (self.request.samples_room as u64) < samples;
        short.then_some(samples)
    }
}

/// The components that lie in their list whole, as far as they are counted.
fn components(request: &FinishingRequest) -> Vec<Component> {
    let records = request.components.chunks_exact(RECORD);
    let component = |record: &[u32]| {
        let mut numbers: [u32; RECORD] = record.try_into().ok()?;
        numbers[MARK] &= MOST_OF_A_MARK;
        Component::from_numbers(&numbers)
    };
    let counted = records.take(request.count as usize);
    counted.map_while(component).collect()
}
