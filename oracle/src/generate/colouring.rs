//! Files with palettes, mappings and definitions that mostly fit the picture.

use super::boxes::{boxed, plain, Length, CDEF, CMAP, COLR, FREE, IHDR, JP2C, JP2H, PCLR};
use super::contents::{cdef, cmap, enumerated, ihdr, pclr, row_bytes};
use super::pictures::{Trouble, Troubles};
use super::random::Random;
use super::systematic::start;

/// Makes the file of one picture.
pub(super) struct Painter<'a> {
    random: &'a mut Random,
    troubles: Troubles,
    /// The picture's components; the file may count others.
    count: usize,
    palette: Option<Palette>,
    /// The palette has its mappings.
    mapped: bool,
    defined: bool,
}

struct Palette {
    columns: usize,
    entries: usize,
}

impl<'a> Painter<'a> {
    pub(super) fn new(random: &'a mut Random, troubles: Troubles, count: usize) -> Self {
        let wants_mapping = troubles.has(Trouble::Mismapped) || troubles.has(Trouble::Dataless);
        let wants_definition = troubles.has(Trouble::Misnamed) || troubles.has(Trouble::Undefined);
        let mut painter = Painter {
            random,
            troubles,
            count,
            palette: None,
            mapped: false,
            defined: false,
        };
        if wants_mapping || painter.random.one_in(2) {
            painter.palette = Some(painter.palette_size());
            painter.mapped = wants_mapping || !painter.random.one_in(8);
        }
        painter.defined = wants_definition || painter.random.one_in(2);
        painter
    }

    /// The entries of the palette, 0 where there is none.
    pub(super) fn entries(&self) -> usize {
        self.palette.as_ref().map_or(0, |palette| palette.entries)
    }

    fn columns(&self) -> usize {
        self.palette.as_ref().map_or(0, |palette| palette.columns)
    }

    fn channels(&self) -> usize {
        if self.mapped {
            self.columns()
        } else {
            self.count
        }
    }

    pub(super) fn file(&mut self) -> Vec<u8> {
        let header = self.ihdr();
        let mut children = vec![self.boxed(IHDR, &header)];
        if self.random.one_in(2) {
            children.push(self.boxed(COLR, &enumerated(16, &[])));
        }
        if self.palette.is_some() {
            let content = self.pclr();
            children.push(self.boxed(PCLR, &content));
        }
        self.lists(&mut children);
        if self.random.one_in(12) {
            children.push(plain(FREE, &[]));
        }
        self.put_together(children)
    }

    /// Mappings and definitions in either order.
    fn lists(&mut self, children: &mut Vec<Vec<u8>>) {
        let place = children.len();
        if self.mapped {
            let mappings = self.mappings();
            children.push(self.boxed(CMAP, &cmap(&mappings)));
        }
        if self.defined {
            let definitions = self.definitions();
            let content = cdef(definitions.len() as u16, &definitions);
            let child = self.boxed(CDEF, &content);
            let at = place + self.random.below(children.len() - place + 1);
            children.insert(at, child);
        }
    }

    /// All children inside `jp2h`, or the last ones behind it; seldom a file that is cut.
    fn put_together(&mut self, children: Vec<Vec<u8>>) -> Vec<u8> {
        let inside = if self.random.one_in(8) {
            1 + self.random.below(children.len())
        } else {
            children.len()
        };
        let header = self.boxed(JP2H, &children[..inside].concat());
        let mut file = [start(), header, children[inside..].concat()].concat();
        if !self.random.one_in(8) {
            file.extend(plain(JP2C, &[]));
        }
        if self.random.one_in(100) {
            file.truncate(self.random.below(file.len()));
        }
        file
    }

    fn boxed(&mut self, kind: u32, content: &[u8]) -> Vec<u8> {
        let length = if self.random.one_in(12) {
            Length::RightExtended
        } else {
            Length::Right
        };
        boxed(kind, length, content)
    }

    fn ihdr(&mut self) -> Vec<u8> {
        let count = match self.random.below(4) {
            0 => 1 + self.random.below(5),
            _ => self.count.clamp(1, 16384),
        };
        ihdr(3, 2, count as u16, [7, 7, 0, 0])
    }

    fn palette_size(&mut self) -> Palette {
        let columns = match self.random.below(400) {
            0 => 255,
            1 => 1 + self.random.below(255),
            _ => 1 + self.random.below(6),
        };
        let entries = match self.random.below(200) {
            0 if columns < 4 => self.random.pick(&[1023, 1024]),
            1..=8 if columns < 7 => 1 + self.random.below(300),
            _ => 1 + self.random.below(6),
        };
        Palette { columns, entries }
    }

    fn pclr(&mut self) -> Vec<u8> {
        let (columns, entries) = (self.columns(), self.entries());
        let widths: Vec<_> = (0..columns).map(|_| self.width()).collect();
        let rows = self.random.bytes(entries * row_bytes(&widths));
        pclr(entries as u16, columns as u8, &widths, &rows)
    }

    /// 1 to 38 bits, seldom up to 128; signed or not.
    fn width(&mut self) -> u8 {
        if self.random.one_in(8) {
            return self.random.byte();
        }
        let sign = self.random.pick(&[0, 0, 0x80]);
        sign | self.random.below(38) as u8
    }

    fn mappings(&mut self) -> Vec<(u16, u8, u8)> {
        let columns = self.columns();
        let direct = self.random.pick(&[0, 0, 2, 3, 100]);
        let mut mappings: Vec<_> = (0..columns)
            .map(|column| self.mapping(column, direct))
            .collect();
        if self.troubles.has(Trouble::Mismapped) {
            for _ in 0..1 + self.random.below(2) {
                let at = self.random.below(columns);
                self.spoil_mapping(&mut mappings[at]);
            }
        }
        mappings
    }

    /// One that passes where there is a component at all; `direct` of 6 are direct.
    fn mapping(&mut self, column: usize, direct: usize) -> (u16, u8, u8) {
        let component = self.random.below(self.count.max(1)) as u16;
        if self.random.below(6) < direct {
            return (component, 0, 0);
        }
        (component, 1, column as u8)
    }

    fn spoil_mapping(&mut self, mapping: &mut (u16, u8, u8)) {
        let any = self.random.byte();
        match self.random.below(5) {
            0 => mapping.0 = self.count as u16,
            1 => mapping.0 = self.random.pick(&[65535, 256, 7]),
            2 => mapping.1 = self.random.pick(&[2, 3, 128, 255]),
            3 => mapping.1 ^= 1,
            _ => mapping.2 = self.random.pick(&[0, 1, 2, mapping.2.wrapping_add(1), any]),
        }
    }

    fn definitions(&mut self) -> Vec<[u16; 3]> {
        let mut definitions = self.complete_definitions();
        if self.random.one_in(4) {
            definitions.retain(|definition| definition[0] != 0);
        }
        for _ in 0..self.random.pick(&[0, 0, 1, 2]) {
            let more = self.definition();
            definitions.push(more);
        }
        if self.random.one_in(200) {
            let many = self.random.pick(&[100, 300, 5000]);
            definitions.extend((0..many).map(|_| self.definition()));
        }
        if !self.random.one_in(3) {
            self.random.shuffle(&mut definitions);
        }
        self.spoil_definitions(&mut definitions);
        definitions
    }

    /// A definition for each channel: colours in some order and opacities, or whatever names a channel.
    fn complete_definitions(&mut self) -> Vec<[u16; 3]> {
        // As many as a list can hold, and seldom so many: the crate's time grows with the square.
        let channels = self.channels().min(300);
        let mut colours: Vec<_> = (1..=channels as u16).collect();
        self.random.shuffle(&mut colours);
        let clashing = self.random.one_in(2);
        let mut definitions = Vec::with_capacity(channels);
        for (channel, colour) in colours.into_iter().enumerate() {
            let mut definition = [channel as u16, 0, colour];
            if self.random.one_in(5) {
                definition = [channel as u16, self.typ(), self.random.pick(&[0, 65535])];
            } else if clashing {
                definition = [channel as u16, self.typ(), self.asoc()];
            }
            definitions.push(definition);
        }
        definitions
    }

    /// One more, for a channel that there is.
    fn definition(&mut self) -> [u16; 3] {
        let channel = self.random.below(self.channels().max(1)) as u16;
        [channel, self.typ(), self.asoc()]
    }

    fn typ(&mut self) -> u16 {
        let any = self.random.number() as u16;
        self.random.pick(&[0, 0, 0, 0, 1, 2, 65535, any])
    }

    /// One that passes.
    fn asoc(&mut self) -> u16 {
        let colour = 1 + self.random.below(self.channels().max(1)) as u16;
        self.random.pick(&[colour, colour, colour, 1, 0, 65535])
    }

    fn spoil_definitions(&mut self, definitions: &mut Vec<[u16; 3]>) {
        let channels = self.channels() as u16;
        if self.troubles.has(Trouble::Undefined) && channels > 1 {
            let lacking = 1 + self.random.below(usize::from(channels) - 1) as u16;
            definitions.retain(|definition| definition[0] != lacking);
        }
        if definitions.is_empty() {
            definitions.push([0, 0, 1]);
        }
        if self.troubles.has(Trouble::Misnamed) {
            for _ in 0..1 + self.random.below(2) {
                let at = self.random.below(definitions.len());
                if self.random.one_in(2) {
                    definitions[at][0] = self.random.pick(&[channels, channels + 1, 65535]);
                } else {
                    definitions[at][2] = self.random.pick(&[channels + 1, channels + 2, 65534]);
                }
            }
        }
    }
}
