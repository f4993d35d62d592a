//! Components and their samples.

use super::pictures::{Trouble, Troubles};
use super::random::Random;
use crate::picture::{Component, Props, NO_DATA};

/// Makes the components of one picture.
pub(super) struct Planes<'a> {
    random: &'a mut Random,
    /// Some components have no data, although a palette may use them.
    dataless: bool,
    /// Samples lie around the bounds of a palette with as many entries.
    entries: i32,
    components: Vec<Component>,
    samples: Vec<i32>,
}

impl<'a> Planes<'a> {
    pub(super) fn new(random: &'a mut Random, troubles: Troubles, entries: usize) -> Self {
        let dataless = troubles.has(Trouble::Dataless) || random.one_in(8);
        Planes {
            random,
            dataless,
            entries: entries as i32,
            components: Vec::new(),
            samples: Vec::new(),
        }
    }

    pub(super) fn add(&mut self, count: usize) {
        let side = match count {
            0..=6 if self.random.one_in(60) => 40,
            0..=6 => 5,
            _ => 1,
        };
        for _ in 0..count {
            self.component(side);
        }
        // Samples that are in no plane.
        for _ in 0..self.random.pick(&[0, 0, 1, 3]) {
            let sample = self.sample();
            self.samples.push(sample);
        }
    }

    /// The two lists: 13 numbers a component, now and then with some more behind; and the samples.
    pub(super) fn lists(mut self) -> (Vec<u32>, Vec<i32>) {
        let mut numbers: Vec<_> = self
            .components
            .iter()
            .flat_map(Component::numbers)
            .collect();
        if self.random.one_in(40) {
            self.large_mark(&mut numbers);
        }
        for _ in 0..self.random.pick(&[0, 0, 0, 1, 13]) {
            numbers.push(self.random.number());
        }
        (numbers, self.samples)
    }

    /// Gives a component a mark of more than 16 bits.
    fn large_mark(&mut self, numbers: &mut [u32]) {
        let many = self.components.len();
        if many != 0 {
            let large = self.random.pick(&[65536, 65537, 0x0002_0001, u32::MAX]);
            numbers[13 * self.random.below(many) + 12] = large;
        }
    }

    fn component(&mut self, side: usize) {
        let mut props = self.props();
        if self.dataless && self.random.one_in(3) {
            // Its area says nothing.
            let data = NO_DATA;
            self.components.push(Component { props, data });
            return;
        }
        props.w = self.random.below(side + 1) as u32;
        props.h = self.random.below(side + 1) as u32;
        if self.random.one_in(50) {
            // One side is long, the area still none.
            (props.w, props.h) = self
                .random
                .pick(&[(u32::MAX, 0), (0, u32::MAX), (0, 1 << 31)]);
        }
        let data = self.place(props.w as usize * props.h as usize);
        self.components.push(Component { props, data });
    }

    /// A place for as many samples: new ones, or now and then some that another plane has too.
    fn place(&mut self, area: usize) -> u32 {
        if self.random.one_in(12) && area <= self.samples.len() {
            return self.random.below(self.samples.len() - area + 1) as u32;
        }
        let place = self.samples.len();
        for _ in 0..area {
            let sample = self.sample();
            self.samples.push(sample);
        }
        place as u32
    }

    fn sample(&mut self) -> i32 {
        let last = self.entries - 1;
        match self.random.below(4) {
            0 => self.random.pick(&[-1, 0, 1, last - 1, last, last + 1]),
            1 => self.random.number() as i32,
            2 => self.random.pick(&[i32::MIN, i32::MAX, -128, 127, 255, -2]),
            _ => self.random.below(self.entries.max(1) as usize) as i32,
        }
    }

    fn props(&mut self) -> Props {
        let mark = self.random.number() as u16;
        Props {
            dx: self.random.number(),
            dy: self.random.number(),
            w: self.random.number(),
            h: self.random.number(),
            x0: self.random.number(),
            y0: self.random.number(),
            prec: self.random.pick(&[8, 1, 16, 38, 0, u32::MAX]),
            bpp: self.random.number(),
            sgnd: self.random.pick(&[0, 0, 1, 2, u32::MAX]),
            resno_decoded: self.random.number(),
            factor: self.random.number(),
            alpha: self.random.pick(&[0, 0, 1, 2, 3, 65535, mark]),
        }
    }
}
