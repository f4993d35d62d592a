//! The pictures that are finished.

use crate::files::{cdef, cmap, colr, direct, file, ihdr, looked_up, pclr, pclr_of_one};
use crate::finishing::Picture;
use oracle::{Component, Props, NO_DATA};

fn component(width: u32, height: u32, data: u32) -> Component {
    let props = Props {
        dx: 1,
        dy: 1,
        w: width,
        h: height,
        prec: 8,
        ..Props::default()
    };
    Component { props, data }
}

/// Samples from 0 to 255, in no order that a processor could guess.
fn samples(count: usize) -> Vec<i32> {
    let mut state = 1u32;
    let sample = |_| {
        state = state.wrapping_mul(1_664_525).wrapping_add(1_013_904_223);
        (state >> 24) as i32
    };
    (0..count).map(sample).collect()
}

pub fn three_planes(width: u32, height: u32) -> Picture {
    let area = width * height;
    let components = [0, area, 2 * area].map(|data| component(width, height, data));
    let finished = 3 * area as usize;
    Picture::new(
        file(&[ihdr(width, height, 3), colr()]),
        components.to_vec(),
        samples(finished),
        3,
        finished,
    )
}

pub fn with_palette(width: u32, height: u32) -> Picture {
    let area = width as usize * height as usize;
    Picture::new(
        file(&[
            ihdr(width, height, 1),
            colr(),
            pclr(3),
            cmap(&[0, 1, 2].map(looked_up)),
        ]),
        vec![component(width, height, 0)],
        samples(area),
        3,
        3 * area,
    )
}

/// Colours from a palette, and a fourth channel that is a component by itself.
pub fn mixed(width: u32, height: u32) -> Picture {
    let area = width as usize * height as usize;
    let mappings = [looked_up(0), looked_up(1), looked_up(2), direct(1)];
    Picture::new(
        file(&[ihdr(width, height, 2), colr(), pclr(4), cmap(&mappings)]),
        vec![
            component(width, height, 0),
            component(width, height, area as u32),
        ],
        samples(2 * area),
        4,
        4 * area,
    )
}

/// One sample, looked up in each of many columns.
pub fn many_columns(columns: u8) -> Picture {
    let mappings: Vec<_> = (0..columns).map(looked_up).collect();
    Picture::new(
        file(&[ihdr(1, 1, 1), colr(), pclr_of_one(columns), cmap(&mappings)]),
        vec![component(1, 1, 0)],
        samples(1),
        columns.into(),
        columns.into(),
    )
}

pub fn without_samples(channels: u16, definitions: &[[u16; 3]]) -> Picture {
    let mut components = vec![component(640, 480, NO_DATA); channels.into()];
    for (number, component) in components.iter_mut().enumerate() {
        component.props.dx = number as u32;
    }
    Picture::new(
        file(&[ihdr(640, 480, channels), colr(), cdef(definitions)]),
        components,
        Vec::new(),
        channels.into(),
        0,
    )
}

/// As many definitions as a list can have. They go over the channels again and again, and each time every channel gets
/// the colour next to the one that it had, so that all but the last of them moves.
pub fn many(channels: u16) -> Vec<[u16; 3]> {
    let definition = |number: u16| {
        let (pass, channel) = (number / channels, number % channels);
        [channel, 0, 1 + (channel + pass + 1) % channels]
    };
    (0..65535).map(definition).collect()
}
