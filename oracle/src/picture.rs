//! Pictures: component records and their samples, to the crate and back.

use crate::openjpeg::{opj_image, opj_image_comp};

/// The first sample's index of a component that has no samples.
pub const NO_DATA: u32 = 4294967295;

/// The numbers of one record.
pub const RECORD: usize = 13;

/// Where in a record its first sample's index stands.
pub const DATA: usize = 11;

/// Where in a record its mark stands.
pub const MARK: usize = 12;

/// The properties of a component: the fields of `opj_image_comp` but `data`, in field order.
///
/// `alpha` has 16 bits in the crate, so a larger mark cannot be handed to it.
#[derive(Clone, Copy, Debug, Default, PartialEq, Eq)]
pub struct Props {
    pub dx: u32,
    pub dy: u32,
    pub w: u32,
    pub h: u32,
    pub x0: u32,
    pub y0: u32,
    pub prec: u32,
    pub bpp: u32,
    pub sgnd: u32,
    pub resno_decoded: u32,
    pub factor: u32,
    pub alpha: u16,
}

/// A component handed in: its properties, and its first sample's index in one list, [`NO_DATA`] for none.
#[derive(Clone, Copy, Debug, PartialEq, Eq)]
pub struct Component {
    pub props: Props,
    pub data: u32,
}

impl Component {
    /// From document 01's 13 numbers in field order; none where the mark has more than 16 bits.
    pub fn from_numbers(numbers: &[u32; 13]) -> Option<Component> {
        let &[dx, dy, w, h, x0, y0, prec, bpp, sgnd, resno_decoded, factor, data, alpha] = numbers;
        let alpha = u16::try_from(alpha).ok()?;
        let props = Props {
            dx,
            dy,
            w,
            h,
            x0,
            y0,
            prec,
            bpp,
            sgnd,
            resno_decoded,
            factor,
            alpha,
        };
        Some(Component { props, data })
    }

    /// The same 13 numbers.
    pub fn numbers(&self) -> [u32; 13] {
        self.props.numbers(self.data)
    }

    /// How many samples lie in its area, whether it has samples or none.
    pub fn area(&self) -> u64 {
        u64::from(self.props.w) * u64::from(self.props.h)
    }
}

impl Props {
    /// Document 01's 13 numbers in field order, with this as the first sample's index.
    pub fn numbers(&self, data: u32) -> [u32; 13] {
        [
            self.dx,
            self.dy,
            self.w,
            self.h,
            self.x0,
            self.y0,
            self.prec,
            self.bpp,
            self.sgnd,
            self.resno_decoded,
            self.factor,
            data,
            self.alpha.into(),
        ]
    }
}

/// Everything that a picture is finished from, in the numbers that the port is handed.
#[derive(Clone, Debug, Default, PartialEq, Eq, Hash)]
pub struct FinishingRequest {
    pub file: Vec<u8>,
    /// Any number but 0 stands for the crate's `ignore_pclr_cmap_cdef`.
    pub ignore: u32,
    /// 13 numbers a component, where the list is long enough.
    pub components: Vec<u32>,
    pub count: u32,
    pub samples: Vec<i32>,
    /// The length of the destination for finished records, in numbers.
    pub records_room: usize,
    /// The length of the destination for finished samples.
    pub samples_room: usize,
}

/// A component as the crate left it: its properties, and its samples row by row.
#[derive(Clone, Debug, PartialEq, Eq)]
pub struct Plane {
    pub props: Props,
    pub samples: Option<Vec<i32>>,
}

/// A picture that cannot be put to the crate, because the samples of the component with this index lie outside the
/// list. Document 01's 29 is about this; the crate has no such test.
#[derive(Clone, Copy, Debug, PartialEq, Eq)]
pub struct Unaskable {
    pub component: usize,
}

/// The crate's image with these components, each with samples of its own.
pub(crate) fn image(
    components: &[Component],
    samples: &[i32],
) -> Result<Box<opj_image>, Unaskable> {
    let mut image = image_without_samples(components);
    for (index, comp) in image.comps_mut().unwrap_or_default().iter_mut().enumerate() {
        if components[index].data != NO_DATA {
            let plane = plane_samples(&components[index], samples);
            let stored = plane.is_some_and(|plane| comp.set_data(plane));
            if !stored {
                return Err(Unaskable { component: index });
            }
        }
    }
    Ok(image)
}

/// The crate's image with these components and no samples.
pub(crate) fn image_without_samples(components: &[Component]) -> Box<opj_image> {
    let mut image = opj_image::new();
    image.alloc_comps(components.len() as u32);
    for (comp, component) in image
        .comps_mut()
        .unwrap_or_default()
        .iter_mut()
        .zip(components)
    {
        set_props(comp, &component.props);
    }
    image
}

fn plane_samples<'a>(component: &Component, samples: &'a [i32]) -> Option<&'a [i32]> {
    let start = component.data as usize;
    let area = (component.props.w as usize).checked_mul(component.props.h as usize)?;
    samples.get(start..start.checked_add(area)?)
}

fn set_props(comp: &mut opj_image_comp, props: &Props) {
    comp.dx = props.dx;
    comp.dy = props.dy;
    comp.w = props.w;
    comp.h = props.h;
    comp.x0 = props.x0;
    comp.y0 = props.y0;
    comp.prec = props.prec;
    comp.bpp = props.bpp;
    comp.sgnd = props.sgnd;
    comp.resno_decoded = props.resno_decoded;
    comp.factor = props.factor;
    comp.alpha = props.alpha;
}

/// What the crate's image holds, copied out.
pub(crate) fn planes(image: &opj_image) -> Vec<Plane> {
    image
        .comps()
        .unwrap_or_default()
        .iter()
        .map(plane)
        .collect()
}

fn plane(comp: &opj_image_comp) -> Plane {
    let props = Props {
        dx: comp.dx,
        dy: comp.dy,
        w: comp.w,
        h: comp.h,
        x0: comp.x0,
        y0: comp.y0,
        prec: comp.prec,
        bpp: comp.bpp,
        sgnd: comp.sgnd,
        resno_decoded: comp.resno_decoded,
        factor: comp.factor,
        alpha: comp.alpha,
    };
    Plane {
        props,
        samples: comp.data().map(<[i32]>::to_vec),
    }
}
