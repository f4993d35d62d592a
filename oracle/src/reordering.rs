//! The reorder by itself: definitions over components, without the check that comes before it when a picture is finished.

use crate::asking::{ask, Message, Outcome};
use crate::jp2::reach;
use crate::openjpeg::opj_jp2_cdef_info;
use crate::picture::{image_without_samples, planes, Component, Props};
use crate::record::Definition;

/// What `opj_jp2_apply_cdef` made of components.
#[derive(Clone, Debug, PartialEq, Eq)]
pub struct Reordering {
    pub outcome: Outcome,
    /// Among them a warning for each definition that the crate passes over.
    pub messages: Vec<Message>,
    /// The components afterwards.
    pub components: Vec<Props>,
}

/// Runs definitions, in their order, over components, whose samples are left out.
pub fn reorder(components: &[Component], definitions: &[Definition]) -> Reordering {
    let mut image = image_without_samples(components);
    let info = |definition: &Definition| opj_jp2_cdef_info {
        cn: definition.cn,
        typ: definition.typ,
        asoc: definition.asoc,
    };
    let mut color = reach::color(definitions.iter().map(info).collect());
    let (outcome, messages) = ask(|manager| {
        reach::apply_cdef(&mut image, &mut color, manager);
        true
    });
    Reordering {
        outcome,
        messages,
        components: planes(&image)
            .into_iter()
            .map(|plane| plane.props)
            .collect(),
    }
}
