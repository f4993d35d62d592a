//! Files put together box by box, with here and there something wrong.

use super::boxes::{
    boxed, Length, BPCC, CDEF, CHILDREN, CMAP, COLR, FTYP, IHDR, JP, JP2C, JP2H, PCLR, SKIPPED,
};
use super::random::Random;

/// Makes one file.
pub(super) struct Maker<'a> {
    pub random: &'a mut Random,
    /// What the boxes so far have told a reader, so that a later box can be right.
    pub known: Known,
    /// How often of 256 times something is made wrong; the same for the whole file, so that some have nothing wrong.
    trouble: usize,
    /// A kind whose content is wrong more often, in some files. What can be wrong with a content is much, and would
    /// else come up seldom.
    worst: Option<u32>,
}

#[derive(Clone, Default)]
pub(super) struct Known {
    pub components: usize,
    pub columns: usize,
    pub mapped: bool,
    pub defined: bool,
    /// Child boxes outside `jp2h` are read.
    header_bit: bool,
}

impl Known {
    /// Whether a box of this kind can be right now.
    fn wants(&self, kind: u32) -> bool {
        match kind {
            PCLR => self.columns == 0,
            CMAP => self.columns != 0 && !self.mapped,
            CDEF => !self.defined,
            _ => true,
        }
    }
}

impl<'a> Maker<'a> {
    pub(super) fn new(random: &'a mut Random) -> Self {
        let trouble = random.pick(&[0, 0, 4, 8, 16, 40]);
        let worst = random.one_in(4).then(|| random.pick(&CHILDREN));
        Maker {
            random,
            known: Known::default(),
            trouble,
            worst,
        }
    }

    fn wrong(&mut self) -> bool {
        self.random.below(256) < self.trouble
    }

    /// Whether a box comes that cannot be right now.
    fn unwanted(&mut self, kind: u32) -> bool {
        self.worst == Some(kind) || self.trouble != 0 && self.random.one_in(3)
    }

    /// Whether the content of a box of this kind is to be wrong.
    pub(super) fn wrong_content(&mut self, kind: u32) -> bool {
        self.wrong() || self.worst == Some(kind) && self.random.one_in(2)
    }

    pub(super) fn file(&mut self) -> Vec<u8> {
        let mut boxes = if self.random.one_in(5) {
            self.jumble()
        } else {
            self.picture()
        };
        self.disorder(&mut boxes);
        if self.random.one_in(16) {
            take_the_rest(&mut boxes);
        }
        let mut file = boxes.concat();
        if self.wrong() && !file.is_empty() {
            file.truncate(self.random.below(file.len()));
        }
        file
    }

    /// The boxes of a picture in their order.
    fn picture(&mut self) -> Vec<Vec<u8>> {
        let mut boxes = vec![self.outer(JP), self.outer(FTYP)];
        if self.random.one_in(4) {
            boxes.push(self.stray());
        }
        boxes.push(self.outer(JP2H));
        for _ in 0..self.random.pick(&[0, 0, 0, 1, 2, 3]) {
            boxes.push(self.stray());
        }
        if self.random.one_in(12) {
            boxes.push(self.outer(JP2H));
        }
        if !self.random.one_in(8) {
            boxes.push(self.outer(JP2C));
        }
        boxes
    }

    /// Boxes of any kind, mostly behind a right beginning.
    fn jumble(&mut self) -> Vec<Vec<u8>> {
        let begun = self.random.below(4).min(2);
        let mut boxes: Vec<_> = [JP, FTYP][..begun]
            .iter()
            .map(|kind| self.outer(*kind))
            .collect();
        for _ in 0..1 + self.random.below(4) {
            boxes.push(match self.random.below(16) {
                0 => self.outer(JP),
                1 => self.outer(FTYP),
                2..=4 => self.outer(JP2C),
                5..=7 => self.outer(JP2H),
                _ => self.stray(),
            });
        }
        boxes
    }

    /// Takes a box away, doubles one or moves some, now and then.
    fn disorder(&mut self, boxes: &mut Vec<Vec<u8>>) {
        if !self.wrong() {
            return;
        }
        let at = self.random.below(boxes.len());
        match self.random.below(4) {
            0 => drop(boxes.remove(at)),
            1 => boxes.insert(at, boxes[at].clone()),
            2 => self.random.shuffle(boxes),
            _ => {
                let moved = boxes.remove(at);
                let to = self.random.below(boxes.len() + 1);
                boxes.insert(to, moved);
            }
        }
    }

    /// A box of the file, of a kind that belongs there.
    fn outer(&mut self, kind: u32) -> Vec<u8> {
        if kind == JP2C {
            return self.codestream();
        }
        let content = match kind {
            JP => self.jp(),
            FTYP => self.ftyp(),
            _ => self.jp2h(),
        };
        self.boxed(kind, &content)
    }

    /// Nothing is asked of the length of a codestream.
    fn codestream(&mut self) -> Vec<u8> {
        let many = self.random.pick(&[0, 0, 4, 20]);
        let content = self.random.bytes(many);
        let length = if self.random.one_in(3) {
            self.wrong_length(many as u32)
        } else {
            Length::Right
        };
        boxed(JP2C, length, &content)
    }

    /// A box that is skipped, or one that belongs into `jp2h`.
    fn stray(&mut self) -> Vec<u8> {
        let kind = self.stray_kind();
        let before = self.known.clone();
        let stray = self.child(kind);
        if !self.known.header_bit {
            self.known = before;
        }
        self.known.header_bit = true;
        stray
    }

    fn stray_kind(&mut self) -> u32 {
        let kind = match self.worst {
            Some(worst) if self.random.one_in(2) => worst,
            _ => self.random.pick(&CHILDREN),
        };
        if self.random.one_in(2) && (self.known.wants(kind) || self.unwanted(kind)) {
            return kind;
        }
        self.skipped_kind()
    }

    fn skipped_kind(&mut self) -> u32 {
        if self.random.one_in(8) {
            return self.random.number();
        }
        self.random.pick(&SKIPPED)
    }

    /// The content of `jp2h`: mostly `ihdr` first, then others.
    fn jp2h(&mut self) -> Vec<u8> {
        let mut kinds = vec![IHDR];
        for (kind, many) in [(BPCC, 3), (COLR, 1), (COLR, 3), (PCLR, 3), (CDEF, 3)] {
            if self.worst == Some(kind) || self.random.one_in(many) {
                kinds.push(kind);
            }
        }
        if self.worst == Some(CMAP) {
            kinds.extend([PCLR, CMAP]);
        } else if kinds.contains(&PCLR) && !self.random.one_in(4) {
            kinds.push(CMAP);
        }
        if self.random.one_in(4) {
            kinds.push(self.skipped_kind());
        }
        if self.random.one_in(3) {
            self.random.shuffle(&mut kinds);
        }
        self.disorder_children(&mut kinds);
        let mut content = Vec::new();
        for kind in kinds {
            if self.known.wants(kind) || self.unwanted(kind) {
                content.extend(self.child(kind));
            }
        }
        if self.wrong() {
            self.unfinished_child(&mut content);
        }
        self.known.header_bit = true;
        content
    }

    /// Takes `ihdr` away or doubles a child.
    fn disorder_children(&mut self, kinds: &mut Vec<u32>) {
        if self.wrong() {
            kinds.retain(|kind| *kind != IHDR);
        }
        if self.wrong() {
            let more = self.random.pick(&CHILDREN);
            kinds.extend([more, more]);
        }
        if self.random.one_in(3) {
            kinds.extend(self.worst);
        }
    }

    /// The first bytes of one more child.
    fn unfinished_child(&mut self, content: &mut Vec<u8>) {
        let kind = self.random.pick(&CHILDREN);
        let mut child = self.child(kind);
        child.truncate(1 + self.random.below(child.len()));
        content.extend(child);
    }

    /// A box inside `jp2h`, or one outside that belongs there or is skipped.
    fn child(&mut self, kind: u32) -> Vec<u8> {
        let content = match kind {
            IHDR => self.ihdr(),
            BPCC => self.bpcc(),
            COLR => self.colr(),
            PCLR => self.pclr(),
            CMAP => self.cmap(),
            CDEF => self.cdef(),
            _ => self.any_content(),
        };
        self.boxed(kind, &content)
    }

    fn any_content(&mut self) -> Vec<u8> {
        let many = self.random.pick(&[0, 0, 1, 4, 8, 12]);
        self.random.bytes(many)
    }

    /// A box whose length is mostly right.
    fn boxed(&mut self, kind: u32, content: &[u8]) -> Vec<u8> {
        let length = if self.wrong() {
            self.wrong_length(content.len() as u32)
        } else if self.random.one_in(10) {
            Length::RightExtended
        } else {
            Length::Right
        };
        boxed(kind, length, content)
    }

    /// A length that is wrong for `count` bytes of content, or right by chance.
    fn wrong_length(&mut self, count: u32) -> Length {
        let more = 1 + self.random.below(4) as u32;
        match self.random.below(12) {
            0 | 1 => Length::Field(0),
            2 => Length::Field(2 + self.random.below(6) as u32),
            3 => Length::Field(8 + count + more),
            4 => Length::Field(8 + count.saturating_sub(more)),
            5 => Length::Field(self.random.number()),
            6 => Length::Extended(0, self.random.pick(&[0, 1, 2, 8, 14, 15])),
            7 => Length::Extended(0, 16),
            8 => Length::Extended(1, 16 + count),
            9 => Length::Extended(self.random.number(), 16 + count),
            10 => Length::Extended(0, 16 + count + more),
            _ => Length::Extended(0, self.random.number()),
        }
    }
}

/// Gives the last box a length field of 0, where it has no extended length.
fn take_the_rest(boxes: &mut [Vec<u8>]) {
    let Some(last) = boxes.last_mut() else {
        return;
    };
    if last[..4] != [0, 0, 0, 1] {
        last[..4].fill(0);
    }
}
