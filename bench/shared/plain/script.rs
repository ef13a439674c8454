//! What lines ask: the behaviours of many lines together, in a few lists.
use crate::policy::{Access, Rule};

/// A part of the bytes that the scripts speak of.
#[derive(Clone, Copy)]
pub struct Span {
    pub start: u32,
    pub len: u32,
}

#[derive(Clone, Copy)]
pub enum Op {
    Show(u16),
    Say(Span),
    Add(u16, Span),
    Set(u16, Span),
    Copy {
        from: u16,
        to: u16,
    },
    Pour {
        from: u16,
        to: u16,
    },
    /// Goes on at `past` where the document is not this text, or does not have it.
    Unless {
        document: u16,
        has: bool,
        text: Span,
        past: u32,
    },
    Jump(u32),
    /// Spawns this behaviour, and goes on at `past`, after its code.
    Spawn {
        when: u32,
        past: u32,
    },
    End,
}

#[derive(Clone, Copy)]
pub struct When {
    pub first: u32,
    pub count: u32,
    pub code: u32,
}

#[derive(Clone, Copy)]
pub enum Work {
    When(u32),
    Rule(Rule),
}

/// How long each list is.
#[derive(Clone, Copy, Default)]
pub struct Mark {
    whens: usize,
    accesses: usize,
    ops: usize,
    bytes: usize,
}

#[derive(Default)]
pub struct Scripts {
    pub whens: Vec<When>,
    pub accesses: Vec<Access>,
    pub ops: Vec<Op>,
    /// The bytes of texts, where the lines do not stay.
    pub bytes: Vec<u8>,
    /// Where the line begins in the bytes that stay; none where its texts are copied.
    pub origin: Option<usize>,
}

impl Scripts {
    pub fn mark(&self) -> Mark {
        Mark { whens: self.whens.len(), accesses: self.accesses.len(), ops: self.ops.len(), bytes: self.bytes.len() }
    }

    pub fn cut(&mut self, mark: Mark) {
        self.whens.truncate(mark.whens);
        self.accesses.truncate(mark.accesses);
        self.ops.truncate(mark.ops);
        self.bytes.truncate(mark.bytes);
    }

    /// The same, but for this text after the mark, which is moved to it.
    pub fn cut_but(&mut self, mark: Mark, text: Span) -> Span {
        self.bytes.copy_within(text.start as usize..(text.start + text.len) as usize, mark.bytes);
        self.cut(Mark { bytes: mark.bytes + text.len as usize, ..mark });
        Span { start: mark.bytes as u32, len: text.len }
    }

    pub fn keep(&mut self, text: &[u8], at: usize) -> Span {
        let start = match self.origin {
            Some(origin) => origin + at,
            None => {
                self.bytes.extend_from_slice(text);
                self.bytes.len() - text.len()
            }
        };
        Span { start: start as u32, len: text.len() as u32 }
    }

    pub fn accesses_of(&self, when: u32) -> &[Access] {
        let when = &self.whens[when as usize];
        &self.accesses[when.first as usize..(when.first + when.count) as usize]
    }
}
