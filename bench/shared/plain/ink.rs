//! What is done with each token of a line, beside reading it: nothing, its canonical text is written, or it is asked
//! whether the line is that text.
use crate::names::Names;

pub trait Ink {
    fn word(&mut self, word: &[u8], start: usize);
    fn text(&mut self, text: &[u8], start: usize);
    fn sign(&mut self, sign: u8, start: usize);
    /// What was taken so far, to come back to.
    fn mark(&self) -> (usize, bool);
    /// Takes back what came after the mark: it is not canonical.
    fn cut(&mut self, mark: (usize, bool));
    fn end(&mut self, start: usize);

    /// The categories of a level, in the scheme's order.
    fn categories(&mut self, names: &Names, categories: u32) {
        let mut sign = b'{';
        for place in (0..names.len() as u16).filter(|place| categories & 1 << place != 0) {
            self.sign(sign, 0);
            self.word(names.name(place), 0);
            sign = b',';
        }
        self.sign(b'}', 0);
    }
}

pub struct NoInk;

impl Ink for NoInk {
    fn word(&mut self, _: &[u8], _: usize) {}
    fn text(&mut self, _: &[u8], _: usize) {}
    fn sign(&mut self, _: u8, _: usize) {}
    fn end(&mut self, _: usize) {}
    fn cut(&mut self, _: (usize, bool)) {}

    fn mark(&self) -> (usize, bool) {
        (0, false)
    }
}

/// Writes the canonical text at the end of the bytes.
pub struct Writes<'a> {
    to: &'a mut Vec<u8>,
    after_word: bool,
}

impl<'a> Writes<'a> {
    pub fn new(to: &'a mut Vec<u8>) -> Writes<'a> {
        Writes { to, after_word: false }
    }
}

impl Ink for Writes<'_> {
    fn word(&mut self, word: &[u8], _: usize) {
        if self.after_word {
            self.to.push(b' ');
        }
        self.to.extend_from_slice(word);
        self.after_word = true;
    }

    fn text(&mut self, text: &[u8], _: usize) {
        self.to.push(b'"');
        self.to.extend_from_slice(text);
        self.to.push(b'"');
        self.after_word = false;
    }

    fn sign(&mut self, sign: u8, _: usize) {
        self.to.push(sign);
        self.after_word = false;
    }

    fn mark(&self) -> (usize, bool) {
        (self.to.len(), self.after_word)
    }

    fn cut(&mut self, mark: (usize, bool)) {
        self.to.truncate(mark.0);
        self.after_word = mark.1;
    }

    fn end(&mut self, _: usize) {}
}

/// Whether each blank of the line stands where its canonical text has one, and nothing was taken back.
pub struct Asks {
    pub is_canonical: bool,
    /// Where the last token ended.
    end: usize,
    after_word: bool,
}

impl Asks {
    pub fn new() -> Asks {
        Asks { is_canonical: true, end: 0, after_word: false }
    }
}

impl Ink for Asks {
    fn word(&mut self, word: &[u8], start: usize) {
        self.is_canonical &= start == self.end + self.after_word as usize;
        self.end = start + word.len();
        self.after_word = true;
    }

    fn text(&mut self, text: &[u8], start: usize) {
        self.is_canonical &= start == self.end;
        self.end = start + text.len() + 2;
        self.after_word = false;
    }

    fn sign(&mut self, _: u8, start: usize) {
        self.is_canonical &= start == self.end;
        self.end = start + 1;
        self.after_word = false;
    }

    fn mark(&self) -> (usize, bool) {
        (0, false)
    }

    fn cut(&mut self, _: (usize, bool)) {
        self.is_canonical = false;
    }

    fn end(&mut self, start: usize) {
        self.is_canonical &= start == self.end;
    }
}
