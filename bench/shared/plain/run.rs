//! Runs behaviours on the contents of documents.
use crate::script::{Op, Scripts, Span};
use std::ffi::{c_int, c_void};

const MOST_CONTENT: usize = 65_536;

unsafe extern "C" {
    fn memchr(from: *const c_void, byte: c_int, len: usize) -> *const c_void;
}

/// Where the byte stands first.
pub fn find_byte(bytes: &[u8], byte: u8) -> Option<usize> {
    // SAFETY: it looks at no byte but those of the slice.
    let found = unsafe { memchr(bytes.as_ptr().cast(), byte.into(), bytes.len()) };
    (!found.is_null()).then(|| found.addr() - bytes.as_ptr().addr())
}

/// Whether the piece stands in a content. std's search of strings is the quick one.
fn has(content: &[u8], piece: &[u8]) -> bool {
    // SAFETY: texts and contents are of bytes 0x20 to 0x7E.
    unsafe { str::from_utf8_unchecked(content).contains(str::from_utf8_unchecked(piece)) }
}

/// Where texts go.
pub trait Out {
    fn put(&mut self, bytes: &[u8]);

    fn text(&mut self, text: &[u8]) {
        self.put(b" \"");
        self.put(text);
        self.put(b"\"");
    }

    fn number(&mut self, number: u32) {
        let (mut digits, mut at, mut left) = ([0; 10], 10, number);
        loop {
            at -= 1;
            digits[at] = b'0' + (left % 10) as u8;
            left /= 10;
            if left == 0 {
                return self.put(&digits[at..]);
            }
        }
    }
}

impl Out for Vec<u8> {
    fn put(&mut self, bytes: &[u8]) {
        self.extend_from_slice(bytes);
    }
}

fn add(content: &mut Vec<u8>, text: &[u8]) {
    let room = MOST_CONTENT - content.len();
    content.extend_from_slice(&text[..text.len().min(room)]);
}

fn copy(contents: &mut [Vec<u8>], from: u16, to: u16) {
    if let Ok([from, to]) = contents.get_disjoint_mut([from as usize, to as usize]) {
        to.clone_from(from);
    }
}

fn pour(contents: &mut [Vec<u8>], from: u16, to: u16) {
    match contents.get_disjoint_mut([from as usize, to as usize]) {
        Ok([from, to]) => add(to, from),
        Err(_) => {
            let content = &mut contents[to as usize];
            let len = content.len().min(MOST_CONTENT - content.len());
            content.extend_from_within(..len);
        }
    }
}

/// Runs a behaviour, whose texts stand in these bytes, and lists what it spawns.
pub fn run(
    contents: &mut [Vec<u8>],
    scripts: &Scripts,
    bytes: &[u8],
    when: u32,
    out: &mut impl Out,
    spawned: &mut Vec<u32>,
) {
    let text = |span: Span| &bytes[span.start as usize..(span.start + span.len) as usize];
    let mut at = scripts.whens[when as usize].code;
    loop {
        let op = scripts.ops[at as usize];
        at += 1;
        match op {
            Op::Show(document) => out.text(&contents[document as usize]),
            Op::Say(said) => out.text(text(said)),
            Op::Add(document, added) => add(&mut contents[document as usize], text(added)),
            Op::Set(document, set) => {
                let content = &mut contents[document as usize];
                content.clear();
                content.extend_from_slice(text(set));
            }
            Op::Copy { from, to } => copy(contents, from, to),
            Op::Pour { from, to } => pour(contents, from, to),
            Op::Unless { document, has: within, text: asked, past } => {
                let (content, asked) = (contents[document as usize].as_slice(), text(asked));
                if !(if within { has(content, asked) } else { content == asked }) {
                    at = past;
                }
            }
            Op::Jump(to) => at = to,
            Op::Spawn { when, past } => {
                spawned.push(when);
                at = past;
            }
            Op::End => return,
        }
    }
}
