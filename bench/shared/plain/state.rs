//! What all sessions of a run share: policy, contents, the count of the order, and the trail.
use crate::policy::{Denial, Policy};
use crate::run::Out;
use crate::setup::Setup;
use std::fs::{File, rename};
use std::io::{self, BufWriter, Write};

pub struct Trail {
    file: BufWriter<File>,
    part: String,
    name: String,
}

impl Out for Trail {
    fn put(&mut self, bytes: &[u8]) {
        self.file.write_all(bytes).expect("a trail that can be written");
    }
}

impl Trail {
    pub fn new(name: &str, limit: u32) -> io::Result<Trail> {
        let part = format!("{name}.part");
        let file = BufWriter::with_capacity(1 << 16, File::create(&part)?);
        let mut trail = Trail { file, part, name: name.to_string() };
        trail.put(format!("trail 2\nlimit {limit}\n").as_bytes());
        Ok(trail)
    }

    pub fn close(mut self) -> io::Result<()> {
        self.put(b"stop\n");
        self.file.flush()?;
        rename(self.part, self.name)
    }
}

pub struct State {
    pub policy: Policy,
    pub contents: Vec<Vec<u8>>,
    pub limit: u32,
    pub weight: u32,
    pub places: u32,
    pub sessions: u32,
    pub trail: Option<Trail>,
}

impl State {
    pub fn new(setup: &Setup, limit: u32, trail: Option<Trail>) -> State {
        let contents = setup.contents.iter().map(|content| content.clone().unwrap_or_default()).collect();
        State { policy: Policy::new(setup), contents, limit, weight: 0, places: 0, sessions: 0, trail }
    }

    /// A session more: its number.
    pub fn open(&mut self, name: &[u8]) -> u32 {
        if let Some(trail) = &mut self.trail {
            trail.put(b"open ");
            trail.put(name);
            trail.put(b"\n");
        }
        self.sessions += 1;
        self.sessions - 1
    }
}

/// ` denied CLAUSE SUBJECT DOCUMENT`
pub fn put_denial(out: &mut impl Out, setup: &Setup, subject: u16, denial: Denial) {
    out.put(b" denied ");
    out.put(denial.0.as_bytes());
    out.put(b" ");
    out.put(setup.subjects.name(subject));
    if let Some(document) = denial.1 {
        out.put(b" ");
        out.put(setup.documents.name(document));
    }
}
