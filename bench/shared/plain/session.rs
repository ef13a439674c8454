//! A session: its lines are read one after another, and run block by block.
use crate::ink::{NoInk, Writes};
use crate::policy::{Denial, Level, Rule};
use crate::read::{Fault, Line, read_line};
use crate::run::{Out, find_byte, run};
use crate::script::{Mark, Scripts, Work};
use crate::setup::Setup;
use crate::state::{State, put_denial};
use std::io::{self, Read, Write};
use std::ops::Range;
use std::sync::Mutex;

const BUFFER: usize = 1 << 16;
const NONE: u32 = u32::MAX;

/// What is called where many replies were told, so that they can be handed on before the block ends.
type Spill<'a> = &'a mut dyn FnMut(&mut Vec<u8>);

/// A line of the block.
struct Pending {
    ordinal: u32,
    asks: Result<Asked, Fault>,
}

struct Asked {
    work: Work,
    weight: u32,
    /// Its canonical text, where a trail is kept.
    text: Range<u32>,
}

/// An entry of the order. Children are linked, so that replies can be told by their labels.
struct Run {
    work: Work,
    place: u32,
    level: Level,
    carried: Level,
    /// What was answered, where it was not told at once.
    reply: Range<usize>,
    child: u32,
    next: u32,
}

pub struct Session<'a> {
    setup: &'a Setup,
    state: &'a Mutex<State>,
    traces: bool,
    greeted: Option<(u16, u32)>,
    ordinal: u32,
    scripts: Scripts,
    pending: Vec<Pending>,
    text: Vec<u8>,
    runs: Vec<Run>,
    spawned: Vec<u32>,
}

impl Session<'_> {
    pub fn new<'a>(setup: &'a Setup, state: &'a Mutex<State>, traces: bool) -> Session<'a> {
        let (scripts, pending, text, runs, spawned) = Default::default();
        Session { setup, state, traces, greeted: None, ordinal: 0, scripts, pending, text, runs, spawned }
    }

    fn read(&mut self, line: &[u8]) -> Result<Line, Fault> {
        if self.traces {
            read_line(self.setup, line, &mut self.scripts, &mut Writes::new(&mut self.text))
        } else {
            read_line(self.setup, line, &mut self.scripts, &mut NoInk)
        }
    }

    /// Takes a line without its end: whether the session goes on.
    fn line(&mut self, line: &[u8], out: &mut Vec<u8>, spill: Spill<'_>) -> bool {
        let line = line.strip_suffix(b"\r").unwrap_or(line);
        if line.iter().all(|byte| matches!(byte, b' ' | b'\t')) {
            return true;
        }
        let (mark, from) = (self.scripts.mark(), self.text.len());
        let read = self.read(line);
        if self.greeted.is_none() {
            return self.greet(read, out);
        }
        if let Ok(Line::Wait) = read {
            self.text.truncate(from);
            self.run_block(out, spill);
            out.put(b"ok\n");
            return true;
        }
        self.ordinal += 1;
        let asks = match read {
            Ok(Line::Work(work, weight)) => Ok(Asked { work, weight, text: from as u32..self.text.len() as u32 }),
            Ok(_) => Err(Fault::Hello),
            Err(fault) => Err(self.refused(fault, mark)),
        };
        if asks.is_err() {
            self.text.truncate(from);
        }
        self.pending.push(Pending { ordinal: self.ordinal, asks });
        true
    }

    /// Cuts off what a refused line has left, but for the name that is unknown.
    fn refused(&mut self, fault: Fault, mark: Mark) -> Fault {
        let Fault::Unknown(name) = fault else {
            self.scripts.cut(mark);
            return fault;
        };
        Fault::Unknown(self.scripts.cut_but(mark, name))
    }

    fn greet(&mut self, read: Result<Line, Fault>, out: &mut Vec<u8>) -> bool {
        self.text.clear();
        let Ok(Line::Hello(subject)) = read else {
            out.put(b"refused hello\n");
            return false;
        };
        let session = self.state.lock().expect("a state").open(self.setup.subjects.name(subject));
        self.greeted = Some((subject, session));
        out.put(b"ok\n");
        true
    }

    /// The lines of the block enter the order, as far as the limit has room.
    fn admit(&mut self, state: &mut State) {
        let Some((_, session)) = self.greeted else { return };
        for line in &mut self.pending {
            let Ok(asked) = &line.asks else { continue };
            if state.weight + asked.weight > state.limit {
                line.asks = Err(Fault::Full);
                continue;
            }
            state.weight += asked.weight;
            if let Some(trail) = &mut state.trail {
                trail.put(b"line ");
                trail.number(session);
                trail.put(b" ");
                trail.number(line.ordinal);
                trail.put(b" ");
                trail.put(&self.text[asked.text.start as usize..asked.text.end as usize]);
                trail.put(b"\n");
            }
            self.runs.push(entry(asked.work, state.places, Level::default()));
            state.places += 1;
        }
    }

    /// Runs what is pending, and tells the replies.
    fn run_block(&mut self, out: &mut Vec<u8>, spill: Spill<'_>) {
        if self.pending.is_empty() {
            return;
        }
        let shared = self.state;
        let mut state = shared.lock().expect("a state");
        self.admit(&mut state);
        let pending = std::mem::take(&mut self.pending);
        let (mut later, mut told, mut at) = (Vec::new(), pending.len(), 0);
        for (which, line) in pending.iter().enumerate() {
            let at_once = told == pending.len();
            match &line.asks {
                Ok(_) if at_once => {
                    out.number(line.ordinal);
                    self.run_one(&mut state, at, out);
                    out.put(b"\n");
                    if self.runs[at].child != NONE {
                        told = which;
                    }
                }
                Ok(_) => self.run_one(&mut state, at, &mut later),
                Err(fault) if at_once => self.put_refusal(line.ordinal, *fault, out),
                Err(_) => {}
            }
            at += line.asks.is_ok() as usize;
            if out.len() >= BUFFER {
                spill(out);
            }
        }
        while at < self.runs.len() {
            self.run_one(&mut state, at, &mut later);
            at += 1;
        }
        drop(state);
        if told < pending.len() {
            self.tell_from(&pending, told, &later, out);
        }
        self.end_block(pending);
    }

    fn end_block(&mut self, mut pending: Vec<Pending>) {
        pending.clear();
        self.pending = pending;
        self.runs.clear();
        self.text.clear();
        self.scripts.cut(Default::default());
    }

    /// Tells the replies from this line on, but for its own, which was told.
    fn tell_from(&self, pending: &[Pending], from: usize, later: &[u8], out: &mut Vec<u8>) {
        let mut at = pending[..from].iter().filter(|line| line.asks.is_ok()).count() as u32;
        let mut label = Vec::new();
        for (which, line) in pending.iter().enumerate().skip(from) {
            if let Err(fault) = line.asks {
                self.put_refusal(line.ordinal, fault, out);
                continue;
            }
            label.clear();
            label.number(line.ordinal);
            self.tell(at, which == from, &mut label, later, out);
            at += 1;
        }
    }

    fn tell(&self, at: u32, was_told: bool, label: &mut Vec<u8>, later: &[u8], out: &mut Vec<u8>) {
        let run = &self.runs[at as usize];
        if !was_told {
            out.put(label);
            out.put(&later[run.reply.clone()]);
            out.put(b"\n");
        }
        let (mut child, mut number, len) = (run.child, 1, label.len());
        while child != NONE {
            label.push(b'.');
            label.number(number);
            self.tell(child, false, label, later, out);
            label.truncate(len);
            child = self.runs[child as usize].next;
            number += 1;
        }
    }

    /// Runs an entry, and puts its answer.
    fn run_one(&mut self, state: &mut State, at: usize, out: &mut Vec<u8>) {
        let Some((subject, _)) = self.greeted else { return };
        let start = out.len();
        self.runs[at].level = state.policy.current[subject as usize];
        match self.runs[at].work {
            Work::Rule(rule) => self.run_rule(state, subject, at, rule, out),
            Work::When(when) => self.run_when(state, subject, at, when, out),
        }
        self.runs[at].reply = start..out.len();
    }

    fn deny(&self, state: &mut State, subject: u16, at: usize, denial: Denial, out: &mut Vec<u8>) {
        put_denial(out, self.setup, subject, denial);
        if let Some(trail) = &mut state.trail {
            trail.put(b"start ");
            trail.number(self.runs[at].place);
            put_denial(trail, self.setup, subject, denial);
            trail.put(b"\n");
        }
    }

    fn run_rule(&self, state: &mut State, subject: u16, at: usize, rule: Rule, out: &mut Vec<u8>) {
        if let Some(denial) = state.policy.apply(self.setup, subject, rule) {
            return self.deny(state, subject, at, denial, out);
        }
        if let Rule::Delete(document) = rule {
            state.contents[document as usize].clear();
        }
        out.put(b" done");
        if let Some(trail) = &mut state.trail {
            trail.put(b"start ");
            trail.number(self.runs[at].place);
            trail.put(b" rule\n");
        }
    }

    fn run_when(&mut self, state: &mut State, subject: u16, at: usize, when: u32, out: &mut Vec<u8>) {
        let (place, carried) = (self.runs[at].place, self.runs[at].carried);
        if let Some(denial) = state.policy.first_fault(self.setup, subject, carried, self.scripts.accesses_of(when)) {
            return self.deny(state, subject, at, denial, out);
        }
        let from = out.len();
        out.put(b" done");
        run(&mut state.contents, &self.scripts, &self.scripts.bytes, when, out, &mut self.spawned);
        if let Some(trail) = &mut state.trail {
            trail.put(b"start ");
            trail.number(place);
            trail.put(b" run\nend ");
            trail.number(place);
            trail.put(&out[from..]);
            trail.put(b"\n");
        }
        if !self.spawned.is_empty() {
            self.children(state, at);
        }
    }

    /// What the entry has spawned enters.
    fn children(&mut self, state: &mut State, at: usize) {
        let carried = self.runs[at].level.join(self.runs[at].carried);
        let first = self.runs.len() as u32;
        self.runs[at].child = first;
        let last = first + self.spawned.len() as u32 - 1;
        for (child, when) in (first..).zip(self.spawned.drain(..)) {
            let next = if child < last { child + 1 } else { NONE };
            self.runs.push(Run { next, ..entry(Work::When(when), state.places, carried) });
            state.places += 1;
        }
    }

    fn put_refusal(&self, ordinal: u32, fault: Fault, out: &mut Vec<u8>) {
        out.number(ordinal);
        out.put(b" refused ");
        let (kind, name) = match fault {
            Fault::Long => ("long", None),
            Fault::Deep => ("deep", None),
            Fault::Many => ("many", None),
            Fault::Hello => ("hello", None),
            Fault::Full => ("full", None),
            Fault::Syntax(at) => {
                out.put(b"syntax ");
                out.number(at);
                return out.put(b"\n");
            }
            Fault::Unknown(name) => {
                let (start, end) = (name.start as usize, (name.start + name.len) as usize);
                ("unknown ", Some(&self.scripts.bytes[start..end]))
            }
            Fault::Twice(document) => ("twice ", Some(self.setup.documents.name(document))),
            Fault::TwiceCategory(category) => ("twice ", Some(self.setup.categories.name(category))),
            Fault::Mode(document) => ("mode ", Some(self.setup.documents.name(document))),
        };
        out.put(kind.as_bytes());
        out.put(name.unwrap_or(b""));
        out.put(b"\n");
    }
}

fn entry(work: Work, place: u32, carried: Level) -> Run {
    Run { work, place, level: Level::default(), carried, reply: 0..0, child: NONE, next: NONE }
}

/// A session from its first byte to its last. Where it is eager, what has come runs before each read that may wait.
pub fn serve(mut session: Session<'_>, mut input: impl Read, mut output: impl Write, eager: bool) -> io::Result<()> {
    let (mut buffer, mut start, mut end) = (vec![0; BUFFER], 0, 0);
    let mut out = Vec::with_capacity(2 * BUFFER);
    let mut goes_on = true;
    while goes_on {
        // under the lock of others nothing is written
        let mut spill = |out: &mut Vec<u8>| {
            if !eager && output.write_all(out).is_ok() {
                out.clear();
            }
        };
        while let Some(len) = find_byte(&buffer[start..end], b'\n').filter(|_| goes_on) {
            goes_on = session.line(&buffer[start..start + len], &mut out, &mut spill);
            start += len + 1;
        }
        if eager {
            session.run_block(&mut out, &mut spill);
        }
        output.write_all(&out)?;
        out.clear();
        if !goes_on {
            break;
        }
        buffer.copy_within(start..end, 0);
        (start, end) = (0, end - start);
        if end == buffer.len() {
            buffer.resize(2 * end, 0);
        }
        let count = input.read(&mut buffer[end..])?;
        if count == 0 {
            session.line(&buffer[..end], &mut out, &mut |_| {});
            break;
        }
        end += count;
    }
    session.run_block(&mut out, &mut |out| {
        if output.write_all(out).is_ok() {
            out.clear();
        }
    });
    out.put(b"bye\n");
    output.write_all(&out)?;
    output.flush()
}
