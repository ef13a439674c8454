//! The verdict on a trail: its events are done one after another, and each line is compared with what the event says.
use crate::ink::Asks;
use crate::policy::{Denial, Level, Mode, Policy, Rule};
use crate::read::{Line, read_line};
use crate::run::{Out, find_byte, run};
use crate::script::{Scripts, Work};
use crate::setup::Setup;
use crate::state::put_denial;
use std::collections::VecDeque;

const MOST_SESSIONS: usize = 1000;

#[derive(Clone, Copy, PartialEq, Eq)]
enum Stand {
    Waiting,
    Running,
    Ended,
}

struct Place {
    work: Work,
    subject: u16,
    stand: Stand,
    /// Where its claims stand among those that are kept.
    claims: u32,
    level: Level,
    carried: Level,
}

/// Who waits for one document, or for the policy: groups of claims, each of one that changes it, or of some that do
/// not.
#[derive(Default)]
struct Queue {
    /// How many of each group have not ended, and whether it is shared.
    groups: VecDeque<(u32, bool)>,
    /// The number of the first group.
    first: u32,
}

impl Queue {
    fn enter(&mut self, shared: bool) -> u32 {
        match self.groups.back_mut() {
            Some((count, true)) if shared => *count += 1,
            _ => self.groups.push_back((1, shared)),
        }
        self.first + self.groups.len() as u32 - 1
    }

    fn leave(&mut self, group: u32) {
        self.groups[(group - self.first) as usize].0 -= 1;
        while let Some((0, _)) = self.groups.front() {
            self.groups.pop_front();
            self.first += 1;
        }
    }
}

/// Takes what the line goes on with.
struct Matching<'a> {
    rest: Option<&'a [u8]>,
}

impl Out for Matching<'_> {
    fn put(&mut self, bytes: &[u8]) {
        self.rest = self.rest.and_then(|rest| rest.strip_prefix(bytes));
    }
}

struct Replay<'a> {
    setup: &'a Setup,
    trail: &'a [u8],
    version: u8,
    limit: u32,
    weight: u32,
    policy: Policy,
    contents: Vec<Vec<u8>>,
    scripts: Scripts,
    /// The subject of each session, and its last ordinal.
    sessions: Vec<(u16, u32)>,
    places: Vec<Place>,
    claims: Vec<u32>,
    /// That of the policy, and those of the documents.
    queues: Vec<Queue>,
    spawned: Vec<u32>,
}

/// The number in decimal that the line begins with, and what comes after it.
fn number(line: &[u8]) -> Option<(u32, &[u8])> {
    let len = line.iter().position(|byte| !byte.is_ascii_digit()).unwrap_or(line.len());
    if len == 0 || len > 1 && line[0] == b'0' {
        return None;
    }
    let digits = line[..len].iter();
    let more = |number: u32, digit: u8| number.checked_mul(10)?.checked_add((digit - b'0').into());
    let number = digits.copied().try_fold(0_u32, more)?;
    Some((number, &line[len..]))
}

fn numbered(line: &[u8]) -> Option<(u32, &[u8])> {
    let (number, rest) = number(line)?;
    Some((number, rest.strip_prefix(b" ")?))
}

impl<'a> Replay<'a> {
    fn new(setup: &'a Setup, trail: &'a [u8], version: u8, limit: u32) -> Replay<'a> {
        let contents = setup.contents.iter().map(|content| content.clone().unwrap_or_default()).collect();
        let (scripts, sessions, places, claims, spawned) = Default::default();
        let queues = (0..=setup.documents.len()).map(|_| Queue::default()).collect();
        let policy = Policy::new(setup);
        let weight = 0;
        Replay {
            setup, trail, version, limit, weight, policy, contents, scripts, sessions, places, claims, queues, spawned,
        }
    }

    fn enter(&mut self, work: Work, subject: u16, carried: Level) {
        let claims = self.claims.len() as u32;
        match work {
            Work::Rule(_) => self.claims.push(self.queues[0].enter(false)),
            Work::When(when) => {
                self.claims.push(self.queues[0].enter(true));
                for access in self.scripts.accesses_of(when) {
                    let queue = &mut self.queues[access.document as usize + 1];
                    self.claims.push(queue.enter(access.mode == Mode::Read));
                }
            }
        }
        self.places.push(Place { work, subject, stand: Stand::Waiting, claims, level: Level::default(), carried });
    }

    /// Which queues the entry stands in, in the order of its claims.
    fn queues_of(scripts: &Scripts, work: Work) -> impl Iterator<Item = usize> {
        let accesses = match work {
            Work::Rule(_) => &[],
            Work::When(when) => scripts.accesses_of(when),
        };
        std::iter::once(0).chain(accesses.iter().map(|access| access.document as usize + 1))
    }

    fn may_start(&self, place: &Place) -> bool {
        let mut queues = Self::queues_of(&self.scripts, place.work).zip(&self.claims[place.claims as usize..]);
        place.stand == Stand::Waiting && queues.all(|(queue, group)| self.queues[queue].first == *group)
    }

    fn leave(&mut self, n: u32) {
        let place = &mut self.places[n as usize];
        place.stand = Stand::Ended;
        let claims = &self.claims[place.claims as usize..];
        for (queue, group) in Self::queues_of(&self.scripts, place.work).zip(claims) {
            self.queues[queue].leave(*group);
        }
    }

    fn open(&mut self, name: &[u8]) -> Option<()> {
        let subject = self.setup.subjects.place(name)?;
        self.sessions.push((subject, 0));
        (self.sessions.len() <= MOST_SESSIONS).then_some(())
    }

    fn line(&mut self, rest: &[u8]) -> Option<()> {
        let (session, rest) = numbered(rest)?;
        let (ordinal, text) = numbered(rest)?;
        let (subject, last) = self.sessions.get_mut(session as usize)?;
        if ordinal <= *last {
            return None;
        }
        *last = ordinal;
        let subject = *subject;
        self.scripts.origin = Some(text.as_ptr().addr() - self.trail.as_ptr().addr());
        let mut asks = Asks::new();
        let Ok(Line::Work(work, weight)) = read_line(self.setup, text, &mut self.scripts, &mut asks) else {
            return None;
        };
        let comes_or_goes = matches!(work, Work::Rule(Rule::Create(_) | Rule::Delete(_)));
        if !asks.is_canonical || self.weight + weight > self.limit || self.version == 1 && comes_or_goes {
            return None;
        }
        self.weight += weight;
        self.enter(work, subject, Level::default());
        Some(())
    }

    fn is_denied(&self, subject: u16, denial: Denial, rest: &[u8]) -> Option<()> {
        let mut line = Matching { rest: Some(rest) };
        put_denial(&mut line, self.setup, subject, denial);
        (line.rest == Some(b"")).then_some(())
    }

    fn start(&mut self, rest: &[u8]) -> Option<()> {
        let (n, rest) = number(rest)?;
        let place = self.places.get(n as usize).filter(|place| self.may_start(place))?;
        let (subject, work, carried) = (place.subject, place.work, place.carried);
        self.places[n as usize].level = self.policy.current[subject as usize];
        match work {
            Work::Rule(rule) => {
                self.leave(n);
                match self.policy.apply(self.setup, subject, rule) {
                    Some(denial) => return self.is_denied(subject, denial, rest),
                    None if rest != b" rule" => return None,
                    None => {}
                }
                if let Rule::Delete(document) = rule {
                    self.contents[document as usize].clear();
                }
            }
            Work::When(when) => {
                let accesses = self.scripts.accesses_of(when);
                match self.policy.first_fault(self.setup, subject, carried, accesses) {
                    Some(denial) => {
                        self.leave(n);
                        return self.is_denied(subject, denial, rest);
                    }
                    None if rest != b" run" => return None,
                    None => self.places[n as usize].stand = Stand::Running,
                }
            }
        }
        Some(())
    }

    fn end(&mut self, rest: &[u8]) -> Option<()> {
        let (n, rest) = number(rest)?;
        let place = self.places.get(n as usize).filter(|place| place.stand == Stand::Running)?;
        let (Work::When(when), subject) = (place.work, place.subject) else {
            return None;
        };
        let carried = if self.version == 1 { Level::default() } else { place.level.join(place.carried) };
        let mut line = Matching { rest: rest.strip_prefix(b" done") };
        run(&mut self.contents, &self.scripts, self.trail, when, &mut line, &mut self.spawned);
        if line.rest != Some(b"") {
            return None;
        }
        self.leave(n);
        let mut spawned = std::mem::take(&mut self.spawned);
        for when in spawned.drain(..) {
            self.enter(Work::When(when), subject, carried);
        }
        self.spawned = spawned;
        Some(())
    }

    fn lose(&mut self, rest: &[u8]) -> Option<()> {
        let (n, rest) = number(rest)?;
        let place = self.places.get(n as usize)?;
        if rest != b"" || !(place.stand == Stand::Running || self.may_start(place)) {
            return None;
        }
        self.leave(n);
        Some(())
    }

    fn event(&mut self, line: &[u8]) -> Option<()> {
        match line {
            [b'l', b'i', b'n', b'e', b' ', rest @ ..] => self.line(rest),
            [b's', b't', b'a', b'r', b't', b' ', rest @ ..] => self.start(rest),
            [b'e', b'n', b'd', b' ', rest @ ..] => self.end(rest),
            [b'l', b'o', b's', b't', b' ', rest @ ..] => self.lose(rest),
            [b'o', b'p', b'e', b'n', b' ', rest @ ..] => self.open(rest),
            _ => None,
        }
    }

    /// The number of events, or the first line that is not right.
    fn follow(&mut self, at: usize) -> Result<usize, usize> {
        let (trail, mut start, mut number) = (self.trail, at, 3);
        while let Some(len) = find_byte(&trail[start..], b'\n') {
            let line = &trail[start..start + len];
            start += len + 1;
            if line == b"stop" {
                return if start == trail.len() { Ok(number - 3) } else { Err(number + 1) };
            }
            self.event(line).ok_or(number)?;
            number += 1;
        }
        Err(number)
    }
}

/// The version and the limit, and where the events begin; or the first line that is not right.
fn head(setup: &Setup, trail: &[u8]) -> Result<(u8, u32, usize), usize> {
    let first = find_byte(trail, b'\n').ok_or(1_usize)?;
    let version = match &trail[..first] {
        b"trail 1" if setup.contents.iter().all(Option::is_some) => 1,
        b"trail 2" => 2,
        _ => return Err(1),
    };
    let rest = &trail[first + 1..];
    let second = find_byte(rest, b'\n').ok_or(2_usize)?;
    let digits = rest[..second].strip_prefix(b"limit ").ok_or(2_usize)?;
    match number(digits) {
        Some((limit @ 1..=100_000, b"")) => Ok((version, limit, first + second + 2)),
        _ => Err(2),
    }
}

/// The verdict, as the program says it.
pub fn verdict(setup: &Setup, trail: &[u8]) -> String {
    let follow = |(version, limit, at)| Replay::new(setup, trail, version, limit).follow(at);
    let found = head(setup, trail).and_then(follow);
    match found {
        Ok(count) => format!("accepted {count}"),
        Err(number) => format!("rejected {number}"),
    }
}
