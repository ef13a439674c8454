//! Who may do what: levels, the matrix, decisions and rules.
use crate::setup::Setup;

#[derive(Clone, Copy, PartialEq, Eq, Default)]
pub struct Level {
    pub rank: u8,
    pub categories: u32,
}

impl Level {
    pub fn dominates(self, other: Level) -> bool {
        self.rank >= other.rank && self.categories & other.categories == other.categories
    }

    pub fn join(self, other: Level) -> Level {
        Level { rank: self.rank.max(other.rank), categories: self.categories | other.categories }
    }
}

#[derive(Clone, Copy, PartialEq, Eq)]
pub enum Mode {
    Read,
    Append,
    Write,
}

impl Mode {
    fn bit(self) -> u8 {
        1 << self as u8
    }
}

#[derive(Clone, Copy)]
pub struct Access {
    pub mode: Mode,
    pub document: u16,
}

#[derive(Clone, Copy)]
pub enum Rule {
    Give { subject: u16, document: u16, mode: Mode },
    Rescind { subject: u16, document: u16, mode: Mode },
    Current(Level),
    Classify(u16, Level),
    Create(u16),
    Delete(u16),
}

/// What an access or a rule fails first, and of which document.
pub type Denial = (&'static str, Option<u16>);

/// What rules change.
#[derive(Clone)]
pub struct Policy {
    pub current: Vec<Level>,
    levels: Vec<Level>,
    present: Vec<bool>,
    /// The modes of each subject and document.
    matrix: Vec<u8>,
}

impl Policy {
    pub fn new(setup: &Setup) -> Policy {
        let mut matrix = vec![0; setup.subjects.len() * setup.documents.len()];
        for (subject, document, mode) in &setup.allowed {
            matrix[*subject as usize * setup.documents.len() + *document as usize] |= mode.bit();
        }
        Policy {
            current: setup.people.iter().map(|one| one.current).collect(),
            levels: setup.levels.clone(),
            present: setup.contents.iter().map(Option::is_some).collect(),
            matrix,
        }
    }

    fn cell(&self, subject: u16, document: u16) -> usize {
        subject as usize * self.levels.len() + document as usize
    }

    /// What this access fails first.
    fn fault(&self, setup: &Setup, subject: u16, carried: Level, access: Access) -> Option<&'static str> {
        let who = &setup.people[subject as usize];
        let (current, level) = (self.current[subject as usize], self.levels[access.document as usize]);
        if !self.present[access.document as usize] {
            return Some("absent");
        }
        if access.mode != Mode::Append && !who.greatest.dominates(level) {
            return Some("simple");
        }
        let star = match access.mode {
            Mode::Read => current.dominates(level),
            Mode::Append => level.dominates(current),
            Mode::Write => level == current,
        };
        if !who.trusted && !star {
            return Some("star");
        }
        if self.matrix[self.cell(subject, access.document)] & access.mode.bit() == 0 {
            return Some("discretionary");
        }
        (!who.trusted && access.mode != Mode::Read && !level.dominates(carried)).then_some("carry")
    }

    /// The first access that fails a property, and that property.
    pub fn first_fault(&self, setup: &Setup, subject: u16, carried: Level, accesses: &[Access]) -> Option<Denial> {
        accesses.iter().find_map(|access| {
            let clause = self.fault(setup, subject, carried, *access)?;
            Some((clause, Some(access.document)))
        })
    }

    /// Why the subject may not ask for this rule.
    fn denial(&self, setup: &Setup, subject: u16, rule: Rule) -> Option<Denial> {
        let who = &setup.people[subject as usize];
        let document = match rule {
            Rule::Current(level) => return (!who.greatest.dominates(level)).then_some(("greatest", None)),
            Rule::Give { document, .. } | Rule::Rescind { document, .. } => document,
            Rule::Classify(document, _) | Rule::Create(document) | Rule::Delete(document) => document,
        };
        let clause = match rule {
            _ if !who.admin => "admin",
            Rule::Classify(..) if !who.trusted => "trusted",
            Rule::Create(_) if self.present[document as usize] => "present",
            Rule::Delete(_) if !self.present[document as usize] => "absent",
            _ => return None,
        };
        Some((clause, Some(document)))
    }

    /// Applies the rule, or says why not. A document that is deleted loses its text elsewhere.
    pub fn apply(&mut self, setup: &Setup, subject: u16, rule: Rule) -> Option<Denial> {
        let denial = self.denial(setup, subject, rule);
        if denial.is_some() {
            return denial;
        }
        match rule {
            Rule::Give { subject, document, mode } => {
                let cell = self.cell(subject, document);
                self.matrix[cell] |= mode.bit();
            }
            Rule::Rescind { subject, document, mode } => {
                let cell = self.cell(subject, document);
                self.matrix[cell] &= !mode.bit();
            }
            Rule::Current(level) => self.current[subject as usize] = level,
            Rule::Classify(document, level) => self.levels[document as usize] = level,
            Rule::Create(document) => self.present[document as usize] = true,
            Rule::Delete(document) => {
                self.present[document as usize] = false;
                let documents = self.levels.len();
                self.matrix.iter_mut().skip(document as usize).step_by(documents).for_each(|cell| *cell = 0);
            }
        }
        None
    }
}
