//! A setup file that is right.
use crate::names::Names;
use crate::policy::{Level, Mode};

pub struct Person {
    pub greatest: Level,
    pub current: Level,
    pub trusted: bool,
    pub admin: bool,
}

#[derive(Default)]
pub struct Setup {
    pub ranks: Names,
    pub categories: Names,
    pub subjects: Names,
    pub people: Vec<Person>,
    pub documents: Names,
    pub levels: Vec<Level>,
    /// The text of each document; none of one that is reserved.
    pub contents: Vec<Option<Vec<u8>>>,
    pub allowed: Vec<(u16, u16, Mode)>,
}

pub fn mode_of(letter: &[u8]) -> Option<Mode> {
    Some(match letter {
        b"r" => Mode::Read,
        b"a" => Mode::Append,
        b"w" => Mode::Write,
        _ => return None,
    })
}

impl Setup {
    fn level(&self, text: &str) -> Level {
        let (rank, rest) = text.split_once('{').unwrap_or((text, ""));
        let names = rest.trim_end_matches('}').split(',').filter(|name| !name.is_empty());
        let place = |names: &Names, name: &str| names.place(name.trim().as_bytes()).expect("a known name");
        let categories = names.map(|name| 1 << place(&self.categories, name)).sum();
        Level { rank: place(&self.ranks, rank) as u8, categories }
    }

    fn document(&mut self, name: &str, level: &str, content: Option<&str>) {
        self.documents.add(name.as_bytes());
        self.levels.push(self.level(level));
        self.contents.push(content.map(|text| text.as_bytes().to_vec()));
    }

    fn line(&mut self, line: &str) {
        let words: Vec<&str> = line.split_whitespace().collect();
        match words.as_slice() {
            ["ranks", names @ ..] => names.iter().for_each(|name| self.ranks.add(name.as_bytes())),
            ["categories", names @ ..] => names.iter().for_each(|name| self.categories.add(name.as_bytes())),
            ["subject", name, "greatest", greatest, "current", current, marks @ ..] => {
                self.subjects.add(name.as_bytes());
                self.people.push(Person {
                    greatest: self.level(greatest),
                    current: self.level(current),
                    trusted: marks.contains(&"trusted"),
                    admin: marks.contains(&"admin"),
                });
            }
            ["document", name, level, ..] => self.document(name, level, line.split('"').nth(1)),
            ["reserve", name, level] => self.document(name, level, None),
            ["allow", subject, document, letters @ ..] => {
                let subject = self.subjects.place(subject.as_bytes()).expect("a subject");
                let document = self.documents.place(document.as_bytes()).expect("a document");
                let modes = letters.iter().filter_map(|letter| mode_of(letter.as_bytes()));
                self.allowed.extend(modes.map(|mode| (subject, document, mode)));
            }
            _ => {}
        }
    }

    pub fn read(text: &str) -> Setup {
        let mut setup = Setup::default();
        text.lines().filter(|line| !line.starts_with('#')).for_each(|line| setup.line(line));
        setup
    }
}
