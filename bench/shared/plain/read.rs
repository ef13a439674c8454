//! From the bytes of a line to what it asks, in one walk, or its first fault.
use crate::ink::Ink;
use crate::names::Names;
use crate::policy::{Access, Level, Mode, Rule};
use crate::script::{Op, Scripts, Span, When, Work};
use crate::setup::{Setup, mode_of};
use crate::tokens::{At, Cursor, is_reserved};

const MOST_LINE: usize = 8192;
const MOST_DEPTH: u32 = 8;
const MOST_WHENS: u32 = 32;
const MOST_ACCESSES: u32 = 8;
/// Stands for a document of an unknown name, until the line is refused.
const UNKNOWN: u16 = u16::MAX;

#[derive(Clone, Copy)]
pub enum Fault {
    Long,
    Syntax(u32),
    Deep,
    Many,
    Unknown(Span),
    Twice(u16),
    TwiceCategory(u16),
    Mode(u16),
    Hello,
    Full,
}

pub enum Line {
    Hello(u16),
    Wait,
    /// With its weight.
    Work(Work, u32),
}

/// How a body ended.
enum Ended {
    End,
    /// With what the ink held before the `else`, and where that stands.
    Else((usize, bool), usize),
}

struct Reader<'a, 'b, I> {
    setup: &'a Setup,
    cursor: Cursor<'a>,
    scripts: &'b mut Scripts,
    ink: &'b mut I,
    whens: u32,
    deep: bool,
    many: bool,
    unknown: Option<&'a [u8]>,
    twice: Option<Fault>,
    mode: Option<u16>,
}

/// Inside a line only the place of a fault of syntax stops the reader: the others are asked at the end.
type Read<T> = Result<T, At>;

fn syntax<T>(at: usize) -> Read<T> {
    Err(At(at as u32))
}

impl<'a, I: Ink> Reader<'a, '_, I> {
    #[inline(always)]
    fn word(&mut self) -> Read<&'a [u8]> {
        let start = self.cursor.at;
        let word = self.cursor.word()?;
        self.ink.word(word, start);
        Ok(word)
    }

    #[inline(always)]
    fn sign(&mut self, sign: u8) -> Read<()> {
        let start = self.cursor.at;
        self.cursor.sign(sign)?;
        self.ink.sign(sign, start);
        Ok(())
    }

    fn text(&mut self) -> Read<Span> {
        let start = self.cursor.at;
        let text = self.cursor.text()?;
        self.ink.text(text, start);
        Ok(self.scripts.keep(text, start + 1))
    }

    #[inline(always)]
    fn takes<const N: usize>(&mut self, keyword: &[u8; N]) -> bool {
        let start = self.cursor.at;
        let takes = self.cursor.takes(keyword);
        if takes {
            self.ink.word(keyword, start);
        }
        takes
    }

    #[inline(always)]
    fn want<const N: usize>(&mut self, keyword: &[u8; N]) -> Read<()> {
        if self.takes(keyword) { Ok(()) } else { Err(self.cursor.fault()) }
    }

    /// The place of a name among those that `among` gives; `UNKNOWN` where it is none of them.
    #[inline(always)]
    fn name(&mut self, among: impl Fn(&Setup) -> &Names) -> Read<u16> {
        let at = self.cursor.at;
        let name = self.word()?;
        match among(self.setup).place(name) {
            Some(place) => Ok(place),
            None => self.unknown(name, at),
        }
    }

    #[cold]
    fn unknown(&mut self, name: &'a [u8], at: usize) -> Read<u16> {
        if is_reserved(name) {
            return syntax(at);
        }
        self.unknown.get_or_insert(name);
        Ok(UNKNOWN)
    }

    fn document(&mut self) -> Read<u16> {
        self.name(|setup| &setup.documents)
    }

    fn subject(&mut self) -> Read<u16> {
        self.name(|setup| &setup.subjects)
    }

    fn letter(&mut self) -> Read<Mode> {
        let at = self.cursor.at;
        mode_of(self.word()?).map_or_else(|| syntax(at), Ok)
    }

    fn level(&mut self) -> Read<Level> {
        let rank = self.name(|setup| &setup.ranks)?;
        let mark = self.ink.mark();
        let (mut categories, mut last, mut in_order, mut sign) = (0_u32, None, true, b'{');
        while self.cursor.has(sign) {
            self.sign(sign)?;
            let category = self.name(|setup| &setup.categories)?;
            if category != UNKNOWN {
                if categories & 1 << category != 0 {
                    self.twice.get_or_insert(Fault::TwiceCategory(category));
                }
                categories |= 1 << category;
                in_order &= last < Some(category);
                last = Some(category);
            }
            sign = b',';
        }
        if sign == b',' {
            self.sign(b'}')?;
        }
        if !in_order {
            self.ink.cut(mark);
            self.ink.categories(&self.setup.categories, categories);
        }
        Ok(Level { rank: rank as u8, categories })
    }

    fn accesses(&mut self) -> Read<()> {
        let first = self.scripts.accesses.len();
        loop {
            let mode = if self.takes(b"read") {
                Mode::Read
            } else if self.takes(b"write") {
                Mode::Write
            } else {
                self.want(b"append")?;
                Mode::Append
            };
            let document = self.document()?;
            if self.scripts.accesses[first..].iter().any(|earlier| earlier.document == document) {
                self.twice.get_or_insert(Fault::Twice(document));
            }
            self.scripts.accesses.push(Access { mode, document });
            if !self.cursor.has(b',') {
                return self.want(b"do");
            }
            self.sign(b',')?;
        }
    }

    /// A `when` after its first word: its place among those that are kept.
    fn when(&mut self, depth: u32) -> Read<u32> {
        self.whens += 1;
        let first = self.scripts.accesses.len() as u32;
        self.accesses()?;
        let count = self.scripts.accesses.len() as u32 - first;
        self.deep |= depth > MOST_DEPTH;
        self.many |= self.whens > MOST_WHENS || count > MOST_ACCESSES;
        let when = self.scripts.whens.len() as u32;
        self.scripts.whens.push(When { first, count, code: self.scripts.ops.len() as u32 });
        match self.body(when, depth)? {
            Ended::End => self.scripts.ops.push(Op::End),
            Ended::Else(_, at) => return syntax(at),
        }
        Ok(when)
    }

    fn body(&mut self, when: u32, depth: u32) -> Read<Ended> {
        loop {
            let (at, mark) = (self.cursor.at, self.ink.mark());
            if self.takes(b"end") {
                return Ok(Ended::End);
            }
            if self.takes(b"else") {
                return Ok(Ended::Else(mark, at));
            }
            if let Some(op) = self.statement(when, depth)? {
                self.scripts.ops.push(op);
            }
            self.sign(b';')?;
        }
    }

    /// What is left to be kept of a statement: nothing of one that has kept its own.
    #[inline(always)]
    fn statement(&mut self, when: u32, depth: u32) -> Read<Option<Op>> {
        Ok(Some(if self.takes(b"show") {
            Op::Show(self.seen(when)?)
        } else if self.takes(b"say") {
            Op::Say(self.text()?)
        } else if self.takes(b"add") {
            Op::Add(self.added(when)?, self.text()?)
        } else if self.takes(b"set") {
            Op::Set(self.declared(when, None)?, self.text()?)
        } else if self.takes(b"copy") {
            let from = self.seen_before_to(when)?;
            Op::Copy { from, to: self.declared(when, None)? }
        } else if self.takes(b"pour") {
            let from = self.seen_before_to(when)?;
            Op::Pour { from, to: self.added(when)? }
        } else if self.takes(b"if") {
            self.choice(when, depth + 1)?;
            return Ok(None);
        } else {
            self.want(b"spawn")?;
            self.spawn(depth + 1)?;
            return Ok(None);
        }))
    }

    /// A document in a statement, whose `when` has to declare it as `Write` or so.
    #[inline(always)]
    fn declared(&mut self, when: u32, or: Option<Mode>) -> Read<u16> {
        let document = self.document()?;
        let serves = |access: &Access| {
            access.document == document && (access.mode == Mode::Write || Some(access.mode) == or)
        };
        if !self.scripts.accesses_of(when).iter().any(serves) && self.mode.is_none() {
            self.mode = Some(document);
        }
        Ok(document)
    }

    fn seen(&mut self, when: u32) -> Read<u16> {
        self.declared(when, Some(Mode::Read))
    }

    fn seen_before_to(&mut self, when: u32) -> Read<u16> {
        let document = self.seen(when)?;
        self.want(b"to")?;
        Ok(document)
    }

    fn added(&mut self, when: u32) -> Read<u16> {
        self.declared(when, Some(Mode::Append))
    }

    fn spawn(&mut self, depth: u32) -> Read<()> {
        self.want(b"when")?;
        let at = self.scripts.ops.len();
        self.scripts.ops.push(Op::End);
        let when = self.when(depth)?;
        self.scripts.ops[at] = Op::Spawn { when, past: self.scripts.ops.len() as u32 };
        Ok(())
    }

    fn choice(&mut self, when: u32, depth: u32) -> Read<()> {
        self.deep |= depth > MOST_DEPTH;
        let document = self.seen(when)?;
        let has = self.takes(b"has");
        if !has {
            self.want(b"is")?;
        }
        let text = self.text()?;
        self.want(b"then")?;
        let test = self.scripts.ops.len();
        self.scripts.ops.push(Op::End);
        let ended = self.body(when, depth)?;
        let mut past = self.scripts.ops.len() as u32;
        if let Ended::Else(mark, _) = ended {
            self.scripts.ops.push(Op::End);
            past += 1;
            if let Ended::Else(_, at) = self.body(when, depth)? {
                return syntax(at);
            }
            let end = self.scripts.ops.len() as u32;
            self.scripts.ops[past as usize - 1] = Op::Jump(end);
            if end == past {
                self.ink.cut(mark);
                self.ink.word(b"end", 0);
            }
        }
        self.scripts.ops[test] = Op::Unless { document, has, text, past };
        Ok(())
    }

    fn rule(&mut self, word: &[u8]) -> Read<Option<Rule>> {
        Ok(Some(match word {
            b"give" => Rule::Give { subject: self.subject()?, document: self.document()?, mode: self.letter()? },
            b"rescind" => Rule::Rescind { subject: self.subject()?, document: self.document()?, mode: self.letter()? },
            b"current" => Rule::Current(self.level()?),
            b"classify" => Rule::Classify(self.document()?, self.level()?),
            b"create" => Rule::Create(self.document()?),
            b"delete" => Rule::Delete(self.document()?),
            _ => return Ok(None),
        }))
    }

    fn whole(&mut self) -> Read<Line> {
        let at = self.cursor.at;
        let line = if self.takes(b"when") {
            Line::Work(Work::When(self.when(1)?), self.whens)
        } else {
            match self.word()? {
                b"wait" => Line::Wait,
                b"hello" => Line::Hello(self.subject()?),
                word => match self.rule(word)? {
                    Some(rule) => Line::Work(Work::Rule(rule), 1),
                    None => return syntax(at),
                },
            }
        };
        self.ink.end(self.cursor.at);
        self.cursor.end()?;
        Ok(line)
    }

    /// The first fault but those of syntax.
    fn fault(&mut self) -> Option<Fault> {
        if self.deep {
            return Some(Fault::Deep);
        }
        if self.many {
            return Some(Fault::Many);
        }
        if let Some(name) = self.unknown {
            return Some(Fault::Unknown(self.scripts.keep(name, 0)));
        }
        self.twice.or(self.mode.map(Fault::Mode))
    }
}

/// What the line asks. What a refused line has left in the scripts is for the caller to cut off.
pub fn read_line<I: Ink>(setup: &Setup, line: &[u8], scripts: &mut Scripts, ink: &mut I) -> Result<Line, Fault> {
    if line.len() > MOST_LINE {
        return Err(Fault::Long);
    }
    let (cursor, twice, mode) = (Cursor::new(line), None, None);
    let (deep, many, unknown) = (false, false, None);
    let mut reader = Reader { setup, cursor, scripts, ink, whens: 0, deep, many, unknown, twice, mode };
    let line = reader.whole().map_err(|at| Fault::Syntax(at.0))?;
    reader.fault().map_or(Ok(line), Err)
}
