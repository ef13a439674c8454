//! The tokens of a line, cut one at a time, where they are asked for.

/// The place of the first byte that is at fault.
#[derive(Clone, Copy)]
pub struct At(pub u32);

const fn bytes_of(texts: bool) -> [bool; 256] {
    let mut found = [false; 256];
    let mut byte = 0;
    while byte < 256 {
        let it = byte as u8;
        found[byte] = if texts {
            it >= b' ' && it <= b'~' && it != b'"' && it != b'\\'
        } else {
            it.is_ascii_lowercase() || it.is_ascii_digit() || it == b'_'
        };
        byte += 1;
    }
    found
}

static IN_WORD: [bool; 256] = bytes_of(false);
static IN_TEXT: [bool; 256] = bytes_of(true);

pub fn is_reserved(word: &[u8]) -> bool {
    matches!(
        word,
        b"hello"
            | b"wait"
            | b"give"
            | b"rescind"
            | b"current"
            | b"classify"
            | b"when"
            | b"read"
            | b"append"
            | b"write"
            | b"do"
            | b"end"
            | b"show"
            | b"say"
            | b"add"
            | b"set"
            | b"copy"
            | b"pour"
            | b"to"
            | b"if"
            | b"is"
            | b"has"
            | b"then"
            | b"else"
            | b"spawn"
            | b"ranks"
            | b"categories"
            | b"subject"
            | b"greatest"
            | b"document"
            | b"allow"
            | b"trusted"
            | b"admin"
            | b"create"
            | b"delete"
            | b"reserve"
    )
}

/// The place of the first byte from `start` on that cannot stand in a text, or the end of the line.
fn text_end(line: &[u8], start: usize) -> usize {
    const BLOCK: usize = 32;
    let mut at = start;
    // a whole block at a time, so that the compiler makes vectors of it
    while let Some(block) = line[at..].first_chunk::<BLOCK>()
        && block.iter().fold(true, |all, byte| {
            all & (*byte >= b' ') & (*byte <= b'~') & (*byte != b'"') & (*byte != b'\\')
        })
    {
        at += BLOCK;
    }
    while at < line.len() && IN_TEXT[line[at] as usize] {
        at += 1;
    }
    at
}

pub struct Cursor<'a> {
    line: &'a [u8],
    /// Where the next token begins.
    pub at: usize,
}

impl<'a> Cursor<'a> {
    pub fn new(line: &'a [u8]) -> Cursor<'a> {
        let mut cursor = Cursor { line, at: 0 };
        cursor.skip();
        cursor
    }

    #[inline(always)]
    fn skip(&mut self) {
        while self.at < self.line.len() && matches!(self.line[self.at], b' ' | b'\t') {
            self.at += 1;
        }
    }

    /// The fault where the next token is another than the one that is asked for: its own, or that it cannot stand
    /// there.
    #[cold]
    #[inline(never)]
    pub fn fault(&self) -> At {
        let at = match self.line.get(self.at) {
            Some(b'"') => {
                let end = text_end(self.line, self.at + 1);
                if self.line.get(end) == Some(&b'"') { self.at } else { end }
            }
            _ => self.at,
        };
        At(at as u32)
    }

    #[inline(always)]
    pub fn word(&mut self) -> Result<&'a [u8], At> {
        let (line, start) = (self.line, self.at);
        if start >= line.len() || !line[start].is_ascii_lowercase() {
            return Err(self.fault());
        }
        let mut end = start + 1;
        while end < line.len() && IN_WORD[line[end] as usize] {
            end += 1;
        }
        if end - start > 32 {
            return Err(At(start as u32));
        }
        self.at = end;
        self.skip();
        Ok(&line[start..end])
    }

    /// Takes the keyword, if it comes next.
    #[inline(always)]
    pub fn takes<const N: usize>(&mut self, keyword: &[u8; N]) -> bool {
        let rest = &self.line[self.at..];
        let goes_on = rest.get(N).is_some_and(|byte| IN_WORD[*byte as usize]);
        if rest.first_chunk::<N>() != Some(keyword) || goes_on {
            return false;
        }
        self.at += N;
        self.skip();
        true
    }

    /// The bytes between the quotation marks.
    pub fn text(&mut self) -> Result<&'a [u8], At> {
        let (line, start) = (self.line, self.at);
        if line.get(start) != Some(&b'"') {
            return Err(self.fault());
        }
        let end = text_end(line, start + 1);
        if line.get(end) != Some(&b'"') {
            return Err(At(end as u32));
        }
        self.at = end + 1;
        self.skip();
        Ok(&line[start + 1..end])
    }

    /// Whether this sign comes next.
    #[inline(always)]
    pub fn has(&self, sign: u8) -> bool {
        self.at < self.line.len() && self.line[self.at] == sign
    }

    #[inline(always)]
    pub fn sign(&mut self, sign: u8) -> Result<(), At> {
        if !self.has(sign) {
            return Err(self.fault());
        }
        self.at += 1;
        self.skip();
        Ok(())
    }

    pub fn end(&self) -> Result<(), At> {
        if self.at < self.line.len() { Err(self.fault()) } else { Ok(()) }
    }
}
