//! The trial of gsub, plainly, from document 01 ("The trial"): what the library is compared with. It shares no code with the library.

/// The levels that may be open at once.
const LEVELS: usize = 200;
const MOST_CAPTURES: usize = 32;

#[derive(Debug, Clone, PartialEq, Eq)]
pub struct Answer {
    pub number: u32,
    pub kind: u32,
    pub written: Vec<u8>,
    pub replacements: usize,
    pub steps: u32,
}

#[derive(Clone, Copy)]
enum Capture {
    Open(usize),
    Position(usize),
    Closed(usize, usize),
}

/// What ends a trial: its number, and its kind.
struct Stop(u32, u32);

fn raise<T>(kind: u32) -> Result<T, Stop> {
    Err(Stop(29, kind))
}

/// A match's end and its captures.
type Match = Option<(usize, Vec<Capture>)>;

struct Machine<'texts> {
    pattern: &'texts [u8],
    subject: &'texts [u8],
    budget: u32,
    steps: u32,
}

impl Machine<'_> {
    fn step(&mut self) -> Result<(), Stop> {
        if self.steps == self.budget {
            return Err(Stop(27, 0));
        }
        self.steps += 1;
        Ok(())
    }

    fn byte(&self, place: usize) -> Option<u8> {
        self.pattern.get(place).copied()
    }

    /// The rest of the pattern from `p`, at a new level.
    fn deeper(&mut self, p: usize, s: usize, level: usize, captures: &[Capture]) -> Result<Match, Stop> {
        if level == LEVELS {
            return Err(Stop(28, 0));
        }
        self.level(p, s, level + 1, captures)
    }

    /// The pattern from `p`, at a level that is open.
    fn level(&mut self, mut p: usize, mut s: usize, level: usize, captures: &[Capture]) -> Result<Match, Stop> {
        loop {
            self.step()?;
            let Some(first) = self.byte(p) else { return Ok(Some((s, captures.to_vec()))) };
            match (first, self.byte(p + 1)) {
                (b'(', Some(b')')) => return self.open(p + 2, s, level, captures, Capture::Position(s)),
                (b'(', _) => return self.open(p + 1, s, level, captures, Capture::Open(s)),
                (b')', _) => return self.close(p + 1, s, level, captures),
                (b'$', None) => return Ok((s == self.subject.len()).then(|| (s, captures.to_vec()))),
                (b'%', Some(b'b')) => {
                    let (Some(x), Some(y)) = (self.byte(p + 2), self.byte(p + 3)) else { return raise(4) };
                    let Some(end) = self.balanced(x, y, s) else { return Ok(None) };
                    (p, s) = (p + 4, end);
                }
                (b'%', Some(b'f')) => {
                    if self.byte(p + 2) != Some(b'[') {
                        return raise(3);
                    }
                    let Some(close) = self.set_end(p + 2) else { return raise(2) };
                    let before = if s == 0 { 0 } else { self.subject[s - 1] };
                    let at = self.subject.get(s).copied().unwrap_or(0);
                    if self.in_set(p + 2, close, before) || !self.in_set(p + 2, close, at) {
                        return Ok(None);
                    }
                    p = close + 1;
                }
                (b'%', Some(digit @ b'0'..=b'9')) => {
                    let index = usize::from(digit - b'0');
                    if index == 0 || index > captures.len() {
                        return raise(7);
                    }
                    match captures[index - 1] {
                        Capture::Open(_) => return raise(7),
                        Capture::Position(_) => return Ok(None),
                        Capture::Closed(start, length) => {
                            let part = &self.subject[start..start + length];
                            if !self.subject[s..].starts_with(part) {
                                return Ok(None);
                            }
                            (p, s) = (p + 2, s + length);
                        }
                    }
                }
                _ => {
                    let end = self.single_end(p)?;
                    let fits = self.fits(p, end, s);
                    match self.byte(end) {
                        Some(b'?') => {
                            if fits {
                                let found = self.deeper(end + 1, s + 1, level, captures)?;
                                if found.is_some() {
                                    return Ok(found);
                                }
                            }
                            p = end + 1;
                        }
                        Some(b'*') if fits => return self.most(p, end, s, s, level, captures),
                        Some(b'+') if fits => return self.most(p, end, s, s + 1, level, captures),
                        Some(b'-') if fits => return self.least(p, end, s, level, captures),
                        Some(b'*' | b'-') => p = end + 1,
                        Some(b'+') => return Ok(None),
                        _ if fits => (p, s) = (end, s + 1),
                        _ => return Ok(None),
                    }
                }
            }
        }
    }

    fn open(&mut self, p: usize, s: usize, level: usize, captures: &[Capture], capture: Capture) -> Result<Match, Stop> {
        if captures.len() == MOST_CAPTURES {
            return raise(8);
        }
        let mut captures = captures.to_vec();
        captures.push(capture);
        self.deeper(p, s, level, &captures)
    }

    fn close(&mut self, p: usize, s: usize, level: usize, captures: &[Capture]) -> Result<Match, Stop> {
        let mut captures = captures.to_vec();
        let latest = captures.iter_mut().rev().find(|capture| matches!(capture, Capture::Open(_)));
        let Some(latest) = latest else { return raise(5) };
        if let Capture::Open(start) = *latest {
            *latest = Capture::Closed(start, s - start);
        }
        self.deeper(p, s, level, &captures)
    }

    /// `*` and `+`: the byte at `s` fitted.
    fn most(&mut self, p: usize, end: usize, s: usize, least: usize, level: usize, captures: &[Capture]) -> Result<Match, Stop> {
        let mut reached = s + 1;
        loop {
            self.step()?;
            if !self.fits(p, end, reached) {
                break;
            }
            reached += 1;
        }
        for place in (least..=reached).rev() {
            let found = self.deeper(end + 1, place, level, captures)?;
            if found.is_some() {
                return Ok(found);
            }
        }
        Ok(None)
    }

    /// `-`: the byte at `s` fitted.
    fn least(&mut self, p: usize, end: usize, s: usize, level: usize, captures: &[Capture]) -> Result<Match, Stop> {
        let mut place = s;
        loop {
            let found = self.deeper(end + 1, place, level, captures)?;
            if found.is_some() {
                return Ok(found);
            }
            if place > s {
                self.step()?;
                if !self.fits(p, end, place) {
                    return Ok(None);
                }
            }
            place += 1;
        }
    }

    fn balanced(&self, x: u8, y: u8, s: usize) -> Option<usize> {
        if self.subject.get(s) != Some(&x) {
            return None;
        }
        let mut depth = 1;
        for (place, &byte) in self.subject.iter().enumerate().skip(s + 1) {
            if byte == y {
                depth -= 1;
                if depth == 0 {
                    return Some(place + 1);
                }
            } else if byte == x {
                depth += 1;
            }
        }
        None
    }

    /// The place after the single at `p`.
    fn single_end(&self, p: usize) -> Result<usize, Stop> {
        match self.pattern[p] {
            b'%' if p + 1 == self.pattern.len() => raise(1),
            b'%' => Ok(p + 2),
            b'[' => match self.set_end(p) {
                Some(close) => Ok(close + 1),
                None => raise(2),
            },
            _ => Ok(p + 1),
        }
    }

    fn first_member(&self, open: usize) -> usize {
        if self.byte(open + 1) == Some(b'^') { open + 2 } else { open + 1 }
    }

    /// The place of the set's closing `]`.
    fn set_end(&self, open: usize) -> Option<usize> {
        let first = self.first_member(open);
        let mut place = first;
        loop {
            match self.byte(place)? {
                b']' if place > first => return Some(place),
                b'%' => {
                    self.byte(place + 1)?;
                    place += 2;
                }
                _ => place += 1,
            }
        }
    }

    fn in_set(&self, open: usize, close: usize, byte: u8) -> bool {
        let first = self.first_member(open);
        let is_complement = first == open + 2;
        let mut place = first;
        let mut is_found = false;
        while place < close {
            if self.pattern[place] == b'%' {
                is_found |= in_class(self.pattern[place + 1], byte);
                place += 2;
            } else if self.pattern[place + 1] == b'-' && place + 2 < close {
                is_found |= (self.pattern[place]..=self.pattern[place + 2]).contains(&byte);
                place += 3;
            } else {
                is_found |= self.pattern[place] == byte;
                place += 1;
            }
        }
        is_found != is_complement
    }

    fn fits(&self, p: usize, end: usize, s: usize) -> bool {
        let Some(&byte) = self.subject.get(s) else { return false };
        match self.pattern[p] {
            b'.' => true,
            b'%' => in_class(self.pattern[p + 1], byte),
            b'[' => self.in_set(p, end - 1, byte),
            plain => plain == byte,
        }
    }
}

fn in_class(class: u8, byte: u8) -> bool {
    let is_inside = match class.to_ascii_lowercase() {
        b'a' => byte.is_ascii_alphabetic(),
        b'c' => byte.is_ascii_control(),
        b'd' => byte.is_ascii_digit(),
        b'g' => byte.is_ascii_graphic(),
        b'l' => byte.is_ascii_lowercase(),
        b'p' => byte.is_ascii_punctuation(),
        b's' => matches!(byte, b'\t'..=b'\r' | b' '),
        b'u' => byte.is_ascii_uppercase(),
        b'w' => byte.is_ascii_alphanumeric(),
        b'x' => byte.is_ascii_hexdigit(),
        b'z' => byte == 0,
        _ => return class == byte,
    };
    is_inside != class.is_ascii_uppercase()
}

struct Output {
    room: usize,
    written: Vec<u8>,
}

impl Output {
    fn byte(&mut self, byte: u8) -> Result<(), Stop> {
        if self.written.len() == self.room {
            return Err(Stop(26, 0));
        }
        self.written.push(byte);
        Ok(())
    }

    fn bytes(&mut self, bytes: &[u8]) -> Result<(), Stop> {
        bytes.iter().try_for_each(|&byte| self.byte(byte))
    }

    fn capture(&mut self, subject: &[u8], capture: Capture) -> Result<(), Stop> {
        match capture {
            Capture::Open(_) => raise(6),
            Capture::Position(start) => self.bytes((start + 1).to_string().as_bytes()),
            Capture::Closed(start, length) => self.bytes(&subject[start..start + length]),
        }
    }

    /// The replacement of a match from `start` to `end`.
    fn replacement(
        &mut self,
        version: u32,
        text: &[u8],
        subject: &[u8],
        start: usize,
        end: usize,
        captures: &[Capture],
    ) -> Result<(), Stop> {
        let mut bytes = text.iter().copied();
        while let Some(byte) = bytes.next() {
            if byte != b'%' {
                self.byte(byte)?;
                continue;
            }
            match bytes.next() {
                Some(b'%') => self.byte(b'%')?,
                Some(b'0') => self.bytes(&subject[start..end])?,
                Some(digit @ b'1'..=b'9') => match captures.get(usize::from(digit - b'1')) {
                    Some(&capture) => self.capture(subject, capture)?,
                    None if digit == b'1' => self.bytes(&subject[start..end])?,
                    None => return raise(10),
                },
                other if version == 1 => self.byte(other.unwrap_or(0))?,
                _ => return raise(9),
            }
        }
        Ok(())
    }
}

/// What a trial counts while it runs.
struct Run<'texts> {
    machine: Machine<'texts>,
    output: Output,
    replacements: usize,
}

impl Run<'_> {
    fn all(&mut self, version: u32, replacement: &[u8]) -> Result<(), Stop> {
        let subject = self.machine.subject;
        let is_anchored = self.machine.byte(0) == Some(b'^');
        let first = usize::from(is_anchored);
        let (mut place, mut last_end) = (0, None);
        loop {
            let found = self.machine.level(first, place, 1, &[])?;
            match found {
                Some((end, captures)) if last_end != Some(end) => {
                    self.replacements += 1;
                    self.output.replacement(version, replacement, subject, place, end, &captures)?;
                    (place, last_end) = (end, Some(end));
                }
                _ if is_anchored => {}
                _ if place < subject.len() => {
                    self.output.byte(subject[place])?;
                    place += 1;
                }
                _ => return Ok(()),
            }
            if is_anchored {
                return self.output.bytes(&subject[place..]);
            }
        }
    }
}

pub fn gsub(version: u32, pattern: &[u8], replacement: &[u8], subject: &[u8], budget: u32, room: usize) -> Answer {
    let machine = Machine { pattern, subject, budget, steps: 0 };
    let mut run = Run { machine, output: Output { room, written: Vec::new() }, replacements: 0 };
    let ended = if (1..=6).contains(&version) { run.all(version, replacement) } else { Err(Stop(25, 0)) };
    let Stop(number, kind) = ended.err().unwrap_or(Stop(0, 0));
    Answer { number, kind, written: run.output.written, replacements: run.replacements, steps: run.machine.steps }
}
