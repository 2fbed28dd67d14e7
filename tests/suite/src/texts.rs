//! What both texts share: lines, fields, numbers, lists, and the refusal of a reading.

#[derive(Clone, Copy, PartialEq, Eq, Debug)]
pub enum Text {
    History,
    Certificate,
}

/// The line that an answer carries: its text, its number from 1, and the line as part of that text.
#[derive(Clone, Copy, PartialEq, Eq, Debug)]
pub struct Carried {
    pub text: Text,
    pub line: usize,
    pub start: usize,
    pub length: usize,
}

/// A reading refusal: its number and the faulty line.
#[derive(Clone, Copy, PartialEq, Eq, Debug)]
pub struct Refusal {
    pub answer: u32,
    pub carried: Carried,
}

impl Refusal {
    /// 1, a text that is too long: the number is 0 and the part empty.
    pub fn too_long(text: Text) -> Refusal {
        Refusal { answer: 1, carried: Carried { text, line: 0, start: 0, length: 0 } }
    }

    /// A missing line: the number is one past the last and the part empty.
    pub fn missing(text: Text, lines: &[Line]) -> Refusal {
        Refusal { answer: 2, carried: Carried { text, line: lines.len() + 1, start: 0, length: 0 } }
    }

    /// A faulty line. An empty part starts at 0.
    pub fn faulty(answer: u32, text: Text, line: &Line) -> Refusal {
        let start = if line.length == 0 { 0 } else { line.start };
        Refusal { answer, carried: Carried { text, line: line.number, start, length: line.length } }
    }
}

/// A line of a text, without its line feed, and whether it has one.
#[derive(Clone, Copy, PartialEq, Eq, Debug)]
pub struct Line {
    pub number: usize,
    pub start: usize,
    pub length: usize,
    pub ended: bool,
}

impl Line {
    pub fn of<'t>(&self, text: &'t [u8]) -> &'t [u8] {
        &text[self.start..self.start + self.length]
    }
}

/// The lines of a text. What stands behind the last line feed is a line that lacks its line feed, unless it is nothing.
pub fn lines_of(text: &[u8]) -> Vec<Line> {
    let mut lines = Vec::new();
    let mut start = 0;
    for (place, byte) in text.iter().enumerate() {
        if *byte == 10 {
            lines.push(Line { number: lines.len() + 1, start, length: place - start, ended: true });
            start = place + 1;
        }
    }
    if start < text.len() {
        lines.push(Line { number: lines.len() + 1, start, length: text.len() - start, ended: false });
    }
    lines
}

/// The fields of a line, parted by one space.
pub fn fields_of(line: &[u8]) -> Vec<&[u8]> {
    line.split(|byte| *byte == b' ').collect()
}

/// How numbers are spelt. A wrong checker overrides it; the default is document 01's.
pub trait NumberRules {
    /// Digits with no leading zero, `0` itself allowed. A number that no u64 holds is given as the largest u64: it is over every
    /// limit all the same.
    fn number(&self, field: &[u8]) -> Option<u64> {
        let digits = !field.is_empty() && field.iter().all(|byte| byte.is_ascii_digit());
        if !digits || (field.len() > 1 && field[0] == b'0') {
            return None;
        }
        Some(field.iter().fold(0u64, |sum, byte| sum.saturating_mul(10).saturating_add(u64::from(byte - b'0'))))
    }

    /// `-` or a number. The outer None is a misspelling.
    fn number_or_none(&self, field: &[u8]) -> Option<Option<u64>> {
        if field == b"-" {
            return Some(None);
        }
        self.number(field).map(Some)
    }

    /// `-` when empty, else numbers joined by commas.
    fn list(&self, field: &[u8]) -> Option<Vec<u64>> {
        if field == b"-" {
            return Some(vec![]);
        }
        field.split(|byte| *byte == b',').map(|item| self.number(item)).collect()
    }

    /// Is a text of this length longer than its limit?
    fn too_long(&self, length: usize, limit: usize) -> bool {
        length > limit
    }

    /// Does a line need its line feed?
    fn line_feed_missing(&self, line: &Line) -> bool {
        !line.ended
    }
}

/// A list as it is written.
pub fn list_text(list: &[u64]) -> String {
    if list.is_empty() {
        return "-".to_string();
    }
    list.iter().map(u64::to_string).collect::<Vec<_>>().join(",")
}
