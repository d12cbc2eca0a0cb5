//! Mistakes in a text, with their places.

use std::fmt;

/// A mistake: where it is, what stands there and what was expected. Lines and columns count from 1, columns in
/// characters.
#[derive(Clone, Debug, PartialEq)]
pub struct Mistake {
    /// The line.
    pub line: usize,
    /// The column.
    pub column: usize,
    /// What stands there and what was expected.
    pub what: String,
}

impl fmt::Display for Mistake {
    fn fmt(&self, f: &mut fmt::Formatter<'_>) -> fmt::Result {
        write!(f, "line {}, column {}: {}", self.line, self.column, self.what)
    }
}

/// Mistakes in the order of their lines, at most one for each line.
#[derive(Clone, Debug, PartialEq)]
pub struct Mistakes(pub Vec<Mistake>);

impl fmt::Display for Mistakes {
    fn fmt(&self, f: &mut fmt::Formatter<'_>) -> fmt::Result {
        let lines: Vec<String> = self.0.iter().map(Mistake::to_string).collect();
        f.write_str(&lines.join("\n"))
    }
}

/// A word of a line, or another part of it, and where it begins.
#[derive(Clone, Copy, Debug)]
pub(crate) struct Word<'a> {
    pub text: &'a str,
    pub line: usize,
    pub column: usize,
}

impl<'a> Word<'a> {
    /// A mistake at this word.
    pub fn mistake(&self, what: impl fmt::Display) -> Mistake {
        Mistake { line: self.line, column: self.column, what: what.to_string() }
    }

    /// This word is found where something else was expected.
    pub fn unexpected(&self, expected: impl fmt::Display) -> Mistake {
        match self.text {
            "" => self.mistake(format!("expected {expected}")),
            text => self.mistake(format!("found `{}`, expected {expected}", shortened(text))),
        }
    }

    /// The parts between separators, empty ones too.
    pub fn split(&self, separator: impl Fn(char) -> bool) -> Vec<Word<'a>> {
        let mut parts = Vec::new();
        let (mut start, mut column, mut here) = (0, self.column, self.column);
        for (at, letter) in self.text.char_indices() {
            here += 1;
            if separator(letter) {
                parts.push(Word { text: &self.text[start..at], line: self.line, column });
                (start, column) = (at + letter.len_utf8(), here);
            }
        }
        parts.push(Word { text: &self.text[start..], line: self.line, column });
        parts
    }

    /// The words between spaces.
    pub fn words(&self) -> Vec<Word<'a>> {
        let mut words = self.split(char::is_whitespace);
        words.retain(|word| !word.text.is_empty());
        words
    }

    /// The parts before and behind the first separator.
    pub fn split_once(&self, separator: char) -> Option<(Word<'a>, Word<'a>)> {
        let (before, behind) = self.text.split_once(separator)?;
        let column = self.column + before.chars().count() + 1;
        Some((Word { text: before, ..*self }, Word { text: behind, line: self.line, column }))
    }

    /// The place behind the last letter.
    pub fn end(&self) -> Word<'a> {
        let text = self.text.trim_end();
        Word { text: "", line: self.line, column: self.column + text.chars().count() }
    }
}

/// The beginning of a text that is too long for a message.
fn shortened(text: &str) -> String {
    const MOST: usize = 40;
    match text.char_indices().nth(MOST) {
        Some((at, _)) => format!("{}...", &text[..at]),
        None => text.to_string(),
    }
}
