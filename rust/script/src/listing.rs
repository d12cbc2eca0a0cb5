//! The lines of a listing.

use crate::mistake::{Mistake, Word};
use crate::record::{Adds, Part, Shape};
use crate::text::{bytes_from_hex, hex};

/// The first line of every listing.
pub const HEADER: &str = "record word end1 end2";

/// A line behind the header.
pub(crate) enum Line<'a> {
    /// `stop` and the offset of a tag.
    Stop,
    /// The line of a record.
    Answer(Answer<'a>),
}

/// The line of a record.
pub(crate) struct Answer<'a> {
    pub number: u64,
    pub word: i64,
    /// The signal words; none for `-`.
    pub ends: [Option<u32>; 2],
    /// The place behind the two words.
    behind: Word<'a>,
    /// What stands there.
    more: Vec<Word<'a>>,
}

/// What the line of a done call adds.
#[derive(Clone, Debug, Default, PartialEq)]
pub struct Added {
    /// The bytes that a read delivered.
    pub bytes: Vec<u8>,
    /// The numbers of an info record or a packet.
    pub numbers: Vec<u64>,
}

/// The parts of a line.
pub(crate) fn line_of(line: Word) -> Result<Line, Mistake> {
    let mut words = line.split(|letter| letter == ' ').into_iter();
    let mut next = |expected: &str| words.next().ok_or_else(|| line.end().unexpected(expected));
    let first = next("a record's number")?;
    if first.text == "stop" {
        let offset = next("the offset of a tag")?;
        decimal(&offset).ok_or_else(|| offset.unexpected("the offset of a tag"))?;
        return words.next().map_or(Ok(Line::Stop), |word| Err(word.unexpected("the end of the line")));
    }
    let number = decimal(&first).ok_or_else(|| first.unexpected("a record's number or `stop`"))?;
    let expected = "an answer's word, a count or a status";
    let word = next(expected)?;
    let word = signed(&word).ok_or_else(|| word.unexpected(expected))?;
    let expected = "a signal word, 8 hexadecimal digits, or `-`";
    let (one, two) = (next(expected)?, next(expected)?);
    let ends = [end_of(&one), end_of(&two)];
    match ends {
        [Some(one), Some(two)] => {
            let answer = Answer { number, word, ends: [one, two], behind: line.end(), more: words.collect() };
            Ok(Line::Answer(answer))
        }
        [None, _] => Err(one.unexpected(expected)),
        [_, None] => Err(two.unexpected(expected)),
    }
}

fn end_of(word: &Word) -> Option<Option<u32>> {
    if word.text == "-" {
        return Some(None);
    }
    digits(word, 8).map(|value| Some(value as u32))
}

/// A decimal number as the program prints it: without a sign and without zeros before it.
fn decimal(word: &Word) -> Option<u64> {
    word.text.parse().ok().filter(|number: &u64| number.to_string() == word.text)
}

fn signed(word: &Word) -> Option<i64> {
    word.text.parse().ok().filter(|number: &i64| number.to_string() == word.text)
}

/// A number of so many hexadecimal digits, in lower case.
fn digits(word: &Word, number: usize) -> Option<u64> {
    let good = word.text.bytes().all(|digit| matches!(digit, b'0'..=b'9' | b'a'..=b'f'));
    let value = u64::from_str_radix(word.text, 16).ok();
    value.filter(|_| good && word.text.len() == number)
}

impl Answer<'_> {
    /// What the line adds, as it has to be behind this word for a record of a shape.
    pub fn added(&self, shape: &Shape) -> Result<Added, Mistake> {
        let mut added = Added::default();
        let mut more = self.more.iter();
        match shape.adds {
            _ if self.word < 0 => {}
            Adds::Bytes if self.word > 0 => {
                let expected = format!("{} bytes delivered, in hexadecimal", self.word);
                let word = more.next().unwrap_or(&self.behind);
                let bytes = bytes_from_hex(word.text).filter(|bytes| bytes.len() as i64 == self.word);
                let bytes = bytes.filter(|bytes| hex(bytes) == word.text);
                added.bytes = bytes.ok_or_else(|| word.unexpected(expected))?;
            }
            Adds::Numbers(parts) => {
                for part in parts {
                    let word = more.next().unwrap_or(&self.behind);
                    added.numbers.push(part_of(part, word)?);
                }
            }
            Adds::Bytes | Adds::Nothing => {}
        }
        more.next().map_or(Ok(added), |word| Err(word.unexpected("the end of the line")))
    }
}

fn part_of(part: &Part, word: &Word) -> Result<u64, Mistake> {
    match part.digits {
        0 => decimal(word).ok_or_else(|| word.unexpected(format!("{}, a decimal number", part.name))),
        number => digits(word, number)
            .ok_or_else(|| word.unexpected(format!("{}, {number} hexadecimal digits", part.name))),
    }
}
