//! Where the scripts of a run come from, by number.

use crate::enumerate::{Sequences, Start};
use crate::{generate, stream};
use std::fs;

/// How a source of scripts is given on a command line.
pub const USAGE: &str = "random SEED COUNT | enumerate DEPTH C KIND [new|wrapped|full] | file FILE";

pub enum Source {
    Random { seed: u64, count: u64 },
    Sequences(Sequences),
    Scripts(Vec<Vec<u8>>),
}

impl Source {
    /// The source that some words of a command line name.
    pub fn parse(words: &[String]) -> Result<Source, String> {
        let words: Vec<&str> = words.iter().map(String::as_str).collect();
        match words[..] {
            ["random", seed, count] => Ok(Source::Random { seed: number(seed)?, count: number(count)? }),
            ["enumerate", depth, capacity, kind] => sequences(depth, capacity, kind, "new"),
            ["enumerate", depth, capacity, kind, start] => sequences(depth, capacity, kind, start),
            ["file", path] => {
                let file = fs::read(path).map_err(|error| format!("{path}: {error}"))?;
                let parts = stream::parts(&file).map_err(|what| format!("{path}: {what}"))?;
                Ok(Source::Scripts(parts))
            }
            _ => Err(format!("scripts come from: {USAGE}")),
        }
    }

    pub fn number(&self) -> u64 {
        match self {
            Source::Random { count, .. } => *count,
            Source::Sequences(sequences) => sequences.number(),
            Source::Scripts(scripts) => scripts.len() as u64,
        }
    }

    pub fn script(&self, number: u64) -> Vec<u8> {
        match self {
            Source::Random { seed, .. } => generate::script(*seed, number),
            Source::Sequences(sequences) => sequences.script(number),
            Source::Scripts(scripts) => scripts[number as usize].clone(),
        }
    }
}

fn sequences(depth: &str, capacity: &str, kind: &str, start: &str) -> Result<Source, String> {
    let start = Start::named(start).ok_or_else(|| format!("no start `{start}`"))?;
    let (depth, capacity, kind) = (number(depth)?, number(capacity)?, number(kind)?);
    Ok(Source::Sequences(Sequences::new(depth, capacity, kind, start)))
}

fn number<T: std::str::FromStr>(word: &str) -> Result<T, String> {
    word.parse().map_err(|_| format!("`{word}` is no number"))
}
