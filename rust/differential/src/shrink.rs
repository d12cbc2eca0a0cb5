//! Cuts a script, or another list of calls, down while it still shows what it
//! is kept for.

use script::record::{join, pieces, Piece, Record};

/// A small script for which `shows` still holds, from one for which it does.
pub fn shrink(script: &[u8], mut shows: impl FnMut(&[u8]) -> bool) -> Vec<u8> {
    join(&shrink_list(pieces(script), simpler, |parts| shows(&join(parts))))
}

/// A small list for which `shows` still holds, from one for which it does.
/// `simpler` gives what to try in place of a part, the simplest first.
pub fn shrink_list<T: Clone + PartialEq>(
    mut parts: Vec<T>,
    simpler: impl Fn(&T) -> Vec<T>,
    mut shows: impl FnMut(&[T]) -> bool,
) -> Vec<T> {
    loop {
        let before = parts.clone();
        delete(&mut parts, &mut shows);
        simplify(&mut parts, &simpler, &mut shows);
        if parts == before {
            return parts;
        }
    }
}

/// Numbers to try in place of one, from the least that is allowed.
pub fn smaller(value: u64, least: u64) -> impl Iterator<Item = u64> {
    let steps = [0, 1, 2, 8, value / 2, value.saturating_sub(1)];
    steps.into_iter().filter(move |step| (least..value).contains(step))
}

/// Deletes runs of parts, long ones first.
fn delete<T: Clone>(parts: &mut Vec<T>, shows: &mut impl FnMut(&[T]) -> bool) {
    let mut run = parts.len().div_ceil(2);
    while run > 0 {
        let mut at = parts.len().saturating_sub(run);
        loop {
            let end = (at + run).min(parts.len());
            let fewer = [&parts[..at], &parts[end..]].concat();
            if at < end && shows(&fewer) {
                *parts = fewer;
            }
            if at == 0 {
                break;
            }
            at = at.saturating_sub(run);
        }
        run /= 2;
    }
}

/// Puts simpler parts in the place of others, as far as it goes.
fn simplify<T: Clone>(
    parts: &mut [T],
    simpler: &impl Fn(&T) -> Vec<T>,
    shows: &mut impl FnMut(&[T]) -> bool,
) {
    for at in 0..parts.len() {
        loop {
            let part = parts[at].clone();
            let shown = simpler(&part).into_iter().any(|simpler| {
                parts[at] = simpler;
                shows(parts)
            });
            if !shown {
                parts[at] = part;
                break;
            }
        }
    }
}

/// Records with one number, or the bytes, made smaller, smallest first.
fn simpler(piece: &Piece) -> Vec<Piece> {
    let Piece::Record(record) = piece else { return Vec::new() };
    let mut records = Vec::new();
    for (place, field) in record.shape().fields.iter().enumerate() {
        let least = if field.name == "handle" { 1 } else { 0 };
        for value in smaller(record.values[place], least) {
            let mut fewer = record.clone();
            fewer.values[place] = value;
            records.push(Piece::Record(fewer));
        }
    }
    let bytes = &record.bytes;
    for length in [1, bytes.len() / 2, bytes.len() - bytes.len().min(1)] {
        if (1..bytes.len()).contains(&length) {
            let fewer = Record { bytes: bytes[..length].to_vec(), ..record.clone() };
            records.push(Piece::Record(fewer));
        }
    }
    records
}
