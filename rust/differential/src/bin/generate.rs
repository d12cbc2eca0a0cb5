//! Writes scripts to standard output, each after its four-byte length, or as
//! files of a folder: `generate random SEED COUNT --into FOLDER`,
//! `generate enumerate DEPTH C KIND [START]`.

use differential::command::{run, Stop};
use differential::source::{Source, USAGE};
use differential::stream;
use std::io::{self, Write};
use std::path::Path;
use std::process::ExitCode;

fn main() -> ExitCode {
    let usage = format!(
        "usage: generate SCRIPTS [--into FOLDER]

Writes scripts to standard output, each after its four-byte length, or one to a file of FOLDER.

SCRIPTS  {USAGE}"
    );
    run(&usage, |mut words| {
        let folder = folder(&mut words)?;
        write(&Source::parse(&words)?, folder.as_deref().map(Path::new))?;
        Ok(ExitCode::SUCCESS)
    })
}

/// Takes the folder off the words, if one is given behind them.
fn folder(words: &mut Vec<String>) -> Result<Option<String>, Stop> {
    let Some(place) = words.iter().position(|word| word == "--into") else { return Ok(None) };
    match &words.split_off(place)[..] {
        [_, folder] => Ok(Some(folder.clone())),
        _ => Err(Stop::Words("--into takes one folder".to_string())),
    }
}

fn write(source: &Source, folder: Option<&Path>) -> io::Result<()> {
    let mut output = io::BufWriter::new(io::stdout().lock());
    if let Some(folder) = folder {
        std::fs::create_dir_all(folder)?;
    }
    for number in 0..source.number() {
        let script = source.script(number);
        match folder {
            Some(folder) => std::fs::write(folder.join(format!("{number:06}.script")), script)?,
            None => {
                let mut part = Vec::new();
                stream::put(&mut part, &script);
                output.write_all(&part)?;
            }
        }
    }
    output.flush()
}
