//! `sample FILE`: writes scripts with their names and listings to a file, in
//! which name, script and listing stand in turn, each after its four-byte
//! little-endian length.

use differential::command::{run, Stop};
use differential::sample;
use std::fs;
use std::process::ExitCode;

const USAGE: &str = "usage: sample FILE

Writes the stored scripts with their names and listings to FILE.";

fn main() -> ExitCode {
    run(USAGE, |words| {
        let file = match &words[..] {
            [file] if !file.starts_with('-') => file,
            _ => return Err(Stop::Words("one file is expected".to_string())),
        };
        let scripts = sample::scripts();
        let stored = sample::stored(&scripts);
        fs::write(file, &stored).map_err(|error| Stop::Failed(format!("{file}: {error}")))?;
        println!("{} scripts, {} bytes", scripts.len(), stored.len());
        Ok(ExitCode::SUCCESS)
    })
}
