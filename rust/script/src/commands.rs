//! The words of the command line, and what they ask for.

use script::text::{self, Missing};
use script::trace::Outcome;
use script::{explain, page};
use std::ffi::OsString;
use std::fs::File;
use std::io::{self, BufWriter, Read, Write};
use std::path::{Path, PathBuf};

/// A command: its name, how many files it reads at least and at most, its words, and what it does.
pub struct Command {
    name: &'static str,
    files: (usize, usize),
    words: &'static str,
    help: &'static str,
}

const USAGE: &str = "\
usage: script encode [--zero] [-o FILE] [TEXT]
       script decode [-o FILE] [SCRIPT]
       script explain [-o FILE] SCRIPT LISTING
       script page [-o FILE] SCRIPT LISTING
       script [COMMAND] --help
";

const HELP: &str = "
encode   writes the script whose text form it reads
decode   writes the text form of a script
explain  says in words what a script and its listing say, and where they do not fit each other
page     writes the same as one HTML file, to be looked at in a browser

SCRIPT is a script in bytes, LISTING what the script program wrote for it. Each command writes to
standard output, or to FILE after -o. `-` in the place of a file, or no TEXT and no SCRIPT for encode
and decode, stands for standard input.

Exit status: 0; 1 where the text has a mistake, where the listing does not fit the script, or where a
file cannot be read or written; 2 where the words are wrong.
";

const COMMANDS: [Command; 4] = [
    Command {
        name: "encode",
        files: (0, 1),
        words: "[--zero] [-o FILE] [TEXT]",
        help: "\
Writes the script whose text form it reads from TEXT or from standard input. One record a line:

    create kind=stream capacity=8 rights1=read|write|manage rights2=read|write|manage
    wait end2 key=5 mask=READABLE|PEER_CLOSED edge=0
    fill 65536 616263
    write end1 options=0 address=65536 count=3 count_at=0
    read end2 options=peek address=65600 count=2 count_at=0
    disposition end1 own=disable peer=none
    shutdown end1 options=write|read
    read_threshold end1 threshold=4
    write_threshold end1 threshold=4
    info end1
    3 * take
    cancel end2 key=5
    close end2
    raw 0d0000

Numbers are taken for names too, in decimal or in hexadecimal after 0x. `#` begins a comment, `3 *`
stands before a line that stands so often, and raw bytes need not be a record. A script has at most
67108864 bytes. Mistakes are told with line and column, and then nothing is written.

--zero  an argument that is left out is 0; else it is a mistake
",
    },
    Command {
        name: "decode",
        files: (0, 1),
        words: "[-o FILE] [SCRIPT]",
        help: "\
Writes the text form of a script that it reads from SCRIPT or from standard input. `script encode`
makes the same bytes of it. Where the script program stops, a comment says why.
",
    },
    Command {
        name: "explain",
        files: (2, 2),
        words: "[-o FILE] SCRIPT LISTING",
        help: "\
Says for each record of SCRIPT and its line in LISTING: the call, the answer with its status by name
and the reason for it, the signals of both ends by name and which are new or gone, the bytes queued at
both ends, the packets that come and go, and the waits that are cancelled. Queues, waits, packets and
memory are followed from the answers. Where a line cannot be what the script program writes for the
record, DOES NOT FIT says what is wrong, and the exit status is 1. Equal records in a row that change
nothing are told once.
",
    },
    Command {
        name: "page",
        files: (2, 2),
        words: "[-o FILE] SCRIPT LISTING",
        help: "\
Writes one HTML file for SCRIPT and its LISTING, which needs nothing else: a row for each record, with
the signals of both ends, those that are new or gone marked, both queues drawn as bars, the packets
that come and go, and the waits that are cancelled. What does not fit is marked as well, and the exit
status is then 1.
",
    },
];

/// What the words ask for.
pub enum Asked {
    /// A help text.
    Help(String),
    /// A command.
    Run(Run),
}

/// A command with its words.
pub struct Run {
    command: &'static str,
    files: Vec<PathBuf>,
    output: Option<PathBuf>,
    missing: Missing,
}

/// What went wrong, in a line, or in one for each mistake.
pub struct Failure(pub String);

/// What the words ask for, or the usage.
pub fn asked(words: &[OsString]) -> Result<Asked, String> {
    let Some((first, words)) = words.split_first() else { return Err(USAGE.to_string()) };
    if first == "--help" || first == "-h" {
        return Ok(Asked::Help(format!("{USAGE}{HELP}")));
    }
    let command = COMMANDS.iter().find(|command| first == command.name);
    let command =
        command.ok_or_else(|| format!("script: no command `{}`\n{USAGE}", first.to_string_lossy()))?;
    let usage = format!("usage: script {} {}\n", command.name, command.words);
    if words.iter().any(|word| word == "--help" || word == "-h") {
        return Ok(Asked::Help(format!("{usage}\n{}", command.help)));
    }
    let run = run_of(command, words).map_err(|what| format!("script {}: {what}\n{usage}", command.name))?;
    Ok(Asked::Run(run))
}

fn run_of(command: &Command, words: &[OsString]) -> Result<Run, String> {
    let mut run = Run { command: command.name, files: Vec::new(), output: None, missing: Missing::Mistake };
    let mut words = words.iter();
    while let Some(word) = words.next() {
        let text = word.to_string_lossy();
        match &*text {
            "--zero" if command.name == "encode" => run.missing = Missing::Zero,
            "-o" => {
                let file = words.next().ok_or("no FILE after -o")?;
                run.output = Some(PathBuf::from(file));
            }
            _ if text.starts_with('-') && text != "-" => return Err(format!("no option `{text}`")),
            _ => run.files.push(PathBuf::from(word)),
        }
    }
    let (least, most) = command.files;
    match run.files.len() {
        number if number < least => Err(format!("{number} of {least} files are given")),
        number if number > most => Err(format!("too many files, from `{}` on", run.files[most].display())),
        _ => Ok(run),
    }
}

/// Runs a command.
pub fn run(run: &Run) -> Result<(), Failure> {
    let first = run.files.first().map_or(Path::new("-"), PathBuf::as_path);
    let input = read(first)?;
    match run.command {
        "encode" => {
            let text = text::text_of(&input).and_then(|text| text::encode(text, run.missing));
            let script = text.map_err(|mistakes| mistakes_in(first, &mistakes.to_string()))?;
            write(run.output.as_deref(), &script)
        }
        "decode" => write(run.output.as_deref(), text::decode(&input).as_bytes()),
        name => {
            is_script(first, &input)?;
            let listing = read(&run.files[1])?;
            let listing = text::text_of(&listing)
                .map_err(|mistakes| mistakes_in(&run.files[1], &mistakes.to_string()))?;
            let outcome = with_output(run.output.as_deref(), |out| match name {
                "page" => page::page(&title(first), &input, listing, out),
                _ => explain::explain(&input, listing, out),
            })?;
            fits(&outcome)
        }
    }
}

/// A file of letters that begins with one that is no tag is not meant as a script in bytes.
fn is_script(path: &Path, bytes: &[u8]) -> Result<(), Failure> {
    let is_letter = |byte: &u8| matches!(byte, b' '..=b'~' | b'\n' | b'\r' | b'\t');
    match bytes.first().is_some_and(|byte| *byte >= b' ') && bytes.iter().all(is_letter) {
        true => Err(Failure(format!("script: {} is text; script encode makes a script of it", named(path)))),
        false => Ok(()),
    }
}

/// Each mistake behind the name of its file.
fn mistakes_in(path: &Path, mistakes: &str) -> Failure {
    let lines: Vec<String> = mistakes.lines().map(|line| format!("{}: {line}", named(path))).collect();
    Failure(lines.join("\n"))
}

fn fits(outcome: &Outcome) -> Result<(), Failure> {
    match outcome.number {
        0 => Ok(()),
        _ => Err(Failure(outcome.fit())),
    }
}

fn named(path: &Path) -> String {
    match path == Path::new("-") {
        true => "standard input".to_string(),
        false => path.display().to_string(),
    }
}

/// The name of a file without its folders.
fn title(path: &Path) -> String {
    path.file_name().map_or_else(|| named(path), |name| named(Path::new(name)))
}

fn read(path: &Path) -> Result<Vec<u8>, Failure> {
    let told = |error: io::Error| Failure(format!("script: cannot read {}: {error}", named(path)));
    if path != Path::new("-") {
        return std::fs::read(path).map_err(told);
    }
    let mut bytes = Vec::new();
    io::stdin().lock().read_to_end(&mut bytes).map_err(told)?;
    Ok(bytes)
}

/// Writes bytes to a file or to standard output.
pub fn write(path: Option<&Path>, bytes: &[u8]) -> Result<(), Failure> {
    with_output(path, |out| out.write_all(bytes))
}

fn with_output<T>(
    path: Option<&Path>,
    put: impl FnOnce(&mut dyn Write) -> io::Result<T>,
) -> Result<T, Failure> {
    let name = path.map_or("standard output".to_string(), |path| path.display().to_string());
    let told = |error: io::Error| Failure(format!("script: cannot write {name}: {error}"));
    let output: Box<dyn Write> = match path {
        Some(path) => Box::new(File::create(path).map_err(told)?),
        None => Box::new(io::stdout().lock()),
    };
    let mut output = BufWriter::new(output);
    let done = put(&mut output).map_err(told)?;
    output.flush().map_err(told)?;
    Ok(done)
}
