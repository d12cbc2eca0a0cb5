//! The declarations in Rattle's source and in this crate's: records and exported functions. The two
//! languages write them alike.

use std::fs;
use std::path::Path;

/// A name and its type, of a field or of a parameter.
pub type Typed = (String, String);

#[derive(Clone, Debug)]
pub struct Record {
    pub name: String,
    /// Whether it is laid out by C's rules.
    pub by_c: bool,
    pub fields: Vec<Typed>,
}

#[derive(Clone, Debug, PartialEq)]
pub struct Function {
    pub name: String,
    pub parameters: Vec<Typed>,
    pub result: String,
}

/// The text of every source file below `crates/CRATE/src`: `definition` has the records, `host_c` the exported
/// functions.
pub fn rattle_source(name: &str) -> String {
    let folder = Path::new(env!("CARGO_MANIFEST_DIR")).join("../../crates").join(name).join("src");
    let list = fs::read_dir(&folder).unwrap_or_else(|error| panic!("{}: {error}", folder.display()));
    let files = list.map(|entry| entry.expect("a folder's entry").path());
    let rattle = files.filter(|file| file.extension().is_some_and(|end| end == "rt"));
    rattle.map(|file| fs::read_to_string(&file).expect("a source file")).collect()
}

/// The public records of a source text.
pub fn records(text: &str) -> Vec<Record> {
    let lines: Vec<&str> = text.lines().collect();
    let starts = (0..lines.len()).filter(|at| lines[*at].starts_with("pub struct "));
    starts.map(|at| record_at(&lines, at)).collect()
}

fn record_at(lines: &[&str], at: usize) -> Record {
    let name = lines[at].trim_start_matches("pub struct ").trim_end_matches(" {");
    let attributes = lines[..at].iter().rev().take_while(|line| line.starts_with("#["));
    let body = lines[at + 1..].iter().take_while(|line| !line.starts_with('}'));
    let fields = body.filter_map(|line| line.trim().strip_prefix("pub "));
    Record {
        name: name.to_string(),
        by_c: attributes.into_iter().any(|line| *line == "#[repr(C)]"),
        fields: fields.map(|field| typed(field.trim_end_matches(','))).collect(),
    }
}

fn typed(text: &str) -> Typed {
    let (name, kind) = text.split_once(':').unwrap_or_else(|| panic!("no type in `{text}`"));
    (name.trim().to_string(), kind.trim().to_string())
}

/// The functions whose declarations begin with one of these words.
pub fn functions(text: &str, words: &[&str]) -> Vec<Function> {
    let starts = words.iter().flat_map(|word| text.match_indices(word).map(|(at, _)| at + word.len()));
    let mut list: Vec<Function> = starts.map(|at| function(&text[at..])).collect();
    list.sort_by(|a, b| a.name.cmp(&b.name));
    list
}

fn function(text: &str) -> Function {
    let (name, rest) = text.split_once('(').expect("parameters");
    let (parameters, rest) = rest.split_once(')').expect("the end of the parameters");
    let result = rest.trim_start().strip_prefix("->").expect("a result").trim_start();
    let result = result.split(|c: char| c.is_whitespace() || c == ';').next().expect("a type");
    let parameters = parameters.split(", ").flat_map(|part| part.split(",\n"));
    let parameters = parameters.map(|part| part.trim().trim_end_matches(',')).filter(|part| !part.is_empty());
    Function {
        name: name.to_string(),
        parameters: parameters.map(typed).collect(),
        result: result.to_string(),
    }
}

/// What stands between these words and the body of each function that they begin, by name and without layout: the
/// parameters, the result and the contract.
pub fn contracts(text: &str, words: &str) -> Vec<String> {
    let heads = text.split(words).skip(1).map(|rest| rest.split_once("\n{").expect("a body").0);
    let mut list: Vec<String> =
        heads.map(|head| head.split_whitespace().collect::<String>().replace(",)", ")")).collect();
    list.sort();
    list
}

/// A function of Rattle as C sees it: a slice passes as its pointer and its length.
pub fn as_c_sees(function: &Function) -> Function {
    let parameters = function.parameters.iter().flat_map(|(name, kind)| match slice_of(kind) {
        Some(pointer) => vec![(name.clone(), pointer), (format!("{name}_len"), "usize".to_string())],
        None => vec![(name.clone(), kind.clone())],
    });
    Function { parameters: parameters.collect(), ..function.clone() }
}

/// The pointer to a slice's first entry, if the type is a slice.
fn slice_of(kind: &str) -> Option<String> {
    let (pointer, rest) = match kind.strip_prefix("&mut [") {
        Some(rest) => ("*mut", rest),
        None => ("*const", kind.strip_prefix("&[")?),
    };
    let entry = rest.strip_suffix(']')?;
    (!entry.contains(';')).then(|| format!("{pointer} {entry}"))
}

/// Size and alignment of a type by C's rules on x86-64.
pub fn size_and_alignment(kind: &str, records: &[Record]) -> (usize, usize) {
    match kind {
        "bool" | "u8" => return (1, 1),
        "u16" => return (2, 2),
        "u32" => return (4, 4),
        "u64" | "usize" => return (8, 8),
        _ => {}
    }
    if let Some((entry, count)) = kind.strip_prefix('[').and_then(|rest| rest.split_once("; ")) {
        let (size, alignment) = size_and_alignment(entry, records);
        let count: usize = count.trim_end_matches(']').parse().expect("an array's length");
        return (size * count, alignment);
    }
    let record = records.iter().find(|record| record.name == kind);
    let (_, size, alignment) = layout(record.unwrap_or_else(|| panic!("no record {kind}")), records);
    (size, alignment)
}

/// The offset of each field, the size and the alignment of a record by C's rules.
pub fn layout(record: &Record, records: &[Record]) -> (Vec<usize>, usize, usize) {
    let (mut end, mut most) = (0usize, 1);
    let mut offsets = Vec::new();
    for (_, kind) in &record.fields {
        let (size, alignment) = size_and_alignment(kind, records);
        let offset = end.next_multiple_of(alignment);
        offsets.push(offset);
        end = offset + size;
        most = most.max(alignment);
    }
    (offsets, end.next_multiple_of(most), most)
}
