//! The named scripts of cases.txt, with what document 01, or for cancel 02 (i),
//! says of their lines.

use script::text::{encode, Missing};

const TEXT: &str = include_str!("../cases.txt");

pub struct Case {
    pub name: String,
    pub script: Vec<u8>,
    /// Numbers of records and how their lines go on after the number.
    pub lines: Vec<(usize, String)>,
}

/// All cases, in order.
pub fn cases() -> Vec<Case> {
    TEXT.split("\n== ").skip(1).map(case).collect()
}

fn case(section: &str) -> Case {
    let (name, body) = section.split_once('\n').expect("a case has lines");
    let mut records = 0;
    let mut script = String::new();
    let mut lines = Vec::new();
    for line in body.lines().filter(|line| !line.is_empty() && !line.starts_with('#')) {
        match line.strip_prefix("> ") {
            Some(rest) => lines.push((records - 1, rest.to_string())),
            None => {
                // A line may stand for several records.
                let times = line.split_once(" * ").map_or(Ok(1), |(times, _)| times.parse());
                records += times.unwrap_or_else(|_| panic!("case {name}: {line}"));
                script.push_str(line);
                script.push('\n');
            }
        }
    }
    let script = encode(&script, Missing::Zero).unwrap_or_else(|what| panic!("case {name}: {what}"));
    Case { name: name.to_string(), script, lines }
}
