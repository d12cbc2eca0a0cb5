//! Records in a row that read alike are told once.

use crate::trace::{trace, Outcome, Step};
use std::io;

/// Equal texts in a row: the text, the number of the first record, and how many there are.
pub(crate) struct Run {
    pub text: String,
    pub first: u64,
    pub times: u64,
}

/// Goes through a script and its listing, and puts out the texts of the records, equal ones in a row as one.
pub(crate) fn fold(
    script: &[u8],
    listing: &str,
    text_of: fn(&Step) -> String,
    mut put: impl FnMut(&Run) -> io::Result<()>,
) -> io::Result<Outcome> {
    let mut run: Option<Run> = None;
    let mut written = Ok(());
    let outcome = trace(script, listing, &mut |step| {
        let text = text_of(step);
        match &mut run {
            Some(run) if run.text == text => run.times += 1,
            _ => {
                let last = run.replace(Run { text, first: step.number, times: 1 });
                if let (Some(last), true) = (last, written.is_ok()) {
                    written = put(&last);
                }
            }
        }
    });
    written?;
    run.map_or(Ok(()), |run| put(&run))?;
    Ok(outcome)
}
