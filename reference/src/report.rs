//! What the program prints.

use crate::Answer;

/// Where a file cannot be read, or is not named.
pub const CANNOT_READ: &str = "cannot read\n";

/// The report on an answer, each line with its LF.
pub fn report(answer: &Answer) -> String {
    let verdict = match answer.verdict {
        1 => "consistent",
        2 => "corrected",
        3 => "nothing to judge",
        _ => return refused(answer),
    };
    let Answer { listed, passed, matched, unreceived, rounds, .. } = answer;
    format!(
        "verdict {verdict}\n\
         listed {listed}\n\
         passed {passed}\n\
         matched {matched}\n\
         unreceived {unreceived}\n\
         rounds {rounds}\n"
    )
}

/// The one line on a refusal, whichever it is: where no line or no column is meant, it is 0.
fn refused(Answer { number, line, column, .. }: &Answer) -> String {
    format!("refused {number} line {line} column {column}\n")
}
