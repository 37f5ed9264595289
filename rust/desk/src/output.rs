//! Standard output, and the questions to the clerk.

use std::io::{self, BufRead, IsTerminal, Read, Write};
use std::path::Path;

use crate::euro::grouped;
use crate::failure::{cause, Failure, Outcome};
use crate::name::shown;

/// More of an answer is not read.
const LONGEST_ANSWER: u64 = 1_000;

/// Asks whether to go on, and takes `y` or `yes` for yes. Where nobody answers, the answer is no.
pub fn confirm(out: &mut impl Write, question: &str, otherwise: &str) -> Outcome {
    match ask(out, &format!("{question} [y/N]"))?.as_str() {
        "y" | "Y" | "yes" | "Yes" | "YES" => Ok(()),
        _ => Err(Failure::refused(otherwise)),
    }
}

/// Asks, and gives the answer without the blanks around it. Everything written before is seen first; where
/// nobody answers, the answer is empty.
pub fn ask(out: &mut impl Write, question: &str) -> Outcome<String> {
    write!(out, "{question} ")?;
    out.flush()?;
    let mut answer = Vec::new();
    let stdin = io::stdin();
    let mut line = stdin.lock().take(LONGEST_ANSWER);
    let read = line.read_until(b'\n', &mut answer);
    if !stdin.is_terminal() || !answer.ends_with(b"\n") {
        writeln!(out)?;
    }
    match read {
        Ok(_) => Ok(String::from_utf8_lossy(&answer).trim().to_owned()),
        Err(_) => Ok(String::new()),
    }
}

/// Says that a file is saved, and where its old version is kept, if it had one. Where that cannot be printed
/// it is told as an error, so that nobody makes the amendment again.
pub fn saved(out: &mut impl Write, what: &str, kept_as: Option<&Path>) -> Outcome {
    let kept = match kept_as {
        Some(path) => format!(" The {what} as it was is kept as {}.", shown(path)),
        None => String::new(),
    };
    let printed = writeln!(out, "Saved.{kept}").and_then(|()| out.flush());
    printed.map_err(|error| {
        let cause = cause(&error);
        Failure::trouble(format!(
            "the {what} is saved, but standard output cannot be written: {cause}."
        ))
    })
}

/// Words one after the other, as `1, 2 and 3`.
pub fn listed(words: &[String]) -> String {
    match words {
        [front @ .., last] if !front.is_empty() => format!("{} and {last}", front.join(", ")),
        _ => words.concat(),
    }
}

/// So many things, with the word for one or for several.
pub fn counted(number: u64, one: &str, several: &str) -> String {
    let word = if number == 1 { one } else { several };
    format!("{} {word}", grouped(number))
}
