//! The command `compare`.

#![forbid(unsafe_code)]

use std::ffi::OsString;
use std::io::{self, Write};
use std::process::ExitCode;

use compare::tally::Tally;
use compare::{run, run_evenings, Sides};

const USAGE: &str = "usage: compare, compare SEED COUNT, or compare evenings SEED PAIRS MOST.";

/// The run without arguments: about a minute.
const SEED: u64 = 1;
const COUNT: u64 = 3_000_000;
/// The most requests a side of a pair, with which a total still has 15 digits.
const MOST: u64 = 1_000;

fn main() -> ExitCode {
    let args: Vec<String> = match std::env::args_os()
        .skip(1)
        .map(OsString::into_string)
        .collect()
    {
        Ok(args) => args,
        Err(_) => return say(USAGE, 2),
    };
    let numbers: Vec<Option<u64>> = args.iter().map(|arg| arg.parse().ok()).collect();
    let compared = match numbers[..] {
        [] => run(&Sides::REAL, SEED, COUNT),
        [Some(seed), Some(count)] => run(&Sides::REAL, seed, count),
        // Only the calls on two flows.
        [None, Some(seed), Some(pairs), Some(most @ 1..=MOST)] if args[0] == "evenings" => {
            run_evenings(&Sides::REAL, seed, pairs, most as usize)
        }
        _ => return say(USAGE, 2),
    };
    match compared {
        Err(text) => say(&format!("The two sides differ.\n{}", text.trim_end()), 1),
        Ok(tally) => agreed(&tally, args.is_empty()),
    }
}

/// Prints what was compared. Where every kind and number is due, one that
/// never came fails the run, because it would not have been tested.
fn agreed(tally: &Tally, all_due: bool) -> ExitCode {
    let mut text = format!("{tally}");
    text += "Number 1 for more than 9,999,999 records is not tried: \
        it needs more memory than is lent here.\n";
    if all_due {
        if let Some((entry, answered)) = tally.missed().first() {
            text += &format!("The run never met {answered} in {}.", entry.name());
            return say(&text, 1);
        }
    }
    say(&format!("{text}{} cases agree", tally.cases()), 0)
}

fn say(text: &str, status: u8) -> ExitCode {
    let _ = writeln!(io::stdout(), "{text}");
    ExitCode::from(status)
}
