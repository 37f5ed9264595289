//! The command `mavdesk`: a clerk checks flows of payment requests, looks into them, compares two of them,
//! amends and saves them, and recalls requests already sent.
//!
//! It is thin. Every change of a flow is made by the proved library, through the bindings `mav`, and every
//! judgement but one: a file above the ceiling is not read, and `check` gives its number, 1, by itself. This
//! command reads files, shows what they hold, asks, and saves. What it shows of a flow is read from bytes
//! that the library has accepted, and what it saves are bytes that the library has left.

#![forbid(unsafe_code)]

mod account;
mod amend;
mod arguments;
mod check;
mod diff;
mod euro;
mod evening;
mod explain;
mod failure;
mod header;
mod help;
mod input;
mod kind;
mod list;
mod lock;
mod name;
mod output;
mod progress;
mod recall;
mod record;
mod refusal;
mod request;
mod save;
mod show;

use std::io::{self, BufWriter, Write};
use std::process::ExitCode;

use arguments::{Command, Saving};
use failure::{Failure, Outcome};

fn main() -> ExitCode {
    let words: Vec<_> = std::env::args_os().skip(1).collect();
    match arguments::read(&words).and_then(|command| run(&command)) {
        Ok(()) => ExitCode::SUCCESS,
        Err(failure) => failure.tell(),
    }
}

fn run(command: &Command) -> Outcome {
    let mut out = BufWriter::new(io::stdout().lock());
    let out = &mut out;
    match command {
        Command::Help(page) => write!(out, "{page}")?,
        Command::Version => writeln!(out, "mavdesk {}", env!("CARGO_PKG_VERSION"))?,
        Command::Check(named) => check::check(named, out)?,
        Command::Table { flow, wanted } => show::table(flow, wanted.as_deref(), out)?,
        Command::Request { flow, k } => show::request(flow, *k, out)?,
        Command::Diff(asked) => diff::diff(asked, out)?,
        Command::Explain(None) => explain::table(out)?,
        Command::Explain(Some(number)) => explain::number(*number, out)?,
        Command::Save { saving, yes } => save(saving, *yes, out).map_err(Failure::of_saving)?,
    }
    out.flush()?;
    Ok(())
}

fn save(saving: &Saving, yes: bool, out: &mut impl Write) -> Outcome {
    match saving {
        Saving::Amount { flow, k, cents } => amend::amount(flow, *k, *cents, yes, out),
        Saving::Withdraw { flow, numbers } => amend::withdraw(flow, numbers, yes, out),
        Saving::List { flow, list } => list::list(flow, list, yes, out),
        Saving::Write { list, flow } => list::write(list, flow, yes, out),
        Saving::Recall(asked) => recall::recall(asked, yes, out),
    }
}
