//! The command line, read to a command before anything is done.

use std::ffi::{OsStr, OsString};
use std::path::PathBuf;

use crate::diff::Diff;
use crate::euro;
use crate::failure::{Failure, Outcome};
use crate::header;
use crate::help;
use crate::name::told;
use crate::recall::Recall;

/// What a command line asks for.
pub enum Command {
    Help(&'static str),
    Version,
    Check(Vec<PathBuf>),
    Table {
        flow: PathBuf,
        wanted: Option<String>,
    },
    Request {
        flow: PathBuf,
        k: u64,
    },
    Diff(Diff),
    Explain(Option<u64>),
    /// With or without a question.
    Save {
        saving: Saving,
        yes: bool,
    },
}

/// The commands that save.
pub enum Saving {
    Amount { flow: PathBuf, k: u64, cents: u64 },
    Withdraw { flow: PathBuf, numbers: Vec<u64> },
    List { flow: PathBuf, list: PathBuf },
    Write { list: PathBuf, flow: PathBuf },
    Recall(Recall),
}

/// The options that have a value, and what it is.
const VALUED: [(&str, &str); 3] = [
    ("--find", "a text"),
    ("--name", "a name"),
    ("--date", "a date"),
];

/// The words after a command's name: its options, which may stand anywhere, and the others in order.
#[derive(Default)]
struct Words {
    operands: Vec<OsString>,
    yes: bool,
    all: bool,
    values: Vec<(&'static str, OsString)>,
    help: bool,
}

impl Words {
    /// The value of an option; where it is there twice, the last one.
    fn value(&self, option: &str) -> Option<&OsStr> {
        let mut values = self.values.iter().rev();
        let found = values.find(|(name, _)| *name == option);
        found.map(|(_, value)| value.as_os_str())
    }
}

/// The page and the options of a command.
fn known(name: &OsStr) -> Outcome<(&'static str, &'static [&'static str])> {
    Ok(match name.to_str() {
        Some("check") => (help::CHECK, &[]),
        Some("show") => (help::SHOW, &["--find"]),
        Some("diff") => (help::DIFF, &["--all"]),
        Some("amount") => (help::AMOUNT, &["--yes"]),
        Some("withdraw") => (help::WITHDRAW, &["--yes"]),
        Some("list") => (help::LIST, &["--yes"]),
        Some("write") => (help::WRITE, &["--yes"]),
        Some("recall") => (help::RECALL, &["--yes", "--name", "--date"]),
        Some("explain") => (help::EXPLAIN, &[]),
        Some("help") => (help::ALL, &[]),
        _ => {
            return Err(Failure::trouble(format!(
                "there is no command {}; mavdesk --help has them.",
                told(name)
            )))
        }
    })
}

/// Reads a command line without the program's own name.
pub fn read(words: &[OsString]) -> Outcome<Command> {
    let Some((name, rest)) = words.split_first() else {
        return Err(Failure::trouble(
            "a command is missing; mavdesk --help has them.",
        ));
    };
    match (name.to_str(), rest) {
        (Some("--version"), _) => return Ok(Command::Version),
        (Some("--help" | "-h" | "help"), []) => return Ok(Command::Help(help::ALL)),
        (Some("--help" | "-h" | "help"), [name, ..]) => {
            return known(name).map(|(page, _)| Command::Help(page))
        }
        _ => {}
    }
    let (page, options) = known(name)?;
    let name = told(name);
    let words = sorted(&name, options, rest)?;
    if words.help {
        return Ok(Command::Help(page));
    }
    command(&name, words)?.ok_or_else(|| {
        let usage = synopsis(page).join(", or ");
        Failure::trouble(format!("the words do not fit {usage} as it is used."))
    })
}

/// The forms of a command, from its page.
fn synopsis(page: &str) -> Vec<&str> {
    let behind = page.lines().skip_while(|line| *line != "SYNOPSIS").skip(1);
    behind
        .take_while(|line| !line.is_empty())
        .map(str::trim)
        .collect()
}

/// Parts the options from the other words.
fn sorted(name: &str, options: &[&str], rest: &[OsString]) -> Outcome<Words> {
    let mut words = Words::default();
    let mut rest = rest.iter();
    while let Some(word) = rest.next() {
        match word.to_str() {
            Some("--") => words.operands.extend(rest.by_ref().cloned()),
            Some("--help" | "-h") => words.help = true,
            Some("--yes") if options.contains(&"--yes") => words.yes = true,
            Some("--all") if options.contains(&"--all") => words.all = true,
            Some(option) if option.starts_with("--") => {
                let found = valued(options, option, &mut rest)?;
                words.values.push(found.ok_or_else(|| {
                    let option = told(option.as_ref());
                    Failure::trouble(format!("{name} has no option {option}."))
                })?);
            }
            _ => words.operands.push(word.clone()),
        }
    }
    Ok(words)
}

/// An option with its value, which stands after a sign `=` or is the next word; nothing where the word is no
/// such option.
fn valued<'a>(
    options: &[&str],
    word: &str,
    rest: &mut impl Iterator<Item = &'a OsString>,
) -> Outcome<Option<(&'static str, OsString)>> {
    let (option, behind) = match word.split_once('=') {
        Some((option, behind)) => (option, Some(behind.into())),
        None => (word, None),
    };
    let mut known = VALUED.iter().filter(|(name, _)| options.contains(name));
    let Some((name, what)) = known.find(|(name, _)| *name == option) else {
        return Ok(None);
    };
    match behind.or_else(|| rest.next().cloned()) {
        Some(value) => Ok(Some((name, value))),
        None => Err(Failure::trouble(format!("{name} needs {what}."))),
    }
}

/// The command of this name on these words, or nothing where there are too few or too many.
fn command(name: &str, words: Words) -> Outcome<Option<Command>> {
    let paths = |words: &[OsString]| words.iter().map(PathBuf::from).collect();
    let find = words.value("--find").map(text).transpose()?;
    Ok(Some(match (name, &words.operands[..]) {
        ("check", [_, ..]) => Command::Check(paths(&words.operands)),
        ("show", [flow]) => Command::Table {
            flow: flow.into(),
            wanted: find,
        },
        ("show", [flow, k]) if find.is_none() => Command::Request {
            flow: flow.into(),
            k: request(k)?,
        },
        ("diff", [old, new]) => Command::Diff(Diff {
            old: old.into(),
            new: new.into(),
            all: words.all,
        }),
        ("explain", []) => Command::Explain(None),
        ("explain", [number]) => Command::Explain(Some(parsed(number, euro::number, "a number")?)),
        _ => {
            let yes = words.yes;
            return Ok(saving(name, &words)?.map(|saving| Command::Save { saving, yes }));
        }
    }))
}

/// The same of the commands that save.
fn saving(name: &str, words: &Words) -> Outcome<Option<Saving>> {
    Ok(Some(match (name, &words.operands[..]) {
        ("amount", [flow, k, euros]) => Saving::Amount {
            flow: flow.into(),
            k: request(k)?,
            cents: cents(euros)?,
        },
        ("withdraw", [flow, numbers @ ..]) if !numbers.is_empty() => Saving::Withdraw {
            flow: flow.into(),
            numbers: requests(numbers)?,
        },
        ("list", [flow, list]) => Saving::List {
            flow: flow.into(),
            list: list.into(),
        },
        ("write", [list, flow]) => Saving::Write {
            list: list.into(),
            flow: flow.into(),
        },
        ("recall", [sent, new, numbers @ ..]) if !numbers.is_empty() => Saving::Recall(Recall {
            sent: sent.into(),
            new: new.into(),
            numbers: requests(numbers)?,
            name: words.value("--name").map(header::name).transpose()?,
            date: words.value("--date").map(header::date).transpose()?,
        }),
        _ => return Ok(None),
    }))
}

/// The text of `--find`.
fn text(word: &OsStr) -> Outcome<String> {
    match word.to_str() {
        Some(text) if !text.is_empty() => Ok(text.to_owned()),
        _ => Err(Failure::trouble("--find needs a text.")),
    }
}

/// The numbers of requests, rising, each once.
fn requests(words: &[OsString]) -> Outcome<Vec<u64>> {
    let mut numbers: Vec<u64> = words.iter().map(|k| request(k)).collect::<Outcome<_>>()?;
    numbers.sort_unstable();
    match numbers.windows(2).find(|pair| pair[0] == pair[1]) {
        Some(twice) => Err(Failure::trouble(format!(
            "number {} is named twice.",
            twice[0]
        ))),
        None => Ok(numbers),
    }
}

/// The number of a request, with zeros in front or without: both are seen, in a flow and in the table.
fn request(word: &OsStr) -> Outcome<u64> {
    parsed(word, euro::number, "the number of a request")
}

fn cents(word: &OsStr) -> Outcome<u64> {
    parsed(
        word,
        euro::read,
        "an amount, which is written as 450 or 450,00 or 450.00, and 1450 without a point",
    )
}

fn parsed(word: &OsStr, read: impl Fn(&str) -> Option<u64>, what: &str) -> Outcome<u64> {
    word.to_str()
        .and_then(read)
        .ok_or_else(|| Failure::trouble(format!("{} is not {what}.", told(word))))
}
