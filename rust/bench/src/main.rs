//! The command `bench`: times of the proved library and of plain Rust, mostly
//! that of the second program, measured side by side in one run.

#![forbid(unsafe_code)]

mod calls;
mod desk;
mod evenings;
mod flows;
mod machine;
mod sections;
mod sum;
mod table;
mod time;

use std::ffi::OsStr;
use std::path::Path;
use std::process::ExitCode;

use table::say;

const USAGE: &str = "usage: bench, bench ROUNDS, or bench plain FOLDER THREADS.
Measures the proved library (ours) and the second program (plain Rust) side by
side on flows made in memory: reading, of requests and of recalls, amount
change, withdrawal, reading back to a list and writing a list. Before a call is
measured, both have to answer it alike and to leave the same bytes. Then the
command mavdesk, if it is built beside this program, and the plain reader check
forty flows as files. Last, two evenings are compared by the proved library and
by plain Rust of this program's own. ROUNDS is how often each is measured, 21 if
not given; the best of them is printed.
Run it as
    cargo build --release --offline -p desk -p bench && target/release/bench
With plain it judges the flows of a folder with the plain reader.";

/// The rounds of a run without arguments: about half a minute.
const ROUNDS: usize = 21;

fn main() -> ExitCode {
    let args: Vec<_> = std::env::args_os().skip(1).collect();
    let rounds = match &args[..] {
        [] => Some(ROUNDS),
        [help] if help == "--help" || help == "-h" => {
            say(USAGE);
            return ExitCode::SUCCESS;
        }
        [plain, folder, threads] if plain == "plain" => {
            return match number(threads).map(|threads| desk::plain(Path::new(folder), threads)) {
                Some(Ok(())) => ExitCode::SUCCESS,
                _ => ExitCode::FAILURE,
            };
        }
        [rounds] => number(rounds),
        _ => None,
    };
    match rounds {
        Some(rounds @ 1..) => run(rounds),
        _ => {
            say(USAGE);
            return ExitCode::from(2);
        }
    }
    ExitCode::SUCCESS
}

fn number(word: &OsStr) -> Option<usize> {
    word.to_str()?.parse().ok()
}

fn run(rounds: usize) {
    if cfg!(debug_assertions) {
        say("This is not a release build: its times say nothing. Run it with --release.\n");
    }
    let large = flows::usual(flows::LARGE);
    sections::reading(&large, rounds);
    sections::kinds(rounds);
    sections::growth(rounds);
    sections::amendments(rounds);
    sections::lists(&large, rounds);
    sections::slow_flows(rounds);
    drop(large);
    desk::checking(rounds);
    sections::evenings(rounds);
    say(&machine::line());
}
