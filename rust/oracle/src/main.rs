//! The command `oracle`.

#![forbid(unsafe_code)]

use std::ffi::{OsStr, OsString};
use std::io::{self, Write};
use std::path::Path;
use std::process::ExitCode;

use oracle::{program, samples, tally, vectors};

const USAGE: &str = "usage: oracle judge < FLOW, oracle sample DIR, \
    oracle vectors fields INPUT OUTPUT, oracle vectors flow INPUT OUTPUT, \
    oracle vectors list INPUT OUTPUT, oracle vectors amend INPUT OUTPUT, \
    oracle vectors evenings INPUT OUTPUT, oracle vectors flows SEED COUNT DIR, or oracle tally SEED COUNT.";

fn main() -> ExitCode {
    let args: Vec<OsString> = std::env::args_os().skip(1).collect();
    match run(&args) {
        Ok(true) => ExitCode::SUCCESS,
        Ok(false) => fail(USAGE, 2),
        Err(error) => fail(&format!("oracle: {error}."), 1),
    }
}

fn fail(sentence: &str, status: u8) -> ExitCode {
    let _ = writeln!(io::stderr(), "{sentence}");
    ExitCode::from(status)
}

/// Runs the command; false if the arguments name none.
fn run(args: &[OsString]) -> io::Result<bool> {
    let words: Vec<&OsStr> = args.iter().map(OsString::as_os_str).collect();
    match words[..] {
        [judge] if judge == "judge" => {
            let line = program::judge(io::stdin().lock())?;
            print(&format!("{line}\n"))?;
        }
        [sample, dir] if sample == "sample" => samples::write(Path::new(dir))?,
        [vectors, fields, input, output] if vectors == "vectors" && fields == "fields" => {
            vectors::write_fields(Path::new(input), Path::new(output))?;
        }
        [vectors, flow, input, output] if vectors == "vectors" && flow == "flow" => {
            vectors::write_flow_rules(Path::new(input), Path::new(output))?;
        }
        [vectors, list, input, output] if vectors == "vectors" && list == "list" => {
            vectors::write_lists(Path::new(input), Path::new(output))?;
        }
        [vectors, amend, input, output] if vectors == "vectors" && amend == "amend" => {
            vectors::write_amendments(Path::new(input), Path::new(output))?;
        }
        [vectors, evenings, input, output] if vectors == "vectors" && evenings == "evenings" => {
            vectors::write_evenings(Path::new(input), Path::new(output))?;
        }
        [vectors, flows, seed, count, dir] if vectors == "vectors" && flows == "flows" => {
            let (Some(seed), Some(count)) = (number(seed), number(count)) else {
                return Ok(false);
            };
            vectors::write_flows(seed, count, Path::new(dir))?;
        }
        [tally, seed, count] if tally == "tally" => {
            let (Some(seed), Some(count)) = (number(seed), number(count)) else {
                return Ok(false);
            };
            print(&tally::tally(seed, count).to_string())?;
        }
        _ => return Ok(false),
    }
    Ok(true)
}

fn number(word: &OsStr) -> Option<u64> {
    word.to_str()?.parse().ok()
}

fn print(text: &str) -> io::Result<()> {
    io::stdout().write_all(text.as_bytes())
}
