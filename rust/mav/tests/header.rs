//! The C header names the numbers of the documents and the kinds of flow, and the C example writes the lines
//! of the small program.

mod common;

use std::fs;
use std::path::{Path, PathBuf};
use std::process::{Command, Output};

use common::root;
use mav::Reason;

/// The name of a reason as the header writes it.
fn c_name(reason: Reason) -> String {
    let mut name = String::from("MAV_REFUSED");
    for letter in format!("{reason:?}").chars() {
        if letter.is_ascii_uppercase() {
            name.push('_');
        }
        name.push(letter.to_ascii_uppercase());
    }
    name
}

/// The text of the header.
fn header() -> String {
    fs::read_to_string(root().join("include/mav.h")).expect("the header")
}

/// Whether a line of the header gives this name this number.
fn gives(text: &str, name: &str, number: u64) -> bool {
    let due = format!("    {name} = {number}");
    // The number is over there.
    let ends = |rest: &str| !rest.starts_with(|next: char| next.is_ascii_digit());
    let mut lines = text.lines();
    lines.any(|line| line.strip_prefix(&due).is_some_and(ends))
}

#[test]
fn the_header_has_every_number() {
    let text = header();
    let given: Vec<&str> = text
        .lines()
        .filter_map(|line| line.trim().strip_prefix("MAV_REFUSED_"))
        .collect();
    assert_eq!(given.len(), Reason::ALL.len());
    for &reason in Reason::ALL {
        assert!(gives(&text, &c_name(reason), reason.number()), "{reason:?}");
    }
}

#[test]
fn the_header_has_the_kinds_and_their_entry() {
    let text = header();
    assert!(gives(&text, "MAV_KIND", 4));
    assert!(gives(&text, "MAV_KIND_REQUESTS", 1));
    assert!(gives(&text, "MAV_KIND_RECALLS", 2));
}

#[test]
fn the_header_has_the_limits() {
    let text = header();
    for due in [
        format!("MAV_RECORD_LENGTH {}", mav::RECORD_LENGTH),
        format!("MAV_MAX_FLOW_LENGTH {}", mav::MAX_FLOW_LENGTH),
        format!("MAV_MAX_AMOUNT UINT64_C({})", mav::MAX_AMOUNT),
        format!("MAV_MAX_TOTAL UINT64_C({})", mav::MAX_TOTAL),
        format!("MAV_MAX_COMPARED {}", mav::MAX_COMPARED),
        format!("MAV_MIN_WORK {}", mav::MIN_WORK),
        format!("MAV_MAX_ACCOUNT_LENGTH {}", mav::MAX_ACCOUNT_LENGTH),
    ] {
        assert!(
            text.lines().any(|line| line == format!("#define {due}")),
            "{due}"
        );
    }
}

#[test]
fn the_header_declares_every_call() {
    let text = header();
    let declared = |front: &str| {
        let lines = text.lines().filter_map(|line| line.strip_prefix(front));
        let names: Vec<&str> = lines.filter_map(|rest| rest.split('(').next()).collect();
        names
    };
    let bound = include_str!("../src/raw.rs").lines();
    let bound: Vec<&str> = bound
        .filter_map(|line| line.strip_prefix("    fn ")?.split('(').next())
        .collect();
    assert_eq!(declared("uint8_t "), bound);
    assert_eq!(bound.len(), 11);
}

#[test]
fn the_header_has_the_entries_of_a_comparison() {
    let text = header();
    for (name, entry) in [
        ("MAV_KEPT", 0),
        ("MAV_DROPPED", 1),
        ("MAV_ADDED", 2),
        ("MAV_LENGTH", 3),
        ("MAV_LINE_LETTER", 0),
        ("MAV_LINE_RECORD", 1),
    ] {
        assert!(gives(&text, name, entry), "{name}");
    }
}

/// The example, compiled as C11 with every warning an error.
fn compiled() -> PathBuf {
    let program = Path::new(env!("CARGO_TARGET_TMPDIR")).join("example");
    let status = Command::new("cc")
        .args(["-std=c11", "-Wall", "-Wextra", "-Werror", "-pedantic", "-o"])
        .arg(&program)
        .arg(root().join("include/example.c"))
        .arg(root().join("target/staticlib/libcapi.a"))
        .status()
        .expect("a C compiler, cc");
    assert!(status.success());
    program
}

fn run(program: &Path, file: &str) -> Output {
    let path = root().join("samples").join(file);
    Command::new(program).arg(path).output().expect("it runs")
}

#[test]
fn the_example_writes_one_line() {
    let program = compiled();
    for (file, line) in [
        (
            "two-rents.flow",
            "accepted dispositions 2 cents 83050 records 16 kind requests\n",
        ),
        (
            "two-rents-recall.flow",
            "accepted dispositions 2 cents 83050 records 16 kind recalls\n",
        ),
        (
            "refused-09-block-twice.flow",
            "refused 9 record 9 position 4\n",
        ),
        ("refused-22-kind.flow", "refused 22 record 9 position 29\n"),
        (
            "refused-25-nothing.flow",
            "refused 25 record 9 position 34\n",
        ),
        ("refused-03-empty.list", "refused 1 record 0 position 0\n"),
    ] {
        let told = run(&program, file);
        assert_eq!(String::from_utf8_lossy(&told.stdout), line);
        assert!(told.status.success() && told.stderr.is_empty(), "{file}");
    }
    let told = run(&program, "no-such-file");
    assert!(told.stdout.is_empty() && !told.stderr.is_empty());
    assert_eq!(told.status.code(), Some(1));
}
