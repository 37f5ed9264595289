//! The command, and the generated files.

mod common;

use std::fs;
use std::io::Write;
use std::path::PathBuf;
use std::process::{Command, Output, Stdio};

use common::*;
use oracle::tally::{tally, NUMBERS};
use oracle::{evenings, generate, program, rng::Rng, vectors};

fn oracle(args: &[&str], input: &[u8]) -> Output {
    let mut child = Command::new(env!("CARGO_BIN_EXE_oracle"))
        .args(args)
        .stdin(Stdio::piped())
        .stdout(Stdio::piped())
        .stderr(Stdio::piped())
        .spawn()
        .unwrap();
    // The command may end before it has read all of a long input.
    let _ = child.stdin.take().unwrap().write_all(input);
    child.wait_with_output().unwrap()
}

fn judged(input: &[u8]) -> String {
    let output = oracle(&["judge"], input);
    assert!(output.status.success());
    assert!(output.stderr.is_empty());
    String::from_utf8(output.stdout).unwrap()
}

#[test]
fn judge_prints_one_line() {
    let flow = two_rents().bytes();
    let due = "accepted dispositions 2 cents 83050 records 16 kind requests\n";
    assert_eq!(judged(&flow), due);
    let due = "accepted dispositions 2 cents 83050 records 16 kind recalls\n";
    assert_eq!(judged(&two_recalls().bytes()), due);
    let mixed = two_rents().with(9, 29, b"07100").with(9, 47, b"+").bytes();
    assert_eq!(judged(&mixed), "refused 22 record 9 position 29\n");
    let wrong = two_rents().with(10, 4, b"0000001").bytes();
    assert_eq!(judged(&wrong), "refused 9 record 10 position 4\n");
    let zero = two_rents().with(9, 34, b"0000000000000").bytes();
    assert_eq!(judged(&zero), "refused 25 record 9 position 34\n");
    let codes = two_rents().with(2, 92, b"     ").bytes();
    assert_eq!(judged(&codes), "refused 11 record 9 position 92\n");
    let none = "refused 1 record 0 position 0\n";
    assert_eq!(judged(b""), none);
    assert_eq!(judged(&[&flow[..], b"\n"].concat()), none);
}

#[test]
fn judge_holds_546_records() {
    let too_long = "too long for this program\n";
    assert_eq!(judged(&[b' '; 65_520]), "refused 3 record 1 position 2\n");
    assert_eq!(judged(&[b' '; 65_521]), too_long);
    assert_eq!(judged(&vec![0; 1_000_000]), too_long);
    let draft = generate::draft(&mut Rng::new(5), generate::Size::Program);
    let flow = draft.flow();
    assert_eq!(flow.len(), 65_520);
    let line = program::line(&flow);
    assert!(line.starts_with("accepted dispositions ") && line.contains(" records 546 kind "));
    assert_eq!(judged(&flow), line + "\n");
}

#[test]
fn bad_usage_is_one_sentence_and_status_2() {
    for args in [
        &[][..],
        &["judge", "file"],
        &["sample"],
        &["vectors"],
        &["vectors", "fields", "a"],
        &["vectors", "flow", "a"],
        &["vectors", "list", "a"],
        &["vectors", "amend", "a"],
        &["vectors", "evenings", "a"],
        &["vectors", "flows", "one", "2", "dir"],
        &["tally", "1"],
        &["tally", "1", "-5"],
        &["help"],
    ] {
        let output = oracle(args, b"");
        assert_eq!(output.status.code(), Some(2), "{args:?}");
        assert!(output.stdout.is_empty());
        let sentence = String::from_utf8(output.stderr).unwrap();
        assert_eq!(sentence.lines().count(), 1);
    }
}

fn scratch(name: &str) -> PathBuf {
    let dir = PathBuf::from(env!("CARGO_TARGET_TMPDIR")).join(name);
    let _ = fs::remove_dir_all(&dir);
    dir
}

#[test]
fn samples_are_written() {
    let dir = scratch("samples");
    let output = oracle(&["sample", dir.to_str().unwrap()], b"");
    assert!(output.status.success());
    let flow = fs::read(dir.join("two-rents.flow")).unwrap();
    assert_eq!(flow, two_rents().bytes());
    let list = fs::read(dir.join("two-rents.list")).unwrap();
    assert_eq!(list, two_rents_list());
    let flow = fs::read(dir.join("two-rents-recall.flow")).unwrap();
    assert_eq!(flow, two_recalls().bytes());
    let list = fs::read(dir.join("two-rents-recall.list")).unwrap();
    assert_eq!(list, two_recalls_list());
    let mixed = fs::read(dir.join("refused-22-kind.flow")).unwrap();
    let second = two_rents().with(9, 29, b"07100").with(9, 47, b"+");
    assert_eq!(mixed, second.bytes());
    let company = fs::read(dir.join("refused-11-company.flow")).unwrap();
    assert_eq!(company, two_rents().with(2, 92, b"     ").bytes());
    let forty = fs::read(dir.join("forty-rents.flow")).unwrap();
    assert_eq!(in_openings(&forty, 92, 96), [b"AB123"; 40]);
    let nothing = fs::read(dir.join("refused-25-nothing.flow")).unwrap();
    let second = two_rents()
        .with(9, 34, b"0000000000000")
        .with(16, 53, b"000000000045000");
    assert_eq!(nothing, second.bytes());
    let old = fs::read(dir.join("last-night.flow")).unwrap();
    let new = fs::read(dir.join("tonight.flow")).unwrap();
    assert_eq!(evenings::account(&old, &new).unwrap(), b"KKDKDAAKKK");
    let table = fs::read_to_string(dir.join("README.md")).unwrap();
    for number in [15, 21, 28, 34] {
        let row = format!("| `refused {number} record 0 position 0` |");
        let (_, second) = table.split_once("## Two evenings").unwrap();
        assert!(second.contains(&row));
    }
    for number in NUMBERS {
        assert!(table.contains(&format!("`refused {number} record")));
    }
    assert!(table.contains("requests E1, E4, E5 and E7 of document 02"));
    let row = "| `two-rents.flow`, change of 2 to 0 cents | an amount of nothing | \
        `refused 16 record 0 position 0` |";
    assert!(table.contains(row));
}

#[test]
fn vectors_of_the_rules_are_written() {
    for (rules, due) in [
        ("flow", vectors::flow_files()),
        ("list", vectors::list_files()),
        ("amend", vectors::amend_files()),
        ("evenings", vectors::evenings_files()),
    ] {
        let dir = scratch(rules);
        fs::create_dir_all(&dir).unwrap();
        let (input, output) = (dir.join("in"), dir.join("out"));
        let paths = [&input, &output].map(|path| path.to_str().unwrap());
        let run = oracle(&["vectors", rules, paths[0], paths[1]], b"");
        assert!(run.status.success());
        assert_eq!(fs::read_to_string(input).unwrap(), due.0);
        assert_eq!(fs::read_to_string(output).unwrap(), due.1);
    }
}

#[test]
fn flow_vectors_are_written() {
    let dir = scratch("flows");
    let path = dir.to_str().unwrap();
    let output = oracle(&["vectors", "flows", "9", "40", path], b"");
    assert!(output.status.success());
    let expected = fs::read_to_string(dir.join("expected")).unwrap();
    assert_eq!(expected.lines().count(), 49);
    for (index, line) in expected.lines().enumerate() {
        let file = dir.join(format!("{:06}.flow", index + 1));
        assert_eq!(program::line(&fs::read(file).unwrap()), line);
    }
}

#[test]
fn the_same_seed_gives_the_same_cases() {
    let flow = generate::flow_case;
    let list = |seed, index| generate::list(&mut Rng::for_case(seed, index));
    for index in 0..50 {
        assert_eq!(flow(1, index), flow(1, index));
        assert_eq!(list(1, index), list(1, index));
        assert_ne!(flow(1, index), flow(2, index + 100));
    }
    assert_eq!(tally(3, 600), tally(3, 600));
}

#[test]
fn every_number_comes() {
    let tally = tally(1, 100_000);
    for number in NUMBERS {
        assert!(tally.count(number) >= 100, "number {number}");
    }
    assert!(tally.accepted >= 10_000);
}
